//! Stands in for the crate `rand`: `random` gives what the driver set, at most once per call.

use std::cell::Cell;

thread_local! {
    static MAGIC: Cell<Option<u16>> = const { Cell::new(None) };
    static NONCE: Cell<Option<u32>> = const { Cell::new(None) };
}

/// Sets what `random` gives in the call that follows.
pub fn set(magic: Option<u16>, nonce: Option<u32>) {
    MAGIC.with(|c| c.set(magic));
    NONCE.with(|c| c.set(nonce));
}

/// Whether the nonce that was set has been drawn.
pub fn nonce_drawn() -> bool {
    NONCE.with(Cell::get).is_none()
}

pub trait Random {
    fn draw() -> Self;
}

impl Random for u16 {
    fn draw() -> Self {
        MAGIC.with(Cell::take).expect("one magic per setup")
    }
}

impl Random for u32 {
    fn draw() -> Self {
        NONCE.with(Cell::take).expect("one nonce per call")
    }
}

pub fn random<T: Random>() -> T {
    T::draw()
}
