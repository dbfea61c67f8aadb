//! Stands in for the crate `instant`: a clock in milliseconds that the driver sets before each call.
//! A call that takes no clock runs with the clock forbidden, so a hidden reading is a panic.

use std::cell::Cell;
use std::ops::Add;

pub use std::time::Duration;

thread_local! {
    static NOW: Cell<Option<u64>> = const { Cell::new(None) };
    static EPOCH: Cell<Option<u64>> = const { Cell::new(None) };
}

/// Sets both clocks for the call that follows; `None` means that the call has no such argument.
pub fn set(now: Option<u64>, epoch: Option<u64>) {
    NOW.with(|c| c.set(now));
    EPOCH.with(|c| c.set(epoch));
}

/// The epoch clock, in place of `SystemTime::now` since `UNIX_EPOCH`.
pub fn epoch_millis() -> u128 {
    let epoch = EPOCH.with(Cell::get);
    u128::from(epoch.expect("the epoch clock was read by a call that takes none"))
}

#[derive(Copy, Clone, Debug, PartialEq, Eq, PartialOrd, Ord)]
pub struct Instant(u64);

impl Instant {
    pub fn now() -> Self {
        let now = NOW.with(Cell::get);
        Self(now.expect("the monotonic clock was read by a call that takes none"))
    }

    pub fn millis(self) -> u64 {
        self.0
    }
}

impl Add<Duration> for Instant {
    type Output = Self;

    fn add(self, d: Duration) -> Self {
        Self(self.0 + u64::try_from(d.as_millis()).expect("a duration within 2^31 ms"))
    }
}
