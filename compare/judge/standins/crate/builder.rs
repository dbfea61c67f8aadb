//! Stands in for src/sessions/builder.rs (not given): its two constants are values of the driver.

use std::cell::Cell;

thread_local! {
    static B: Cell<usize> = const { Cell::new(2) };
    static M: Cell<usize> = const { Cell::new(1) };
}

/// Sets the spectator's slots B and the session's events M for the call that follows.
pub(crate) fn set_constants(b: usize, m: usize) {
    B.with(|c| c.set(b));
    M.with(|c| c.set(m));
}

pub(crate) fn spectator_buffer_size() -> usize {
    B.with(Cell::get)
}

pub(crate) fn max_event_queue_size() -> usize {
    M.with(Cell::get)
}

/// Not used.
pub struct SessionBuilder;
