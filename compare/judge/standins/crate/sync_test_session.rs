//! Stands in for a file that was not given.

/// Not used.
pub struct SyncTestSession;
