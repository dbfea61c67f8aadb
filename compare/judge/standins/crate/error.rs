//! Stands in for src/error.rs (not given): the errors that the given files name.

/// Why a call of the crate failed.
#[derive(Debug, Clone, PartialEq, Eq)]
pub enum GgrsError {
    /// The prediction threshold is reached.
    PredictionThreshold,
    /// The session is not synchronized.
    NotSynchronized,
    /// Less than a second of data.
    NotEnoughData,
    /// The host is too far ahead.
    SpectatorTooFarBehind,
}
