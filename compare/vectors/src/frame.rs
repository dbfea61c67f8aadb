//! The two names that messages.rs takes from the crate's lib.rs.

pub type Frame = i32;
pub const NULL_FRAME: Frame = -1;
