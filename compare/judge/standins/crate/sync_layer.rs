//! Stands in for src/sync_layer.rs (not given): names that lib.rs exports, never used here.

use std::marker::PhantomData;

/// Not used.
pub struct GameStateCell<T>(PhantomData<T>);
/// Not used.
pub struct GameStateAccessor<T>(PhantomData<T>);
