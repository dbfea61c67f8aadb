//! The crate's `Config` with an input of S bytes, S being a value that the driver sets.
//!
//! In the crate S is the bincode size of a type. One type whose size is a number set before each
//! call runs the same code for every S, and the two ends of a script may differ in it.

use std::cell::Cell;
use std::fmt;

use serde::de::{SeqAccess, Visitor};
use serde::ser::SerializeTuple;
use serde::{Deserialize, Deserializer, Serialize, Serializer};

use crate::{Config, PredictRepeatLast};

thread_local! {
    static INPUT_SIZE: Cell<usize> = const { Cell::new(1) };
}

/// Sets S for the call that follows.
pub fn set_input_size(size: usize) {
    assert!((1..=16).contains(&size));
    INPUT_SIZE.with(|c| c.set(size));
}

fn input_size() -> usize {
    INPUT_SIZE.with(Cell::get)
}

/// An input of S bytes, serialized as these bytes and nothing else.
#[derive(Copy, Clone, Debug, PartialEq, Eq)]
pub struct Bytes {
    size: usize,
    bytes: [u8; 16],
}

impl Bytes {
    pub fn new(from: &[u8]) -> Self {
        assert_eq!(from.len(), input_size());
        let mut bytes = [0; 16];
        bytes[..from.len()].copy_from_slice(from);
        Self { size: from.len(), bytes }
    }

    pub fn as_slice(&self) -> &[u8] {
        &self.bytes[..self.size]
    }
}

impl Default for Bytes {
    fn default() -> Self {
        Self { size: input_size(), bytes: [0; 16] }
    }
}

impl Serialize for Bytes {
    fn serialize<S: Serializer>(&self, serializer: S) -> Result<S::Ok, S::Error> {
        let mut tuple = serializer.serialize_tuple(self.size)?;
        for byte in self.as_slice() {
            tuple.serialize_element(byte)?;
        }
        tuple.end()
    }
}

struct BytesVisitor;

impl<'de> Visitor<'de> for BytesVisitor {
    type Value = Bytes;

    fn expecting(&self, f: &mut fmt::Formatter) -> fmt::Result {
        f.write_str("the bytes of one input")
    }

    fn visit_seq<A: SeqAccess<'de>>(self, mut seq: A) -> Result<Bytes, A::Error> {
        let mut bytes = Bytes::default();
        for at in 0..bytes.size {
            let next = seq.next_element()?;
            bytes.bytes[at] = next.ok_or_else(|| serde::de::Error::invalid_length(at, &self))?;
        }
        Ok(bytes)
    }
}

impl<'de> Deserialize<'de> for Bytes {
    fn deserialize<D: Deserializer<'de>>(deserializer: D) -> Result<Self, D::Error> {
        deserializer.deserialize_tuple(input_size(), BytesVisitor)
    }
}

/// The crate's parameters: inputs of S bytes, one u32 peer number as address.
#[derive(Copy, Clone, Debug, PartialEq, Eq)]
pub struct Cfg;

impl Config for Cfg {
    type Input = Bytes;
    type InputPredictor = PredictRepeatLast;
    type State = ();
    type Address = u32;
}
