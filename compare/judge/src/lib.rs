//! The real crate's lib.rs (copied and patched by build.rs) as the root, with the judge beside it.
#![allow(dead_code, unused_imports, unexpected_cfgs)]

include!(concat!(env!("OUT_DIR"), "/ggrs/lib.rs"));

pub mod judge;
