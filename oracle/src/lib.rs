//! Answers of the supplied map editor to the three edits, its geometry and
//! its fold, for comparison with the port.

pub mod codec;
pub mod convert;
pub mod edits;
pub mod fold;
pub mod generate;
pub mod geometry;
pub mod maps;
pub mod model;
pub mod protocol;
pub mod quiet;
pub mod rng;
pub mod run;
pub mod sample;

pub use vectormap_core as vectormap;
