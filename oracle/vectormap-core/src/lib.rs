//! The supplied map editor with 01's stand-in for `hypot`.
//!
//! The modules are laid out by build.rs; this root and the stubs are ours.

// The supplied text is taken as it stands, with what our stubs leave unused.
#![allow(dead_code, unused_imports, unused_variables)]

include!(concat!(env!("OUT_DIR"), "/vectormap/modules.rs"));

pub mod ends;

pub use attributes::Attributes;
pub use diagnostics::{Issue, IssueCode, Severity, codes};
pub use edit::*;
pub use entities::*;
pub use geometry::*;
pub use id::*;
pub use map::*;
pub use ops::Command;
pub use topology::{Neighbor, NeighborDirection, Topology};

/// 01's stand-in for `x.hypot(y)`: both products, the sum and the root are
/// rounded one by one. `f64::sqrt` is the IEEE 754 squareRoot.
pub fn root_of_squares(x: f64, y: f64) -> f64 {
    (x * x + y * y).sqrt()
}
