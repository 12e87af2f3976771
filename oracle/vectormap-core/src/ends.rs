//! What `cross_section` answers beside its points: of which lane and side each
//! end is, the left end first. build.rs has its walk carry them, and a stop line
//! that is placed by a section take them over. Those of a section that is only
//! an anchor nobody takes.

use std::cell::Cell;

use crate::{LaneId, Side};

pub type Ends = [(LaneId, Side); 2];

/// Before the walk has met a side.
pub const NONE: Ends = [(LaneId(0), Side::Left); 2];

thread_local! {
    static WALKED: Cell<Ends> = const { Cell::new(NONE) };
    static PLACED: Cell<Option<Ends>> = const { Cell::new(None) };
}

/// The walk of a section is over, and these are the sides that it kept.
pub fn walked(ends: Ends) {
    WALKED.set(ends);
}

/// A stop line is placed by the section that was just walked.
pub fn place() {
    PLACED.set(Some(WALKED.get()));
}

/// The ends of the stop line placed since this was last asked, if a section
/// placed one.
pub fn take() -> Option<Ends> {
    PLACED.take()
}
