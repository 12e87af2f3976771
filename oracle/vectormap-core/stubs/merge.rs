//! Stub: merging lanes is no part of the three edits.
