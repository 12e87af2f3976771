//! Stub: the names that the edit module passes on.

pub struct BoundarySpec;
pub struct LaneGeometry;
pub struct NewLane;
