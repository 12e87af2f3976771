//! Stub: the names that the edit module passes on.

pub struct BuiltRoad;
pub struct LaneDirection;
pub struct NewConnector;
pub struct NewRoad;
pub struct RoadLane;
pub const TURN_THRESHOLD_DEG: f64 = f64::NAN;
