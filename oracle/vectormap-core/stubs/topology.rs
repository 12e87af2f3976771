//! Stub: lanes have no links and no neighbours. The three edits never ask.

use crate::entities::Side;
use crate::id::LaneId;

#[derive(Debug, Clone, Copy, PartialEq, Eq)]
pub enum NeighborDirection {
    Same,
    Opposite,
}

#[derive(Debug, Clone, Copy, PartialEq, Eq)]
pub struct Neighbor {
    pub lane: LaneId,
    pub direction: NeighborDirection,
}

impl Neighbor {
    pub fn same(lane: LaneId) -> Self {
        let direction = NeighborDirection::Same;
        Neighbor { lane, direction }
    }

    pub fn opposite(lane: LaneId) -> Self {
        let direction = NeighborDirection::Opposite;
        Neighbor { lane, direction }
    }
}

pub fn reciprocal_side(side: Side, direction: NeighborDirection) -> Side {
    if direction == NeighborDirection::Same {
        side.opposite()
    } else {
        side
    }
}

#[derive(Debug, Clone, Default, PartialEq, Eq)]
pub struct Topology;

impl Topology {
    pub fn add_link(&mut self, _from: LaneId, _to: LaneId) -> bool {
        unimplemented!()
    }

    pub fn remove_link(&mut self, _from: LaneId, _to: LaneId) -> bool {
        unimplemented!()
    }

    pub fn set_neighbor(&mut self, _: LaneId, _: Side, _: Option<Neighbor>) -> Vec<LaneId> {
        unimplemented!()
    }

    pub fn neighbor(&self, _lane: LaneId, _side: Side) -> Option<Neighbor> {
        None
    }

    pub fn successors(&self, _lane: LaneId) -> &[LaneId] {
        &[]
    }

    pub fn predecessors(&self, _lane: LaneId) -> &[LaneId] {
        &[]
    }
}
