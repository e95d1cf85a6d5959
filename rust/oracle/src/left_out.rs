//! Stubs for what document 01 leaves out. The stage never calls them; each panics.

#![allow(dead_code)]

use crate::records::{LayoutOptions, NodeGeometry};

#[derive(Clone, Copy, Debug, PartialEq)]
pub struct EdgeNodeSegment {
    pub net: u32,
    pub horizontal: bool,
    pub fixed: f64,
    pub start: f64,
    pub end: f64,
}

#[derive(Clone, Copy, Debug, Eq, PartialEq)]
pub struct NetNodeRelation {
    pub net: u32,
    pub node: u32,
}

#[derive(Clone, Copy, Debug, Default, PartialEq)]
pub struct EdgeNodeClearance {
    pub minimum_clearance: Option<f64>,
    pub violations: usize,
}

#[derive(Clone, Copy, Debug, Eq, PartialEq)]
pub enum EdgeNodeClearanceError {
    InvalidInput,
    WorkLimitExceeded,
}

pub fn measure_edge_node_clearance_bounded(
    _segments: &[EdgeNodeSegment],
    _nodes: &[NodeGeometry],
    _relations: &[NetNodeRelation],
    _threshold: f64,
    _max_pair_visits: usize,
) -> Result<EdgeNodeClearance, EdgeNodeClearanceError> {
    panic!("measure_edge_node_clearance_bounded is left out of the stage")
}

/// A job gives the reserve by itself.
pub(crate) fn outward_obstacle_clearance_stub(_options: LayoutOptions) -> f64 {
    panic!("outward_obstacle_clearance_stub is left out of the stage")
}

pub(crate) mod routing {
    use crate::records::{EdgeGeometry, Point};
    use crate::validation::IndexedGraph;

    #[derive(Clone, Copy, Debug, PartialEq)]
    pub(crate) struct RouteQuality {
        pub(crate) route_length: f64,
        pub(crate) bends: usize,
    }

    #[derive(Clone, Copy, Debug, Eq, PartialEq)]
    pub(crate) enum RouteContactError {
        InvalidInput,
        WorkLimitExceeded,
        SegmentLimitExceeded,
    }

    pub(crate) fn route_quality(
        _graph: &IndexedGraph<'_>,
        _routes: &[EdgeGeometry],
    ) -> RouteQuality {
        panic!("route_quality is left out of the stage")
    }

    pub(crate) fn orthogonal_segments_have_route_contact(
        _left_start: Point,
        _left_end: Point,
        _right_start: Point,
        _right_end: Point,
    ) -> Result<bool, RouteContactError> {
        panic!("orthogonal_segments_have_route_contact is left out of the stage")
    }

    pub(crate) fn route_family_has_unrelated_contact_with_budget(
        _graph: &IndexedGraph<'_>,
        _routes: &[EdgeGeometry],
        _maximum_segments: usize,
        _remaining: &mut usize,
    ) -> Result<bool, RouteContactError> {
        panic!("route_family_has_unrelated_contact_with_budget is left out of the stage")
    }
}
