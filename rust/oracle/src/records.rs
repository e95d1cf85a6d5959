//! The records that boundary_bundles.rs takes from its crate: shapes as in the Rust's lib.rs,
//! without serde. What the stage leaves out is in `left_out`.

pub type NodeId = u32;
pub type PortId = u32;
pub type EdgeId = u32;
pub type NetId = u32;
pub type BoundaryBundleId = u32;

#[derive(Clone, Debug, PartialEq)]
pub struct Node {
    pub id: NodeId,
    pub width: f64,
    pub height: f64,
    pub cycle_breaker: bool,
    pub ports: Vec<Port>,
}

#[derive(Clone, Debug, PartialEq)]
pub struct Port {
    pub id: PortId,
    pub side: PortSide,
    pub offset: f64,
}

#[derive(Clone, Copy, Debug, Eq, Hash, PartialEq)]
pub enum PortSide {
    North,
    East,
    South,
    West,
}

#[derive(Clone, Copy, Debug, Eq, Hash, PartialEq)]
pub struct Endpoint {
    pub node: NodeId,
    pub port: PortId,
}

#[derive(Clone, Debug, PartialEq)]
pub struct Edge {
    pub id: EdgeId,
    pub source: Endpoint,
    pub target: Endpoint,
    pub net: NetId,
    pub participates_in_ranking: bool,
}

#[derive(Clone, Copy, Debug, PartialEq)]
pub struct LayoutOptions {
    pub layer_gap: f64,
    pub node_gap: f64,
    pub port_stub: f64,
    pub route_lane_gap: f64,
    pub edge_node_clearance: f64,
    pub minimum_parallel_wire_spacing: f64,
    pub max_quality_area_factor: f64,
    pub max_quality_route_length_factor: f64,
    pub ordering_sweeps: usize,
}

#[derive(Clone, Copy, Debug, PartialEq)]
pub struct Point {
    pub x: f64,
    pub y: f64,
}

#[derive(Clone, Debug, PartialEq)]
pub struct NodeGeometry {
    pub id: NodeId,
    pub x: f64,
    pub y: f64,
    pub width: f64,
    pub height: f64,
}

#[derive(Clone, Debug, PartialEq)]
pub struct EdgeGeometry {
    pub id: EdgeId,
    pub points: Vec<Point>,
}

#[derive(Clone, Copy, Debug, Eq, PartialEq)]
pub enum BoundaryBundleRole {
    Input,
    Output,
}

#[derive(Clone, Copy, Debug, PartialEq)]
pub struct BoundaryBundleSegment {
    pub start: Point,
    pub end: Point,
}

#[derive(Clone, Debug, PartialEq)]
pub struct BoundaryBundleMemberGeometry {
    pub edge: EdgeId,
    pub slots: Vec<u32>,
    pub tap: Point,
}

#[derive(Clone, Debug, PartialEq)]
pub struct BoundaryBundleGeometry {
    pub id: BoundaryBundleId,
    pub endpoint: Endpoint,
    pub role: BoundaryBundleRole,
    pub width: u32,
    pub collector: BoundaryBundleSegment,
    pub spine: BoundaryBundleSegment,
    pub members: Vec<BoundaryBundleMemberGeometry>,
}

#[derive(Clone, Debug, PartialEq)]
pub struct Layout {
    pub nodes: Vec<NodeGeometry>,
    pub edges: Vec<EdgeGeometry>,
    pub boundary_bundles: Vec<BoundaryBundleGeometry>,
    pub width: f64,
    pub height: f64,
}

/// The cases that boundary_bundles.rs names.
#[derive(Clone, Debug, PartialEq)]
pub enum LayoutError {
    UnrelatedRouteContactWorkLimitExceeded { maximum: usize },
    UnrelatedRouteContactSegmentLimitExceeded { maximum: usize },
    BoundaryBundleGeometryUnsatisfied,
    BoundaryBundleGeometryWorkLimitExceeded { maximum: usize },
}
