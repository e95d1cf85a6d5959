//! The two indexed records, shapes as in the Rust's validation.rs.

use std::collections::HashMap;

use crate::records::{
    BoundaryBundleId, BoundaryBundleRole, Edge, EdgeId, Endpoint, Node, NodeId, Port, PortId,
};

#[derive(Clone)]
pub(crate) struct IndexedBoundaryBundleMember {
    pub(crate) edge: EdgeId,
    pub(crate) net: u32,
    pub(crate) slots: Vec<u32>,
    pub(crate) tap_lane: usize,
}

#[derive(Clone)]
pub(crate) struct IndexedBoundaryBundle {
    pub(crate) id: BoundaryBundleId,
    pub(crate) endpoint: Endpoint,
    pub(crate) role: BoundaryBundleRole,
    pub(crate) width: u32,
    pub(crate) members: Vec<IndexedBoundaryBundleMember>,
}

#[allow(dead_code)]
pub(crate) struct IndexedGraph<'a> {
    pub(crate) nodes: Vec<&'a Node>,
    pub(crate) edges: Vec<&'a Edge>,
    pub(crate) rank_edges: Vec<bool>,
    pub(crate) node_index: HashMap<NodeId, usize>,
    pub(crate) ports: Vec<HashMap<PortId, &'a Port>>,
    pub(crate) outgoing: Vec<Vec<usize>>,
    pub(crate) incoming: Vec<Vec<usize>>,
    pub(crate) boundary_inputs: Vec<bool>,
    pub(crate) boundary_outputs: Vec<bool>,
    pub(crate) boundary_bundles: Vec<IndexedBoundaryBundle>,
}
