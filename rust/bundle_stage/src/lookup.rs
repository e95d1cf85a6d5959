//! The records of a board by id, and by place.

use crate::board::{Board, Bundle, Edge, Endpoint, Node, Port};
use crate::id::Id;
use crate::place::Item;

impl Board {
    /// The first node with this id.
    pub fn node(&self, id: Id) -> Option<&Node> {
        self.nodes.iter().find(|node| node.id == id)
    }

    /// The first port with this node and id.
    pub fn port(&self, at: Endpoint) -> Option<&Port> {
        self.ports
            .iter()
            .find(|port| (port.node, port.id) == (at.node, at.port))
    }

    /// The first edge with this id.
    pub fn edge(&self, id: Id) -> Option<&Edge> {
        self.edges.iter().find(|edge| edge.id == id)
    }

    /// The first bundle with this id.
    pub fn bundle(&self, id: Id) -> Option<&Bundle> {
        self.bundles.iter().find(|bundle| bundle.id == id)
    }
}

/// Records as places of refusals name them.
impl Board {
    pub(crate) fn node_items(&self) -> Vec<Item> {
        items(&self.nodes, |place, node| Item::Node { place, id: node.id })
    }

    pub(crate) fn port_items(&self) -> Vec<Item> {
        items(&self.ports, |place, port| Item::Port {
            place,
            node: port.node,
            id: port.id,
        })
    }

    pub(crate) fn edge_items(&self) -> Vec<Item> {
        items(&self.edges, |place, edge| Item::Edge { place, id: edge.id })
    }

    pub(crate) fn bundle_items(&self) -> Vec<Item> {
        items(&self.bundles, |place, bundle| Item::Bundle {
            place,
            id: bundle.id,
        })
    }
}

/// Records of a table, each by its place in it.
fn items<T>(records: &[T], item: impl Fn(usize, &T) -> Item) -> Vec<Item> {
    let records = records.iter().enumerate();
    records.map(|(place, record)| item(place, record)).collect()
}
