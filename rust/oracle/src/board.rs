//! A read job as the Rust's records.

use std::collections::HashMap;

use crate::job::Job;
use crate::patched::harness::Prepared;
use crate::records::*;
use crate::validation::{IndexedBoundaryBundle, IndexedBoundaryBundleMember, IndexedGraph};

/// The records that the Rust's graph only lends.
pub(crate) struct Board {
    pub(crate) options: LayoutOptions,
    pub(crate) reserve: f64,
    pub(crate) separate: bool,
    pub(crate) crossings: bool,
    pub(crate) tap_visits: u32,
    pub(crate) geometry_visits: u32,
    graph_nodes: Vec<Node>,
    graph_edges: Vec<Edge>,
    bundles: Vec<IndexedBoundaryBundle>,
    pub(crate) nodes: Vec<NodeGeometry>,
    pub(crate) routes: Vec<EdgeGeometry>,
}

impl Board {
    pub(crate) fn new(job: &Job) -> Board {
        let mut graph_nodes = job
            .nodes
            .iter()
            .map(|node| Node {
                id: node.id,
                width: node.width,
                height: node.height,
                cycle_breaker: false,
                ports: Vec::new(),
            })
            .collect::<Vec<_>>();
        let place = graph_nodes
            .iter()
            .enumerate()
            .map(|(index, node)| (node.id, index))
            .collect::<HashMap<_, _>>();
        for port in &job.ports {
            graph_nodes[place[&port.node]].ports.push(Port {
                id: port.id,
                side: side(port.side),
                offset: port.offset,
            });
        }
        let graph_edges = job
            .edges
            .iter()
            .map(|edge| Edge {
                id: edge.id,
                source: Endpoint {
                    node: edge.source_node,
                    port: edge.source_port,
                },
                target: Endpoint {
                    node: edge.target_node,
                    port: edge.target_port,
                },
                net: edge.id,
                participates_in_ranking: true,
            })
            .collect();
        Board {
            options: options(job),
            reserve: job.member_endpoint_reserve,
            separate: job.separate,
            crossings: job.crossings,
            tap_visits: job.tap_visits,
            geometry_visits: job.geometry_visits,
            graph_nodes,
            graph_edges,
            bundles: bundles(job),
            nodes: job
                .nodes
                .iter()
                .map(|node| NodeGeometry {
                    id: node.id,
                    x: node.x,
                    y: node.y,
                    width: node.width,
                    height: node.height,
                })
                .collect(),
            routes: job
                .edges
                .iter()
                .map(|edge| EdgeGeometry {
                    id: edge.id,
                    points: edge.points.iter().map(|&(x, y)| Point { x, y }).collect(),
                })
                .collect(),
        }
    }

    pub(crate) fn graph(&self) -> IndexedGraph<'_> {
        IndexedGraph {
            nodes: self.graph_nodes.iter().collect(),
            edges: self.graph_edges.iter().collect(),
            rank_edges: Vec::new(),
            node_index: self
                .graph_nodes
                .iter()
                .enumerate()
                .map(|(index, node)| (node.id, index))
                .collect(),
            ports: self
                .graph_nodes
                .iter()
                .map(|node| node.ports.iter().map(|port| (port.id, port)).collect())
                .collect(),
            outgoing: Vec::new(),
            incoming: Vec::new(),
            boundary_inputs: Vec::new(),
            boundary_outputs: Vec::new(),
            boundary_bundles: self.bundles.clone(),
        }
    }

    pub(crate) fn prepare<'board, 'graph>(
        &'board self,
        graph: &'board IndexedGraph<'graph>,
    ) -> Prepared<'board, 'graph> {
        Prepared::new(graph, &self.nodes, &self.routes, self.options, self.reserve)
    }

    pub(crate) fn bundle_count(&self) -> usize {
        self.bundles.len()
    }

    pub(crate) fn is_input(&self, bundle: usize) -> bool {
        self.bundles[bundle].role == BoundaryBundleRole::Input
    }

    /// The sheet before any bundle is drawn.
    pub(crate) fn layout(&self) -> Layout {
        Layout {
            nodes: self.nodes.clone(),
            edges: self.routes.clone(),
            boundary_bundles: Vec::with_capacity(self.bundles.len()),
            width: 0.0,
            height: 0.0,
        }
    }
}

fn options(job: &Job) -> LayoutOptions {
    LayoutOptions {
        layer_gap: 0.0,
        node_gap: 0.0,
        port_stub: job.port_stub,
        route_lane_gap: job.route_lane_gap,
        edge_node_clearance: job.edge_node_clearance,
        minimum_parallel_wire_spacing: job.minimum_parallel_wire_spacing,
        max_quality_area_factor: 0.0,
        max_quality_route_length_factor: 0.0,
        ordering_sweeps: 0,
    }
}

fn bundles(job: &Job) -> Vec<IndexedBoundaryBundle> {
    job.bundles
        .iter()
        .map(|bundle| IndexedBoundaryBundle {
            id: bundle.id,
            endpoint: Endpoint {
                node: bundle.node,
                port: bundle.port,
            },
            role: role(bundle.role),
            width: bundle.width,
            members: bundle
                .members
                .iter()
                .map(|member| IndexedBoundaryBundleMember {
                    edge: member.edge,
                    net: member.edge,
                    slots: Vec::new(),
                    tap_lane: usize::from(member.lane),
                })
                .collect(),
        })
        .collect()
}

pub(crate) fn side(value: u8) -> PortSide {
    match value {
        0 => PortSide::North,
        1 => PortSide::East,
        2 => PortSide::South,
        3 => PortSide::West,
        other => panic!("{other} is no side"),
    }
}

pub(crate) fn role(value: u8) -> BoundaryBundleRole {
    match value {
        0 => BoundaryBundleRole::Input,
        1 => BoundaryBundleRole::Output,
        other => panic!("{other} is no role"),
    }
}
