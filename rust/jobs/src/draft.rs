//! A board in whole numbers, and its job at a scale. Lines that are level or upright in whole
//! numbers stay so at every scale.

use std::collections::BTreeMap;

use oracle::job::{Job, JobBundle, JobEdge, JobMember, JobNode, JobPort, plus};

use crate::rng::Rng;

pub const NORTH: u8 = 0;
pub const EAST: u8 = 1;
pub const SOUTH: u8 = 2;
pub const WEST: u8 = 3;
pub const INPUT: u8 = 0;
pub const OUTPUT: u8 = 1;

#[derive(Clone, Debug, Default)]
pub struct Draft {
    pub separate: bool,
    pub crossings: bool,
    pub stub: i64,
    pub gap: i64,
    pub clearance: i64,
    pub spacing: i64,
    pub reserve: i64,
    pub nodes: Vec<DraftNode>,
    pub ports: Vec<DraftPort>,
    pub edges: Vec<DraftEdge>,
    pub bundles: Vec<DraftBundle>,
}

#[derive(Clone, Copy, Debug)]
pub struct DraftNode {
    pub x: i64,
    pub y: i64,
    pub width: i64,
    pub height: i64,
}

#[derive(Clone, Copy, Debug)]
pub struct DraftPort {
    pub node: usize,
    pub side: u8,
    pub offset: i64,
}

#[derive(Clone, Debug)]
pub struct DraftEdge {
    pub source: usize,
    pub target: usize,
    pub points: Vec<(i64, i64)>,
}

#[derive(Clone, Debug)]
pub struct DraftBundle {
    pub port: usize,
    pub role: u8,
    pub width: u32,
    pub members: Vec<(usize, u16)>,
}

impl Draft {
    pub fn pitch(&self) -> i64 {
        self.gap.max(self.spacing)
    }

    pub fn rail(&self) -> i64 {
        if self.clearance > 0 {
            self.clearance
        } else {
            self.stub + self.gap
        }
    }

    pub fn node(&mut self, x: i64, y: i64, width: i64, height: i64) -> usize {
        self.nodes.push(DraftNode {
            x,
            y,
            width,
            height,
        });
        self.nodes.len() - 1
    }

    /// A port of the node at height `y` on its east or west side.
    pub fn port_at(&mut self, node: usize, side: u8, y: i64) -> usize {
        let offset = y - self.nodes[node].y;
        self.ports.push(DraftPort { node, side, offset });
        self.ports.len() - 1
    }

    pub fn edge(&mut self, source: usize, target: usize, points: Vec<(i64, i64)>) -> usize {
        self.edges.push(DraftEdge {
            source,
            target,
            points,
        });
        self.edges.len() - 1
    }

    /// The job with every id a place in its table, all grants at their limits.
    pub fn job(&self, scale: &Scale) -> Job {
        let port_ids = |port: usize| (self.ports[port].node as u32, port as u32);
        Job {
            separate: self.separate,
            crossings: self.crossings,
            on_grid: false,
            port_stub: scale.length(self.stub),
            route_lane_gap: scale.length(self.gap),
            edge_node_clearance: scale.length(self.clearance),
            minimum_parallel_wire_spacing: scale.length(self.spacing),
            member_endpoint_reserve: scale.length(self.reserve),
            tap_visits: oracle::job::MAX_TAP_VISITS,
            geometry_visits: oracle::job::MAX_GEOMETRY_VISITS,
            nodes: self
                .nodes
                .iter()
                .enumerate()
                .map(|(id, node)| JobNode {
                    id: id as u32,
                    x: scale.x(node.x),
                    y: scale.y(node.y),
                    width: scale.length(node.width),
                    height: scale.length(node.height),
                })
                .collect(),
            ports: self
                .ports
                .iter()
                .enumerate()
                .map(|(id, port)| JobPort {
                    node: port.node as u32,
                    id: id as u32,
                    side: port.side,
                    offset: scale.length(port.offset),
                })
                .collect(),
            edges: self
                .edges
                .iter()
                .enumerate()
                .map(|(id, edge)| {
                    let (source_node, source_port) = port_ids(edge.source);
                    let (target_node, target_port) = port_ids(edge.target);
                    JobEdge {
                        id: id as u32,
                        source_node,
                        source_port,
                        target_node,
                        target_port,
                        points: edge
                            .points
                            .iter()
                            .map(|&(x, y)| (scale.x(x), scale.y(y)))
                            .collect(),
                    }
                })
                .collect(),
            bundles: self
                .bundles
                .iter()
                .enumerate()
                .map(|(id, bundle)| {
                    let (node, port) = port_ids(bundle.port);
                    JobBundle {
                        id: id as u32,
                        node,
                        port,
                        role: bundle.role,
                        width: bundle.width,
                        members: bundle
                            .members
                            .iter()
                            .map(|&(edge, lane)| JobMember {
                                edge: edge as u32,
                                lane,
                            })
                            .collect(),
                    }
                })
                .collect(),
        }
    }

    /// Edges and bundles in another order.
    pub fn shuffle(&mut self, rng: &mut Rng) {
        if rng.chance(1, 2) {
            let mut order = (0..self.edges.len()).collect::<Vec<_>>();
            rng.shuffle(&mut order);
            let mut place = vec![0; order.len()];
            for (new, &old) in order.iter().enumerate() {
                place[old] = new;
            }
            self.edges = order.iter().map(|&old| self.edges[old].clone()).collect();
            for bundle in &mut self.bundles {
                for member in &mut bundle.members {
                    member.0 = place[member.0];
                }
            }
        }
        if rng.chance(1, 2) {
            rng.shuffle(&mut self.bundles);
        }
    }
}

/// How whole numbers become f64: unit times number, plus a shift for coordinates.
#[derive(Clone, Copy, Debug)]
pub struct Scale {
    pub unit: f64,
    pub shift_x: f64,
    pub shift_y: f64,
}

impl Scale {
    pub const ONE: Scale = Scale {
        unit: 1.0,
        shift_x: 0.0,
        shift_y: 0.0,
    };

    pub fn x(&self, value: i64) -> f64 {
        plus(value as f64 * self.unit + self.shift_x)
    }

    pub fn y(&self, value: i64) -> f64 {
        plus(value as f64 * self.unit + self.shift_y)
    }

    pub fn length(&self, value: i64) -> f64 {
        plus(value as f64 * self.unit)
    }
}

/// Gives nodes, ports, edges and bundles ids that are not their places.
pub fn rename(job: &mut Job, rng: &mut Rng) {
    let mut names = |count: usize| {
        let step = rng.below(0x00ff_ffff) as u32 * 2 + 1;
        let first = rng.word() as u32;
        (0..count as u32)
            .map(|place| first.wrapping_add(place.wrapping_mul(step)))
            .collect::<Vec<_>>()
    };
    let nodes = names(job.nodes.len());
    let edges = names(job.edges.len());
    let bundles = names(job.bundles.len());
    rename_by(job, &nodes, &edges, &bundles, 1);
}

/// Gives nodes, edges and bundles, whose ids are places, these ids; a node's ports are numbered from
/// `first_port` on.
pub fn rename_by(job: &mut Job, nodes: &[u32], edges: &[u32], bundles: &[u32], first_port: u32) {
    // Ports need only differ within a node: small numbers, many of them alike.
    let mut per_node = BTreeMap::new();
    let ports = job
        .ports
        .iter()
        .map(|port| {
            let next = per_node.entry(port.node).or_insert(first_port);
            *next += 1;
            *next - 1
        })
        .collect::<Vec<_>>();
    for (row, &id) in job.nodes.iter_mut().zip(nodes) {
        row.id = id;
    }
    for (row, &id) in job.ports.iter_mut().zip(&ports) {
        row.node = nodes[row.node as usize];
        row.id = id;
    }
    for (row, &id) in job.edges.iter_mut().zip(edges) {
        row.id = id;
        row.source_node = nodes[row.source_node as usize];
        row.source_port = ports[row.source_port as usize];
        row.target_node = nodes[row.target_node as usize];
        row.target_port = ports[row.target_port as usize];
    }
    for (row, &id) in job.bundles.iter_mut().zip(bundles) {
        row.id = id;
        row.node = nodes[row.node as usize];
        row.port = ports[row.port as usize];
        for member in &mut row.members {
            member.edge = edges[member.edge as usize];
        }
    }
}
