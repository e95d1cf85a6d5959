//! The job's reader: document 01, sections "The job" and "Who can cause a refusal", numbers 1 and
//! 3 to 9, with requests F-1 and F-2 of document 02 (15). Written from the papers alone.

use crate::wire::{Reader, Short, Writer};

pub const MAX_NODES: u16 = 128;
pub const MAX_PORTS: u16 = 256;
pub const MAX_EDGES: u16 = 256;
pub const MAX_BUNDLES: u16 = 32;
pub const MAX_ROUTE_POINTS: u16 = 64;
pub const MAX_POINTS: u32 = 2_048;
pub const MAX_BUNDLE_MEMBERS: u16 = 64;
pub const MAX_MEMBERS: u32 = 256;
pub const MAX_LANE: u16 = 255;
pub const MAX_TAP_VISITS: u32 = 2_000_000;
pub const MAX_GEOMETRY_VISITS: u32 = 20_000_000;
const COORDINATE_LIMIT: f64 = 1_073_741_824.0; // 2^30
const OPTION_LIMIT: f64 = 1_048_576.0; // 2^20
const GRID_LIMIT: f64 = 1_048_576.0; // 2^20
const TO_A_UNIT: f64 = 64.0; // of the drafting grid

#[derive(Clone, Debug, PartialEq)]
pub struct Job {
    /// Bit 0: collectors of one role are separated.
    pub separate: bool,
    /// Bit 1: strict crossings are permitted.
    pub crossings: bool,
    /// Bit 2: all numbers are on the drafting grid. The Rust knows of no such flag.
    pub on_grid: bool,
    pub port_stub: f64,
    pub route_lane_gap: f64,
    pub edge_node_clearance: f64,
    pub minimum_parallel_wire_spacing: f64,
    pub member_endpoint_reserve: f64,
    pub tap_visits: u32,
    pub geometry_visits: u32,
    pub nodes: Vec<JobNode>,
    pub ports: Vec<JobPort>,
    pub edges: Vec<JobEdge>,
    pub bundles: Vec<JobBundle>,
}

#[derive(Clone, Debug, PartialEq)]
pub struct JobNode {
    pub id: u32,
    pub x: f64,
    pub y: f64,
    pub width: f64,
    pub height: f64,
}

#[derive(Clone, Debug, PartialEq)]
pub struct JobPort {
    pub node: u32,
    pub id: u32,
    pub side: u8,
    pub offset: f64,
}

#[derive(Clone, Debug, PartialEq)]
pub struct JobEdge {
    pub id: u32,
    pub source_node: u32,
    pub source_port: u32,
    pub target_node: u32,
    pub target_port: u32,
    pub points: Vec<(f64, f64)>,
}

#[derive(Clone, Debug, PartialEq)]
pub struct JobBundle {
    pub id: u32,
    pub node: u32,
    pub port: u32,
    pub role: u8,
    pub width: u32,
    pub members: Vec<JobMember>,
}

#[derive(Clone, Copy, Debug, Eq, PartialEq)]
pub struct JobMember {
    pub edge: u32,
    pub lane: u16,
}

/// 4: a field runs past the end.
impl From<Short> for u8 {
    fn from(_: Short) -> u8 {
        4
    }
}

/// The job, or the number of its refusal.
pub fn read(bytes: &[u8]) -> Result<Job, u8> {
    if bytes.len() < 5 {
        return Err(1);
    }
    let (length, body) = bytes.split_at(4);
    let length = u32::from_be_bytes(length.try_into().expect("four bytes"));
    if usize::try_from(length) != Ok(body.len()) {
        return Err(1);
    }
    if body[0] != 1 {
        return Err(3);
    }
    let job = read_fields(&mut Reader::new(&body[1..]))?;
    if has_twice(&job) {
        return Err(8);
    }
    if has_unknown(&job) {
        return Err(9);
    }
    Ok(job)
}

fn read_fields(from: &mut Reader<'_>) -> Result<Job, u8> {
    let flags = listed(from.u8()?, 7)?;
    let on_grid = flags & 4 != 0;
    let port_stub = option(from, on_grid)?;
    let route_lane_gap = option(from, on_grid)?;
    let edge_node_clearance = option(from, on_grid)?;
    let minimum_parallel_wire_spacing = option(from, on_grid)?;
    let member_endpoint_reserve = option(from, on_grid)?;
    let tap_visits = grant(from, MAX_TAP_VISITS)?;
    let geometry_visits = grant(from, MAX_GEOMETRY_VISITS)?;
    let nodes = count(from, MAX_NODES)?;
    let ports = count(from, MAX_PORTS)?;
    let edges = count(from, MAX_EDGES)?;
    let bundles = count(from, MAX_BUNDLES)?;
    let mut points_left = MAX_POINTS;
    let mut members_left = MAX_MEMBERS;
    let job = Job {
        separate: flags & 1 != 0,
        crossings: flags & 2 != 0,
        on_grid,
        port_stub,
        route_lane_gap,
        edge_node_clearance,
        minimum_parallel_wire_spacing,
        member_endpoint_reserve,
        tap_visits,
        geometry_visits,
        nodes: repeat(nodes, || node(from, on_grid))?,
        ports: repeat(ports, || port(from, on_grid))?,
        edges: repeat(edges, || edge(from, on_grid, &mut points_left))?,
        bundles: repeat(bundles, || bundle(from, &mut members_left))?,
    };
    if from.left() != 0 {
        return Err(4);
    }
    Ok(job)
}

fn repeat<T>(count: u16, mut read: impl FnMut() -> Result<T, u8>) -> Result<Vec<T>, u8> {
    (0..count).map(|_| read()).collect()
}

fn node(from: &mut Reader<'_>, grid: bool) -> Result<JobNode, u8> {
    Ok(JobNode {
        id: from.u32()?,
        x: coordinate(from, grid)?,
        y: coordinate(from, grid)?,
        width: size(from, grid)?,
        height: size(from, grid)?,
    })
}

fn port(from: &mut Reader<'_>, grid: bool) -> Result<JobPort, u8> {
    Ok(JobPort {
        node: from.u32()?,
        id: from.u32()?,
        side: listed(from.u8()?, 3)?,
        offset: coordinate(from, grid)?,
    })
}

fn edge(from: &mut Reader<'_>, grid: bool, points_left: &mut u32) -> Result<JobEdge, u8> {
    Ok(JobEdge {
        id: from.u32()?,
        source_node: from.u32()?,
        source_port: from.u32()?,
        target_node: from.u32()?,
        target_port: from.u32()?,
        points: {
            let points = part_count(from, MAX_ROUTE_POINTS, points_left)?;
            repeat(points, || {
                Ok((coordinate(from, grid)?, coordinate(from, grid)?))
            })?
        },
    })
}

fn bundle(from: &mut Reader<'_>, members_left: &mut u32) -> Result<JobBundle, u8> {
    Ok(JobBundle {
        id: from.u32()?,
        node: from.u32()?,
        port: from.u32()?,
        role: listed(from.u8()?, 1)?,
        width: from.u32()?,
        members: {
            let members = part_count(from, MAX_BUNDLE_MEMBERS, members_left)?;
            repeat(members, || {
                Ok(JobMember {
                    edge: from.u32()?,
                    lane: count(from, MAX_LANE)?,
                })
            })?
        },
    })
}

/// 6: a flag, side or role not listed.
fn listed(value: u8, last: u8) -> Result<u8, u8> {
    if value > last { Err(6) } else { Ok(value) }
}

/// 5: a count or lane above its limit.
fn count(from: &mut Reader<'_>, limit: u16) -> Result<u16, u8> {
    let value = from.u16()?;
    if value > limit { Err(5) } else { Ok(value) }
}

/// 5: a count above its own limit, or one that passes the limit of the total.
fn part_count(from: &mut Reader<'_>, limit: u16, left: &mut u32) -> Result<u16, u8> {
    let value = count(from, limit)?;
    *left = left.checked_sub(u32::from(value)).ok_or(5)?;
    Ok(value)
}

fn grant(from: &mut Reader<'_>, limit: u32) -> Result<u32, u8> {
    let value = from.u32()?;
    if value > limit { Err(5) } else { Ok(value) }
}

/// A number with minus zero taken as plus zero (document 02, F-1). 7: not finite, or out of range;
/// then 15: off the drafting grid, where bit 2 is set (F-2).
fn number(from: &mut Reader<'_>, grid: bool, low: f64, high: f64) -> Result<f64, u8> {
    let value = plus(from.f64()?);
    if !value.is_finite() || value < low || value > high {
        return Err(7);
    }
    if grid && !is_on_grid(value) {
        return Err(15);
    }
    Ok(value)
}

/// Plus zero for either zero.
pub fn plus(value: f64) -> f64 {
    if value == 0.0 { 0.0 } else { value }
}

/// A multiple of 1/64 with magnitude at most 2^20. The product only moves the exponent.
fn is_on_grid(value: f64) -> bool {
    value.abs() <= GRID_LIMIT && (value * TO_A_UNIT).fract() == 0.0
}

fn coordinate(from: &mut Reader<'_>, grid: bool) -> Result<f64, u8> {
    number(from, grid, -COORDINATE_LIMIT, COORDINATE_LIMIT)
}

fn size(from: &mut Reader<'_>, grid: bool) -> Result<f64, u8> {
    number(from, grid, 0.0, COORDINATE_LIMIT)
}

fn option(from: &mut Reader<'_>, grid: bool) -> Result<f64, u8> {
    number(from, grid, 0.0, OPTION_LIMIT)
}

/// 8: an id twice among nodes, edges, bundles or one node's ports; an edge twice in one role's
/// bundles. Numbers only are compared, whether or not they are known.
fn has_twice(job: &Job) -> bool {
    let members = job.bundles.iter().flat_map(|bundle| {
        bundle
            .members
            .iter()
            .map(|member| pair(u32::from(bundle.role), member.edge))
    });
    twice(job.nodes.iter().map(|node| u64::from(node.id)))
        || twice(job.edges.iter().map(|edge| u64::from(edge.id)))
        || twice(job.bundles.iter().map(|bundle| u64::from(bundle.id)))
        || twice(job.ports.iter().map(|port| pair(port.node, port.id)))
        || twice(members)
}

fn pair(high: u32, low: u32) -> u64 {
    u64::from(high) << 32 | u64::from(low)
}

fn twice(keys: impl Iterator<Item = u64>) -> bool {
    sorted(keys).windows(2).any(|pair| pair[0] == pair[1])
}

fn sorted(keys: impl Iterator<Item = u64>) -> Vec<u64> {
    let mut keys = keys.collect::<Vec<_>>();
    keys.sort_unstable();
    keys
}

/// 9: an unknown node for a port, edge or bundle, an unknown port for a bundle, an unknown edge
/// for a member. An edge's own ports are not looked up.
fn has_unknown(job: &Job) -> bool {
    let nodes = sorted(job.nodes.iter().map(|node| u64::from(node.id)));
    let ports = sorted(job.ports.iter().map(|port| pair(port.node, port.id)));
    let edges = sorted(job.edges.iter().map(|edge| u64::from(edge.id)));
    let node = |id: u32| nodes.binary_search(&u64::from(id)).is_ok();
    let port = |of: u32, id: u32| ports.binary_search(&pair(of, id)).is_ok();
    let edge = |id: u32| edges.binary_search(&u64::from(id)).is_ok();
    let known = job.ports.iter().all(|row| node(row.node))
        && job
            .edges
            .iter()
            .all(|row| node(row.source_node) && node(row.target_node))
        && job.bundles.iter().all(|row| {
            node(row.node)
                && port(row.node, row.port)
                && row.members.iter().all(|member| edge(member.edge))
        });
    !known
}

impl Job {
    /// The byte of the flags.
    pub fn flags(&self) -> u8 {
        u8::from(self.separate) | u8::from(self.crossings) << 1 | u8::from(self.on_grid) << 2
    }

    /// The five options in the job's order.
    pub fn options(&self) -> [f64; 5] {
        [
            self.port_stub,
            self.route_lane_gap,
            self.edge_node_clearance,
            self.minimum_parallel_wire_spacing,
            self.member_endpoint_reserve,
        ]
    }

    pub fn options_mut(&mut self) -> [&mut f64; 5] {
        [
            &mut self.port_stub,
            &mut self.route_lane_gap,
            &mut self.edge_node_clearance,
            &mut self.minimum_parallel_wire_spacing,
            &mut self.member_endpoint_reserve,
        ]
    }

    /// The job's bytes: what `read` takes. Counts must fit the format.
    pub fn encode(&self) -> Vec<u8> {
        let mut out = Writer::new();
        out.u32(0);
        out.u8(1);
        out.u8(self.flags());
        for option in self.options() {
            out.f64(option);
        }
        out.u32(self.tap_visits);
        out.u32(self.geometry_visits);
        out.count(self.nodes.len());
        out.count(self.ports.len());
        out.count(self.edges.len());
        out.count(self.bundles.len());
        for node in &self.nodes {
            out.u32(node.id);
            for value in [node.x, node.y, node.width, node.height] {
                out.f64(value);
            }
        }
        for port in &self.ports {
            out.u32(port.node);
            out.u32(port.id);
            out.u8(port.side);
            out.f64(port.offset);
        }
        for edge in &self.edges {
            for id in [
                edge.id,
                edge.source_node,
                edge.source_port,
                edge.target_node,
                edge.target_port,
            ] {
                out.u32(id);
            }
            out.count(edge.points.len());
            for &(x, y) in &edge.points {
                out.f64(x);
                out.f64(y);
            }
        }
        for bundle in &self.bundles {
            out.u32(bundle.id);
            out.u32(bundle.node);
            out.u32(bundle.port);
            out.u8(bundle.role);
            out.u32(bundle.width);
            out.count(bundle.members.len());
            for member in &bundle.members {
                out.u32(member.edge);
                out.u16(member.lane);
            }
        }
        out.set_length();
        out.bytes
    }
}
