//! Jobs for the bundle page (document 02, F-4): boards on the drafting grid, bit 2 set, with pages of no
//! line to 32, ids of one digit to ten, and numbers as large as the grid allows.

use oracle::job::{Job, JobBundle, JobEdge, JobMember, JobNode, JobPort};

use crate::draft::{EAST, INPUT, NORTH, OUTPUT, SOUTH, WEST, rename_by};
use crate::grid::any_on_grid;
use crate::rng::Rng;

/// 1/64 and 2^20.
const UNIT: f64 = 0.015625;
const LIMIT: f64 = 1_048_576.0;

pub fn job(seed: u64, index: u64) -> Vec<u8> {
    let mut rng = Rng::new("pages", seed, index);
    let mut job = match rng.below(3) {
        0 => any_on_grid(&mut rng),
        _ => far_out(&mut rng),
    };
    job.on_grid = rng.chance(15, 16);
    let [nodes, edges, bundles] =
        [job.nodes.len(), job.edges.len(), job.bundles.len()].map(|count| ids(&mut rng, count));
    rename_by(&mut job, &nodes, &edges, &bundles, 1);
    job.encode()
}

/// Ids of every length: next to a power of ten, or at the ends of their range.
fn ids(rng: &mut Rng, count: usize) -> Vec<u32> {
    let mut ids = Vec::<u32>::with_capacity(count);
    while ids.len() < count {
        let power = 10_u32.pow(rng.below(10) as u32);
        let id = match rng.below(6) {
            0 => power,
            1 => power - 1,
            2 => u32::MAX - rng.below(3) as u32,
            3 => rng.below(4) as u32,
            _ => rng.word() as u32 >> rng.below(32),
        };
        if !ids.contains(&id) {
            ids.push(id);
        }
    }
    ids
}

/// A length on the grid: nothing, small, at the limit, or some 64ths.
fn length(rng: &mut Rng) -> f64 {
    match rng.below(8) {
        0 | 1 => 0.0,
        2 => LIMIT,
        3 => LIMIT - UNIT,
        4 => UNIT,
        5 => rng.between(0, 1 << 12) as f64 * UNIT,
        _ => rng.between(0, 1 << 26) as f64 * UNIT,
    }
}

fn coordinate(rng: &mut Rng) -> f64 {
    let length = length(rng);
    if length > 0.0 && rng.chance(1, 2) {
        -length
    } else {
        length
    }
}

/// Bundles far from one another, each at a node of its own, with no member or, where the options are
/// small, with level ones that go from end to end of the grid. Most of these boards are accepted.
fn far_out(rng: &mut Rng) -> Job {
    let rows = match rng.below(4) {
        0 => rng.below(3),
        1 => 30 + rng.below(3),
        _ => rng.below(33),
    };
    let small = rng.chance(1, 2);
    let length = |rng: &mut Rng| match (small, rng.below(3)) {
        (true, _) => rng.between(0, 1 << 10) as f64 * UNIT,
        (false, 0) => LIMIT,
        (false, _) => length(rng),
    };
    let mut job = Job {
        separate: rng.chance(1, 4),
        crossings: rng.chance(3, 4),
        on_grid: true,
        port_stub: length(rng),
        route_lane_gap: length(rng),
        edge_node_clearance: if rng.chance(1, 2) { 0.0 } else { length(rng) },
        minimum_parallel_wire_spacing: 0.0,
        member_endpoint_reserve: length(rng),
        tap_visits: 2_000_000,
        geometry_visits: 20_000_000,
        nodes: Vec::new(),
        ports: Vec::new(),
        edges: Vec::new(),
        bundles: Vec::new(),
    };
    let step = 2.0 * LIMIT / 33.0;
    let step = (step / UNIT).floor() * UNIT;
    for row in 0..rows {
        let top = -LIMIT + step * row as f64 + rng.between(0, 1 << 10) as f64 * UNIT;
        band(rng, &mut job, row as u32, top, small);
    }
    rng.shuffle(&mut job.bundles);
    for (bundle, id) in job.bundles.iter_mut().zip(0..) {
        bundle.id = id;
    }
    job
}

/// A node with a bundle, and the bundle's members.
fn band(rng: &mut Rng, job: &mut Job, row: u32, top: f64, small: bool) {
    let role = rng.pick(&[INPUT, OUTPUT]);
    let side = match rng.below(6) {
        0 => rng.pick(&[NORTH, EAST, SOUTH, WEST]),
        _ if role == INPUT => EAST,
        _ => WEST,
    };
    let height = rng.between(0, 1 << 10) as f64 * UNIT;
    job.nodes.push(JobNode {
        id: row,
        x: if small {
            (coordinate(rng) / 2.0 / UNIT).floor() * UNIT
        } else {
            coordinate(rng)
        },
        y: top,
        width: if small { 16.0 } else { length(rng) },
        height,
    });
    job.ports.push(JobPort {
        node: row,
        id: row,
        side,
        offset: if side == NORTH || side == SOUTH {
            length(rng)
        } else {
            height
        },
    });
    let mut members = Vec::new();
    let count = if small { rng.below(4) } else { 0 };
    for lane in 0..count as u16 {
        let y = top + height + 256.0 * f64::from(lane);
        let edge = job.edges.len() as u32;
        job.edges.push(JobEdge {
            id: edge,
            source_node: row,
            source_port: row,
            target_node: row,
            target_port: row,
            points: vec![(-LIMIT, y), (LIMIT, y)],
        });
        members.push(JobMember { edge, lane });
    }
    job.bundles.push(JobBundle {
        id: row,
        node: row,
        port: row,
        role,
        width: rng.below(4) as u32,
        members,
    });
}
