//! Plans (document 02, F-5): made up for a job, and damaged.

use oracle::job::Job;
use oracle::plan::Plan;

use crate::floats::{LARGEST, clean, near, power, step};
use crate::rng::Rng;
use crate::values::{Axis, coordinates};

/// 1/128 and 2^20.
const UNIT: f64 = 0.0078125;
const GRID_LIMIT: f64 = 1_048_576.0;

/// A plan for the job that is not the planner's: some entries of that plan changed, most so that the
/// bundles can still be drawn there; 17 and 18 let nearly all of them through.
pub fn made_up(rng: &mut Rng, job: &Job, planned: &Plan) -> Plan {
    let mut plan = planned.clone();
    let often = rng.pick(&[1, 1, 2, 4]);
    for place in 0..plan.entries.len() {
        if rng.chance(often, 4) {
            plan.entries[place] = entry(rng, job, planned, place);
        }
    }
    if rng.chance(1, 2) {
        plan.tap_visits = match rng.below(4) {
            0 => 0,
            1 => job.tap_visits,
            _ => rng.below(job.tap_visits as usize + 1) as u32,
        };
    }
    plan
}

/// None, an x that a member's route has or lies between two, another bundle's, one near it, or a zero.
fn entry(rng: &mut Rng, job: &Job, planned: &Plan, place: usize) -> Option<f64> {
    let old = planned.entries[place];
    let xs = member_xs(job, place);
    let any = |rng: &mut Rng| match xs.len() {
        0 => rng.between(-10, 10) as f64,
        _ => rng.pick(&xs),
    };
    let gap = job.route_lane_gap;
    let x = match rng.below(16) {
        0 | 1 => return None,
        2 | 3 => any(rng),
        4..=6 => {
            let (left, right) = (any(rng), any(rng));
            left + (right - left) / rng.pick(&[2.0, 4.0, 8.0])
        }
        7 | 8 => old.unwrap_or_else(|| any(rng)) + rng.pick(&[-gap, gap, 1.0, -1.0]),
        9 => near(rng, old.unwrap_or(0.0)),
        10 => planned.entries[rng.below(planned.entries.len())]?,
        11 => any(rng) + rng.pick(&[-gap, gap]),
        12 => 0.0,
        13 => return Some(-0.0),
        14 => rng.pick(&[LARGEST, -LARGEST, GRID_LIMIT, -GRID_LIMIT]),
        _ => old?,
    };
    let x = clean(x);
    if job.on_grid && !rng.chance(1, 16) {
        let limit = GRID_LIMIT / UNIT;
        return Some(clean((x / UNIT).round().clamp(-limit, limit) * UNIT));
    }
    Some(x)
}

/// The x of every point of the bundle's members.
fn member_xs(job: &Job, bundle: usize) -> Vec<f64> {
    let members = job.bundles[bundle].members.iter();
    let edges = members.filter_map(|row| job.edges.iter().find(|edge| edge.id == row.edge));
    let points = edges.flat_map(|edge| &edge.points);
    points.map(|point| point.0).collect()
}

/// The job moved along x so that a planned x comes to lie on 0, and its plan with minus zero there: none
/// where nothing is planned, or a number would be rounded or out of range.
pub fn about_minus_zero(rng: &mut Rng, job: &Job, planned: &Plan) -> Option<(Job, Plan)> {
    let xs = planned.entries.iter().flatten().copied();
    let xs = xs.collect::<Vec<_>>();
    if xs.is_empty() {
        return None;
    }
    let by = rng.pick(&xs);
    let limit = if job.on_grid { GRID_LIMIT } else { LARGEST };
    let mut moved = job.clone();
    for x in coordinates(&mut moved, Axis::X) {
        let old = *x;
        *x = clean(old - by);
        if *x + by != old || x.abs() > limit || old - *x != by {
            return None;
        }
    }
    let mut plan = planned.clone();
    for entry in &mut plan.entries {
        *entry = entry.map(|x| match clean(x - by) {
            0.0 => -0.0,
            x => x,
        });
    }
    Some((moved, plan))
}

/// Another revision of the job: points moved, options, members or flags changed; its plan may serve the
/// job or not.
pub fn revised(rng: &mut Rng, job: &Job) -> Job {
    let mut other = job.clone();
    for _ in 0..1 + rng.below(3) {
        let by = rng.pick(&[1.0, -1.0, 4.0, -4.0, 16.0, 40.0]);
        let (edges, bundles) = (other.edges.len(), other.bundles.len());
        match rng.below(6) {
            0 | 1 if edges > 0 => {
                let edge = rng.below(edges);
                for point in &mut other.edges[edge].points {
                    point.0 = clean(point.0 + by);
                }
            }
            2 => other.route_lane_gap = (other.route_lane_gap + by).clamp(0.0, GRID_LIMIT),
            3 => other.separate ^= true,
            4 if bundles > 0 => {
                let bundle = rng.below(bundles);
                other.bundles[bundle].members.pop();
            }
            _ => {
                for node in &mut other.nodes {
                    node.x = clean(node.x + by);
                }
            }
        }
    }
    other
}

/// A plan's bytes with one damage or two, of each kind that 17 and 18 are about.
pub fn damaged(rng: &mut Rng, job: &Job, plan: &Plan) -> Vec<u8> {
    let mut plan = plan.clone();
    let places = plan.entries.len();
    for _ in 0..rng.below(2) {
        if places > 0 {
            let place = rng.below(places);
            plan.entries[place] = Some(odd_number(rng));
        }
    }
    match rng.below(8) {
        0 => plan.tap_visits = job.tap_visits.saturating_add(rng.pick(&[0, 1, 1, 7])),
        1 => plan.tap_visits = rng.pick(&[0, 2_000_000, 2_000_001, u32::MAX]),
        2 => plan.entries.push(rng.pick(&[None, Some(0.0)])),
        3 => {
            plan.entries.pop();
        }
        4 if places > 0 => {
            let place = rng.below(places);
            plan.entries[place] = Some(odd_number(rng));
        }
        5 if places > 1 => plan.entries.swap(0, places - 1),
        _ => {}
    }
    let mut bytes = plan.encode();
    if rng.chance(2, 3) {
        damage_bytes(rng, &mut bytes);
    }
    bytes
}

fn damage_bytes(rng: &mut Rng, bytes: &mut Vec<u8>) {
    let mut right_length = rng.chance(3, 4);
    let place = rng.below(bytes.len());
    match rng.below(8) {
        0 => bytes[place] ^= 1 << rng.below(8),
        1 => bytes[place] = rng.pick(&[0, 1, 2, 0x7f, 0x80, 0xff]),
        2 => bytes.truncate(place),
        3 => bytes.push(rng.below(256) as u8),
        4 => bytes.insert(place.max(4), rng.below(256) as u8),
        5 => {
            bytes[4] = rng.pick(&[0, 2, 3, 0xff]);
            right_length = false;
        }
        6 => {
            // A notice in place of a plan, or nearly one.
            *bytes = vec![0, 0, 0, 2, 1, rng.below(19) as u8];
            bytes.truncate(rng.pick(&[6, 6, 5, 4, 0]));
            right_length = false;
        }
        _ => {
            let length = rng.pick(&[0, 1, bytes.len() as u32, bytes.len() as u32 - 5, u32::MAX]);
            bytes[..4].copy_from_slice(&length.to_be_bytes());
            right_length = false;
        }
    }
    if right_length && bytes.len() >= 4 {
        let length = bytes.len() as u32 - 4;
        bytes[..4].copy_from_slice(&length.to_be_bytes());
    }
}

/// A number about which 18 has to be right.
fn odd_number(rng: &mut Rng) -> f64 {
    let sign = rng.pick(&[1.0, -1.0]);
    sign * match rng.below(14) {
        0 => f64::NAN,
        1 => f64::from_bits(0x7ff0_0000_0000_0001),
        2 => f64::INFINITY,
        3 => 0.0,
        4 => LARGEST,
        5 => step(LARGEST, 1),
        6 => step(LARGEST, -1),
        7 => GRID_LIMIT,
        8 => step(GRID_LIMIT, 1),
        9 => GRID_LIMIT + UNIT,
        10 => GRID_LIMIT - UNIT,
        11 => UNIT * rng.pick(&[0.5, 1.0, 1.5, 3.0]),
        12 => step(UNIT, rng.pick(&[-1, 1])),
        _ => rng.pick(&[f64::MAX, 5e-324, power(31), 0.1]),
    }
}
