//! Mutations of accepted jobs that keep them jobs: most are still accepted, or refused by the
//! drawing and not by the reader.

use oracle::job::{self, Job, JobBundle, JobEdge, plus};

use crate::damages::damage;
use crate::families::{family, paid};
use crate::floats::{LARGEST, clean, near, power, step};
use crate::grid::snap;
use crate::rng::Rng;
use crate::values::{Axis, coordinates};
use crate::zeros::put_in_job;

/// Mutated jobs of one accepted job, so that few have to be looked for.
const OF_ONE: u64 = 16;
/// Families of the accepted jobs, some more often than others.
const FAMILIES: [&str; 16] = [
    "small",
    "small",
    "small",
    "realistic",
    "realistic",
    "grid",
    "grid",
    "random",
    "adversarial",
    "adversarial",
    "degenerate",
    "depths",
    "nothing",
    "narrow",
    "fans",
    "clamp",
];

/// An accepted job and the visits that it pays.
struct Accepted {
    job: Job,
    tap: u32,
    geometry: u32,
}

/// The mutated jobs of a seed. A job is fixed by the seed and its index; the accepted job that was
/// used last is kept.
pub struct Mutations {
    seed: u64,
    kept: Option<(u64, Accepted)>,
}

impl Mutations {
    pub fn new(seed: u64) -> Mutations {
        Mutations { seed, kept: None }
    }

    pub fn job(&mut self, index: u64) -> Vec<u8> {
        let (seed, place) = (self.seed, index / OF_ONE);
        if self.kept.as_ref().is_none_or(|kept| kept.0 != place) {
            self.kept = Some((place, accepted(seed, place)));
        }
        let (_, from) = self.kept.as_ref().expect("it is kept");
        let mut rng = Rng::new("mutated", seed, index);
        let mut job = from.job.clone();
        for _ in 0..rng.pick(&[1, 1, 1, 2, 2, 3, 4]) {
            change(&mut job, from, &mut rng);
        }
        // A number that is moved by less than 1/64 is off the grid.
        if job.on_grid && rng.chance(3, 4) || rng.chance(1, 16) {
            snap(&mut job);
        }
        let mut bytes = job.encode();
        if rng.chance(1, 8) {
            put_in_job(&mut rng, &mut bytes);
        }
        if rng.chance(1, 8) {
            damage(&mut bytes, &mut rng);
        }
        bytes
    }
}

fn accepted(seed: u64, place: u64) -> Accepted {
    let mut rng = Rng::new("accepted", seed, place);
    for _ in 0..1_000 {
        let name = match rng.below(400) {
            0 => "largest",
            _ => rng.pick(&FAMILIES),
        };
        let bytes = family(name).expect("a family").job(seed, rng.word() >> 16);
        if let Ok(job) = job::read(&bytes)
            && let Some((tap, geometry)) = paid(&job)
        {
            return Accepted { job, tap, geometry };
        }
    }
    panic!("no job is accepted");
}

/// One change; some do nothing on a job that lacks what they change.
fn change(job: &mut Job, from: &Accepted, rng: &mut Rng) {
    match rng.below(16) {
        0..=3 => move_run(job, rng),
        4 => move_line(job, rng),
        5 => move_number(job, rng),
        6 => change_options(job, rng),
        7..=8 => change_route(job, rng),
        9..=10 => change_members(job, rng),
        11 => change_bundle(job, rng),
        12 => retarget(job, rng),
        13 => change_order(job, rng),
        14 => change_grant(job, from, rng),
        _ => {
            let flags = [&mut job.separate, &mut job.crossings, &mut job.on_grid];
            let flag = rng.below(flags.len());
            *flags[flag] ^= true;
        }
    }
}

fn any_of<'job, T>(list: &'job mut [T], rng: &mut Rng) -> Option<&'job mut T> {
    if list.is_empty() {
        return None;
    }
    let place = rng.below(list.len());
    list.get_mut(place)
}

/// Another number near the old one, at another coordinate, or at an option's distance from either.
fn moved(job: &mut Job, axis: Axis, old: f64, rng: &mut Rng) -> f64 {
    let options = job.options();
    let all = coordinates(job, axis);
    let other = match all.len() {
        0 => old,
        count => *all[rng.below(count)],
    };
    let sign = rng.pick(&[1.0, -1.0]);
    clean(match rng.below(10) {
        0..=1 => step(old, rng.pick(&[-2, -1, 1, 2])),
        2..=3 => near(rng, old),
        4..=5 => other,
        6 => near(rng, other),
        7 => other + sign * rng.pick(&options),
        8 => old + sign * rng.pick(&options),
        _ => old + rng.between(-40, 40) as f64,
    })
}

/// Moves a run of a route sideways, so that it stays level or upright, or one of its ends along it.
fn move_run(job: &mut Job, rng: &mut Rng) {
    let Some(edge) = any_of(&mut job.edges, rng) else {
        return;
    };
    let Some(runs) = edge.points.len().checked_sub(1).filter(|&runs| runs > 0) else {
        return;
    };
    let (id, place) = (edge.id, rng.below(runs));
    let level = edge.points[place].1 == edge.points[place + 1].1;
    let along = rng.chance(1, 3);
    let axis = if level == along { Axis::X } else { Axis::Y };
    let value = |point: (f64, f64)| match axis {
        Axis::X => point.0,
        Axis::Y => point.1,
    };
    let old = value(edge.points[place]);
    let to = moved(job, axis, old, rng);
    let edge = job.edges.iter_mut().find(|edge| edge.id == id);
    let ends = &mut edge.expect("the edge is there").points[place..=place + 1];
    let ends = if along { &mut ends[..1] } else { ends };
    for end in ends {
        match axis {
            Axis::X => end.0 = to,
            Axis::Y => end.1 = to,
        }
    }
}

/// Moves all coordinates that are equal to one of them.
fn move_line(job: &mut Job, rng: &mut Rng) {
    let axis = rng.pick(&[Axis::X, Axis::Y]);
    let Some(old) = any_of(&mut coordinates(job, axis), rng).map(|value| **value) else {
        return;
    };
    let to = moved(job, axis, old, rng);
    for value in coordinates(job, axis) {
        if *value == old {
            *value = to;
        }
    }
}

/// Moves one coordinate, size or offset alone.
fn move_number(job: &mut Job, rng: &mut Rng) {
    match rng.below(4) {
        0 => {
            if let Some(node) = any_of(&mut job.nodes, rng) {
                let size = rng.chance(1, 2);
                let size = if size {
                    &mut node.width
                } else {
                    &mut node.height
                };
                let to = match rng.below(3) {
                    0 => 0.0,
                    1 => near(rng, *size),
                    _ => *size + rng.between(-30, 30) as f64,
                };
                *size = plus(to.clamp(0.0, LARGEST));
            }
        }
        1 => {
            if let Some(port) = any_of(&mut job.ports, rng) {
                port.offset = match rng.below(2) {
                    0 => near(rng, port.offset),
                    _ => clean(port.offset + rng.between(-20, 20) as f64),
                };
            }
        }
        _ => {
            let axis = rng.pick(&[Axis::X, Axis::Y]);
            let count = coordinates(job, axis).len();
            if count > 0 {
                let place = rng.below(count);
                let old = *coordinates(job, axis)[place];
                let to = moved(job, axis, old, rng);
                *coordinates(job, axis)[place] = to;
            }
        }
    }
}

fn change_options(job: &mut Job, rng: &mut Rng) {
    let other = rng.pick(&job.options());
    let options = job.options_mut();
    let option = &mut *options[rng.below(5)];
    let to = match rng.below(5) {
        0 => 0.0,
        1 => near(rng, *option),
        2 => other,
        3 => near(rng, other),
        _ => *option + rng.between(-6, 6) as f64,
    };
    *option = plus(to.clamp(0.0, power(20)));
}

/// Points swapped, left out, there twice, in the middle of a run, or in the other direction.
fn change_route(job: &mut Job, rng: &mut Rng) {
    let Some(JobEdge { points, .. }) = any_of(&mut job.edges, rng) else {
        return;
    };
    if points.is_empty() {
        points.push((1.0, 1.0));
        return;
    }
    let (place, other) = (rng.below(points.len()), rng.below(points.len()));
    match rng.below(8) {
        0 => points.swap(place, other),
        1 => {
            points.remove(place);
        }
        // A bend left out: two points.
        2 if points.len() > 3 => {
            let place = place.min(points.len() - 2);
            points.drain(place..place + 2);
        }
        3 if points.len() < 64 => points.insert(place, points[place]),
        4 if points.len() < 64 && place > 0 => {
            let (from, to) = (points[place - 1], points[place]);
            points.insert(place, ((from.0 + to.0) / 2.0, (from.1 + to.1) / 2.0));
        }
        5 => points.reverse(),
        6 => points.truncate(place),
        _ => {
            points.drain(..place);
        }
    }
    for point in points {
        *point = (plus(point.0), plus(point.1));
    }
}

/// Members swapped, moved, left out or there twice; lanes.
fn change_members(job: &mut Job, rng: &mut Rng) {
    let edge = any_of(&mut job.edges, rng).map(|edge| edge.id);
    let given =
        any_of(&mut job.bundles, rng).and_then(|bundle| any_of(&mut bundle.members, rng).copied());
    let Some(JobBundle { members, .. }) = any_of(&mut job.bundles, rng) else {
        return;
    };
    if members.is_empty() {
        members.extend(given);
        return;
    }
    let (place, other) = (rng.below(members.len()), rng.below(members.len()));
    match rng.below(9) {
        0 => members.swap(place, other),
        1 => {
            members.remove(place);
        }
        2 => members.push(members[place]),
        3 => members.extend(given),
        4 => members[place].edge = edge.unwrap_or(members[place].edge),
        5 => {
            let lane = members[place].lane;
            members[place].lane = members[other].lane;
            members[other].lane = lane;
        }
        6 => members[place].lane = rng.below(12) as u16,
        7 => members[place].lane = rng.below(258) as u16,
        _ => {
            for (lane, member) in members.iter_mut().enumerate() {
                member.lane = lane as u16;
            }
        }
    }
}

/// A bundle's width or role, a bundle left out, or one more of the other role with the same members.
fn change_bundle(job: &mut Job, rng: &mut Rng) {
    if job.bundles.is_empty() {
        return;
    }
    let port = any_of(&mut job.ports, rng).map(|port| (port.node, port.id));
    let place = rng.below(job.bundles.len());
    let next = job.bundles.iter().map(|bundle| bundle.id).max();
    let next = next.unwrap_or(0).wrapping_add(1);
    let bundle = &mut job.bundles[place];
    match rng.below(6) {
        0 => bundle.width = rng.pick(&[0, 1, 2, 3, u32::MAX]),
        1 => bundle.width = bundle.members.len() as u32,
        2 => bundle.role ^= 1,
        3 => {
            job.bundles.remove(place);
        }
        _ => {
            let mut more = bundle.clone();
            more.id = next;
            more.role ^= 1;
            if let Some((node, port)) = port {
                (more.node, more.port) = (node, port);
            }
            let at = rng.below(job.bundles.len() + 1);
            job.bundles.insert(at, more);
        }
    }
}

/// Another port for a bundle or for an edge's end; another side or node for a port.
fn retarget(job: &mut Job, rng: &mut Rng) {
    let Some((node, id)) = any_of(&mut job.ports, rng).map(|port| (port.node, port.id)) else {
        return;
    };
    match rng.below(5) {
        0..=1 => {
            if let Some(bundle) = any_of(&mut job.bundles, rng) {
                (bundle.node, bundle.port) = (node, id);
            }
        }
        2 => {
            if let Some(edge) = any_of(&mut job.edges, rng) {
                (edge.source_node, edge.source_port) = (node, id);
            }
        }
        3 => {
            if let Some(edge) = any_of(&mut job.edges, rng) {
                (edge.target_node, edge.target_port) = (node, id);
            }
        }
        _ => {
            if let Some(port) = any_of(&mut job.ports, rng) {
                port.side = rng.below(4) as u8;
            }
        }
    }
}

/// Two bundles, edges, nodes or ports in each other's place.
fn change_order(job: &mut Job, rng: &mut Rng) {
    fn exchange<T>(list: &mut [T], rng: &mut Rng) {
        if !list.is_empty() {
            list.swap(rng.below(list.len()), rng.below(list.len()));
        }
    }
    match rng.below(6) {
        0..=2 => exchange(&mut job.bundles, rng),
        3 => exchange(&mut job.edges, rng),
        4 => exchange(&mut job.nodes, rng),
        _ => exchange(&mut job.ports, rng),
    }
}

/// Grants one below, at and one above what the accepted job pays, or somewhere below.
fn change_grant(job: &mut Job, from: &Accepted, rng: &mut Rng) {
    let (grant, paid) = match rng.below(2) {
        0 => (&mut job.tap_visits, from.tap),
        _ => (&mut job.geometry_visits, from.geometry),
    };
    *grant = match rng.below(4) {
        0 => paid.saturating_sub(1),
        1 => paid,
        2 => paid + 1,
        _ => rng.below(paid as usize + 1) as u32,
    };
}
