//! Jobs damaged at random, for a reader to be compared on: every family's jobs, each as it is and
//! with one or two damages, so that every number of the reader comes up often.

use oracle::job::{self, Job};

use crate::families::FAMILIES;
use crate::rng::Rng;

/// Numbers at the limits and beyond: zeros, infinities, NaN, 2^30 and 2^20 and a step beside them.
const NUMBERS: [u64; 16] = [
    0,
    0x8000_0000_0000_0000,
    0x7ff0_0000_0000_0000,
    0xfff0_0000_0000_0000,
    0x7ff8_0000_0000_0000,
    0x7ff0_0000_0000_0001,
    0x41d0_0000_0000_0000,
    0x41d0_0000_0000_0001,
    0xc1d0_0000_0000_0000,
    0xc1d0_0000_0000_0001,
    0x4130_0000_0000_0000,
    0x4130_0000_0000_0001,
    0x41cf_ffff_ffff_ffff,
    1,
    0x8000_0000_0000_0001,
    0xffff_ffff_ffff_ffff,
];
const BYTES: [u8; 11] = [0, 1, 2, 3, 4, 255, 128, 32, 33, 64, 65];
const COUNTS: [u16; 9] = [0, 1, 32, 33, 128, 129, 256, 257, 65_535];
/// Length, version, flags, options, grants and counts.
const HEAD: usize = 62;
const COUNTS_FROM: usize = 46;

/// All strings of up to two bytes; then of each family `jobs` jobs of at most `longest` bytes, each
/// with `times` damaged copies; of the first two also every truncation, if they are under 3,000
/// bytes.
pub fn damages(seed: u64, jobs: u64, times: u64, longest: usize, put: &mut dyn FnMut(&[u8])) {
    put(&[]);
    for first in 0..=255 {
        put(&[first]);
    }
    for pair in 0..=u16::MAX {
        put(&pair.to_be_bytes());
    }
    for family in &FAMILIES {
        for index in 0..jobs {
            let job = family.job(seed, index);
            if job.is_empty() || job.len() > longest {
                continue;
            }
            put(&job);
            if index < 2 && job.len() < 3_000 {
                truncations(&job, put);
            }
            let mut rng = Rng::new(family.name, seed ^ 0xda3a, index);
            for _ in 0..times {
                let mut copy = job.clone();
                for _ in 0..1 + rng.below(2) {
                    damage(&mut copy, &mut rng);
                }
                put(&copy);
            }
        }
    }
}

/// Every truncation, with the length as it was and set right.
fn truncations(job: &[u8], put: &mut dyn FnMut(&[u8])) {
    for length in 0..job.len() {
        let mut cut = job[..length].to_vec();
        put(&cut);
        set_length(&mut cut);
        put(&cut);
    }
}

fn set_length(job: &mut [u8]) {
    if let Some(length) = job.len().checked_sub(4) {
        job[..4].copy_from_slice(&(length as u32).to_be_bytes());
    }
}

/// One damage to the bytes of a job.
pub fn damage(job: &mut Vec<u8>, rng: &mut Rng) {
    if job.is_empty() {
        job.push(0);
    }
    let any = rng.below(job.len());
    match rng.below(11) {
        0 => job[any] ^= 1 << rng.below(8),
        1 => job[any] = rng.word() as u8,
        2 => {
            job.truncate(any);
            if rng.chance(3, 4) {
                set_length(job);
            }
        }
        3 => {
            for _ in 0..1 + rng.below(3) {
                job.push(rng.word() as u8);
            }
            if rng.chance(3, 4) {
                set_length(job);
            }
        }
        4 => overwrite(job, any, &rng.pick(&NUMBERS).to_be_bytes()),
        5 => copy_field(job, rng),
        6 => {
            let at = rng.below(job.len().min(HEAD));
            job[at] = rng.pick(&BYTES);
        }
        7 => {
            let at = COUNTS_FROM + rng.below(16);
            overwrite(job, at, &rng.pick(&COUNTS).to_be_bytes());
        }
        8 => insert_or_remove(job, rng),
        _ => {
            if let Ok(mut read) = job::read(job) {
                change_field(&mut read, rng);
                *job = read.encode();
            }
        }
    }
}

fn overwrite(job: &mut [u8], at: usize, with: &[u8]) {
    if let Some(place) = job.get_mut(at..at + with.len()) {
        place.copy_from_slice(with);
    }
}

/// Two, four or eight bytes of the tables, copied to another place in them: ids twice.
fn copy_field(job: &mut [u8], rng: &mut Rng) {
    let Some(room) = job.len().checked_sub(HEAD + 8).filter(|&room| room > 0) else {
        return;
    };
    let (from, to) = (HEAD + rng.below(room), HEAD + rng.below(room));
    let width = rng.pick(&[2, 4, 8]);
    job.copy_within(from..from + width, to);
}

/// Up to twenty bytes of the tables left out or there twice.
fn insert_or_remove(job: &mut Vec<u8>, rng: &mut Rng) {
    if job.len() <= HEAD {
        return;
    }
    let from = HEAD + rng.below(job.len() - HEAD);
    let to = (from + 1 + rng.below(20)).min(job.len());
    if rng.chance(1, 2) {
        job.drain(from..to);
    } else {
        let again = job[from..to].to_vec();
        job.splice(from..from, again);
    }
    set_length(job);
}

/// One field of a job that is accepted: ids twice (8), ids unknown (9), or neither.
fn change_field(job: &mut Job, rng: &mut Rng) {
    let kind = rng.below(12);
    let step = rng.below(5) as u32;
    let any = rng.below(300) as u32;
    if kind < 3 && !job.ports.is_empty() {
        let (to, from) = (rng.below(job.ports.len()), rng.below(job.ports.len()));
        match kind {
            0 => job.ports[to].id = job.ports[from].id,
            1 => job.ports[to] = job.ports[from].clone(),
            _ => job.ports[to].node = job.ports[to].node.wrapping_add(step),
        }
    } else if kind < 6 && !job.edges.is_empty() {
        let (to, from) = (rng.below(job.edges.len()), rng.below(job.edges.len()));
        match kind {
            3 => job.edges[to].id = job.edges[from].id,
            4 => job.edges[to].source_node = any,
            _ => job.edges[to].target_node = any,
        }
    } else if kind < 11 && !job.bundles.is_empty() {
        let (to, from) = (rng.below(job.bundles.len()), rng.below(job.bundles.len()));
        match kind {
            6 => job.bundles[to].id = job.bundles[from].id,
            7 => job.bundles[to].role ^= 1,
            8 => job.bundles[to].node = job.bundles[to].node.wrapping_add(step),
            9 => job.bundles[to].port = job.bundles[to].port.wrapping_add(step),
            _ => {
                let edge = job.bundles[from].members.last().map(|member| member.edge);
                if let Some(member) = job.bundles[to].members.first_mut() {
                    member.edge = edge.filter(|_| step > 0).unwrap_or(any);
                }
            }
        }
    } else if !job.nodes.is_empty() {
        let (to, from) = (rng.below(job.nodes.len()), rng.below(job.nodes.len()));
        job.nodes[to].id = job.nodes[from].id;
    }
}
