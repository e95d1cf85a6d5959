//! Whether anything rounds for a job on the drafting grid (document 02, F-2): the CPU's inexact flag,
//! cleared before a stage runs and read after it.
//!
//! What a stage works out comes from the job's bytes, which are handed over after the flag is cleared,
//! and ends in the answer's, which are taken before it is read: so no operation can be moved out of
//! between. The pitch less the tolerance, which rounds, is excepted: the oracle calls `keep` before
//! and `put_back` after it, so that what it does to the flag does not count.
//!
//! It is the Rust that is watched. The library's machine code works some differences out before the
//! branch that decides whether they are wanted, of bits that are then no number; so its flag says
//! nothing. Of the library it is proved; here its answers are compared.

use std::cell::Cell;
use std::hint::black_box;

use bundle_stage::{Answer, Point, Sheet};
use jobs::families::FAMILIES;
use jobs::mutations::Mutations;

use crate::outside::{has_rounded, set_has_rounded, stage};

thread_local! {
    static KEPT: Cell<bool> = const { Cell::new(false) };
}

fn keep() {
    KEPT.set(has_rounded());
}

fn put_back() {
    set_has_rounded(KEPT.get());
}

/// The answer, and whether an operation rounded on the way to it.
pub fn watched(job: &[u8], answer_of: impl Fn(&[u8]) -> Vec<u8>) -> (Vec<u8>, bool) {
    set_has_rounded(false);
    let answer = black_box(answer_of(black_box(job)));
    (answer, has_rounded())
}

fn ours(job: &[u8]) -> Vec<u8> {
    let mut answer = vec![0; oracle::stage::BUFFER];
    let count = stage(job, &mut answer);
    answer.truncate(count);
    answer
}

/// What was found on the jobs that the reader accepts.
#[derive(Clone, Copy, Debug, Default, Eq, PartialEq)]
pub struct Found {
    /// With bit 2, and of these accepted, and with collectors separated.
    pub on_grid: u64,
    pub accepted: u64,
    pub separate: u64,
    /// With bit 2, where the Rust rounds, the pitch less the tolerance not excepted.
    pub tolerance: u64,
    /// Without bit 2, and of these where the Rust rounds, the tolerance excepted.
    pub others: u64,
    pub rounded: u64,
}

/// Looks at all of them, or says at which job something rounds that must not.
pub fn of_jobs(jobs: impl Iterator<Item = Vec<u8>>) -> Result<Found, String> {
    let mut found = Found::default();
    for (index, job) in jobs.enumerate() {
        let Ok(read) = oracle::job::read(&job) else {
            continue;
        };
        oracle::stage::set_around_tolerance(keep, put_back);
        let (answer, rounded) = watched(&job, oracle::answer_of);
        oracle::stage::set_around_tolerance(|| {}, || {});
        if !read.on_grid {
            found.others += 1;
            found.rounded += u64::from(rounded);
            continue;
        }
        if rounded {
            return Err(format!("job {index}: the Rust rounds"));
        }
        let (same, tolerance) = watched(&job, oracle::answer_of);
        if answer != same || answer != ours(&job) {
            return Err(format!("job {index}: the answers differ"));
        }
        if tolerance && !read.separate {
            return Err(format!("job {index}: the Rust rounds, bit 0 being clear"));
        }
        found.on_grid += 1;
        found.separate += u64::from(read.separate);
        found.tolerance += u64::from(tolerance);
        found.accepted +=
            u64::from(whole_128ths(&answer).map_err(|what| format!("job {index}: {what}"))?);
    }
    Ok(found)
}

/// Whether the job is accepted; then every number of the answer is a multiple of 1/128 and no minus
/// zero. It is never refused with 13.
fn whole_128ths(answer: &[u8]) -> Result<bool, String> {
    match Answer::from_bytes(answer).map_err(|error| error.to_string())? {
        Answer::Refused(refusal) if refusal.number() == 13 => Err("refused with 13".to_string()),
        Answer::Refused(_) => Ok(false),
        Answer::Drawn(sheet) => {
            let odd = numbers(&sheet).into_iter().find(|number| {
                (number * 128.0).fract() != 0.0 || (*number == 0.0 && number.is_sign_negative())
            });
            odd.map_or(Ok(true), |number| Err(format!("{number:?} in the answer")))
        }
    }
}

/// Every number of a sheet.
fn numbers(sheet: &Sheet) -> Vec<f64> {
    let nodes = sheet.nodes.iter().map(|node| Point {
        x: node.x,
        y: node.y,
    });
    let routes = sheet.routes.iter().flat_map(|route| route.points.clone());
    let bundles = sheet.bundles.iter().flat_map(|bundle| {
        let ends = [bundle.collector, bundle.spine].map(|part| [part.start, part.end]);
        let taps = bundle.taps.iter().map(|tap| tap.point);
        ends.into_iter().flatten().chain(taps).collect::<Vec<_>>()
    });
    let points = nodes.chain(routes).chain(bundles);
    let points = points.flat_map(|point| [point.x, point.y]);
    points.chain([sheet.width, sheet.height]).collect()
}

/// Prints a table of `count` jobs of the family `grid` and of mutated ones, and of at most so many of
/// the other families. True where nothing rounds that must not, the excepted operation is met, and
/// jobs off the grid do round.
pub fn rounding(seed: u64, count: u64) -> bool {
    println!(
        "{:12} {:>8} {:>8} {:>8} {:>9} {:>8} {:>8}",
        "family", "bit 2", "accepted", "separate", "tolerance", "others", "rounded"
    );
    let mut mutations = Mutations::new(seed);
    let mutated = (
        "mutated",
        of_jobs((0..count).map(|index| mutations.job(index))),
    );
    let families = FAMILIES.iter().map(|family| {
        let count = match family.name {
            "grid" => count,
            _ => count.min(family.count),
        };
        let jobs = (0..count).map(|index| family.job(seed, index));
        (family.name, of_jobs(jobs))
    });
    let (mut well, mut tolerance, mut rounded) = (true, 0, 0);
    for (name, found) in families.chain([mutated]) {
        match found {
            Ok(found) => {
                println!(
                    "{name:12} {:>8} {:>8} {:>8} {:>9} {:>8} {:>8}",
                    found.on_grid,
                    found.accepted,
                    found.separate,
                    found.tolerance,
                    found.others,
                    found.rounded
                );
                tolerance += found.tolerance;
                rounded += found.rounded;
            }
            Err(message) => {
                println!("{name}, seed {seed}: {message}");
                well = false;
            }
        }
    }
    well && tolerance > 0 && rounded > 0
}
