//! Jobs on the drafting grid (document 02, F-2): multiples of 1/64 with magnitude at most 2^20, bit 2
//! set; and such jobs with numbers off it.

use oracle::job::Job;

use crate::boards;
use crate::damages::damage;
use crate::draft::{Draft, Scale, rename};
use crate::families::{any_board, grid_job, realistic_draft, small_draft};
use crate::floats::{power, step};
use crate::numbers::{Field, KINDS, fields, is_on_grid};
use crate::rng::Rng;
use crate::values::all_numbers;

/// 1/64 and 2^20.
const UNIT: f64 = 0.015625;
const LIMIT: f64 = 1_048_576.0;

/// A board on the grid, bit 2 set in most of them.
pub fn job(seed: u64, index: u64) -> Vec<u8> {
    let mut rng = Rng::new("grid", seed, index);
    let mut job = any_on_grid(&mut rng);
    job.on_grid = rng.chance(7, 8);
    if rng.chance(3, 4) {
        rename(&mut job, &mut rng);
    }
    job.encode()
}

/// A board on the grid, with ids that are places.
pub fn any_on_grid(rng: &mut Rng) -> Job {
    match rng.below(4) {
        0 => grid_job(rng),
        1 => draft(rng).job(&Scale::ONE),
        2 => scaled(rng, 160),
        _ => largest(rng),
    }
}

fn draft(rng: &mut Rng) -> Draft {
    match rng.below(12) {
        0 => boards::random(rng),
        1 => boards::degenerate(rng),
        2 => boards::nothing_common(rng),
        3..=4 => boards::narrow(rng),
        5 => boards::fans(rng),
        6..=7 => realistic_draft(rng),
        _ => small_draft(rng),
    }
}

/// A board at a scale of up to `most` 64ths, moved by 64ths.
fn scaled(rng: &mut Rng, most: i64) -> Job {
    let shift = |rng: &mut Rng| rng.between(-6400, 6400) as f64 * UNIT;
    let scale = Scale {
        unit: rng.between(1, most) as f64 * UNIT,
        shift_x: shift(rng),
        shift_y: shift(rng),
    };
    draft(rng).job(&scale)
}

/// A board as large as the grid, or nearly, its largest or its least coordinate at the limit or some
/// 64ths from it.
fn largest(rng: &mut Rng) -> Job {
    let draft = draft(rng);
    let whole = draft.job(&Scale::ONE);
    let [x, y] = [|point: (f64, f64)| point.0, |point: (f64, f64)| point.1].map(|of| {
        let nodes = whole.nodes.iter().map(|node| (node.x, node.y));
        let points = whole.edges.iter().flat_map(|edge| edge.points.iter());
        let all = nodes.chain(points.copied()).map(of);
        all.fold((0.0_f64, 0.0_f64), |(low, high), value| {
            (low.min(value), high.max(value))
        })
    });
    // Sizes, offsets and options too have to be within the limit.
    let mut lengths = whole.clone();
    let lengths = all_numbers(&mut lengths)
        .into_iter()
        .map(|value| value.abs());
    let longest = lengths.fold(1.0, f64::max);
    let extent = (x.1 - x.0).max(y.1 - y.0).max(2.0 * longest);
    let most = (2.0 * LIMIT / extent / UNIT) as i64;
    let unit = match rng.below(3) {
        0 => most,
        _ => rng.between(most / 2, most),
    } as f64
        * UNIT;
    let mut shift = |(low, high): (f64, f64)| {
        let inside = rng.pick(&[0, 0, 1, 7]) as f64 * UNIT;
        match rng.below(3) {
            0 => LIMIT - inside - high * unit,
            1 => -LIMIT + inside - low * unit,
            _ => 0.0,
        }
    };
    let (shift_x, shift_y) = (shift(x), shift(y));
    draft.job(&Scale {
        unit,
        shift_x,
        shift_y,
    })
}

/// Jobs with bit 2 set and one or two numbers that are off the grid, or right at its limit, in each
/// kind of field; some with other damages, before or after them.
pub fn off_grid(seed: u64, index: u64) -> Vec<u8> {
    let mut rng = Rng::new("off grid", seed, index);
    let mut job = match rng.below(8) {
        0 => any_board(&mut rng, seed),
        1 => largest(&mut rng),
        _ => scaled(&mut rng, 160),
    };
    job.on_grid = true;
    if rng.chance(3, 4) {
        rename(&mut job, &mut rng);
    }
    let mut bytes = job.encode();
    let fields = fields(&bytes);
    for _ in 0..rng.pick(&[1, 1, 1, 2]) {
        let kind = rng.pick(&KINDS);
        let of_kind = fields.iter().copied().filter(|field| field.kind == kind);
        let of_kind = of_kind.collect::<Vec<_>>();
        if !of_kind.is_empty() {
            let field = rng.pick(&of_kind);
            put(&mut rng, &mut bytes, field);
        }
    }
    if rng.chance(1, 6) {
        damage(&mut bytes, &mut rng);
    }
    bytes
}

/// Another number in a field: off the grid by 1/128, by a step of the last bit or by its magnitude;
/// on it at the limit, or beside the old one.
fn put(rng: &mut Rng, bytes: &mut [u8], field: Field) {
    let old = f64::from_bits(field.bits(bytes));
    let sign = rng.pick(&[1.0, -1.0]);
    let number = match rng.below(12) {
        0..=1 => old + sign * UNIT / 2.0,
        2..=3 => step(old, rng.pick(&[-1, 1])),
        4 => sign * (LIMIT + UNIT),
        5 => sign * step(LIMIT, 1),
        6..=7 => sign * LIMIT,
        8 => sign * step(LIMIT, -1),
        9 => sign * power(30),
        10 => rng.pick(&[0.1, 1e-7, 5e-324, UNIT / 2.0, LIMIT - UNIT / 2.0]),
        _ => old + sign * UNIT,
    };
    bytes[field.at..field.at + 8].copy_from_slice(&number.to_be_bytes());
}

/// Sets bit 2 of a job, its numbers moved onto the grid where they are off it.
pub fn snap(job: &mut Job) {
    job.on_grid = true;
    for value in all_numbers(job) {
        if !is_on_grid(value.to_bits()) {
            *value = oracle::job::plus((*value / UNIT).round().clamp(-LIMIT / UNIT, LIMIT / UNIT))
                * UNIT;
        }
    }
}
