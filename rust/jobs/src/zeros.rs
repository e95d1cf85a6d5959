//! Minus zeros in the number fields of jobs and of searches (document 02, F-1): alone in each kind of
//! field, and many at once. Ids that look like one stay ids.

use oracle::job::Job;

use crate::damages::damage;
use crate::draft::{rename, rename_by};
use crate::families::any_board;
use crate::floats::clean;
use crate::numbers::{Field, KINDS, MINUS_ZERO, fields, search_fields};
use crate::rng::Rng;
use crate::values::{Axis, coordinates};

/// A board with minus zeros.
pub fn job(seed: u64, index: u64) -> Vec<u8> {
    let mut rng = Rng::new("zeros", seed, index);
    let mut job = any_board(&mut rng, seed);
    for axis in [Axis::X, Axis::Y] {
        if rng.chance(1, 2) {
            move_onto_zero(&mut rng, &mut job, axis);
        }
    }
    match rng.below(3) {
        0 => rename(&mut job, &mut rng),
        1 => look_like_minus_zeros(&mut job),
        _ => {}
    }
    let mut bytes = job.encode();
    put_in_job(&mut rng, &mut bytes);
    if rng.chance(1, 16) {
        damage(&mut bytes, &mut rng);
    }
    bytes
}

/// Moves the board so that one of its coordinates is 0.
fn move_onto_zero(rng: &mut Rng, job: &mut Job, axis: Axis) {
    let mut all = coordinates(job, axis);
    if all.is_empty() {
        return;
    }
    let by = *all[rng.below(all.len())];
    for value in &mut all {
        **value = clean(**value - by);
    }
}

/// For a job whose ids are places. A field of four bytes 80 00 00 00 before one of four zero bytes
/// looks like a minus zero: so do then port records, edges and bundles at the second node, the id of
/// the second edge and that of the second node where its x is 0.
fn look_like_minus_zeros(job: &mut Job) {
    let name = |place: u32| if place == 1 { 0x8000_0000 } else { place };
    let [nodes, edges, bundles] = [job.nodes.len(), job.edges.len(), job.bundles.len()]
        .map(|count| (0..count as u32).map(name).collect::<Vec<_>>());
    rename_by(job, &nodes, &edges, &bundles, 0);
}

/// Minus zeros in a job, by its number fields.
pub fn put_in_job(rng: &mut Rng, job: &mut [u8]) {
    let fields = fields(job);
    if rng.chance(1, 3) {
        // Alone, in a kind of field first.
        let kind = rng.pick(&KINDS);
        let of_kind = fields.iter().copied().filter(|field| field.kind == kind);
        let of_kind = of_kind.collect::<Vec<_>>();
        put_alone(
            rng,
            job,
            if of_kind.is_empty() {
                &fields
            } else {
                &of_kind
            },
        );
    } else {
        put_many(rng, job, &fields);
    }
}

/// Minus zeros in a search's record.
pub fn put_in_search(rng: &mut Rng, record: &mut [u8]) {
    let fields = search_fields(record);
    if rng.chance(1, 3) {
        put_alone(rng, record, &fields);
    } else {
        put_many(rng, record, &fields);
    }
}

/// One minus zero: mostly where zero is.
fn put_alone(rng: &mut Rng, bytes: &mut [u8], fields: &[Field]) {
    let zero = |field: &Field| bytes[field.at..field.at + 8] == [0; 8];
    let zeros = fields.iter().copied().filter(zero).collect::<Vec<_>>();
    let of = if !zeros.is_empty() && rng.chance(3, 4) {
        &zeros
    } else {
        fields
    };
    if !of.is_empty() {
        let field = rng.pick(of);
        put(bytes, field);
    }
}

/// Every zero, some of them and few other numbers, all numbers that are equal to one, or some of all;
/// one at least.
fn put_many(rng: &mut Rng, bytes: &mut [u8], fields: &[Field]) {
    if fields.is_empty() {
        return;
    }
    let any = rng.pick(fields);
    let equal = bytes[any.at..any.at + 8].to_vec();
    let how = rng.below(8);
    let mut none = true;
    for &field in fields {
        let number = &bytes[field.at..field.at + 8];
        let zero = number == [0; 8];
        let chosen = match how {
            0..=2 => zero,
            3..=4 => zero && rng.chance(1, 2) || rng.chance(1, 64),
            5..=6 => number == equal,
            _ => rng.chance(1, 4),
        };
        if chosen {
            put(bytes, field);
            none = false;
        }
    }
    if none {
        put(bytes, any);
    }
}

fn put(bytes: &mut [u8], field: Field) {
    bytes[field.at..field.at + 8].copy_from_slice(&MINUS_ZERO);
}
