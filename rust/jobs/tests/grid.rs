//! The drafting grid (document 02, F-2): the two readings of it, and 15 exactly where a number is off
//! it, by place.

use jobs::damages::damages;
use jobs::families::{FAMILIES, family};
use jobs::mutations::Mutations;
use jobs::numbers::{Field, KINDS, fields, first_off_grid, is_on_grid};
use oracle::job;

const UNIT: f64 = 0.015625;
const LIMIT: f64 = 1_048_576.0;

#[test]
fn multiples_of_a_64th_up_to_2_to_the_20() {
    let on = [
        0.0,
        -0.0,
        UNIT,
        -UNIT,
        1.5,
        LIMIT,
        -LIMIT,
        LIMIT - UNIT,
        3.0 * UNIT,
    ];
    let off = [
        UNIT / 2.0,
        LIMIT + UNIT,
        -LIMIT - UNIT,
        LIMIT - UNIT / 2.0,
        0.1,
        1e-7,
        5e-324,
        LIMIT * 1024.0,
        f64::MIN_POSITIVE,
        f64::INFINITY,
        f64::NAN,
    ];
    assert!(on.iter().all(|value| is_on_grid(value.to_bits())));
    assert!(!off.iter().any(|value| is_on_grid(value.to_bits())));
    for whole in -1000..1000 {
        assert!(is_on_grid((f64::from(whole) * UNIT).to_bits()));
        assert!(!is_on_grid(((f64::from(whole) + 0.5) * UNIT).to_bits()));
    }
    for value in on.iter().filter(|value| **value != 0.0) {
        for by in [-1_i64, 1] {
            let beside = value.to_bits().wrapping_add_signed(by);
            assert!(!is_on_grid(beside), "{value} and a step");
        }
    }
}

fn number(job: &[u8]) -> u8 {
    oracle::number(&oracle::answer_of(job))
}

/// What is due by the walk over the fields and the oracle with bit 2 clear: 15 where the first number
/// that 7 lets pass and that is off the grid is reached. It is reached where a job cut inside it gets
/// 4: no field before it runs past the end.
fn due(job: &[u8]) -> u8 {
    let Some(&flags) = job.get(5) else {
        return number(job);
    };
    let mut cleared = job.to_vec();
    cleared[5] &= !4;
    let plain = number(&cleared);
    let off = first_off_grid(job).filter(|_| flags & 4 != 0);
    let Some(field) = off.filter(|_| plain != 1) else {
        return plain;
    };
    let mut cut = cleared[..field.at + 7].to_vec();
    let length = cut.len() as u32 - 4;
    cut[..4].copy_from_slice(&length.to_be_bytes());
    if number(&cut) == 4 { 15 } else { plain }
}

#[test]
fn fifteen_exactly_where_a_number_is_off_the_grid() {
    let (mut with_bit_2, mut refused) = (0, [0; KINDS.len()]);
    let mut look = |job: &[u8]| {
        let found = number(job);
        assert_eq!(found, due(job), "{job:02x?}");
        with_bit_2 += u32::from(job.get(5).is_some_and(|flags| flags & 4 != 0));
        if found == 15 {
            let field = first_off_grid(job).expect("a number off the grid");
            let kind = KINDS.iter().position(|&kind| kind == field.kind);
            refused[kind.expect("a kind")] += 1;
        }
    };
    for family in &FAMILIES {
        for index in 0..(family.count / 10).max(20) {
            let mut job = family.job(5, index * 7_919 % family.count);
            look(&job);
            // Every family with bit 2.
            if job.len() > 5 {
                job[5] |= 4;
                look(&job);
            }
        }
    }
    let mut mutations = Mutations::new(5);
    for index in 0..10_000 {
        look(&mutations.job(index));
    }
    damages(5, 4, 60, 1_000, &mut look);
    assert!(with_bit_2 > 20_000, "{with_bit_2} jobs");
    assert!(refused.iter().all(|&count| count > 100), "{refused:?}");
}

/// The Rust is fed the job with bit 2 clear: an accepted job's answer does not hang on it.
#[test]
fn the_answer_does_not_hang_on_bit_2() {
    let family = family("grid").expect("a family");
    let (mut accepted, mut deep) = (0, 0);
    for index in 0..3_000 {
        let job = family.job(6, index);
        let mut turned = job.clone();
        turned[5] ^= 4;
        let answer = oracle::answer_of(&job);
        assert_eq!(answer, oracle::answer_of(&turned), "job {index}");
        match oracle::number(&answer) {
            0 => accepted += 1,
            10..=14 => deep += 1,
            number => panic!("job {index}: {number}"),
        }
    }
    assert!(accepted > 1_500 && deep > 300, "{accepted} and {deep}");
}

/// The family has accepted jobs with numbers at the limit, and every kind of field in 64ths.
#[test]
fn the_largest_are_accepted() {
    let family = family("grid").expect("a family");
    let mut at_limit = 0;
    let mut odd = [0; KINDS.len()];
    for index in 0..4_000 {
        let bytes = family.job(7, index);
        if job::read(&bytes).is_ok_and(|job| job.on_grid) && number(&bytes) == 0 {
            let all = fields(&bytes);
            let value = |field: &Field| f64::from_bits(field.bits(&bytes));
            at_limit += u32::from(all.iter().any(|field| value(field).abs() == LIMIT));
            for (kind, count) in KINDS.into_iter().zip(&mut odd) {
                let of_kind = |field: &&Field| field.kind == kind;
                let odd_64ths = |field| (value(field) / UNIT) % 2.0 != 0.0;
                *count += u32::from(all.iter().filter(of_kind).any(odd_64ths));
            }
        }
    }
    assert!(at_limit > 100, "{at_limit}");
    assert!(odd.iter().all(|&count| count > 100), "{odd:?}");
}
