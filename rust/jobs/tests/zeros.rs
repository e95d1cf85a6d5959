//! Minus zero taken as plus zero (document 02, F-1): the walks over jobs and searches, and that the
//! oracle gives the same for the bytes with plus zeros.

use jobs::cases;
use jobs::damages::damages;
use jobs::families::{FAMILIES, family};
use jobs::mutations::Mutations;
use jobs::numbers::{
    Field, KINDS, Kind, MINUS_ZERO, fields, minus_zeros, search_fields, with_plus_zeros,
};
use oracle::calls::{call, op};

/// Length, version, flags; five options; grants that look like minus zero; one node, one port, one
/// edge of one point, no bundle. The numbers are `number`, and the ids before a zero look like one.
fn sample(number: [u8; 8]) -> Vec<u8> {
    let id = [0x80, 0, 0, 0];
    let mut job = vec![0, 0, 0, 0, 1, 0];
    (0..5).for_each(|_| job.extend(number));
    job.extend(MINUS_ZERO);
    job.extend([0, 1, 0, 1, 0, 1, 0, 0]);
    job.extend(id);
    (0..4).for_each(|_| job.extend(number));
    job.extend(MINUS_ZERO);
    job.push(3);
    job.extend(number);
    job.extend(id);
    job.extend(MINUS_ZERO);
    job.extend(MINUS_ZERO);
    job.extend([0, 1]);
    (0..2).for_each(|_| job.extend(number));
    let length = job.len() as u32 - 4;
    job[..4].copy_from_slice(&length.to_be_bytes());
    job
}

fn plus(job: &[u8]) -> Vec<u8> {
    with_plus_zeros(job, &fields(job))
}

#[test]
fn every_number_field_and_no_other() {
    let (minus, due) = (sample(MINUS_ZERO), sample([0; 8]));
    assert_eq!(plus(&minus), due);
    assert_eq!(plus(&due), due);
    let kinds = fields(&minus)
        .iter()
        .map(|field| field.kind)
        .collect::<Vec<_>>();
    assert_eq!(kinds[..5], [Kind::Option; 5]);
    assert_eq!(
        kinds[5..9],
        [Kind::Coordinate, Kind::Coordinate, Kind::Size, Kind::Size]
    );
    assert_eq!(
        kinds[9..],
        [Kind::Offset, Kind::Coordinate, Kind::Coordinate]
    );
    // Cut anywhere: a number that is not there whole stays.
    for end in 0..minus.len() {
        let part = plus(&minus[..end]);
        let whole = fields(&minus)
            .iter()
            .filter(|field| field.at + 8 <= end)
            .count();
        assert_eq!(fields(&minus[..end]).len(), whole, "cut at {end}");
        for (place, &byte) in part.iter().enumerate() {
            let held = fields(&minus[..end])
                .iter()
                .any(|field| (field.at..field.at + 8).contains(&place));
            assert_eq!(byte, if held { 0 } else { minus[place] });
        }
    }
}

/// Jobs of all families, mutated ones, damaged ones and all their truncations: the same answer and
/// the same board for the bytes with plus zeros.
#[test]
fn answers_are_those_of_plus_zeros() {
    let (mut changed, mut accepted) = (0, [0; KINDS.len()]);
    let mut look = |job: &[u8]| {
        let (fields, same) = (fields(job), plus(job));
        if same == job {
            return;
        }
        changed += 1;
        let answer = oracle::answer_of(job);
        assert_eq!(answer, oracle::answer_of(&same), "{job:02x?}");
        assert_eq!(oracle::digest::digest(job), oracle::digest::digest(&same));
        if oracle::number(&answer) == 0 {
            for field in minus_zeros(job, &fields) {
                let kind = KINDS.iter().position(|&kind| kind == field.kind);
                accepted[kind.expect("a kind")] += 1;
            }
        }
    };
    for family in &FAMILIES {
        for index in 0..(family.count / 20).max(20) {
            look(&family.job(5, index * 7_919 % family.count));
        }
    }
    let mut mutations = Mutations::new(5);
    for index in 0..4_000 {
        look(&mutations.job(index));
    }
    damages(5, 4, 40, 1_000, &mut look);
    assert!(changed > 3_000, "{changed} jobs");
    assert!(accepted.iter().all(|&count| count > 50), "{accepted:?}");
}

/// Ids and grants that look like minus zero are in the family, where they are no number.
#[test]
fn ids_that_look_like_minus_zero() {
    let zeros = family("zeros").expect("a family");
    let look_alike = (0..400).filter(|&index| {
        let job = zeros.job(1, index);
        let numbers = minus_zeros(&job, &fields(&job)).count();
        job.windows(8).filter(|bytes| *bytes == MINUS_ZERO).count() > numbers
    });
    assert!(look_alike.count() > 50);
}

#[test]
fn searches_are_those_of_plus_zeros() {
    let kind = cases::kind("search").expect("a kind");
    let mut found = [0; 3];
    let mut by_field = [0; 2];
    for index in 0..20_000 {
        let record = kind.record(6, index);
        let fields = search_fields(&record);
        let same = with_plus_zeros(&record, &fields);
        if same == record {
            continue;
        }
        let result = call(&record);
        assert_eq!(result, call(&same), "case {index}");
        if result.expect("a call")[0] == 1 {
            found[usize::from(record[0] - op::SEARCH)] += 1;
            for &Field { kind, .. } in minus_zeros(&record, &fields) {
                by_field[usize::from(kind == Kind::Coordinate)] += 1;
            }
        }
    }
    assert!(found.iter().all(|&count| count > 50), "{found:?}");
    assert!(by_field.iter().all(|&count| count > 50), "{by_field:?}");
}
