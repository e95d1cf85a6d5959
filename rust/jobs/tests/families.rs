//! The families and the stored answers.

use std::path::Path;

use jobs::cases;
use jobs::families::{FAMILIES, family};
use jobs::survey::{NUMBERS, look};
use oracle::calls::{call, op};
use oracle::job::{self, Job};

#[test]
fn every_number_is_reached_and_a_third_accepted() {
    let mut counts = [0_u32; NUMBERS];
    for family in &FAMILIES {
        let count = (family.count / 50).max(20);
        for place in 0..count {
            // Scattered over the family, whose jobs may count up.
            let job = family.job(3, place * 7_919 % family.count);
            counts[usize::from(look(&job).1.number)] += 1;
        }
    }
    for (number, &count) in counts.iter().enumerate() {
        assert_eq!(count == 0, number == 2, "number {number}: {count}");
    }
    assert!(counts[0] * 3 >= counts.iter().sum());
}

#[test]
fn largest_jobs_have_49566_bytes() {
    let family = family("largest").expect("a family");
    for index in 0..6 {
        let job = family.job(1, index);
        assert_eq!(job.len(), 49_566);
        let answer = oracle::answer_of(&job);
        assert_eq!(oracle::number(&answer), 0);
        assert!(answer.len() <= 52_484);
    }
}

#[test]
fn patched_and_unpatched_plans_agree() {
    assert!(jobs::check::clamp(2, 300));
}

#[test]
fn stored_answers_are_unchanged() {
    let folder = Path::new(env!("CARGO_MANIFEST_DIR")).join("../../stored");
    assert_eq!(jobs::stored::check(&folder), Ok(true));
}

/// The visits of a plan that never runs out are at most the sum of n * (n + 2), and a grant of
/// that many leaves the plan as it is.
#[test]
fn a_sufficient_grant_spends_no_search() {
    let kind = cases::kind("plans").expect("a kind");
    let mut planned = 0;
    for index in 0..2_000 {
        let mut job = job::read(&kind.record(1, index)[1..]).expect("a job");
        let result = |operation: u8, job: &Job| {
            let record = [&[operation], &job.encode()[..]].concat();
            call(&record).expect("a call")
        };
        let sufficient = result(op::SUFFICIENT, &job);
        if sufficient[0] != 0 {
            continue;
        }
        let long =
            |at: usize| u64::from_be_bytes(sufficient[at..at + 8].try_into().expect("eight bytes"));
        let (sum, visits) = (long(5), long(13));
        assert!(visits <= sum, "case {index}");
        let Ok(grant @ ..=job::MAX_TAP_VISITS) = u32::try_from(sum) else {
            continue;
        };
        job.tap_visits = job::MAX_TAP_VISITS;
        let free = result(op::PLAN, &job);
        job.tap_visits = grant;
        let bound = result(op::PLAN, &job);
        assert_eq!(free[..free.len() - 4], bound[..bound.len() - 4]);
        planned += 1;
    }
    assert!(planned > 1_500);
}
