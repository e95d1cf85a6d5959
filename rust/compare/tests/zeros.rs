//! Minus zero taken as plus zero (document 02, F-1): for every string tried, the stage's outcome is
//! that of the string with plus zeros, and the judge's.

use compare::check::Checker;
use compare::outside;
use jobs::damages::damages;
use jobs::families::family;
use jobs::mutations::Mutations;
use jobs::numbers::{fields, with_plus_zeros};

/// What the stage writes.
fn answer(job: &[u8]) -> Vec<u8> {
    let mut buffer = vec![0; oracle::stage::BUFFER];
    let count = outside::stage(job, &mut buffer);
    buffer.truncate(count);
    buffer
}

#[test]
fn the_outcome_is_that_of_plus_zeros() {
    let mut checker = Checker::new(outside::PROVED, 1);
    let mut changed = 0;
    let mut look = |job: &[u8]| {
        let same = with_plus_zeros(job, &fields(job));
        if same != job {
            assert_eq!(answer(job), answer(&same), "{job:02x?}");
            checker.check(job, changed).expect("the judge's bytes");
            changed += 1;
        }
    };
    let zeros = family("zeros").expect("a family");
    for index in 0..10_000 {
        look(&zeros.job(9, index));
    }
    let mut mutations = Mutations::new(9);
    for index in 0..10_000 {
        look(&mutations.job(index));
    }
    damages(9, 4, 100, 1_000, &mut look);
    assert!(changed > 10_000, "{changed} jobs");
}
