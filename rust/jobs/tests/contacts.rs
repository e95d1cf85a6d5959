//! The kinds of contact, by the Rust's yes or no and exact geometry.

use jobs::cases;
use jobs::contacts::{DECIDING, on_all_grids};
use oracle::calls::call;

#[test]
fn the_deciding_cases() {
    let kind = cases::kind("contacts").expect("a kind");
    for (index, case) in DECIDING.iter().enumerate() {
        let result = call(&kind.record(1, index as u64)).expect("a call");
        assert_eq!(result[0], case.number, "{}", case.shows);
    }
    // Where the bus is upright at x = -0, so is the crossing.
    let result = call(&kind.record(1, 17)).expect("a call");
    assert_eq!(result[1..9], (-0.0_f64).to_bits().to_be_bytes());
}

/// Every kind is met, and no doubt of the reference's is true.
#[test]
fn every_kind() {
    for name in ["contacts", "contact-grid"] {
        let kind = cases::kind(name).expect("a kind");
        let mut seen = [0; 6];
        for index in 0..20_000 {
            let result = call(&kind.record(3, index)).expect("a call");
            seen[usize::from(result[0])] += 1;
        }
        assert!(seen.iter().all(|&count| count > 50), "{name}: {seen:?}");
    }
}

#[test]
fn each_case_of_the_grids_once() {
    let kind = cases::kind("contact-grid").expect("a kind");
    let all = on_all_grids();
    assert_eq!(all, 8_808_616);
    assert_eq!(kind.record(1, 5), kind.record(2, 5 + all));
    let some = (0..10_000).map(|index| kind.record(1, index));
    assert_eq!(
        some.collect::<std::collections::BTreeSet<_>>().len(),
        10_000
    );
}
