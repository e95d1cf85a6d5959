//! False joints and the last shift, a part of `compare joints`.

use compare::joints::of_jobs;
use jobs::families::FAMILIES;
use jobs::mutations::Mutations;

/// Families whose coordinates are small: no rounding makes a false joint there.
const MODEST: [&str; 8] = [
    "small",
    "realistic",
    "grid",
    "random",
    "depths",
    "nothing",
    "narrow",
    "fans",
];

#[test]
fn every_family() {
    for family in &FAMILIES {
        let jobs = (0..family.count.min(400)).map(|index| family.job(7, index));
        let found = of_jobs(jobs).expect(family.name);
        if MODEST.contains(&family.name) {
            assert_eq!(found.with_false_joints, 0, "{}", family.name);
            assert!(found.looked_at > 0, "{}", family.name);
        }
    }
}

#[test]
fn mutated_jobs() {
    let mut mutations = Mutations::new(7);
    let found = of_jobs((0..2_000).map(|index| mutations.job(index))).expect("mutated");
    assert!(found.looked_at > 100);
}
