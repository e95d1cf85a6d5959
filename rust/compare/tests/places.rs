//! The bundle that the binding names for a refusal by the drawing is the one at whose turn the Rust's
//! own functions refuse.

use bundle_stage::{Item, locate};
use jobs::families::FAMILIES;

#[test]
fn every_family() {
    let (mut told, mut silent) = ([0; 3], [0; 3]);
    for family in &FAMILIES {
        for index in 0..family.count.min(300) {
            let job = family.job(23, index);
            let Some((number @ 10..=12, bundle)) = oracle::stage::refused_at(&job) else {
                continue;
            };
            let refused = locate(&job).expect("refused");
            assert_eq!(refused.refusal.number(), number);
            let case = usize::from(number - 10);
            let bundles = refused.places.iter().flat_map(|place| place.items());
            let mut bundles = bundles.filter_map(|item| match item {
                Item::Bundle { place, .. } => Some(place),
                _ => None,
            });
            match bundles.next() {
                Some(named) => {
                    assert_eq!(named, bundle, "{} {index}: {refused}", family.name);
                    told[case] += 1;
                }
                None => silent[case] += 1,
            }
        }
    }
    println!("10, 11, 12: told {told:?}, not told {silent:?}");
    assert!(told.iter().all(|&count| count > 20), "{told:?}");
    assert_eq!(silent, [0; 3]);
}
