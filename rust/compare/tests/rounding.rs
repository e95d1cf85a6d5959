//! The CPU's flag for operations that round, a part of `compare rounding`.

use std::hint::black_box;

use compare::rounding::{of_jobs, watched};
use jobs::families::family;
use jobs::mutations::Mutations;

/// The sum of the bytes by `unit`, as bytes.
fn sum(unit: f64) -> impl Fn(&[u8]) -> Vec<u8> {
    move |bytes| {
        let sum = bytes
            .iter()
            .map(|&byte| f64::from(byte) * unit)
            .sum::<f64>();
        sum.to_be_bytes().to_vec()
    }
}

#[test]
fn the_flag_says_whether_an_operation_rounded() {
    let bytes = black_box([1, 2, 3]);
    assert!(!watched(&bytes, sum(0.015625)).1);
    assert!(watched(&bytes, sum(0.1)).1);
    assert!(!watched(&bytes, sum(1.0)).1);
}

#[test]
fn nothing_rounds_on_the_grid_but_the_pitch_less_the_tolerance() {
    let grid = family("grid").expect("a family");
    let found = of_jobs((0..4_000).map(|index| grid.job(7, index))).expect("nothing rounds");
    assert!(found.accepted > 1_500 && found.separate > 500, "{found:?}");
    assert!(found.tolerance > 50, "{found:?}");
    let mut mutations = Mutations::new(7);
    let found = of_jobs((0..4_000).map(|index| mutations.job(index))).expect("nothing rounds");
    assert!(found.accepted > 200 && found.rounded > 200, "{found:?}");
}

/// Jobs that round are seen to, so the flag is alive in the Rust too.
#[test]
fn other_jobs_round() {
    let others = family("adversarial").expect("a family");
    let found = of_jobs((0..500).map(|index| others.job(7, index))).expect("no bit 2");
    assert!(found.on_grid == 0 && found.rounded > 100, "{found:?}");
}
