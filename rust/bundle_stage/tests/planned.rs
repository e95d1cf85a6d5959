//! Where refusals of boards that are drawn from a plan have their cause.

#![forbid(unsafe_code)]

use bundle_stage::*;

mod common;
use common::*;

/// What is said of the board drawn from these bytes of a plan.
fn said(board: &Board, plan: &[u8]) -> (u8, Vec<String>) {
    let job = board.to_bytes().expect("small");
    let refused = locate_planned(&job, plan).expect("refused");
    let places = refused.places.iter().map(Place::to_string);
    (refused.refusal.number(), places.collect())
}

fn one(number: u8, words: &str) -> (u8, Vec<String>) {
    (number, vec![words.to_string()])
}

/// The plan of the board, which stands at an x: 18 bytes.
fn plan() -> Vec<u8> {
    let plan = board().plan().expect("a plan").to_bytes().expect("small");
    assert_eq!(plan.len(), 18);
    plan
}

fn changed(change: impl FnOnce(&mut Vec<u8>)) -> (u8, Vec<String>) {
    let mut plan = plan();
    change(&mut plan);
    let length = plan.len().saturating_sub(4) as u32;
    if plan.len() > 4 {
        plan[..4].copy_from_slice(&length.to_be_bytes());
    }
    said(&board(), &plan)
}

#[test]
fn plans_that_do_not_fit() {
    assert_eq!(
        said(&board(), &plan()[..17]),
        one(
            17,
            "byte 0 of the plan: the length says that 14 bytes follow it, and 13 do"
        )
    );
    assert_eq!(
        changed(|plan| plan.truncate(3)),
        one(
            17,
            "byte 0 of the plan: it ends before the end of its length"
        )
    );
    assert_eq!(
        changed(|plan| plan[4] = 9),
        one(17, "byte 4 of the plan: the version is 9")
    );
    assert_eq!(
        changed(|plan| plan.truncate(9)),
        one(
            17,
            "byte 9 of the plan: it ends before the end of the first entry, that of bundle 1"
        )
    );
    let mut poor = board();
    poor.grants.tap = 7;
    let words = &said(&poor, &plan()).1[0];
    assert!(words.starts_with("byte 5 of the plan: "), "{words}");
    assert!(
        words.ends_with(" tap visits are left, and tap_visits is 7"),
        "{words}"
    );
}

#[test]
fn entries_that_do_not_fit() {
    assert_eq!(
        changed(|plan| plan[9] = 2),
        one(
            17,
            "byte 9 of the plan: the mark of bundle 1 is 2, and marks are 0 and 1"
        )
    );
    assert_eq!(
        changed(|plan| plan.push(0)),
        one(
            17,
            "byte 18 of the plan: the entries of the board's bundles, 1 of them, end here, and 1 bytes \
             follow"
        )
    );
}

#[test]
fn numbers_that_cannot_be_planned() {
    let at = |x: f64| {
        let plan = Plan {
            tap_visits_left: 0,
            places: vec![Some(x)],
        };
        plan.to_bytes().expect("small")
    };
    for (x, word) in [
        (f64::NAN, "NaN"),
        (f64::INFINITY, "inf"),
        (-1.1e9, "-1100000000.0"),
    ] {
        let words = format!(
            "byte 10 of the plan: the x of bundle 1 is {word}; planned numbers are -2^30 to 2^30"
        );
        assert_eq!(said(&board(), &at(x)), one(18, &words));
    }
    let mut on_grid = board();
    on_grid.flags.on_grid = true;
    for (x, word) in [
        (1.0 / 256.0, "0.00390625"),
        (-0.0, "-0.0"),
        (1_048_577.0, "1048577.0"),
    ] {
        let words = format!(
            "byte 10 of the plan: the x of bundle 1 is {word}; on the drafting grid planned numbers are \
             multiples of 1/128 up to 2^20, and not minus zero"
        );
        assert_eq!(said(&on_grid, &at(x)), one(18, &words));
    }
}

/// A plan that leads the collector onto a wire: what the drawing from this plan meets.
#[test]
fn drawings_from_a_plan() {
    let mut board = board();
    wire(&mut board, 4, &[(170.0, 54.0), (170.0, 58.0)]);
    assert!(board.draw().is_ok());
    let mut plan = board.plan().expect("a plan");
    plan.places[0] = Some(170.0);
    let refused = board.draw_from_detailed(&plan).expect_err("they meet");
    assert_eq!(refused.refusal, Refusal::ForbiddenContact);
    assert_eq!(
        refused.places[0].to_string(),
        "the collector of bundle 1 would lie on the route of edge 4, from (170, 54) to (170, 58)"
    );
    plan.places[0] = Some(160.0);
    board.grants.geometry = 3;
    let refused = board.draw_from_detailed(&plan).expect_err("3 visits");
    assert_eq!(refused.refusal, Refusal::GeometryVisitsSpent);
    let words = refused.places[0].to_string();
    assert!(words.starts_with("geometry_visits is 3; with "), "{words}");
}

/// Whatever is done to a plan, a place is told of each 17 and 18, so that it is read as the stage reads it.
#[test]
fn every_byte_of_a_plan() {
    let mut grid = board();
    grid.flags.on_grid = true;
    let mut told = [0; 2];
    for board in [board(), grid] {
        let job = board.to_bytes().expect("small");
        let plan = board.plan().expect("a plan").to_bytes().expect("small");
        let cut = (0..plan.len()).map(|length| plan[..length].to_vec());
        let mut all = cut.collect::<Vec<_>>();
        for place in 0..plan.len() {
            for byte in [0, 1, 2, 0x40, 0x7f, 0x80, 0xff] {
                let mut plan = plan.clone();
                plan[place] = byte;
                all.push(plan);
            }
        }
        for plan in all {
            let Some(refused) = locate_planned(&job, &plan) else {
                continue;
            };
            if refused.refusal.caused_by() == Cause::Plan {
                told[usize::from(refused.refusal == Refusal::PlannedNumber)] += 1;
            }
            assert!(!refused.places.is_empty(), "{plan:?}: {refused}");
        }
    }
    assert!(told[0] > 50 && told[1] > 5, "{told:?}");
}
