//! Every refusal by name, the drafting grid, and minus zero.

#![forbid(unsafe_code)]

use std::collections::HashSet;
use std::error::Error;

use bundle_stage::*;

mod common;
use common::*;

/// The board with a change, and what the stage says to it.
fn changed(change: impl FnOnce(&mut Board)) -> Result<Sheet, Refusal> {
    let mut board = board();
    change(&mut board);
    board.draw()
}

/// What the stage says to the bytes of the board's job, changed.
fn changed_bytes(change: impl FnOnce(&mut Vec<u8>)) -> Result<Sheet, Refusal> {
    let mut job = board().to_bytes().expect("a small board");
    change(&mut job);
    let answer = Answer::from_bytes(&answer(&job)).expect("a whole answer");
    answer.into_result()
}

#[test]
fn every_refusal_by_name() {
    assert_eq!(changed_bytes(Vec::clear), Err(Refusal::LengthMismatch));
    assert_eq!(
        changed_bytes(|job| job.push(0)),
        Err(Refusal::LengthMismatch)
    );
    assert_eq!(
        changed_bytes(|job| job[4] = 2),
        Err(Refusal::UnknownVersion)
    );
    let cut = |job: &mut Vec<u8>| {
        job.pop();
        set_length(job);
    };
    assert_eq!(changed_bytes(cut), Err(Refusal::FieldsMismatch));
    let lane = |board: &mut Board| board.bundles[0].members[1].lane = 256;
    assert_eq!(changed(lane), Err(Refusal::LimitExceeded));
    let grant = |board: &mut Board| board.grants.tap += 1;
    assert_eq!(changed(grant), Err(Refusal::LimitExceeded));
    assert_eq!(
        changed_bytes(|job| job[5] = 8),
        Err(Refusal::ValueNotListed)
    );
    for wrong in [f64::NAN, f64::INFINITY, 2_f64.powi(30) + 1.0] {
        let moved = |board: &mut Board| board.nodes[0].x = wrong;
        assert_eq!(changed(moved), Err(Refusal::NumberOutOfRange), "{wrong}");
    }
    let twice = |board: &mut Board| board.edges[1].id = Id::from(1);
    assert_eq!(changed(twice), Err(Refusal::DuplicateId));
    let unknown = |board: &mut Board| board.bundles[0].endpoint.port = Id::from(9);
    assert_eq!(changed(unknown), Err(Refusal::UnknownId));
    let short = |board: &mut Board| board.edges[0].points.truncate(1);
    assert_eq!(changed(short), Err(Refusal::TapUnreachable));
    // A wire of another edge across the trunk.
    let foreign = |board: &mut Board| {
        let mut wire = board.edges[0].clone();
        wire.id = Id::from(3);
        wire.points = vec![at(100.0, 0.0), at(100.0, 100.0)];
        board.edges.push(wire);
    };
    assert_eq!(changed(foreign), Err(Refusal::ForbiddenContact));
    // A node between the collector and the far ends.
    let between = |board: &mut Board| board.nodes.push(node(3, 185.0, 35.0, 10.0, 10.0));
    assert_eq!(changed(between), Err(Refusal::RouteThroughNode));
    assert_eq!(split_board().draw(), Err(Refusal::NoRoomToSplit));
    let nothing = |board: &mut Board| board.grants.geometry = 0;
    assert_eq!(changed(nothing), Err(Refusal::GeometryVisitsSpent));
    let off_grid = |board: &mut Board| {
        board.flags.on_grid = true;
        board.nodes[0].x = 0.3;
    };
    assert_eq!(changed(off_grid), Err(Refusal::OffGrid));
    let page = Wanted::default().with_page();
    assert_eq!(board().draw_with(&page), Err(Refusal::PageOffGrid));
    let mut plan = board().plan().expect("planned");
    plan.places.push(None);
    assert_eq!(board().draw_from(&plan), Err(Refusal::PlanMismatch));
    plan.places = vec![Some(f64::NAN)];
    assert_eq!(board().draw_from(&plan), Err(Refusal::PlannedNumber));
}

/// Document 02, F-2: a multiple of 1/64 with magnitude at most 2^20, after 7 at the same number.
#[test]
fn the_drafting_grid() {
    let (unit, limit) = (1.0 / 64.0, 2_f64.powi(20));
    let with = |value: f64| {
        let mut board = board();
        board.flags.on_grid = true;
        // A wire of its own, far from the bundle.
        let mut wire = board.edges[0].clone();
        wire.id = Id::from(3);
        wire.points = vec![at(value, 500.0)];
        board.edges.push(wire);
        board
    };
    for on in [-unit, 1.5, -0.0, limit, -limit, limit - unit] {
        assert!(with(on).off_grid().is_empty(), "{on}");
        let sheet = with(on).draw().expect("drawn");
        let mut free = with(on);
        free.flags.on_grid = false;
        assert_eq!(free.draw(), Ok(sheet), "{on}");
    }
    for (off, nearest) in [
        (unit / 2.0, [0.0, unit]),
        (-unit / 2.0, [-unit, 0.0]),
        (limit + unit, [limit, limit]),
        (-limit - 1.0, [-limit, -limit]),
        (5e-324, [0.0, unit]),
        (0.3, [19.0 * unit, 20.0 * unit]),
    ] {
        let board = with(off);
        assert_eq!(board.draw(), Err(Refusal::OffGrid), "{off}");
        let [found] = &board.off_grid()[..] else {
            panic!("{:?}", board.off_grid());
        };
        assert_eq!(found.what(), "the x of point 1 of edge 3");
        let edge = Item::Edge {
            place: 2,
            id: Id::from(3),
        };
        assert_eq!((found.item, found.value), (edge, off));
        let beside = found.nearest().expect("no NaN");
        assert_eq!(beside.map(f64::to_bits), nearest.map(f64::to_bits), "{off}");
    }
    assert_eq!(with(f64::INFINITY).draw(), Err(Refusal::NumberOutOfRange));
    assert_eq!(with(f64::NAN).off_grid()[0].nearest(), None);
    // Every kind of field, in the job's order.
    let mut all = board();
    all.options.member_endpoint_reserve = 0.1;
    all.nodes[1].height = 0.1;
    all.ports[2].offset = 0.1;
    all.edges[0].points[3].y = 0.1;
    let names = all.off_grid();
    let names = names.iter().map(OffGrid::what);
    assert_eq!(
        names.collect::<Vec<_>>(),
        [
            "member_endpoint_reserve",
            "the height of node 2",
            "the offset of port 2:2",
            "the y of point 4 of edge 1"
        ]
    );
}

/// Document 02, F-1: the bytes keep the sign, the sheet is that of plus zero, and so is what is said
/// of its joints and its last shift.
#[test]
fn minus_zero_is_taken_as_plus_zero() {
    let with = |zero: f64| {
        let mut board = board();
        board.options.edge_node_clearance = zero;
        board.options.minimum_parallel_wire_spacing = zero;
        board.nodes[0].x = zero;
        board.nodes[1].y = zero;
        board.nodes.push(node(3, -80.0, -80.0, zero, zero));
        let mut wire = board.edges[0].clone();
        wire.id = Id::from(3);
        wire.points = vec![at(zero, zero), at(100.0, zero)];
        board.edges.push(wire);
        board
    };
    for shifted in [false, true] {
        let [plus, minus] = [0.0, -0.0].map(|zero| {
            let mut board = with(zero);
            if !shifted {
                board.nodes.pop();
            }
            board
        });
        assert_ne!(plus.to_bytes(), minus.to_bytes());
        let sheet = plus.draw().expect("drawn");
        let of_minus = answer(&minus.to_bytes().expect("small"));
        assert_eq!(of_minus, answer(&plus.to_bytes().expect("small")));
        assert_eq!(sheet.last_shift(&minus), sheet.last_shift(&plus));
        assert_eq!(sheet.false_joints(&minus), sheet.false_joints(&plus));
    }
}

#[test]
fn refusals_have_their_numbers_and_words() {
    for (refusal, number) in Refusal::ALL.iter().copied().zip(1..) {
        assert_eq!(refusal.number(), number);
        assert_eq!(Refusal::of_number(number), Some(refusal));
        let words = refusal.to_string();
        let start = format!("refused with {number}, caused by {}: ", refusal.caused_by());
        assert!(words.starts_with(&start), "{words}");
        assert!(words.ends_with(refusal.advice()), "{words}");
        let _: &dyn Error = &refusal;
    }
    assert_eq!(Refusal::of_number(0), None);
    assert_eq!(Refusal::of_number(20), None);
    let words = Refusal::ALL.iter().flat_map(|of| [of.fault(), of.advice()]);
    assert_eq!(words.collect::<HashSet<_>>().len(), 2 * Refusal::ALL.len());
}

/// The advice is no mistake whatever the board says: crossings may be permitted already.
#[test]
fn advice_about_crossings() {
    let advice = Refusal::ForbiddenContact.advice();
    let (_, behind) = advice
        .split_once("the board forbids crossings, ")
        .expect("a condition");
    assert_eq!(behind, "permit them.");
    assert_eq!(advice.matches("permit").count(), 1, "{advice}");
}

/// An error and its sources, printed one behind the other as is usual, say nothing twice.
#[test]
fn a_refusal_with_its_place_and_its_source() {
    let mut board = board();
    board.bundles[0].endpoint.port = Id::from(9);
    let refused = board.draw_detailed().expect_err("refused");
    let said = refused.to_string();
    assert_eq!(
        said,
        "no sheet: bundle 1 names port 1:9, and node 1 has no such port"
    );
    let source = refused.source().expect("a source").to_string();
    assert_eq!(source, Refusal::UnknownId.to_string());
    assert!(!said.contains(&source));
    // Where nothing is known of the place it is a sentence too.
    let planned = Plan {
        tap_visits_left: 0,
        places: vec![None; 70_000],
    };
    let refused = board.draw_from_detailed(&planned).expect_err("refused");
    assert!(refused.to_string().starts_with("no sheet"), "{refused}");
}

/// What names a record or says a kind can be a key.
#[test]
fn keys() {
    let ends = [end(1, 1), end(1, 2), end(1, 1)];
    assert_eq!(ends.into_iter().collect::<HashSet<_>>().len(), 2);
    let sides = [Side::North, Side::East, Side::North];
    assert_eq!(sides.into_iter().collect::<HashSet<_>>().len(), 2);
    let roles = [Role::Input, Role::Output, Role::Input];
    assert_eq!(roles.into_iter().collect::<HashSet<_>>().len(), 2);
}
