//! False joints of sheets as they stand in the answer, and what is known of the last shift.

#![forbid(unsafe_code)]

use std::fs;

use bundle_stage::*;

mod common;
use common::{at, board as two_wires, end, node};

fn file(name: &str) -> Vec<u8> {
    fs::read(format!("{}/{name}", env!("CARGO_MANIFEST_DIR"))).expect("a file of the repository")
}

fn job(name: &str) -> (Board, Sheet) {
    let board = Board::from_bytes(&file(name)).expect("a whole job");
    let sheet = board.draw().expect("an accepted job");
    (board, sheet)
}

fn from(start: Point, end: Point) -> Segment {
    Segment { start, end }
}

/// The two wires of bundle 1, which has its collector at x = 180 from y = 40 to 60 and its spine at
/// y = 50 from x = 40; wire 3 below them, in no bundle; and a node that no wire reaches.
fn board() -> Board {
    let mut board = two_wires();
    let target = end(2, 3);
    let points = vec![at(0.0, 120.0), at(200.0, 120.0)];
    let source = board.edges[0].source;
    board.edges.push(Edge {
        id: Id::from(3),
        source,
        target,
        points,
    });
    board.nodes.push(node(3, 100.0, 200.0, 10.0, 10.0));
    board
}

/// The false joints of the board's sheet with a change.
fn joints(change: impl FnOnce(&mut Sheet)) -> Vec<FalseJoint> {
    let board = board();
    let mut sheet = board.draw().expect("drawn");
    change(&mut sheet);
    sheet
        .false_joints(&board)
        .expect("crossings are not permitted")
}

fn joint(meeting: Meeting, start: Point, end: Point) -> FalseJoint {
    FalseJoint {
        meeting,
        shared: from(start, end),
    }
}

// ---- the rounding of the last shift

#[test]
fn a_gap_that_the_shift_closes() {
    let (board, sheet) = job("tests/data/gap-closed-by-the-shift.job");
    let tap = sheet.bundles[0].taps[0].point;
    assert_eq!(tap.x, 2_f64.powi(30) + 18.0);
    let meeting = Meeting::Route {
        route: Id::from(7),
        bundle: Id::from(1),
    };
    // The collector is the tap alone, and so is the end of the spine: it is said once.
    let due = joint(meeting, tap, tap);
    assert_eq!(sheet.false_joints(&board), Some(vec![due]));
    let LastShift { x, y } = sheet.last_shift(&board);
    assert_eq!((x, y), (Shift::Rounded, Shift::NotKnown));
    // On a sheet that is not shifted so far, the gap stays.
    let mut near = board.clone();
    near.nodes[1].x = -1024.0;
    let sheet = near.draw().expect("accepted");
    assert_eq!(sheet.false_joints(&near), Some(Vec::new()));
}

/// It takes no large numbers.
#[test]
fn a_gap_that_closes_among_thirds() {
    let (board, sheet) = job("tests/data/gap-closed-among-thirds.job");
    let meeting = Meeting::Route {
        route: Id::from(1),
        bundle: Id::from(1),
    };
    let Segment { start, end } = sheet.bundles[0].spine;
    let (collector, spine) = (joint(meeting, end, end), joint(meeting, start, end));
    assert_eq!(sheet.false_joints(&board), Some(vec![collector, spine]));
    let LastShift { x, y } = sheet.last_shift(&board);
    assert_eq!((x, y), (Shift::Nothing, Shift::Rounded));
    assert!(sheet.width < 40.0 && sheet.height < 40.0);
}

#[test]
fn a_far_side_that_the_shift_moves() {
    let (board, sheet) = job("tests/data/far-side-by-the-shift.job");
    let meeting = Meeting::Node {
        route: Id::from(6),
        node: Id::from(2),
    };
    let x = 2_f64.powi(28);
    let due = joint(meeting, at(x, 50.0), at(x, 150.0));
    assert_eq!(sheet.false_joints(&board), Some(vec![due]));
    assert_eq!(sheet.nodes[1].x, 0.0);
    let LastShift { x, y } = sheet.last_shift(&board);
    // Nothing is rounded but that far side.
    assert_eq!((x, y), (Shift::Rounded, Shift::Nothing));
    let mut whole = board.clone();
    whole.nodes[1].width = 2_f64.powi(28);
    let sheet = whole.draw().expect("accepted");
    assert_eq!(sheet.last_shift(&whole).x, Shift::NotKnown);
    assert_eq!(sheet.false_joints(&whole), Some(Vec::new()));
}

/// What is known of the shift of the board with a change.
fn known(change: fn(&mut Board)) -> (Shift, Shift) {
    let mut board = board();
    change(&mut board);
    let LastShift { x, y } = board.draw().expect("drawn").last_shift(&board);
    (x, y)
}

use Shift::{Exact, NotKnown, Nothing, Rounded};

#[test]
fn nothing_is_subtracted() {
    assert_eq!(known(|_| {}), (Nothing, Nothing));
    // Off the grid, but nothing is below 0: a known coordinate is 0, or none is.
    assert_eq!(known(|board| board.nodes[2].x = 100.1), (Nothing, Nothing));
    let right = |board: &mut Board| {
        board.nodes.iter_mut().for_each(|node| node.x += 0.1);
        let points = board.edges.iter_mut().flat_map(|edge| &mut edge.points);
        points.for_each(|point| point.x += 0.1);
    };
    assert_eq!(known(right), (Nothing, Nothing));
}

#[test]
fn something_is_subtracted() {
    // On the grid and off it.
    assert_eq!(known(|board| board.nodes[2].x = -3.25), (Exact, Nothing));
    assert_eq!(known(|board| board.nodes[2].x = -0.1), (Rounded, Nothing));
    assert_eq!(
        known(|board| board.nodes[2].x = -1.0 / 128.0),
        (NotKnown, Nothing)
    );
    assert_eq!(
        known(|board| board.nodes[2].y = -2_097_152.0),
        (Nothing, NotKnown)
    );
    // Far off it, by less than the last bit of most numbers.
    assert_eq!(
        known(|board| board.nodes[2].x = -f64::from_bits(1)),
        (Rounded, Nothing)
    );
    // Only a bundle's collector is below 0 before the shift, so that what was subtracted is not known.
    let left = |board: &mut Board| {
        board.nodes.iter_mut().for_each(|node| node.x += 0.1);
        board.ports[0].side = Side::West;
        board.edges.clear();
        board.bundles[0].role = Role::Output;
        board.bundles[0].members.clear();
    };
    assert_eq!(known(left), (NotKnown, Nothing));
}

#[test]
fn sheets_of_the_repository() {
    let (board, sheet) = job("../../examples/clock-board.job");
    assert_eq!(sheet.false_joints(&board), Some(Vec::new()));
    assert!(sheet.last_shift(&board).is_exact());
    let (mut looked_at, mut exact) = (0, 0);
    for name in ["jobs.bin", "largest.bin"] {
        let bytes = file(&format!("../../stored/{name}"));
        let mut rest = &bytes[..];
        let mut record = || {
            let (length, tail) = rest.split_first_chunk()?;
            let (record, tail) = tail.split_at(u32::from_be_bytes(*length) as usize);
            rest = tail;
            Some(record)
        };
        while let Some((job, answer)) = record().zip(record()) {
            if let Ok(Answer::Drawn(sheet)) = Answer::from_bytes(answer) {
                let board = Board::from_bytes(job).expect("it is accepted");
                let joints = sheet.false_joints(&board);
                assert_eq!(joints.is_none(), board.flags.permit_crossings);
                assert_eq!(joints.unwrap_or_default(), []);
                looked_at += u32::from(!board.flags.permit_crossings);
                exact += u32::from(sheet.last_shift(&board).is_exact());
            }
        }
    }
    assert!(looked_at > 50 && exact > 50, "{looked_at}, {exact}");
}

// ---- each kind of false joint

#[test]
fn as_drawn_there_is_none() {
    assert_eq!(joints(|_| {}), []);
    let mut board = board();
    board.flags.permit_crossings = true;
    let sheet = board.draw().expect("drawn");
    assert_eq!(sheet.false_joints(&board), None);
}

#[test]
fn a_route_on_a_bundle() {
    let meeting = Meeting::Route {
        route: Id::from(3),
        bundle: Id::from(1),
    };
    // Through the collector, along it, along the spine, ending on it.
    let moved =
        |start: Point, end: Point| joints(|sheet| sheet.routes[2].points = vec![start, end]);
    assert_eq!(
        moved(at(150.0, 55.0), at(190.0, 55.0)),
        [joint(meeting, at(180.0, 55.0), at(180.0, 55.0))]
    );
    assert_eq!(
        moved(at(180.0, 80.0), at(180.0, 55.0)),
        [joint(meeting, at(180.0, 55.0), at(180.0, 60.0))]
    );
    assert_eq!(
        moved(at(20.0, 50.0), at(60.0, 50.0)),
        [joint(meeting, at(40.0, 50.0), at(60.0, 50.0))]
    );
    assert_eq!(
        moved(at(80.0, 50.0), at(80.0, 90.0)),
        [joint(meeting, at(80.0, 50.0), at(80.0, 50.0))]
    );
    // At another's tap.
    assert_eq!(moved(at(180.0, 60.0), at(200.0, 60.0)).len(), 1);
    // Beside it, and a run of no length.
    assert_eq!(moved(at(180.0, 60.0_f64.next_up()), at(180.0, 90.0)), []);
    let below = 50.0_f64.next_up();
    assert_eq!(moved(at(60.0, below), at(100.0, below)), []);
    assert_eq!(moved(at(180.0, 50.0), at(180.0, 50.0)), []);
}

#[test]
fn a_member_beside_its_tap() {
    let meeting = Meeting::Route {
        route: Id::from(1),
        bundle: Id::from(1),
    };
    let started = |x: f64, y: f64| {
        joints(|sheet| {
            sheet.routes[0].points[0] = at(x, y);
            sheet.routes[0].points[1].y = y;
        })
    };
    // In the same place as the tap: within 1e-7.
    assert_eq!(started(180.0, 40.0 + 0.9e-7), []);
    assert_eq!(started(180.0 - 0.9e-7, 40.0), []);
    let off = at(180.0, 40.0 + 2e-7);
    assert_eq!(started(off.x, off.y), [joint(meeting, off, off)]);
    // The tap is inside the run.
    let tap = at(180.0, 40.0);
    assert_eq!(started(179.0, 40.0), [joint(meeting, tap, tap)]);
    // It starts at the tap, but runs along the collector.
    let down = at(180.0, 45.0);
    let along = joints(|sheet| sheet.routes[0].points = vec![tap, down]);
    assert_eq!(along, [joint(meeting, tap, down)]);
    // Nothing is listed with this route.
    let unlisted = joints(|sheet| sheet.bundles[0].taps[0].edge = Id::from(9));
    assert_eq!(unlisted, [joint(meeting, tap, tap)]);
}

#[test]
fn two_bundles() {
    let meeting = Meeting::Bundles {
        earlier: Id::from(1),
        later: Id::from(2),
    };
    let with = |collector: Segment, spine: Segment| {
        joints(|sheet| {
            sheet.bundles.push(DrawnBundle {
                id: Id::from(2),
                interior: false,
                collector,
                spine,
                taps: Vec::new(),
            });
        })
    };
    let apart = from(at(100.0, 150.0), at(100.0, 160.0));
    let point = from(at(100.0, 50.0), at(100.0, 50.0));
    assert_eq!(with(apart, from(apart.start, apart.start)), []);
    assert_eq!(
        with(point, apart),
        [joint(meeting, point.start, point.start)]
    );
    let crossing = from(at(100.0, 45.0), at(100.0, 80.0));
    assert_eq!(
        with(apart, crossing),
        [joint(meeting, point.start, point.start)]
    );
}

/// Segments of no length may share their point.
#[test]
fn two_bundles_of_no_length() {
    let mut board = board();
    board.options = Options::default();
    board.edges.clear();
    board.bundles[0].members.clear();
    board.bundles.push(Bundle {
        id: Id::from(2),
        ..board.bundles[0].clone()
    });
    let sheet = board.draw().expect("accepted");
    assert_eq!(sheet.bundles[0].collector, sheet.bundles[1].collector);
    assert_eq!(sheet.false_joints(&board), Some(Vec::new()));
}

#[test]
fn a_member_in_a_node() {
    let meeting = Meeting::Node {
        route: Id::from(1),
        node: Id::from(3),
    };
    let moved = |x: f64, y: f64| joints(|sheet| (sheet.nodes[2].x, sheet.nodes[2].y) = (x, y));
    assert_eq!(
        moved(185.0, 35.0),
        [joint(meeting, at(185.0, 40.0), at(195.0, 40.0))]
    );
    assert_eq!(moved(185.0, 30.0), [], "along its lower side");
    assert_eq!(moved(185.0, 40.0), [], "along its upper side");
    assert_eq!(moved(170.0, 35.0), [], "up to its side");
    // Route 3 is no member.
    assert_eq!(moved(100.0, 115.0), []);
    // Its own node.
    assert_eq!(joints(|sheet| sheet.nodes[1].x = 190.0), []);
}

#[test]
fn slanted_ones_and_numbers_that_are_no_places() {
    let (a, b) = (at(0.0, 120.0), at(200.0, 121.0));
    let route = Meeting::SlantedRoute { route: Id::from(3) };
    let slanted = joints(|sheet| sheet.routes[2].points = vec![a, b]);
    assert_eq!(slanted, [joint(route, a, b)]);
    for number in [f64::NAN, f64::INFINITY] {
        // From the same x, so that only the number tells.
        let ends = vec![at(0.0, 120.0), at(0.0, number)];
        let found = joints(|sheet| sheet.routes[2].points = ends);
        assert_eq!(found.len(), 1);
        assert_eq!(found[0].meeting, route);
    }
    let found = joints(|sheet| sheet.bundles[0].spine.end.y = 51.0);
    assert_eq!(
        found[0].meeting,
        Meeting::SlantedBundle {
            bundle: Id::from(1)
        }
    );
}
