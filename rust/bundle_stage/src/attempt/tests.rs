//! On accepted boards what is drawn without the checks is what the stage draws, and on all the tests that are
//! made once more are those that the stage makes.

use std::fs;

use super::*;
use crate::Visits;
use crate::locate::checks::Checks;

/// normalize_layout's shift of a coordinate.
fn shifted(board: &Board, bundles: &mut [DrawnBundle], routes: &mut [Route]) {
    let mut points: Vec<&mut Point> = Vec::new();
    for bundle in bundles {
        let DrawnBundle {
            collector,
            spine,
            taps,
            ..
        } = bundle;
        for part in [collector, spine] {
            points.extend([&mut part.start, &mut part.end]);
        }
        points.extend(taps.iter_mut().map(|tap| &mut tap.point));
    }
    points.extend(routes.iter_mut().flat_map(|route| &mut route.points));
    let corners = board.nodes.iter().map(|node| (node.x, node.y));
    let all = points.iter().map(|at| (at.x, at.y)).chain(corners);
    let least = all.fold((0.0, 0.0), |least: (f64, f64), at| {
        (least.0.min(at.0), least.1.min(at.1))
    });
    for point in points {
        (point.x, point.y) = (point.x - least.0, point.y - least.1);
    }
}

fn same(board: &Board) -> bool {
    let Ok(sheet) = board.draw() else {
        return false;
    };
    let plan = board.plan().expect("a plan of a board that is drawn");
    let (mut bundles, mut routes) = board.unchecked(&plan, board.bundles.len());
    shifted(board, &mut bundles, &mut routes);
    // A difference of equal numbers has the sign of neither, and all numbers are finite.
    assert_eq!((bundles, routes), (sheet.bundles, sheet.routes));
    assert_eq!(board.attempt(), None);
    true
}

/// The stored jobs that are boards, those of the folder that PICTURE_JOBS names among them.
fn boards() -> Vec<Board> {
    let mut boards = Vec::new();
    for name in ["jobs.bin", "largest.bin"] {
        let path = format!("{}/../../stored/{name}", env!("CARGO_MANIFEST_DIR"));
        let bytes = fs::read(path).expect("a stored file");
        let mut rest = &bytes[..];
        while let Some((length, tail)) = rest.split_first_chunk() {
            let (record, tail) = tail.split_at(u32::from_be_bytes(*length) as usize);
            boards.extend(Board::from_bytes(record));
            rest = tail;
        }
    }
    if let Some(folder) = std::env::var_os("PICTURE_JOBS") {
        for entry in fs::read_dir(folder).expect("a folder") {
            let job = fs::read(entry.expect("an entry").path()).expect("a file");
            boards.extend(Board::from_bytes(&job));
        }
    }
    boards
}

/// The bundles and routes of every board that is accepted are the stage's.
#[test]
fn accepted_boards() {
    let count = boards().iter().filter(|board| same(board)).count();
    println!("{count} boards drawn as the stage draws them");
    assert!(count > 100, "{count} boards");
}

/// The least geometry grant with which the board is not refused with 14.
fn paid(board: &Board) -> u32 {
    let spent = |geometry| {
        let mut board = board.clone();
        board.grants.geometry = geometry;
        board.draw() == Err(Refusal::GeometryVisitsSpent)
    };
    let (mut low, mut high) = (0, board.grants.geometry);
    while low < high {
        let middle = low + (high - low) / 2;
        if spent(middle) {
            low = middle + 1;
        } else {
            high = middle;
        }
    }
    high
}

/// On boards that are drawn no test fails, on those that are refused with 11 or 12 the one of the refused
/// bundle's turn does, and the stage is paid a visit for each test.
#[test]
fn tests_that_are_paid() {
    let (mut drawn, mut refused) = (0, 0);
    for mut board in boards() {
        board.grants.geometry = Visits::MOST.geometry;
        let by_checks = [Refusal::ForbiddenContact, Refusal::RouteThroughNode];
        let answer = board.draw().err();
        let Ok(plan) = board.plan() else {
            continue;
        };
        let (last, due) = match answer {
            None => (board.bundles.len(), None),
            Some(refusal) if by_checks.contains(&refusal) => {
                (refused_turn(&board, &plan).expect("a turn") + 1, answer)
            }
            Some(_) => continue,
        };
        let (mut visits, mut failed) = (0, None);
        for count in 1..=last {
            assert_eq!(failed, None);
            let (bundles, routes) = board.unchecked(&plan, count);
            let mut checks = Checks::of(&board, &bundles, &routes);
            failed = checks.make().err();
            visits += checks.visits;
        }
        assert_eq!(failed.map(|failed| failed.refusal()), due);
        assert_eq!(visits, paid(&board), "{due:?}");
        (drawn, refused) = match due {
            None => (drawn + 1, refused),
            Some(_) => (drawn, refused + 1),
        };
    }
    println!("{drawn} drawn, {refused} refused");
    assert!(drawn > 100 && refused > 10);
}
