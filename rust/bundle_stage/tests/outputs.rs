//! What is given and wanted beside a job and its answer: plans, pages, crossings.

#![forbid(unsafe_code)]

use bundle_stage::*;

mod common;
use common::*;

/// Document 02, F-5: planned, then drawn from the plan; a plan of one's own; what does not fit.
#[test]
fn planned_and_drawn_later() {
    let board = board();
    let plan = board.plan().expect("planned");
    assert_eq!(plan.places, [Some(180.0)]);
    let sheet = board.draw().expect("drawn");
    assert_eq!(plan.tap_visits_left, sheet.visits_left.tap);
    assert_eq!(board.draw_from(&plan), Ok(sheet.clone()));
    let job = board.to_bytes().expect("small");
    let bytes = plan.to_bytes().expect("small");
    assert_eq!(bundle_stage::plan(&job), bytes);
    assert_eq!(answer_from(&job, &bytes), answer(&job));
    let wanted = Wanted::default().with_plan(&bytes);
    assert_eq!(board.draw_with(&wanted).expect("drawn").sheet, sheet);
    // Elsewhere, with other visits left; at the rail.
    let other = Plan {
        tap_visits_left: 7,
        places: vec![Some(150.0)],
    };
    let moved = board.draw_from(&other).expect("drawn");
    assert_eq!(moved.bundles[0].collector.start.x, 150.0);
    assert_eq!(moved.visits_left.tap, 7);
    let rail = Plan {
        places: vec![None],
        ..plan.clone()
    };
    let rail = board.draw_from(&rail).expect("drawn");
    assert!(!rail.bundles[0].interior);
    // Nothing of the board grants so many visits; an empty plan is a plan.
    let visits = Plan {
        tap_visits_left: Visits::MOST.tap + 1,
        ..plan.clone()
    };
    assert_eq!(board.draw_from(&visits), Err(Refusal::PlanMismatch));
    let empty = Wanted::default().with_plan(&[]);
    assert_eq!(board.draw_with(&empty), Err(Refusal::PlanMismatch));
    // The planner does not draw, and the drawing does not plan.
    let mut spent = board.clone();
    spent.grants.geometry = 0;
    assert_eq!(spent.plan(), Ok(plan.clone()));
    assert_eq!(spent.draw_from(&plan), Err(Refusal::GeometryVisitsSpent));
    assert_eq!(split_board().plan(), Err(Refusal::NoRoomToSplit));
    let rails = Plan {
        tap_visits_left: 0,
        places: vec![None; 2],
    };
    assert_ne!(split_board().draw_from(&rails), Err(Refusal::NoRoomToSplit));
    let mut wrong = board.clone();
    wrong.edges[1].id = Id::from(1);
    assert_eq!(wrong.plan(), Err(Refusal::DuplicateId));
    assert_eq!(wrong.draw_from(&visits), Err(Refusal::DuplicateId));
    // On the grid: minus zero and odd 256ths are none of its numbers.
    let mut grid = board.clone();
    grid.flags.on_grid = true;
    for (x, refused) in [
        (-0.0, true),
        (150.0 + 1.0 / 256.0, true),
        (150.0 + 1.0 / 128.0, false),
    ] {
        let plan = Plan {
            tap_visits_left: 0,
            places: vec![Some(x)],
        };
        let drawn = grid.draw_from(&plan);
        assert_eq!(drawn == Err(Refusal::PlannedNumber), refused, "{x}");
        assert_ne!(board.draw_from(&plan), Err(Refusal::PlannedNumber), "{x}");
    }
}

/// The board with crossings permitted and upright wires across the bundle's spine, at these places.
fn crossed(places: impl IntoIterator<Item = f64>) -> Board {
    let mut board = board();
    board.flags.permit_crossings = true;
    for (id, x) in (3..).zip(places) {
        let mut wire = board.edges[0].clone();
        wire.id = Id::from(id);
        wire.points = vec![at(x, -10.0), at(x, 110.0)];
        board.edges.push(wire);
    }
    board
}

/// Wires that go up and down over the spine: 16 of 63 runs, and one of so many.
fn winding(last: usize) -> Board {
    let mut board = crossed((0..17).map(|place| 70.5 + f64::from(place)));
    for (place, edge) in board.edges[2..].iter_mut().enumerate() {
        let runs = if place < 16 { 63 } else { last };
        let (up, down) = (edge.points[0], edge.points[1]);
        edge.points = [up, down].into_iter().cycle().take(runs + 1).collect();
    }
    board
}

/// Document 02, F-7: the list by y, then x, then edge; none where crossings are forbidden; 19 above 1,024,
/// before 16.
#[test]
fn the_list_of_crossings() {
    let wanted = Wanted::default().with_crossings();
    let board = crossed([150.0, 100.0, 150.0]);
    let drawn = board.draw_with(&wanted).expect("drawn");
    assert_eq!(Ok(drawn.sheet.clone()), board.draw());
    // Before the last shift, which moves all down by 10.
    assert_eq!(drawn.sheet.bundles[0].spine.start.y, 60.0);
    let crossing = |x: f64, edge: u32| Crossing {
        point: at(x, 50.0),
        bundle: Id::from(1),
        edge: Id::from(edge),
    };
    let due = [crossing(100.0, 4), crossing(150.0, 3), crossing(150.0, 5)];
    assert_eq!(drawn.crossings.as_deref(), Some(&due[..]));
    let mut buffers = Box::new(Buffers::default());
    let written = buffers.write(&board.to_bytes().expect("small"), &wanted);
    let bytes = written.crossings.expect("a list").to_vec();
    assert_eq!(
        (bytes.len(), &bytes[..2]),
        (2 + 3 * CROSSING_SIZE, &[0, 3][..])
    );
    assert_eq!(Crossing::list_from_bytes(&bytes), Ok(due.to_vec()));
    for length in 0..bytes.len() {
        assert!(Crossing::list_from_bytes(&bytes[..length]).is_err());
    }
    // Not wanted, there is none; with crossings forbidden it is empty.
    let nothing = board.draw_with(&Wanted::default()).expect("drawn");
    assert_eq!(nothing.crossings, None);
    let mut forbidden = crossed([]);
    forbidden.flags.permit_crossings = false;
    let drawn = forbidden.draw_with(&wanted).expect("drawn");
    assert_eq!(drawn.crossings, Some(Vec::new()));
    let mut forbidden = board.clone();
    forbidden.flags.permit_crossings = false;
    assert_eq!(forbidden.draw_with(&wanted), Err(Refusal::ForbiddenContact));
    let most = winding(16);
    let drawn = most.draw_with(&wanted).expect("drawn");
    assert_eq!(drawn.crossings.expect("a list").len(), 1_024);
    let more = winding(17);
    assert!(more.draw().is_ok());
    assert_eq!(more.draw_with(&wanted), Err(Refusal::TooManyCrossings));
    let both = wanted.with_page();
    assert_eq!(most.draw_with(&both), Err(Refusal::PageOffGrid));
    assert_eq!(more.draw_with(&both), Err(Refusal::TooManyCrossings));
}

/// How many there are, and where the most are.
#[test]
fn too_many_crossings() {
    let wanted = Wanted::default().with_crossings();
    let (most, more) = (winding(16), winding(17));
    let job = more.to_bytes().expect("small");
    let refused = locate_with(&job, &wanted).expect("too many");
    assert_eq!(refused.refusal, Refusal::TooManyCrossings);
    // 16 wires with 63 runs over the spine, and one with 17.
    assert_eq!(
        refused.to_string(),
        "no sheet: there are 1025 crossings; the most of a bundle, 1025, are of bundle 1, and the most of an \
         edge, 63, of edge 3"
    );
    let plan = bundle_stage::plan(&job);
    assert_eq!(locate_with(&job, &wanted.with_plan(&plan)), Some(refused));
    assert_eq!(locate(&job), None);
    let sheet = most.draw().expect("drawn");
    let list = most.crossings(&sheet, None);
    assert_eq!(list.map(|list| list.len()), Some(limits::CROSSINGS));
}

/// Where a page is wanted of a board that is not said to be on the grid: which numbers are off it.
#[test]
fn no_bundle_page() {
    let wanted = Wanted::default().with_page();
    let board = board();
    let said = |board: &Board| {
        let job = board.to_bytes().expect("small");
        locate_with(&job, &wanted).expect("off the grid").places[0].to_string()
    };
    assert_eq!(
        said(&board),
        "grid is no; all numbers of the board are on the drafting grid"
    );
    let mut off = board.clone();
    off.nodes[1].x += 0.01;
    assert_eq!(
        said(&off),
        "grid is no; one number is off the drafting grid, the x of node 2"
    );
    off.nodes[1].width += 0.01;
    assert_eq!(
        said(&off),
        "grid is no; 2 numbers are off the drafting grid, first the x of node 2"
    );
}

#[test]
fn plans_come_back() {
    for plan in [
        Plan {
            tap_visits_left: 0,
            places: Vec::new(),
        },
        Plan {
            tap_visits_left: u32::MAX,
            places: vec![None, Some(-0.0), Some(f64::NAN), None, Some(5e-324)],
        },
    ] {
        let bytes = plan.to_bytes().expect("small");
        let back = Plan::from_bytes(&bytes).expect("whole");
        assert_eq!(back.to_bytes().expect("small"), bytes);
        assert_eq!(format!("{back:?}"), format!("{plan:?}"));
        for length in 0..bytes.len() {
            assert!(Plan::from_bytes(&bytes[..length]).is_err());
        }
    }
    let mark = [0, 0, 0, 6, 1, 0, 0, 0, 0, 2];
    let words = Plan::from_bytes(&mark).expect_err("wrong").to_string();
    assert_eq!(words, "byte 9: expected a bundle's mark (0 or 1), found 2");
}

/// Document 02, F-4: the page of a board on the grid, and 16 after everything else.
#[test]
fn the_bundle_page() {
    let mut board = board();
    board.flags.on_grid = true;
    board.nodes[0].y -= 1.0 / 64.0;
    board.ports[0].offset += 1.0 / 64.0;
    let wanted = Wanted::default().with_page();
    let drawn = board.draw_with(&wanted).expect("drawn");
    assert_eq!(drawn.sheet, board.draw().expect("drawn"));
    assert_eq!(
        drawn.page.as_deref(),
        Some("         1 I          180.0000000           40.0000000           60.0000000\n")
    );
    let nothing = board.draw_with(&Wanted::default()).expect("drawn");
    assert_eq!((nothing.page, nothing.sheet), (None, drawn.sheet));
    board.flags.on_grid = false;
    assert_eq!(board.draw_with(&wanted), Err(Refusal::PageOffGrid));
    assert!(board.draw_with(&Wanted::default()).is_ok());
    let last = board.edges.len() - 1;
    board.edges[last].points.truncate(1);
    assert_eq!(board.draw_with(&wanted), Err(Refusal::TapUnreachable));
    board.edges[last].points = vec![at(0.0, 0.0); 65_536];
    assert_eq!(board.draw_with(&wanted), Err(Refusal::LimitExceeded));
}

/// The buffers hold what was written before; nothing of it is taken for what is written now.
#[test]
fn buffers_are_used_again() {
    let mut buffers = Box::new(Buffers::default());
    let wanted = Wanted::default().with_page();
    let records = stored("jobs.bin");
    let (mut pages, mut refused) = (0, 0);
    for pair in records.chunks_exact(2) {
        let (job, due) = (&pair[0], &pair[1]);
        let on_grid = job.get(5).is_some_and(|flags| flags & 4 != 0);
        let written = buffers.write(job, &wanted);
        if due[5] != 0 {
            assert_eq!((written.answer, written.page), (&due[..], None));
        } else if on_grid {
            assert_eq!(written.answer, due);
            let page = written.page.expect("a page");
            let bundles = usize::from(u16::from_be_bytes([due[34], due[35]]));
            assert_eq!(page.len(), bundles * PAGE_LINE_SIZE);
            let mut lines = page.chunks(PAGE_LINE_SIZE);
            assert!(lines.all(|line| line[75] == b'\n' && !line[..75].contains(&b'\n')));
            pages += 1;
        } else {
            assert_eq!(written.answer, [0, 0, 0, 2, 1, 16]);
            assert_eq!(written.page, None);
            refused += 1;
        }
        let written = buffers.write(job, &Wanted::default());
        assert_eq!((written.answer, written.page), (&due[..], None));
    }
    assert!(
        pages > 10 && refused > 10,
        "{pages} pages, {refused} with 16"
    );
}
