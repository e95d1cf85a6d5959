//! What was tried on boards that are refused by the drawing, and the stored jobs: of each refusal a place.

#![forbid(unsafe_code)]

use bundle_stage::*;

mod common;
use common::*;

/// The attempt of the board with a change: its collector, the edges whose routes were led, and where it
/// was refused.
fn tried(change: impl FnOnce(&mut Board)) -> (Segment, Option<Segment>) {
    let mut board = board();
    change(&mut board);
    let attempt = board.attempt().expect("refused by the drawing");
    assert_eq!(attempt.refused.id, Id::from(1));
    assert_eq!(attempt.routes.len(), board.edges.len());
    (attempt.refused.collector, attempt.at)
}

fn from(start: Point, end: Point) -> Segment {
    Segment { start, end }
}

#[test]
fn attempts() {
    assert_eq!(board().attempt(), None, "it is drawn");
    let inside = from(at(180.0, 40.0), at(180.0, 60.0));
    // A wire across the spine, and one that lies on the collector's way.
    let (collector, place) = tried(|board| wire(board, 3, &[(100.0, 0.0), (100.0, 100.0)]));
    assert_eq!(collector, inside);
    assert_eq!(place, Some(from(at(100.0, 50.0), at(100.0, 50.0))));
    let (collector, place) = tried(|board| wire(board, 4, &[(180.0, 55.0), (199.0, 55.0)]));
    assert_eq!(collector, inside);
    assert_eq!(place, Some(from(at(180.0, 55.0), at(180.0, 55.0))));
    // One that comes too close: what is between them.
    let (_, place) = tried(|board| {
        board.options.minimum_parallel_wire_spacing = 5.0;
        wire(board, 4, &[(183.0, 44.0), (183.0, 48.0)]);
    });
    assert_eq!(place, Some(from(at(180.0, 44.0), at(183.0, 48.0))));
    // A node in the way of a member.
    let between = node(3, 185.0, 35.0, 10.0, 10.0);
    let (collector, place) = tried(|board| board.nodes.push(between));
    assert_eq!(collector, inside);
    assert_eq!(place, Some(from(at(185.0, 40.0), at(195.0, 40.0))));
    // A member that cannot be led to its tap at the rail.
    let (collector, place) = tried(|board| board.edges[1].points.truncate(1));
    let tap = at(60.0, 55.0);
    assert_eq!(collector, from(at(60.0, 45.0), tap));
    assert_eq!(place, Some(from(tap, tap)));
}

/// What was tried from a plan: with the board's own the same; with another where that has the collector.
#[test]
fn attempts_from_a_plan() {
    let mut crossed = board();
    wire(&mut crossed, 3, &[(100.0, 0.0), (100.0, 100.0)]);
    let own = crossed.plan().expect("a plan");
    assert_eq!(crossed.attempt_from(&own), crossed.attempt());
    assert!(crossed.attempt().is_some());
    // A wire above the spine: the board is drawn from its own plan, and refused where the collector is planned
    // on it.
    let mut beside = board();
    wire(&mut beside, 3, &[(70.0, 0.0), (70.0, 44.0)]);
    assert_eq!(beside.attempt(), None);
    let mut plan = beside.plan().expect("a plan");
    assert_eq!(beside.attempt_from(&plan), None);
    plan.places[0] = Some(70.0);
    assert_eq!(beside.draw_from(&plan), Err(Refusal::ForbiddenContact));
    let attempt = beside.attempt_from(&plan).expect("refused by the drawing");
    assert_eq!(
        attempt.refused.collector,
        from(at(70.0, 40.0), at(70.0, 60.0))
    );
    assert_eq!(attempt.at.map(|at| at.start), Some(at(70.0, 40.0)));
    plan.places.push(None);
    assert_eq!(beside.attempt_from(&plan), None, "17 is not by the drawing");
}

/// A second bundle on the first one's collector.
fn two_bundles() -> Board {
    let mut board = board();
    board.ports.push(Port {
        node: Id::from(1),
        id: Id::from(2),
        side: Side::East,
        offset: 25.0,
    });
    for (id, y) in [(3, 45.0), (4, 55.0)] {
        wire(
            &mut board,
            id,
            &[(40.0, 55.0), (60.0, 55.0), (60.0, y), (200.0, y)],
        );
    }
    let mut second = board.bundles[0].clone();
    second.id = Id::from(2);
    second.endpoint = end(1, 2);
    second.members = vec![member(3, 0), member(4, 1)];
    board.bundles.push(second);
    board
}

#[test]
fn attempts_at_a_later_bundle() {
    let board = two_bundles();
    let refused = board.draw_detailed().expect_err("they meet");
    assert_eq!(refused.refusal, Refusal::ForbiddenContact);
    assert_eq!(
        refused.places[0].to_string(),
        "the collector of bundle 1 would cross the route of edge 4, at (180, 55), and the board forbids crossings"
    );
    let attempt = board.attempt().expect("refused by the drawing");
    let named = refused.places[0].items().find_map(|item| match item {
        Item::Bundle { id, .. } => Some(id),
        _ => None,
    });
    assert_eq!(named, Some(attempt.refused.id));
    assert!(attempt.at.is_some());
}

/// A refusal by the drawing names an edge and what its route meets, or the segments of two bundles.
fn names_both(refused: &Refused) -> bool {
    refused.places.iter().all(|place| {
        let items = place.items().collect::<Vec<_>>();
        let of = |is: fn(&Item) -> bool| items.iter().filter(|item| is(item)).count();
        let edges = of(|item| matches!(item, Item::Edge { .. }));
        let bundles = of(|item| matches!(item, Item::Bundle { .. }));
        edges + bundles >= 2 && place.to_string().contains('(')
    })
}

/// Of every refusal a place is told, and of every refusal by the drawing what was tried, the edge or the
/// other bundle, and where.
#[test]
fn stored_jobs() {
    let mut told = [0_usize; 16];
    let mut silent = [0_usize; 16];
    let (mut marked, mut exact) = (0, 0);
    for name in ["jobs.bin", "largest.bin"] {
        let path = format!("{}/../../stored/{name}", env!("CARGO_MANIFEST_DIR"));
        let bytes = std::fs::read(path).expect("a stored file");
        let mut rest = &bytes[..];
        while let Some((length, tail)) = rest.split_first_chunk() {
            let (record, tail) = tail.split_at(u32::from_be_bytes(*length) as usize);
            if let Some(refused) = locate(record) {
                let number = usize::from(refused.refusal.number());
                told[number] += 1;
                silent[number] += usize::from(refused.places.is_empty());
                if (10..=12).contains(&number) {
                    let board = Board::from_bytes(record).expect("a whole job");
                    let attempt = board.attempt().expect("what was tried");
                    let mut items = refused.places[0].items();
                    let last = attempt.earlier.len();
                    assert!(items.any(|item| match item {
                        Item::Bundle { place, id } => (place, id) == (last, attempt.refused.id),
                        _ => false,
                    }));
                    marked += usize::from(attempt.at.is_some());
                    exact += usize::from(names_both(&refused));
                }
            }
            rest = tail;
        }
    }
    let by_drawing = told[10..=12].iter().sum::<usize>();
    println!("told {told:?}\nsilent {silent:?}");
    assert_eq!((marked, exact), (by_drawing, by_drawing));
    assert_eq!(silent, [0; 16]);
}
