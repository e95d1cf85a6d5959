//! The stage through the binding: a sheet, the stored answers of the Rust, and threads.

#![forbid(unsafe_code)]

use bundle_stage::*;

mod common;
use common::*;

#[test]
fn the_two_wires_are_drawn() {
    let sheet = board().draw().expect("drawn");
    assert_eq!((sheet.width, sheet.height), (240.0, 100.0));
    assert_eq!(
        sheet.nodes[1],
        PlacedNode {
            id: Id::from(2),
            x: 200.0,
            y: 0.0
        }
    );
    assert_eq!(
        sheet.routes[0].points,
        [at(180.0, 40.0), at(200.0, 40.0)],
        "the route starts at its tap"
    );
    let bundle = &sheet.bundles[0];
    assert!(bundle.interior);
    assert_eq!(bundle.role(), Some(Role::Input));
    assert_eq!(
        bundle.spine,
        Segment {
            start: at(40.0, 50.0),
            end: at(180.0, 50.0)
        }
    );
    assert_eq!(
        bundle.taps[1],
        Tap {
            edge: Id::from(2),
            point: at(180.0, 60.0)
        }
    );
    let paid = Visits::MOST.tap - sheet.visits_left.tap;
    assert!(paid > 0 && sheet.visits_left.geometry < Visits::MOST.geometry);
}

#[test]
fn stored_jobs_and_answers() {
    let mut boards = 0;
    for records in [stored("jobs.bin"), stored("largest.bin")] {
        for pair in records.chunks_exact(2) {
            let (job, due) = (&pair[0], &pair[1]);
            assert_eq!(&answer(job), due);
            let said = Answer::from_bytes(due).expect("a whole answer");
            assert_eq!(&said.to_bytes().expect("small"), due);
            match Board::from_bytes(job) {
                Ok(board) => {
                    assert_eq!(&board.to_bytes().expect("small"), job);
                    assert_eq!(board.draw(), said.into_result());
                    boards += 1;
                }
                Err(malformed) => {
                    let refusal = said.into_result().expect_err("no job, so no sheet");
                    assert!(
                        matches!(refusal.number(), 1..=7 | 15),
                        "{malformed}: {refusal}"
                    );
                }
            }
        }
    }
    assert!(boards > 100, "{boards} boards");
}

#[test]
fn threads_draw_at_the_same_time() {
    let due = board().draw();
    let draw = || (0..50).map(|_| board().draw()).all(|sheet| sheet == due);
    std::thread::scope(|scope| {
        let threads = [(); 4].map(|()| scope.spawn(draw));
        assert!(
            threads
                .into_iter()
                .all(|thread| thread.join().expect("ends"))
        );
    });
}
