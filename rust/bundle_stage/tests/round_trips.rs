//! Round trips of every structure, and what is wrong with other bytes.

#![forbid(unsafe_code)]

use bundle_stage::*;

mod common;
use common::*;

/// A board with every case of every field; the stage would refuse it.
fn odd_board() -> Board {
    let mut odd = board();
    odd.options.port_stub = f64::from_bits(0x7ff0_0000_0000_0001);
    odd.options.edge_node_clearance = -0.0;
    odd.options.minimum_parallel_wire_spacing = f64::NEG_INFINITY;
    odd.grants = Visits {
        tap: u32::MAX,
        geometry: 0,
    };
    for (id, side) in [(7, Side::North), (7, Side::South), (8, Side::West)] {
        odd.ports.push(Port {
            node: Id::from(99),
            id: Id::from(id),
            side,
            offset: 5e-324,
        });
    }
    odd.edges[1].points.clear();
    odd.bundles.push(Bundle {
        id: Id::from(0),
        endpoint: end(u32::MAX, 0),
        role: Role::Output,
        width: u32::MAX,
        members: Vec::new(),
    });
    odd.bundles[0].members[1].lane = u16::MAX;
    odd
}

#[test]
fn boards_come_back() {
    for flags in 0..8_u8 {
        for mut board in [Board::default(), board(), odd_board()] {
            board.flags = Flags {
                separate_collectors: flags & 1 != 0,
                permit_crossings: flags & 2 != 0,
                on_grid: flags & 4 != 0,
            };
            let bytes = board.to_bytes().expect("small");
            assert_eq!(bytes[5], flags);
            let back = Board::from_bytes(&bytes).expect("whole");
            assert_eq!(back.to_bytes().expect("small"), bytes);
            // A NaN is not equal to itself, so the words are compared.
            assert_eq!(format!("{back:?}"), format!("{board:?}"));
        }
    }
}

#[test]
fn ids_are_numbers_of_32_bits() {
    for number in [0, 7, u32::MAX] {
        let id = Id::from(number);
        assert_eq!(u64::from(id), u64::from(number));
        assert_eq!(id.number(), u64::from(number));
        assert_eq!(id.to_string(), number.to_string());
        assert_eq!(format!("{id:>10}"), format!("{number:>10}"));
        assert_eq!(number.to_string().parse(), Ok(id));
    }
    for word in ["", "-1", "4294967296", "7a"] {
        assert!(word.parse::<Id>().is_err(), "{word}");
    }
    assert!(Id::from(9) < Id::from(10));
    assert_eq!(Id::default(), Id::from(0));
}

#[test]
fn the_empty_board_is_document_01_s() {
    let job = Board {
        grants: Visits {
            tap: 0,
            geometry: 0,
        },
        ..Board::default()
    };
    let mut bytes = vec![0, 0, 0, 0x3a, 1];
    bytes.resize(62, 0);
    assert_eq!(job.to_bytes().expect("small"), bytes);
    let mut due = vec![0, 0, 0, 0x20, 1];
    due.resize(36, 0);
    assert_eq!(answer(&bytes), due);
}

#[test]
fn answers_come_back() {
    let mut sheet = board().draw().expect("drawn");
    sheet.bundles[0].interior = false;
    sheet.width = f64::from_bits(0xfff8_0000_0000_0123);
    let empty = Sheet {
        visits_left: Visits::MOST,
        width: 0.0,
        height: -0.0,
        nodes: Vec::new(),
        routes: vec![Route {
            id: Id::from(5),
            points: Vec::new(),
        }],
        bundles: Vec::new(),
    };
    let refusals = Refusal::ALL.iter().map(|refusal| Answer::Refused(*refusal));
    let drawn = [Answer::Drawn(sheet), Answer::Drawn(empty)];
    for answer in refusals.chain(drawn) {
        let bytes = answer.to_bytes().expect("small");
        let back = Answer::from_bytes(&bytes).expect("whole");
        assert_eq!(back.to_bytes().expect("small"), bytes);
        assert_eq!(format!("{back:?}"), format!("{answer:?}"));
    }
}

#[test]
fn what_is_cut_or_added_is_no_job_and_no_answer() {
    let job = odd_board().to_bytes().expect("small");
    let drawn = answer(&board().to_bytes().expect("small"));
    for whole in [job, drawn] {
        for length in 0..whole.len() {
            let mut part = whole[..length].to_vec();
            assert!(Board::from_bytes(&part).is_err() && Answer::from_bytes(&part).is_err());
            if length >= 4 {
                set_length(&mut part);
                assert!(Board::from_bytes(&part).is_err(), "cut at {length}");
                // A number alone can be a refusal, but these have number 0 or are no answer.
                assert!(Answer::from_bytes(&part).is_err(), "cut at {length}");
            }
        }
        let mut more = whole.clone();
        more.push(0);
        set_length(&mut more);
        assert!(Board::from_bytes(&more).is_err() && Answer::from_bytes(&more).is_err());
    }
}

#[test]
fn what_is_wrong_with_bytes_is_said() {
    let job = board().to_bytes().expect("small");
    let words = |place: usize, value: u8| {
        let mut wrong = job.clone();
        wrong[place] = value;
        Board::from_bytes(&wrong).expect_err("wrong").to_string()
    };
    assert_eq!(words(4, 2), "byte 4: expected version 1, found 2");
    assert_eq!(words(5, 8), "byte 5: expected the flags (0 to 7), found 8");
    assert_eq!(
        Board::from_bytes(&[]).expect_err("short").to_string(),
        "byte 0: expected the length of all bytes that follow, found the end"
    );
}

#[test]
fn too_many_to_write_down() {
    let mut board = board();
    board.edges[0].points = vec![at(0.0, 0.0); 65_536];
    let error = board.to_bytes().expect_err("too many");
    assert_eq!(
        error.to_string(),
        "65536 points are too many to write down: at most 65535"
    );
    assert_eq!(board.draw(), Err(Refusal::LimitExceeded));
}
