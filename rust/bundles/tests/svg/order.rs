//! What lies before and behind what: bends and ends of wires that on the sheet are just beside another line.

use bundle_stage::{Board, Sheet};
use bundles::text;

use super::apart::{drawn, false_joint};
use super::lengths::parts;
use super::loose::{ends, marked};
use super::{board, checked, svg};

/// Two members from one port to two, with a collector at x = 980, and edge 3, which goes this way.
fn beside_a_bundle(way: &str) -> (Board, Sheet) {
    let lines = format!(
        "port_stub 10\nroute_lane_gap 10\nedge_node_clearance 0\nminimum_parallel_wire_spacing 0\n\
         member_endpoint_reserve 20\npermit_crossings yes\n\
         node 1 at 0,30 size 40,40\nnode 2 at 1000,0 size 40,100\n\
         port 1:1 east 20\nport 1:2 east 30\nport 2:1 west 40\nport 2:2 west 70\n\
         edge 1 from 1:1 to 2:1 via 40,50 60,50 60,40 1000,40\n\
         edge 2 from 1:1 to 2:2 via 40,50 60,50 60,70 1000,70\n\
         edge 3 from 1:2 to 2:2 via {way}\n\
         bundle 1 at 1:1 input width 2 members 1@0 2@1\n"
    );
    let board = text::read(lines.as_bytes()).expect("a board");
    let sheet = board.draw().expect("a sheet");
    assert_eq!(sheet.bundles[0].collector.start.x, 980.0);
    (board, sheet)
}

/// A wire that ends just before a bundle, or just beyond it: its end has a cross, on the side on which it is.
#[test]
fn an_end_beside_a_bundle() {
    for (x, beyond) in [
        ("978", false),
        ("979.9", false),
        ("980.1", true),
        ("982", true),
        ("984", true),
    ] {
        let (board, sheet) = beside_a_bundle(&format!("40,60 {x},60"));
        let picture = svg(&board, &sheet, "beside");
        assert_eq!(marked(&picture, &board, &sheet), Ok(1), "{x}");
        assert_eq!(false_joint(&picture, &board, &sheet), Ok(()), "{x}");
        assert!(!picture.contains("No room for a cross"), "{x}");
        let elements = checked(&picture);
        let end = ends(&drawn(&elements, "route")[2].paths)[1].0;
        let bundle = &drawn(&elements, "bundle")[0];
        let taps = bundle.taps.iter().map(|((x, _), _)| *x);
        let collector = taps.fold(f64::NEG_INFINITY, f64::max);
        // The cross is beside the bundle, and not in its gap.
        let past = end - collector;
        assert_eq!(past > 0.0, beyond, "{x}");
        assert!(past.abs() > bundle.half + 0.4, "{x}: {past}");
    }
}

/// How often the second of two wires goes under the first.
fn crossings(board: &Board) -> usize {
    let sheet = board.draw().expect("no bundle, so nothing to refuse");
    let picture = svg(board, &sheet, "order");
    assert_eq!(false_joint(&picture, board, &sheet), Ok(()));
    let routes = drawn(&checked(&picture), "route");
    let gaps = |place: usize| {
        let routes: &super::apart::Drawn = &routes[place];
        parts(&routes.paths).len() - 1
    };
    gaps(0) + gaps(1)
}

/// A wire that turns just before an upright one, or just behind it and so crosses it, however near that is.
#[test]
fn a_bend_beside_an_upright() {
    for far in [1e-9, 0.001, 0.01, 0.03, 0.1, 0.3, 1.0, 5.0] {
        for (x, due) in [(500.0 - far, 0), (500.0 + far, 1)] {
            let upright: &[(f64, f64)] = &[(500.0, -200.0), (500.0, 300.0)];
            let turn: &[(f64, f64)] = &[(0.0, 50.0), (x, 50.0), (x, 400.0)];
            for pair in [[upright, turn], [turn, upright]] {
                let board = board(&[(1, pair[0]), (2, pair[1])]);
                assert_eq!(crossings(&board), due, "{x}");
            }
        }
    }
}

/// A wire that ends just before an upright one, or just behind it.
#[test]
fn an_end_beside_an_upright() {
    for far in [1e-9, 0.001, 0.01, 0.03, 0.1, 0.3, 1.0, 5.0] {
        for (x, due) in [(500.0 - far, 0), (500.0 + far, 1)] {
            let upright: &[(f64, f64)] = &[(500.0, -200.0), (500.0, 300.0)];
            let board = board(&[(1, upright), (2, &[(0.0, 50.0), (x, 50.0)])]);
            assert_eq!(crossings(&board), due, "{x}");
        }
    }
}
