//! Lines and taps in crowds: a line under many others stays a line, and a dot is seen on its bundle.

use bundle_stage::{Board, Sheet};
use bundles::text;

use super::apart::{drawn, false_joint};
use super::lengths::{length, parts, straight};
use super::{board, checked, svg};

/// Twelve level wires, so far apart, and an upright one under all of them.
fn under_twelve(apart: f64) -> (Board, Sheet) {
    let level = |turn: u32| {
        let y = f64::from(turn) * apart;
        (turn, vec![(0.0, y), (600.0, y)])
    };
    let mut wires = (1..=12).map(level).collect::<Vec<_>>();
    wires.push((13, vec![(300.0, -200.0), (300.0, 400.0)]));
    let wires = wires.iter().map(|(id, points)| (*id, &points[..]));
    let board = board(&wires.collect::<Vec<_>>());
    let sheet = board.draw().expect("no bundle, so nothing to refuse");
    (board, sheet)
}

#[test]
fn a_wire_under_many_is_no_dashed_line() {
    for apart in [2.0, 4.0, 8.0, 16.0] {
        let (board, sheet) = under_twelve(apart);
        let picture = svg(&board, &sheet, "under many");
        assert_eq!(false_joint(&picture, &board, &sheet), Ok(()), "{apart}");
        let under = drawn(&checked(&picture), "route")
            .pop()
            .expect("the last wire");
        let parts = parts(&under.paths);
        assert_eq!(parts.len(), 13, "{apart}: twelve gaps");
        for three in parts.windows(3) {
            let ends = |part: usize| (three[part][0], *three[part].last().expect("a line"));
            let left = length([ends(1).0[0], ends(1).1[1]]);
            for (before, after) in [(0, 1), (1, 2)] {
                let [before, after] = [ends(before).1, ends(after).0];
                assert!(straight(before, after));
                let gap = length([before[1], after[0]]);
                assert!(
                    left > 1.45 * gap,
                    "{apart}: {left} of ink beside a gap of {gap}"
                );
            }
        }
    }
}

/// Two bundles beside each other with many taps that are near to each other.
fn crowd(apart: f64) -> Board {
    let mut lines = vec![
        "port_stub 8\nroute_lane_gap 8\nedge_node_clearance 0\nminimum_parallel_wire_spacing 0\n\
         member_endpoint_reserve 8\nseparate_collectors yes\npermit_crossings no"
            .to_string(),
    ];
    for bundle in 1..=2 {
        let (mut members, y) = (String::new(), f64::from(bundle) * 400.0);
        lines.push(format!(
            "node {bundle} at 0,{y} size 40,200\nport {bundle}:1 east 100"
        ));
        lines.push(format!("node {bundle}0 at 600,{y} size 40,200"));
        for turn in 1..=20 {
            let (edge, at) = (100 * bundle + turn, f64::from(turn) * apart);
            lines.push(format!("port {bundle}0:{turn} west {at}"));
            let to = y + at;
            let from = y + 100.0;
            lines.push(format!(
                "edge {edge} from {bundle}:1 to {bundle}0:{turn} via 40,{from} 300,{from} 300,{to} 600,{to}"
            ));
            members.push_str(&format!(" {edge}@{}", turn - 1));
        }
        lines.push(format!(
            "bundle {bundle} at {bundle}:1 input width 20 members{members}"
        ));
    }
    text::read(lines.join("\n").as_bytes()).expect("a board")
}

#[test]
fn a_dot_is_wider_than_its_trunk() {
    for apart in [0.5, 1.0, 3.0, 9.0] {
        let board = crowd(apart);
        let sheet = board.draw().expect("a sheet");
        let picture = svg(&board, &sheet, "a crowd of taps");
        assert_eq!(false_joint(&picture, &board, &sheet), Ok(()), "{apart}");
        for bundle in drawn(&checked(&picture), "bundle") {
            assert_eq!(bundle.taps.len(), 20);
            for (at, radius) in &bundle.taps {
                let part = radius / bundle.half;
                assert!(part > 1.45, "{apart}: {part} of its trunk at {at:?}");
            }
        }
    }
}
