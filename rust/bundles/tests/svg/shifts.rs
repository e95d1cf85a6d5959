//! Routes that lie over each other at a tap, and that turn straight back where others do.

use bundle_stage::{Board, Sheet};
use bundles::text;

use super::apart::{drawn, false_joint};
use super::read::lines;
use super::{board, checked, svg};

fn example(lines: &str) -> (Board, Sheet) {
    let board = text::read(lines.as_bytes()).expect("a board");
    let sheet = board.draw().expect("a sheet");
    (board, sheet)
}

/// Three members leave from one place of the collector: two to the right, on one line, and one along it. The
/// two are drawn side by side, so that the third would run through the dot of one of them.
const THREE: &str = "
    port_stub 3
    route_lane_gap 3
    edge_node_clearance 0
    minimum_parallel_wire_spacing 0
    member_endpoint_reserve 4
    separate_collectors yes
    permit_crossings yes
    node 0 at -10,-10 size 10,20
    node 1 at 26,-10 size 10,20
    port 0:0 east 10
    port 1:1 west 13
    edge 0 from 0:0 to 1:1 via 0,0 0,0 0,0 8,0 8,0 9,0 9,3 26,3
    edge 1 from 0:0 to 1:1 via 0,0 2,0 2,5 5,5 5,5 9,5 9,3 26,3
    edge 2 from 0:0 to 1:1 via 0,0 1,0 1,10 10,10 10,10 11,10 11,3 26,3
    bundle 0 at 0:0 input width 3 members 0@0 1@1 2@2
    bundle 1 at 1:1 output width 3 members 0@0 1@1 2@2";

#[test]
fn three_taps_at_one_place() {
    let (board, sheet) = example(THREE);
    let taps = &sheet.bundles[0].taps;
    assert!(taps.iter().all(|tap| tap.point == taps[0].point));
    let picture = svg(&board, &sheet, "taps");
    assert_eq!(false_joint(&picture, &board, &sheet), Ok(()));
    // The one that goes down leaves from the lower dot.
    let shown = &drawn(&checked(&picture), "bundle")[0].taps;
    let low = shown.iter().map(|(at, _)| at.1).fold(0.0, f64::max);
    let high = shown
        .iter()
        .map(|(at, _)| at.1)
        .fold(f64::INFINITY, f64::min);
    assert!(low - high > 1.0);
    let last = sheet.bundles[0]
        .taps
        .iter()
        .position(|tap| tap.edge == 2.into());
    assert_eq!(shown[last.expect("a tap")].0.1, low);
}

/// Routes that turn straight back at one place, and on another's line.
#[test]
fn turns_at_one_place() {
    let back: &[(f64, f64)] = &[(0.0, 20.0), (100.0, 20.0), (60.0, 20.0)];
    let over: &[(f64, f64)] = &[(100.0, 0.0), (100.0, 60.0)];
    for edges in [
        &[(1, back), (2, back)][..],
        &[(1, back), (2, over)],
        &[(1, back), (2, back), (3, over)],
    ] {
        let board = board(edges);
        let sheet = board.draw().expect("no bundle, so nothing to refuse");
        let picture = svg(&board, &sheet, "turns");
        assert_eq!(false_joint(&picture, &board, &sheet), Ok(()));
        // Each still turns near its place: earlier by some lanes at most.
        let elements = checked(&picture);
        let far = |of: usize| {
            let paths = &drawn(&elements, "route")[of].paths;
            let lines = paths.iter().flat_map(|path| lines(path));
            lines.flatten().map(|at| at.0).fold(0.0, f64::max)
        };
        let farthest = (0..edges.len()).map(far).fold(0.0, f64::max);
        assert!((0..edges.len()).all(|of| farthest - far(of) < 6.0));
    }
}
