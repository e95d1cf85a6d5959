//! What is said of the joints and of the last shift, in words and in pictures.

#![forbid(unsafe_code)]

use std::collections::BTreeSet;
use std::fs;

use bundle_stage::{Answer, Board, Sheet};
use bundles::explain::explain;
use bundles::joints::Joints;
use bundles::names::Names;
use bundles::svg::{Planned, svg, svg_from};
use bundles::text;

fn file(name: &str) -> Vec<u8> {
    let path = format!("{}/../{name}", env!("CARGO_MANIFEST_DIR"));
    fs::read(path).expect("a file of the repository")
}

fn drawn(board: &Board) -> Sheet {
    board.draw().expect("an accepted board")
}

fn job(name: &str) -> Board {
    Board::from_bytes(&file(&format!("bundle_stage/tests/data/{name}.job"))).expect("a job")
}

fn example(name: &str) -> Board {
    text::read(&file(&format!("../examples/{name}.txt"))).expect("a board")
}

/// The lines about joints and the last shift.
fn explained(board: &Board, sheet: Sheet) -> String {
    let text = explain(&Answer::Drawn(sheet), Some(board), &Names::default());
    text[text.find("joints: ").expect("a line about joints")..].to_string()
}

const NONE: &str = "joints: none is false on the sheet in the answer, looked at in exact numbers\n";
const ONE: &str = "joints: 1 is false, by the rounding of the last shift; before that shift none \
                   is, as is proved\n";

#[test]
fn in_words() {
    let said = |board: &Board| explained(board, drawn(board));
    assert_eq!(
        said(&example("clock-board")),
        format!("{NONE}last shift: it subtracted nothing\n")
    );
    assert_eq!(
        said(&example("crossings")),
        "joints: 5 crossings with routes, else only taps, as is proved before the last shift\n\
         last shift: across, it subtracted nothing; down, it was exact (all numbers of the job are \
         multiples of 1/64 up to 2^20)\n"
    );
    assert_eq!(
        said(&job("gap-closed-by-the-shift")),
        format!(
            "{ONE}  edge 7 touches bundle 1 at (1073741842, 15)\n\
             last shift: across, it rounded a coordinate, or a far side that is summed anew; down, it may have rounded\n"
        )
    );
    let two = ONE.replace("1 is", "2 are");
    assert_eq!(
        said(&job("gap-closed-among-thirds")),
        format!(
            "{two}  edge 1 touches bundle 1 at (4.666666666666666, 3.333333333333333)\n  \
             edge 1 touches bundle 1 from (2, 3.333333333333333) to (4.666666666666666, \
             3.333333333333333)\n\
             last shift: across, it subtracted nothing; down, it rounded a coordinate, or a far side that is summed anew\n"
        )
    );
    assert_eq!(
        said(&job("far-side-by-the-shift")),
        format!(
            "{ONE}  edge 6 enters node 2 from (268435456, 50) to (268435456, 150)\n\
             last shift: across, it rounded a coordinate, or a far side that is summed anew; down, it subtracted nothing\n"
        )
    );
}

const BY_TOOL: &str = "Where bundles and routes cross was found by the tool itself.";

/// A sheet from a plan has the stage's list of that sheet; from another plan it is not that sheet.
#[test]
fn from_a_plan() {
    let board = example("crossings");
    let mut next = board.clone();
    next.options.member_endpoint_reserve += 7.0;
    let plan = board.plan().expect("a plan");
    let sheet = next.draw_from(&plan).expect("a sheet");
    assert_ne!(sheet, drawn(&next));
    let plan = plan.to_bytes().expect("a plan");
    let picture = |plan: &[u8]| {
        let planned = Planned {
            board: &next,
            plan,
            names: &Names::default(),
            title: "planned",
        };
        svg_from(&planned, &sheet).expect("a clear picture")
    };
    let said =
        ">Joints: drawn from the plan that is given; 5 crossings with routes, by the stage's list.";
    let planned = picture(&plan);
    assert!(planned.contains(said), "{planned}");
    assert!(!planned.contains(BY_TOOL));
    let own = next.plan().expect("a plan").to_bytes().expect("a plan");
    assert!(picture(&own).contains(BY_TOOL));
}

#[test]
fn another_answer() {
    let board = example("clock-board");
    let mut sheet = drawn(&board);
    sheet.routes[0].points[0].x += 1.0;
    let said = "not looked at, as the stage gives another answer to this job";
    assert!(
        svg(&board, &sheet, &Names::default(), "other")
            .expect("a clear picture")
            .contains(&format!(">Joints: {said}. {BY_TOOL}</text>"))
    );
    assert_eq!(explained(&board, sheet), format!("joints: {said}\n"));
}

#[test]
fn in_pictures() {
    for (name, words) in [
        (
            "gap-closed-by-the-shift",
            "False joint: edge 7 touches bundle 1 at (1073741842, 15).",
        ),
        (
            "far-side-by-the-shift",
            "Edge in a node: edge 6 enters node 2 from (268435456, 50) to (268435456, 150).",
        ),
    ] {
        let board = job(name);
        let picture =
            svg(&board, &drawn(&board), &Names::default(), name).expect("a clear picture");
        assert_eq!(picture.matches("class=\"false-joint\"").count(), 1);
        assert!(picture.contains(&format!(">{words}</text>")), "{picture}");
        assert!(picture.contains(">false joint, or an edge in a node</text>"));
        assert!(picture.contains(">Joints: 1 is false, by the rounding of the last shift"));
    }
    for name in ["clock-board", "crossings"] {
        let board = example(name);
        let picture =
            svg(&board, &drawn(&board), &Names::default(), name).expect("a clear picture");
        assert!(!picture.contains("false-joint") && !picture.contains("warning"));
        assert_eq!(picture.matches("class=\"joints\"").count(), 1);
    }
}

/// Bundles without members, whose spines so many wires cross.
fn many(bundles: usize, wires: usize) -> Board {
    let mut lines = vec![
        "port_stub 900\nroute_lane_gap 10\nedge_node_clearance 0\nminimum_parallel_wire_spacing 0\n\
         member_endpoint_reserve 0\npermit_crossings yes"
            .to_string(),
        format!("node 1 at 0,0 size 60,{}", 40 * bundles),
    ];
    for bundle in 0..bundles {
        lines.push(format!("port 1:{bundle} east {}", 40 * bundle + 20));
        lines.push(format!("bundle {bundle} at 1:{bundle} input width 1"));
    }
    for wire in 0..wires {
        let (x, low) = (100 + 20 * wire, 40 * bundles + 10);
        lines.push(format!("edge {wire} from 1:0 to 1:1 via {x},-10 {x},{low}"));
    }
    text::read(lines.join("\n").as_bytes()).expect("a board")
}

/// Of a sheet with more crossings than the stage lists, those of parts of the board are put together.
#[test]
fn more_crossings_than_a_list_has() {
    for (bundles, wires, parts) in [
        (32, 32, ""),
        (32, 40, " of parts of the board, each with at most 1,024,"),
    ] {
        let board = many(bundles, wires);
        let sheet = drawn(&board);
        let joints = Joints::of(&board, &sheet);
        let list = joints.crossings().expect("a list");
        let pairs = list.iter().map(|one| (one.bundle, one.edge));
        let pairs = pairs.collect::<BTreeSet<_>>();
        assert_eq!(
            (list.len(), pairs.len()),
            (bundles * wires, bundles * wires)
        );
        let said = format!(
            "{} crossings with routes, else only taps, as is proved{parts}",
            list.len()
        );
        assert!(joints.line().contains(&said), "{}", joints.line());
        let picture = svg(&board, &sheet, &Names::default(), "many").expect("a clear picture");
        assert!(picture.contains(&said) && !picture.contains("by the tool itself"));
    }
    // From a plan that is given.
    let board = many(32, 40);
    let plan = board
        .plan()
        .expect("a plan")
        .to_bytes()
        .expect("few bundles");
    let joints = Joints::of_plan(&board, &drawn(&board), &plan);
    assert_eq!(joints.crossings().map(<[_]>::len), Some(1_280));
    assert!(
        joints
            .line()
            .contains("by the stage's lists of parts of the board")
    );
}
