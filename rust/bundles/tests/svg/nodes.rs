//! Nodes in a picture that is read back: each reads as one, and its id and name as its own.

use bundle_stage::{Answer, Board, Node, Sheet};
use bundles::names::Names;
use bundles::text;

use super::apart::{SEEN, Shown, false_joint};
use super::labels::{frames, letters};
use super::ports::squares;
use super::read::{Element, Line, lines};
use super::{board, checked, each_stored, of_class, svg};

/// The bodies of the nodes, by their ids in the picture.
fn bodies(elements: &[Element]) -> Vec<(String, Line)> {
    let nodes = elements.windows(3);
    let nodes = nodes.filter(|of| of[0].value("class") == "node");
    let bodies = nodes.map(|of| (of[0].value("id").to_string(), of[2].rect()));
    bodies.collect()
}

/// How far two boxes are from each other.
fn apart(one: &Line, two: &Line) -> f64 {
    let x = (two[0].0 - one[1].0).max(one[0].0 - two[1].0).max(0.0);
    let y = (two[0].1 - one[1].1).max(one[0].1 - two[1].1).max(0.0);
    x.hypot(y)
}

/// Whether a box lies in another, but for what the file's numbers round.
fn within(one: &Line, two: &Line) -> bool {
    let inside = |low: f64, high: f64| low < high + 0.021;
    let low = inside(two[0].0, one[0].0) && inside(two[0].1, one[0].1);
    low && inside(one[1].0, two[1].0) && inside(one[1].1, two[1].1)
}

/// Every id and name of a node is nearer to it than to any other, by its edge and by its middle; over others it
/// is only where its node lies in them.
pub fn labelled(elements: &[Element]) -> Result<usize, String> {
    let bodies = bodies(elements);
    let labels = ["node-id", "node-name"].map(|class| of_class(elements, class));
    let labels = labels.into_iter().flatten().collect::<Vec<_>>();
    for label in &labels {
        let own = bodies.iter().find(|(id, _)| id == label.value("data-of"));
        let (_, own) = own.ok_or(format!("{} is of no node", label.words))?;
        let (middle, half) = letters(label);
        let upright = middle[0].0 == middle[1].0;
        let (x, y) = if upright { (half, 0.0) } else { (0.0, half) };
        let edge = [
            (middle[0].0 - x, middle[0].1 - y),
            (middle[1].0 + x, middle[1].1 + y),
        ];
        let point = (
            (middle[0].0 + middle[1].0) / 2.0,
            (middle[0].1 + middle[1].1) / 2.0,
        );
        let others = bodies.iter().map(|(_, other)| other);
        let mut others = others.filter(|other| !within(own, other));
        let nearer = |other: &&Line| {
            let parts = [edge, [point; 2]];
            parts
                .iter()
                .any(|part| apart(part, other) <= apart(part, own))
        };
        if let Some(other) = others.find(nearer) {
            return Err(format!("{} is as near to {other:?}", label.words));
        }
    }
    Ok(labels.len())
}

/// No line goes along the frame of a node at which it does not end, or so near to it that it would melt into it,
/// but one that lies on the node's side on the sheet itself.
pub fn beside_nodes(elements: &[Element], shown: &Shown<'_>, board: &Board) -> Result<(), String> {
    let bodies = bodies(elements);
    let frame = of_class(elements, "nodes")[0].value("stroke-width");
    let frame = frame.parse::<f64>().expect("a width") / 2.0;
    let routes = shown.routes.iter().enumerate();
    let bundles = shown.bundles.iter().enumerate();
    let all = routes.map(|(place, of)| (true, place, of));
    for (is_route, place, drawn) in all.chain(bundles.map(|(place, of)| (false, place, of))) {
        let near = drawn.half + frame + SEEN - 0.02;
        let along = drawn.paths.iter().flat_map(|path| lines(path));
        let along = along.collect::<Vec<_>>();
        for (node, (name, body)) in board.nodes.iter().zip(&bodies) {
            let mut beside = along.iter().filter(|line| is_beside(line, body, near));
            let Some(line) = beside.next() else {
                continue;
            };
            let own = shown.ports.iter().zip(&board.ports);
            let mut own = own.filter(|(_, port)| port.node == node.id);
            let own = own.any(|(square, _)| match is_route {
                true => square.is_of(board.edges[place].id),
                false => square.is_of_bundle(board.bundles[place].id),
            });
            if !own && !on_side(shown.sheet, (is_route, place), node) {
                return Err(format!("{line:?} beside the frame of {name}"));
            }
        }
    }
    Ok(())
}

/// Whether a level or upright line goes along a side of a box, and nearer to it than this.
fn is_beside([a, b]: &Line, [low, high]: &Line, near: f64) -> bool {
    let turned = |(x, y): (f64, f64)| (y, x);
    let level = |a: (f64, f64), b: (f64, f64), low: (f64, f64), high: (f64, f64)| {
        let along = a.0.min(b.0) < high.0 && low.0 < a.0.max(b.0);
        a.1 == b.1 && along && [low.1, high.1].iter().any(|side| (side - a.1).abs() < near)
    };
    let [c, d, e, f] = [*a, *b, *low, *high].map(turned);
    a != b && (level(*a, *b, *low, *high) || level(c, d, e, f))
}

/// Whether a route or a bundle lies on a node's side on the sheet.
fn on_side(sheet: &Sheet, (is_route, place): (bool, usize), node: &Node) -> bool {
    let at = sheet.node(node.id).expect("a node");
    let body = [(at.x, at.y), (at.x + node.width, at.y + node.height)];
    let parts = match is_route {
        true => {
            let runs = sheet.routes[place].points.windows(2);
            runs.map(|run| [run[0], run[1]]).collect::<Vec<_>>()
        }
        false => {
            let bundle = &sheet.bundles[place];
            let parts = [bundle.spine, bundle.collector];
            parts.map(|part| [part.start, part.end]).to_vec()
        }
    };
    let mut parts = parts.iter().map(|part| part.map(|at| (at.x, at.y)));
    parts.any(|part| is_beside(&part, &body, f64::MIN_POSITIVE))
}

/// A wire and a bundle beside a node of others, nearer than a frame is wide on a page to scale.
#[test]
fn lines_beside_the_frame_of_another_node() {
    for far in ["0.01", "0.3", "1e-6"] {
        let lines = format!(
            "port_stub 10\nroute_lane_gap 10\nedge_node_clearance 0\nminimum_parallel_wire_spacing 0\n\
             member_endpoint_reserve 20\npermit_crossings yes\n\
             node 1 at 0,30 size 40,40\nnode 2 at 1000,0 size 40,100\nnode 3 at 400,100 size 200,80\n\
             port 1:1 east 20\nport 1:2 south 20\nport 2:1 west 40\nport 2:2 west 60\nport 2:3 south 20\n\
             edge 1 from 1:1 to 2:1 via 40,50 60,50 60,40 1000,40\n\
             edge 2 from 1:1 to 2:2 via 40,50 60,50 60,60 1000,60\n\
             edge 3 from 1:2 to 2:3 via 20,70 20,{0} 1020,{0} 1020,100\n\
             node 4 at {1},45 size 4,10\n\
             bundle 1 at 1:1 input width 2 members 1@0 2@1\n",
            180.0 + far.parse::<f64>().expect("a number"),
            980.0 + far.parse::<f64>().expect("a number"),
        );
        let board = text::read(lines.as_bytes()).expect("a board");
        let sheet = board.draw().expect("a sheet");
        let picture = svg(&board, &sheet, "beside");
        assert_eq!(false_joint(&picture, &board, &sheet), Ok(()), "{far}");
    }
    // On the side itself: drawn, since no paper shows the two apart.
    let board = board(&[(1, &[(0.0, 0.0), (150.0, 0.0), (150.0, 200.0)])]);
    let mut board = board;
    board.edges[0].target.node = 1.into();
    let sheet = board.draw().expect("no bundle, so nothing to refuse");
    let picture = svg(&board, &sheet, "on a side");
    assert_eq!(false_joint(&picture, &board, &sheet), Ok(()));
    assert!(
        picture.contains(">Edge 1 lies on the frame of node 2.</text>"),
        "{picture}"
    );
}

/// A pair of small nodes so far above each other, and names for both.
fn pair(apart: f64) -> (Board, Sheet, Names) {
    let lines = format!(
        "port_stub 8\nroute_lane_gap 8\nedge_node_clearance 0\nminimum_parallel_wire_spacing 0\n\
         member_endpoint_reserve 8\nseparate_collectors yes\npermit_crossings no\n\
         node 1 \"upper\" at 0,0 size 4,4\nnode 2 \"lower\" at 0,{} size 4,4\n\
         node 3 at 800,0 size 40,40\nport 3:1 west 20\nport 3:2 west 30\n\
         edge 1 from 3:1 to 3:1 via 800,20 60,20\nedge 2 from 3:2 to 3:2 via 800,30 60,30\n",
        4.0 + apart
    );
    let text = text::read_all(lines.as_bytes()).expect("a board");
    let sheet = text.board.draw().expect("a sheet");
    (text.board, sheet, text.names)
}

#[test]
fn ids_beside_small_nodes() {
    for apart in (2..=60).map(|step| 0.5 * f64::from(step)) {
        let (board, sheet, names) = pair(apart);
        let picture = bundles::svg::svg(&board, &sheet, &names, "a pair").expect("clear");
        let shown = labelled(&checked(&picture));
        assert!(
            shown.as_ref().is_ok_and(|count| *count >= 3),
            "{apart}: {shown:?}"
        );
    }
}

/// A node without height is a body in ink, but for what would touch a wire beside it.
#[test]
fn a_node_without_height() {
    for (beside, full) in [(60.0, true), (1.0, false), (0.25, false)] {
        let wires: [(u32, &[(f64, f64)]); 2] = [
            (1, &[(0.0, 0.0), (400.0, 0.0)]),
            (2, &[(150.0, 150.0 - beside), (400.0, 150.0 - beside)]),
        ];
        let mut board = board(&wires);
        board.nodes[1].height = 0.0;
        board.nodes[1].width = 100.0;
        let sheet = board.draw().expect("no bundle, so nothing to refuse");
        let elements = checked(&svg(&board, &sheet, "no height"));
        let [low, high] = bodies(&elements)[1].1;
        let tall = high.1 - low.1;
        assert!(
            tall >= 0.4 - 0.011 && (tall > 1.5) == full,
            "{beside}: {tall}"
        );
        let path = elements.iter().filter(|of| of.name == "path").nth(1);
        let wire = lines(path.expect("the second wire").value("d"))[0];
        let white = low.1 - 0.2 - wire[0].1 - 0.175;
        assert!(full || tall < 0.45 || white > 0.19, "{beside}: {white}");
        assert!(squares(&elements, &board).is_empty());
    }
}

/// The frames of bundles' ids that lie over a side of a node.
fn over_sides(elements: &[Element]) -> usize {
    let bodies = bodies(elements);
    let hides = |frame: &Line| {
        let mut bodies = bodies.iter().map(|(_, body)| body);
        bodies.any(|body| apart(frame, body) == 0.0 && !within(frame, body))
    };
    frames(elements).iter().filter(|frame| hides(frame)).count()
}

/// A bundle of little room beside the upper side of its node: its id stands above both.
#[test]
fn no_frame_over_a_side() {
    let text = "port_stub 5\nroute_lane_gap 4\nedge_node_clearance 0\n\
                minimum_parallel_wire_spacing 4\nmember_endpoint_reserve 5\n\
                node 1139918578 at -50,13 size 20,12\nnode 1173006753 at 766,31 size 20,64\n\
                node 1206094928 at -70,83 size 40,12\nnode 1239183103 at 733,-400 size 10,10\n\
                node 1272271278 at 733,225 size 10,10\n\
                port 1139918578:1 east 6\nport 1173006753:1 west 6\nport 1206094928:1 east 6\n\
                port 1173006753:2 west 58\nport 1239183103:1 south 5\nport 1272271278:1 north 5\n\
                edge 554755230 from 1139918578:1 to 1173006753:1 via -30,19 112,19 112,31 632,31 632,37 766,37\n\
                edge 562617241 from 1139918578:1 to 1173006753:1 via -30,19 103,19 103,25 182,25 182,37 766,37\n\
                edge 570479252 from 1206094928:1 to 1173006753:2 via -30,89 766,89\n\
                edge 578341263 from 1206094928:1 to 1173006753:2 via -30,89 172,89 172,95 763,95 763,89 766,89\n\
                edge 586203274 from 1206094928:1 to 1173006753:2 via -30,89 -2,89 -2,101 762,101 762,89 766,89\n\
                edge 594065285 from 1239183103:1 to 1272271278:1 via 738,-390 738,225\n\
                bundle 3733973493 at 1139918578:1 input width 2 members 554755230@0 562617241@1\n\
                bundle 3746591752 at 1173006753:1 output width 4 members 554755230@0 562617241@1\n";
    let board = text::read(text.as_bytes()).expect("a board");
    let sheet = board.draw().expect("a sheet");
    let picture = svg(&board, &sheet, "above");
    assert_eq!(false_joint(&picture, &board, &sheet), Ok(()));
    let elements = checked(&picture);
    assert_eq!(frames(&elements).len(), 3);
    assert_eq!(over_sides(&elements), 0);
}

/// Only where nothing else has room is such a frame over a node's side: nowhere on these.
#[test]
fn no_frames_over_sides_of_stored_boards() {
    let (mut all, mut over) = (0, 0);
    each_stored("stored/jobs.bin", |board, answer| {
        let Answer::Drawn(sheet) = answer else {
            return;
        };
        if let Ok(picture) = bundles::svg::svg(board, sheet, &Names::default(), "sides") {
            let elements = checked(&picture);
            all += frames(&elements).len();
            over += over_sides(&elements);
        }
    });
    println!("{over} of {all} frames over sides of nodes");
    assert!(all > 100 && over == 0, "{over} of {all}");
}
