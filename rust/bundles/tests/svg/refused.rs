//! Pictures of boards that are refused: what was given, and over it what was tried.

use bundle_stage::{Attempt, Board, Edge, Endpoint, Id, Node, Point, Refusal};
use bundles::names::Names;
use bundles::text;

use super::labels::letters;
use super::read::{Element, elements, lines, nearest};
use super::{board, checked, example, file, of_class};

fn svg_refused(board: &Board, refusal: Refusal, title: &str) -> String {
    bundles::svg::svg_refused(board, refusal, &Names::default(), title)
}

#[test]
fn a_refused_board() {
    let (board, _) = example("clock-board");
    let picture = svg_refused(&board, Refusal::ForbiddenContact, "a < b & \"c\"\u{1}");
    let elements = checked(&picture);
    assert!(picture.contains("<title>a &lt; b &amp; &quot;c&quot; </title>"));
    assert!(picture.contains("refused with 11, caused by the drawing: "));
    assert_eq!(of_class(&elements, "route").len(), board.edges.len());
    assert!(of_class(&elements, "bundle").is_empty() && of_class(&elements, "tap").is_empty());
    // No board at all.
    let empty = checked(&svg_refused(
        &Board::default(),
        Refusal::LengthMismatch,
        "nothing",
    ));
    assert!(of_class(&empty, "node").is_empty());
}

#[test]
fn numbers_that_are_no_places() {
    let (mut board, _) = example("clock-board");
    board.nodes[0].x = f64::INFINITY;
    board.nodes[1].width = f64::NAN;
    board.nodes[2].height = -1.0;
    board.ports[5].offset = 1e300;
    board.edges[0].points[0].y = -1e300;
    let picture = svg_refused(&board, Refusal::NumberOutOfRange, "numbers");
    let elements = checked(&picture);
    assert_eq!(of_class(&elements, "node").len(), board.nodes.len() - 3);
    assert_eq!(of_class(&elements, "route").len(), board.edges.len() - 1);
    // Each of the three nodes has a port.
    assert!(picture.contains("Not shown: 8 parts"), "{picture}");
}

#[test]
fn sheets_of_hardly_any_size() {
    for size in [0.0, 5e-324, 1e-310, 1e-300, 1e-7, 1e9] {
        for (x, y) in [(size, size), (size, 1.0), (1.0, size)] {
            let way: &[(f64, f64)] = &[(0.0, 0.0), (x, 0.0), (x, y)];
            let mut board = board(&[(1, way), (2, &[(0.0, y), (x / 2.0, y)])]);
            board.nodes.clear();
            checked(&svg_refused(&board, Refusal::UnknownId, "small"));
        }
    }
}

#[test]
fn very_many_lines() {
    let zigzag = (0..60_000_u32).map(|turn| (f64::from(turn / 2), f64::from(turn.div_ceil(2) % 2)));
    let zigzag = zigzag.collect::<Vec<_>>();
    let board = board(&[(1, &zigzag)]);
    checked(&svg_refused(&board, Refusal::LimitExceeded, "many"));
}

// ---- what was tried

/// The elements inside the group of what was tried.
fn tried(elements: &[Element]) -> Vec<&Element> {
    let Some(place) = elements
        .iter()
        .position(|of| of.value("class") == "refused")
    else {
        return Vec::new();
    };
    let depth = elements[place].depth;
    let inside = elements[place + 1..].iter();
    inside.take_while(|element| element.depth > depth).collect()
}

/// The picture of a refused board is in order, says that it is no sheet, has no bundle and no tap, and
/// what was tried exactly where the drawing refused.
pub fn shown(board: &Board, refusal: Refusal, title: &str) -> String {
    let picture = svg_refused(board, refusal, title);
    let elements = checked(&picture);
    assert!(picture.contains(&format!("No sheet: refused with {}, ", refusal.number())));
    for class in ["bundle", "tap", "bundle-id"] {
        assert!(of_class(&elements, class).is_empty(), "{class}");
    }
    let attempt = board.attempt();
    let tried = tried(&elements);
    assert_eq!(tried.is_empty(), attempt.is_none());
    if let Some(attempt) = attempt {
        as_tried(&tried, &attempt);
    }
    picture
}

/// Spine and collector are dashed and as long against each other as on the board, there is an open dot
/// for each tap, and a ring where a place is known.
fn as_tried(tried: &[&Element], attempt: &Attempt) {
    let dashed = tried
        .iter()
        .filter(|of| !of.value("stroke-dasharray").is_empty());
    let heavy = dashed.filter(|of| of.value("stroke-width") == "0.7");
    let refused = &attempt.refused;
    let drawn = heavy
        .flat_map(|of| lines(of.value("d")))
        .collect::<Vec<_>>();
    let [.., spine, collector] = drawn[..] else {
        panic!("no spine and collector");
    };
    assert_eq!(spine[0].1, spine[1].1, "a spine is level");
    assert_eq!(collector[0].0, collector[1].0, "a collector is upright");
    assert_eq!(spine[1].0, collector[0].0, "they meet");
    let across = refused.spine.end.x - refused.spine.start.x;
    let drawn = spine[1].0 - spine[0].0;
    assert!(drawn * across >= 0.0, "the spine leads the other way");
    let circles = tried.iter().filter(|of| of.name == "circle");
    let (dots, rings): (Vec<&Element>, Vec<&Element>) =
        circles.copied().partition(|of| of.value("fill") == "white");
    assert_eq!(dots.len(), refused.taps.len());
    assert_eq!(rings.len(), usize::from(attempt.at.is_some()));
}

fn clock_board(change: impl FnOnce(&mut Board)) -> (Board, Refusal) {
    let (mut board, _) = example("clock-board");
    change(&mut board);
    let refusal = board.draw().expect_err("refused");
    (board, refusal)
}

fn edge(id: u32, points: &[(f64, f64)]) -> Edge {
    let end = |node: u32| Endpoint {
        node: node.into(),
        port: Id::from(20),
    };
    Edge {
        id: id.into(),
        source: end(4),
        target: end(5),
        points: points.iter().map(|&(x, y)| Point { x, y }).collect(),
    }
}

/// Where something of the board is on the page: nodes 1 and 8 tell the scale.
fn on_page(elements: &[Element], board: &Board, at: Point) -> (f64, f64) {
    let corner = |id: u32| {
        let place = elements
            .iter()
            .position(|of| of.value("id") == format!("node-{id}"));
        let rect = elements[place.expect("a node") + 1..]
            .iter()
            .find(|of| of.name == "rect");
        let node = *board.node(Id::from(id)).expect("a node");
        (rect.expect("its box").rect()[0], (node.x, node.y))
    };
    let ((a, from), (b, to)) = (corner(1), corner(8));
    let along =
        |a: f64, b: f64, from: f64, to: f64, at: f64| a + (at - from) / (to - from) * (b - a);
    (
        along(a.0, b.0, from.0, to.0, at.x),
        along(a.1, b.1, from.1, to.1, at.y),
    )
}

/// The ring is at a place of the board.
fn ring_at(picture: &str, board: &Board, x: f64, y: f64) {
    let elements = elements(picture);
    let tried = tried(&elements);
    let ring = tried
        .iter()
        .find(|of| of.name == "circle" && of.value("fill") == "none");
    let number = |name: &str| {
        ring.expect("a ring")
            .value(name)
            .parse::<f64>()
            .expect("a number")
    };
    let due = on_page(&elements, board, Point { x, y });
    let (dx, dy) = (number("cx") - due.0, number("cy") - due.1);
    assert!(dx.hypot(dy) < 0.05, "{dx} {dy}");
}

/// The words beside what was tried lie on none of its lines, and on none of the board's.
fn words_beside(picture: &str) {
    let elements = elements(picture);
    let tried = tried(&elements);
    let dashed = tried
        .iter()
        .filter(|of| !of.value("stroke-dasharray").is_empty());
    let lines = dashed
        .flat_map(|of| lines(of.value("d")))
        .collect::<Vec<_>>();
    let words = tried.iter().filter(|of| of.name == "text");
    let words = words.collect::<Vec<_>>();
    assert_eq!(words.len(), 2);
    for label in words {
        let (middle, half) = letters(label);
        let far = nearest(&[middle], &lines, |_| false).0;
        assert!(far > half + 0.35, "{}: {far}", label.words);
    }
    assert_eq!(words_over(picture), Vec::<String>::new());
}

/// What of the board the words beside what was tried lie on: routes as they are drawn, and sides of nodes.
fn words_over(picture: &str) -> Vec<String> {
    let elements = elements(picture);
    let inside = |class: &str, name: &str| {
        let of = elements.iter().enumerate();
        let of = of.filter(|(_, of)| of.value("class") == class);
        let parts = of.flat_map(|(place, of)| {
            let parts = elements[place + 1..].iter();
            parts.take_while(|part| part.depth > of.depth)
        });
        let parts = parts.filter(|part| part.name == name);
        parts.collect::<Vec<_>>()
    };
    let mut all = Vec::new();
    for path in inside("route", "path") {
        all.extend(lines(path.value("d")));
    }
    for frame in inside("node", "rect") {
        let [low, high] = frame.rect();
        let [left, right] = [(low.0, high.1), (high.0, low.1)];
        all.extend([[low, left], [left, high], [high, right], [right, low]]);
    }
    assert!(all.len() > 8, "no board");
    let words = inside("refused", "text").into_iter();
    let over = words.filter(|label| {
        let ([from, to], half) = letters(label);
        let middle = [(from.0 + half, from.1), (to.0 - half, to.1)];
        nearest(&[middle], &all, |_| false).0 < half + 0.2
    });
    over.map(|label| label.words.clone()).collect()
}

/// Words beside what was tried are off the board's own lines and the sides of nodes where there is another place:
/// here between two nodes, where routes are drawn side by side and the whole name is too long.
#[test]
fn words_off_the_board() {
    let text = "port_stub 0\nroute_lane_gap 5\nedge_node_clearance 3\n\
        minimum_parallel_wire_spacing 0\nmember_endpoint_reserve 3\n\
        node 1 at -10,-10 size 10,20\nnode 2 at 12,-10 size 10,20\n\
        port 1:1 east 10\nport 2:1 west 12\n\
        edge 11 from 1:1 to 2:1 via 0,0 12,0 12,2\n\
        edge 12 from 1:1 to 2:1 via 0,0 0,7 8,7 12,7 12,2\n\
        edge 13 from 1:1 to 2:1 via 0,0 2,0 2,14 12,14 12,2\n\
        bundle 2395637334 \"trunk of this name\" at 1:1 input width 3 members 11@0 12@1 13@2\n\
        bundle 5 at 2:1 output width 3 members 11@0 12@1 13@2\n";
    let text = text::read_all(text.as_bytes()).expect("a text");
    let refusal = text.board.draw().expect_err("refused");
    assert_eq!(refusal, Refusal::TapUnreachable);
    let picture = bundles::svg::svg_refused(&text.board, refusal, &text.names, "10");
    words_beside(&picture);
    assert!(picture.contains(">B2395637334: refused, not drawn<"));
    let whole = "bundle 2395637334 \u{2068}trunk of this name\u{2069} as it was tried: refused";
    let plain = whole.replace(['\u{2068}', '\u{2069}'], "");
    assert!(picture.contains(whole) || picture.contains(&plain));
}

/// 11: a wire in no bundle across the spine of bundle 3, which is the one that is shown.
#[test]
fn a_spine_that_would_cross_a_wire() {
    let wire = edge(81, &[(320.0, 150.0), (320.0, 330.0)]);
    let (board, refusal) = clock_board(|board| board.edges.push(wire));
    assert_eq!(refusal, Refusal::ForbiddenContact);
    let picture = shown(&board, refusal, "11");
    for words in [
        "The spine of bundle 3 would cross the route of edge 81, at (320, 260), and the board forbids crossings.",
        "B3: refused, not drawn",
        "refused bundle as it was tried, on no sheet",
    ] {
        assert!(picture.contains(words), "{words}");
    }
    ring_at(&picture, &board, 320.0, 260.0);
    words_beside(&picture);
    let names = text::read_all(&file("examples/clock-board.txt"))
        .expect("a text")
        .names;
    let named = bundles::svg::svg_refused(&board, refusal, &names, "11");
    assert!(named.contains("The spine of bundle 3 (oscillator) would cross the route of edge 81"));
    assert!(named.contains("B3 oscillator: refused, not drawn"));
}

/// 12: a node between the collector of bundle 1 and the PLL.
#[test]
fn a_node_in_the_way() {
    let node = Node {
        id: Id::from(9),
        x: 385.0,
        y: 60.0,
        width: 12.0,
        height: 20.0,
    };
    let (board, refusal) = clock_board(|board| board.nodes.push(node));
    assert_eq!(refusal, Refusal::RouteThroughNode);
    let picture = shown(&board, refusal, "12");
    let words = "The route of edge 11, a member of bundle 1, would run through node 9, from";
    assert!(picture.contains(words));
    ring_at(&picture, &board, 391.0, 70.0);
    words_beside(&picture);
}

/// 10: a member of bundle 5, which stands at the rail, that ends before its corridor.
#[test]
fn a_member_that_cannot_be_led() {
    let short = [(100.0, 390.0), (120.0, 390.0)];
    let (board, refusal) = clock_board(|board| {
        let edge = board.edges.iter_mut().find(|edge| edge.id == Id::from(51));
        let points = short.map(|(x, y)| Point { x, y });
        edge.expect("an edge").points = points.to_vec();
    });
    assert_eq!(refusal, Refusal::TapUnreachable);
    let picture = shown(&board, refusal, "10");
    let words = "The route of edge 51, a member of bundle 5, cannot be led to its tap at";
    assert!(picture.contains(words));
    // Its tap is the first of three, 10 from the middle one.
    ring_at(&picture, &board, 120.0, 410.0);
    words_beside(&picture);
}

/// 13: by the plan, so that nothing was tried; the bundles are named.
#[test]
fn a_chain_without_room() {
    let text = "port_stub 0\nroute_lane_gap 32\nedge_node_clearance 3.552713678800501e-15\n\
                minimum_parallel_wire_spacing 0\nmember_endpoint_reserve 0\npermit_crossings yes\n\
                node 0 \"unit\" at -32,0 size 0,0\nnode 1 at 64,0 size 0,0\n\
                port 0:0 east 0\nport 1:1 west 0\n\
                edge 0 from 0:0 to 1:1 via -32,0 64,0\nedge 1 from 0:0 to 1:1 via -32,1 64,1\n\
                bundle 5 \"out\" at 1:1 output width 2 members 0@0 1@0\n\
                bundle 6 \"in\" at 0:0 input width 2 members 0@0 1@0\n";
    let text = text::read_all(text.as_bytes()).expect("a text");
    assert_eq!(text.board.draw(), Err(Refusal::NoRoomToSplit));
    shown(&text.board, Refusal::NoRoomToSplit, "13");
    let named = bundles::svg::svg_refused(&text.board, Refusal::NoRoomToSplit, &text.names, "13");
    let words = "Bundle 5 (out) and bundle 6 (in) share edges and have no room between them.";
    assert!(named.contains(words), "{named}");
}

/// All refused jobs in the folder that PICTURE_JOBS names.
#[test]
fn refused_jobs_of_a_folder() {
    let Some(folder) = std::env::var_os("PICTURE_JOBS") else {
        return;
    };
    let (mut count, mut by_drawing) = (0, 0);
    for entry in std::fs::read_dir(folder).expect("a folder") {
        let job = std::fs::read(entry.expect("an entry").path()).expect("a file");
        if let Ok(board) = Board::from_bytes(&job)
            && let Err(refusal) = board.draw()
        {
            let picture = shown(&board, refusal, "refused");
            by_drawing += usize::from(picture.contains("class=\"refused\""));
            count += 1;
        }
    }
    println!("{count} refused boards, {by_drawing} with what was tried");
}
