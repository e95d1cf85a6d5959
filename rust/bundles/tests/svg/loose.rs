//! Ends of routes that are not at their ports: a cross at each, or the last line counts it; no cross touches
//! what is not its route's.

use bundle_stage::{Board, Edge, Endpoint, Node, Point, Refusal, Role, Sheet};
use bundles::names::Names;
use bundles::text;

use super::apart::{Drawn, SEEN, apart, drawn};
use super::ports::{Square, squares};
use super::read::{Element, Line, elements, lines, nearest};
use super::{checked, example, file, of_class, svg};

/// The ends that are in no bundle, by the board and the sheet: each by the place of its edge, `true` for the
/// source, and whether it is at its port.
pub fn open_ends(board: &Board, sheet: &Sheet) -> Vec<(usize, bool, bool)> {
    let bundled = |edge: &Edge, role: Role| {
        let of_role = board.bundles.iter().filter(|bundle| bundle.role == role);
        let mut members = of_role.flat_map(|bundle| &bundle.members);
        members.any(|member| member.edge == edge.id)
    };
    let near = near(board, sheet);
    let at_port = |at: &Point, end: Endpoint| {
        let port = board.port(end)?;
        let (node, placed) = board.node(end.node).zip(sheet.node(end.node))?;
        let node = Node {
            x: placed.x,
            y: placed.y,
            ..*node
        };
        let place = node.port_point(port);
        Some((place.x - at.x).abs().max((place.y - at.y).abs()) <= near)
    };
    let mut all = Vec::new();
    for (place, (edge, route)) in board.edges.iter().zip(&sheet.routes).enumerate() {
        let ends = [
            (true, Role::Input, edge.source, route.points.first()),
            (false, Role::Output, edge.target, route.points.last()),
        ];
        for (is_source, role, end, at) in ends {
            if let Some(at) = at.filter(|_| !bundled(edge, role)) {
                all.push((place, is_source, at_port(at, end) == Some(true)));
            }
        }
    }
    all
}

/// How far an end may be from its port: 2^-32 of the board's length, but no more than 2^-18; or what the rounding
/// of its largest numbers may be.
fn near(board: &Board, sheet: &Sheet) -> f64 {
    let corners = board.nodes.iter().flat_map(|node| {
        let far = (node.x + node.width, node.y + node.height);
        [(node.x, node.y), far]
    });
    let points = board.edges.iter().flat_map(|edge| &edge.points);
    let all = corners.chain(points.map(|at| (at.x, at.y)));
    let (x, y): (Vec<f64>, Vec<f64>) = all.unzip();
    let most = |of: &[f64]| of.iter().copied().fold(f64::NEG_INFINITY, f64::max);
    let least = |of: &[f64]| of.iter().copied().fold(f64::INFINITY, f64::min);
    let long = (most(&x) - least(&x)).max(most(&y) - least(&y));
    let numbers = x.iter().chain(&y).map(|number| number.abs());
    let largest = numbers.fold(sheet.width.max(sheet.height), f64::max);
    let part = long / 2_f64.powi(32);
    part.min(2_f64.powi(-18)).max(largest / 2_f64.powi(48))
}

/// The ends that are due a cross.
fn due(board: &Board, sheet: &Sheet) -> Vec<(usize, bool)> {
    let loose = open_ends(board, sheet).into_iter();
    let loose = loose.filter(|(_, _, at_port)| !at_port);
    loose
        .map(|(place, is_source, _)| (place, is_source))
        .collect()
}

struct Cross {
    of: String,
    lines: Vec<Line>,
    middle: (f64, f64),
    /// Half the width of its lines.
    half: f64,
}

fn crosses(elements: &[Element]) -> Vec<Cross> {
    let groups = elements.iter().enumerate();
    let groups = groups.filter(|(_, element)| element.value("class") == "loose-end");
    let cross = |(place, group): (usize, &Element)| {
        let mut inside = elements[place + 1..].iter();
        let path = inside
            .find(|element| element.name == "path")
            .expect("a cross");
        let lines = lines(path.value("d"));
        let [a, b] = lines[0];
        Cross {
            of: group.value("data-of").to_string(),
            middle: ((a.0 + b.0) / 2.0, (a.1 + b.1) / 2.0),
            lines,
            half: path.value("stroke-width").parse::<f64>().expect("a width") / 2.0,
        }
    };
    groups.map(cross).collect()
}

/// How many ends the last line says have no room.
fn left_out(picture: &str) -> usize {
    let said = picture.split("No room for a cross at ").nth(1);
    let count = said.and_then(|said| said.split(' ').next());
    count.map_or(0, |count| count.parse().expect("a count"))
}

/// Holds the crosses of a picture to its sheet; how many there are.
pub fn marked(picture: &str, board: &Board, sheet: &Sheet) -> Result<usize, String> {
    let elements = checked(picture);
    let due = due(board, sheet);
    let crosses = crosses(&elements);
    if crosses.len() + left_out(picture) != due.len() {
        return Err(format!("{} crosses, {} due", crosses.len(), due.len()));
    }
    let shown = Picture {
        routes: drawn(&elements, "route"),
        bundles: drawn(&elements, "bundle"),
        ports: squares(&elements, board),
    };
    for (place, cross) in crosses.iter().enumerate() {
        let mut edges = board.edges.iter();
        let own = edges.position(|edge| format!("route-{}", edge.id) == cross.of);
        let own = own.expect("a route");
        let ends = ends(&shown.routes[own].paths);
        let mut ends = ends
            .iter()
            .map(|(x, y)| (x - cross.middle.0).hypot(y - cross.middle.1));
        if !ends.any(|far| far < 0.02) || !due.iter().any(|(edge, _)| *edge == own) {
            return Err(format!("a cross of {} at {:?}", cross.of, cross.middle));
        }
        shown.apart(cross, own, &board.edges[own], board)?;
        for other in &crosses[..place] {
            let to = nearest(&cross.lines, &other.lines, |_| false);
            apart("two crosses", to, SEEN + cross.half + other.half)?;
        }
    }
    Ok(crosses.len())
}

/// What is drawn beside the crosses.
struct Picture {
    routes: Vec<Drawn>,
    bundles: Vec<Drawn>,
    ports: Vec<Square>,
}

impl Picture {
    /// A cross is apart from all that is not its route's.
    fn apart(&self, cross: &Cross, own: usize, edge: &Edge, board: &Board) -> Result<(), String> {
        let others = self.routes.iter().enumerate();
        let others = others.filter(|(route, _)| *route != own);
        for drawn in others.map(|(_, drawn)| drawn).chain(&self.bundles) {
            let to = nearest(&cross.lines, &drawn.lines, |_| false);
            apart("a cross beside a line", to, SEEN + cross.half)?;
            for (middle, radius) in &drawn.taps {
                let to = nearest(&cross.lines, &[[*middle; 2]], |_| false);
                apart("a cross beside a dot", to, SEEN + cross.half + radius)?;
            }
        }
        let own = [edge.source, edge.target].map(|end| (end.node, end.port));
        let foreign = self.ports.iter().zip(&board.ports);
        let foreign = foreign.filter(|(_, port)| !own.contains(&(port.node, port.id)));
        for (square, _) in foreign {
            apart(
                "a cross at a port",
                square.to(&cross.lines),
                SEEN + cross.half,
            )?;
        }
        Ok(())
    }
}

/// The two ends of a route, by its paths.
pub fn ends(paths: &[String]) -> Vec<(f64, f64)> {
    let numbers = |d: &str| {
        let words = d.split(|letter: char| letter.is_ascii_uppercase() || letter == ' ');
        let words = words.filter(|word| !word.is_empty());
        words
            .map(|word| word.parse::<f64>().expect("a number"))
            .collect::<Vec<_>>()
    };
    let first = paths.first().map(|d| numbers(d));
    let last = paths.last().map(|d| numbers(d));
    let first = first.map(|of| (of[0], of[1]));
    let last = last.map(|of| (of[of.len() - 2], of[of.len() - 1]));
    first.into_iter().chain(last).collect()
}

/// The clock board with edge 71 as it is said here.
fn clock_board(edge: &str) -> (Board, Sheet) {
    let board = String::from_utf8(file("examples/clock-board.txt")).expect("text");
    let from = "edge 71 from 4:20 to 5:20 via 480,220 480,300";
    assert!(board.contains(from));
    let mut board = text::read(board.replace(from, edge).as_bytes()).expect("a board");
    board.flags.on_grid = false;
    let sheet = board.draw().expect("a sheet");
    (board, sheet)
}

/// Its picture, which has so many crosses.
fn crossed(edge: &str, crosses: usize) -> String {
    let (board, sheet) = clock_board(edge);
    let picture = svg(&board, &sheet, "crossed");
    assert_eq!(marked(&picture, &board, &sheet), Ok(crosses), "{edge}");
    picture
}

#[test]
fn an_end_short_of_its_port() {
    let picture = crossed("edge 71 from 4:20 to 5:20 via 480,220 480,260", 1);
    let words = "edge 71 ends at (480, 260), not at its port 5:20, which stands at (480, 300)";
    assert!(picture.contains(&format!(">Edge{}.</text>", &words[4..])));
    assert!(picture.contains(&format!("data-of=\"route-71\"><title>{words}</title>")));
    assert!(picture.contains(&format!(
        "<title>edge 71 from 4:20 to 5:20; {words}</title>"
    )));
    for words in [
        ">not at 5:20</text>",
        ">end of a line that is not at its port: no joint</text>",
    ] {
        assert_eq!(picture.matches(words).count(), 1, "{words}");
    }
    // Where all ends are joined nothing is said of it.
    let (board, sheet) = example("clock-board");
    let picture = svg(&board, &sheet, "joined");
    assert_eq!(marked(&picture, &board, &sheet), Ok(0));
    assert!(!picture.contains("not at its port"));
}

/// What only roundings put between an end and its port is joined; what is on its square and further is not.
#[test]
fn how_near_is_at_the_port() {
    for (y, crosses) in [
        ("299.9999999", 0),
        ("299.999999", 1),
        ("299.999", 1),
        ("299", 1),
    ] {
        crossed(
            &format!("edge 71 from 4:20 to 5:20 via 480,220 480,{y}"),
            crosses,
        );
    }
}

#[test]
fn a_port_that_is_not_there() {
    let picture = crossed("edge 71 from 4:20 to 5:21 via 480,220 480,260", 1);
    let words = ">Edge 71 ends at (480, 260), and the board has no port 5:21.</text>";
    assert!(picture.contains(words));
    // Without points there is no line, and no end that could have a cross.
    let picture = crossed("edge 71 from 4:20 to 5:20", 0);
    assert!(
        picture.contains(">Edge 71 has no points: no line is drawn from port 4:20 to port 5:20.<")
    );
}

/// A member that is said to lead to another port than that of its bundle.
#[test]
fn another_port_than_the_bundle_s() {
    let board = String::from_utf8(file("examples/clock-board.txt")).expect("text");
    let board = board.replace("edge 41 from 5:11 to 7:1 ", "edge 41 from 5:11 to 8:1 ");
    let text = text::read_all(board.as_bytes()).expect("a board");
    let sheet = text.board.draw().expect("a sheet");
    let picture = bundles::svg::svg(&text.board, &sheet, &text.names, "other").expect("clear");
    let words = ">Edge 41 leads into bundle 4 (time code) at port 7:1, not to its own port 8:1.<";
    assert!(picture.contains(words));
    assert_eq!(marked(&picture, &text.board, &sheet), Ok(0));
}

/// No more than six are named; all have their crosses.
#[test]
fn many_ends() {
    let (mut board, _) = example("clock-board");
    board.bundles.clear();
    for edge in &mut board.edges {
        // One unit short of the port.
        if let Some(last) = edge.points.last_mut() {
            last.x -= 8.0;
        }
    }
    board.edges.truncate(17);
    let sheet = board.draw().expect("no bundle, so nothing to refuse");
    let picture = svg(&board, &sheet, "many");
    let count = marked(&picture, &board, &sheet).expect("apart");
    assert_eq!(count + left_out(&picture), 17);
    assert!(count > 8, "{count}");
    assert_eq!(
        picture.matches(", which stands at (").count(),
        17 + 6 + count
    );
    assert!(picture.contains(">And 11 more.</text>"));
}

/// Of a refused board an end is told by the rule for one that is drawn: that of a member, which its bundle
/// leads to its port, is not loose wherever its route begins; any other is.
#[test]
fn a_refused_board() {
    let (mut board, _) = example("clock-board");
    let start = |board: &mut Board| {
        let edge = board.edges.iter_mut().find(|edge| edge.id == 11.into());
        edge.expect("an edge").points[0].x += 20.0;
    };
    start(&mut board);
    let sheet = board.draw().expect("the bundle leads it to its port");
    assert_eq!(marked(&svg(&board, &sheet, "drawn"), &board, &sheet), Ok(0));
    let mut twice = board.bundles[5].clone();
    twice.members.clear();
    board.bundles.push(twice);
    assert_eq!(board.draw(), Err(Refusal::DuplicateId));
    let names = Names::default();
    let refused =
        |board: &Board| bundles::svg::svg_refused(board, Refusal::DuplicateId, &names, "given");
    let picture = refused(&board);
    assert!(
        of_class(&elements(&picture), "loose-end").is_empty(),
        "{picture}"
    );
    assert!(!picture.contains("not at its port"), "{picture}");
    let edge = board.edges.iter_mut().find(|edge| edge.id == 71.into());
    edge.expect("an edge").points[1].y -= 40.0;
    let picture = refused(&board);
    let elements = elements(&picture);
    let of = of_class(&elements, "loose-end");
    assert_eq!(of.len(), 1);
    assert_eq!(of[0].value("data-of"), "route-71");
    let words = ">Edge 71 ends at (480, 260), not at its port 5:20, which stands at (480, 300).<";
    assert!(picture.contains(words), "{picture}");
}

/// The last shift moves the sheet: an end is told where the job has it.
#[test]
fn a_sheet_that_was_shifted() {
    let board = String::from_utf8(file("examples/clock-board.txt")).expect("text");
    let board = board.replace("via 480,220 480,300", "via 480,220 480,260");
    let mut board = text::read(board.as_bytes()).expect("a board");
    for node in &mut board.nodes {
        (node.x, node.y) = (node.x - 1000.0, node.y - 500.0);
    }
    for point in board.edges.iter_mut().flat_map(|edge| &mut edge.points) {
        (point.x, point.y) = (point.x - 1000.0, point.y - 500.0);
    }
    let sheet = board.draw().expect("a sheet");
    assert!(sheet.nodes.iter().all(|node| node.x >= 0.0));
    let picture = svg(&board, &sheet, "shifted");
    assert_eq!(marked(&picture, &board, &sheet), Ok(1));
    let words =
        ">Edge 71 ends at (-520, -240), not at its port 5:20, which stands at (-520, -200).<";
    assert!(picture.contains(words), "{picture}");
}

/// A line that runs through its port and ends inside the node is joined, and its end has a cross.
#[test]
fn an_end_past_its_port() {
    let picture = crossed("edge 71 from 4:20 to 5:20 via 480,220 480,320", 1);
    let words = ">Edge 71 ends at (480, 320), past its port 5:20, through which it runs at (480, 300).</text>";
    assert!(picture.contains(words), "{picture}");
}
