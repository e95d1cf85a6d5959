//! Ports in a picture that is read back: no line lies at a port where it does not end.

use bundle_stage::{Board, Endpoint, Id, Node, Point, Sheet};

use super::apart::{SEEN, Shown, apart};
use super::loose::{ends, open_ends};
use super::of_class;
use super::read::{Element, Line, nearest};

/// A port's square, from edge to edge of its ink, and what ends there.
pub struct Square {
    name: String,
    low: (f64, f64),
    high: (f64, f64),
    edges: Vec<Id>,
    bundles: Vec<Id>,
}

/// The squares of a picture.
pub fn squares(elements: &[Element], board: &Board) -> Vec<Square> {
    let drawn = of_class(elements, "port");
    assert_eq!(drawn.len(), board.ports.len());
    let ports = board.ports.iter().zip(drawn);
    let square = |(port, element): (&bundle_stage::Port, &Element)| {
        let name = format!("port-{}-{}", port.node, port.id);
        assert_eq!(element.value("id"), name);
        let width = element.value("stroke-width").parse::<f64>();
        let half = width.expect("a width") / 2.0;
        let [low, high] = element.rect();
        let at = Endpoint {
            node: port.node,
            port: port.id,
        };
        let (edges, bundles) = ending(board, at);
        Square {
            name,
            low: (low.0 - half, low.1 - half),
            high: (high.0 + half, high.1 + half),
            edges,
            bundles,
        }
    };
    ports.map(square).collect()
}

/// The edges and bundles of a port, the members of its bundles among the edges.
fn ending(board: &Board, at: Endpoint) -> (Vec<Id>, Vec<Id>) {
    let edges = board.edges.iter();
    let edges = edges.filter(|edge| edge.source == at || edge.target == at);
    let bundles = board.bundles.iter().filter(|bundle| bundle.endpoint == at);
    let members = bundles.clone().flat_map(|bundle| &bundle.members);
    let members = members.map(|member| member.edge);
    (
        edges.map(|edge| edge.id).chain(members).collect(),
        bundles.map(|bundle| bundle.id).collect(),
    )
}

impl Square {
    pub fn is_of(&self, edge: Id) -> bool {
        self.edges.contains(&edge)
    }

    pub fn is_of_bundle(&self, bundle: Id) -> bool {
        self.bundles.contains(&bundle)
    }

    /// Whether a place is inside, or so near.
    pub fn near(&self, at: (f64, f64), more: f64) -> bool {
        let inside = |at: f64, low: f64, high: f64| low - more <= at && at <= high + more;
        inside(at.0, self.low.0, self.high.0) && inside(at.1, self.low.1, self.high.1)
    }

    fn sides(&self) -> [Line; 4] {
        let (a, c) = (self.low, self.high);
        let (b, d) = ((c.0, a.1), (a.0, c.1));
        [[a, b], [b, c], [c, d], [d, a]]
    }

    /// How near lines come, and where.
    pub fn to(&self, lines: &[Line]) -> (f64, (f64, f64)) {
        let mut ends = lines.iter().flatten();
        match ends.find(|end| self.near(**end, 0.0)) {
            Some(inside) => (0.0, *inside),
            None => nearest(lines, &self.sides(), |_| false),
        }
    }
}

/// The end of a route that is at its port, and in no bundle there, is drawn up to the port's square.
pub fn joined(shown: &Shown<'_>, board: &Board) -> Result<(), String> {
    let ends_of = |place: usize| ends(&shown.routes[place].paths);
    for (place, is_source, at_port) in open_ends(board, shown.sheet) {
        let edge = &board.edges[place];
        let port = if is_source { edge.source } else { edge.target };
        let square = board
            .ports
            .iter()
            .position(|of| (of.node, of.id) == (port.node, port.port));
        let (true, Some(square)) = (at_port, square) else {
            continue;
        };
        let ends = ends_of(place);
        let end = if is_source { ends.first() } else { ends.last() };
        // A route without length has no line.
        if end.is_some_and(|end| !shown.ports[square].near(*end, 0.0)) {
            let name = &shown.ports[square].name;
            return Err(format!("edge {} ends at {end:?}, short of {name}", edge.id));
        }
    }
    Ok(())
}

/// No line or dot comes near to a port's square that does not end there, nor do two squares to which
/// lines are drawn.
pub fn ports(shown: &Shown<'_>) -> Result<(), String> {
    let mut wired = Vec::new();
    for port in &shown.ports {
        let mut touched = false;
        for (route, drawn) in shown.sheet.routes.iter().zip(&shown.routes) {
            let near = port.to(&drawn.lines);
            if port.is_of(route.id) {
                touched |= near.0 <= 0.0;
            } else {
                apart(&format!("edge {} at {}", route.id, port.name), near, SEEN)?;
            }
        }
        for (bundle, drawn) in shown.sheet.bundles.iter().zip(&shown.bundles) {
            let near = port.to(&drawn.lines);
            if port.bundles.contains(&bundle.id) {
                touched |= near.0 <= 0.0;
                continue;
            }
            let what = format!("bundle {} at {}", bundle.id, port.name);
            apart(&what, near, SEEN)?;
            for (middle, radius) in &drawn.taps {
                apart(&what, port.to(&[[*middle; 2]]), SEEN + radius)?;
            }
        }
        if touched {
            wired.push(port);
        }
    }
    for (place, port) in wired.iter().enumerate() {
        for other in &wired[..place] {
            let what = format!("{} beside {}", port.name, other.name);
            apart(&what, port.to(&other.sides()), SEEN)?;
        }
    }
    Ok(())
}

/// What of the sheet itself lies at a port where it does not end, in the tool's words without names.
pub fn contacts(board: &Board, sheet: &Sheet) -> Vec<String> {
    let mut all = Vec::new();
    for port in &board.ports {
        let placed = sheet.node(port.node).zip(board.node(port.node));
        let (at, sized) = placed.expect("a node");
        let node = Node {
            x: at.x,
            y: at.y,
            ..*sized
        };
        let place = node.port_point(port);
        let name = Endpoint {
            node: port.node,
            port: port.id,
        };
        let (edges, bundles) = ending(board, name);
        let routes = sheet.routes.iter();
        let routes = routes.filter(|route| !edges.contains(&route.id) && on(&route.points, place));
        let routes = routes.map(|route| format!("edge {}", route.id));
        let trunks = sheet.bundles.iter().filter(|of| {
            let mut parts = [of.collector, of.spine].into_iter();
            !bundles.contains(&of.id) && parts.any(|part| on(&[part.start, part.end], place))
        });
        let trunks = trunks.map(|trunk| format!("bundle {}", trunk.id));
        let at = format!("port {} of node {}", port.id, port.node);
        let words = |what| format!("{what} lies on the place of {at} and does not end there");
        all.extend(routes.chain(trunks).map(words));
    }
    all
}

/// Whether a point is on a line, by its coordinates alone where it is level or upright.
fn on(points: &[Point], at: Point) -> bool {
    let between = |a: f64, b: f64, at: f64| (a <= at && at <= b) || (b <= at && at <= a);
    let mut runs = points.windows(2);
    points == [at]
        || runs.any(|run| {
            let (a, b) = (run[0], run[1]);
            let slope = (b.x - a.x) * (at.y - a.y) == (at.x - a.x) * (b.y - a.y);
            between(a.x, b.x, at.x) && between(a.y, b.y, at.y) && slope
        })
}
