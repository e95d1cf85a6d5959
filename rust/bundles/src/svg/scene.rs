//! What is on the sheet: at first in the sheet's own lengths, then in millimetres of the page.

use std::collections::HashMap;

use bundle_stage::{
    Board, Bundle, Crossing, DrawnBundle, Edge, Endpoint, FalseJoint, Id, Node, Point, Role,
    Segment, Sheet, Side,
};

use crate::joints::{name, words};
use crate::keys::Keys;
use crate::names::Names;
use crate::places::Places;

use super::facts::Facts;
use super::records::Records;
use super::tried::Tried;

#[derive(Clone)]
pub struct Scene {
    pub nodes: Vec<Node>,
    pub ports: Vec<Port>,
    pub routes: Vec<Route>,
    pub trunks: Vec<Trunk>,
    pub marks: Vec<Mark>,
    /// How often each bundle and route cross, by their places, if that is known.
    pub crossings: Option<HashMap<(usize, usize), Crossed>>,
    pub tried: Option<Tried>,
    /// Of the sheet, before it lies on a page.
    pub facts: Facts,
    pub records: Records,
    pub names: Names,
    /// How many nodes, ports, routes and bundles have a number that no page can show.
    pub left_out: usize,
}

#[derive(Clone)]
pub struct Port {
    pub name: Endpoint,
    pub at: Point,
    pub side: Side,
    /// From where to where the routes that end there are drawn: at first just there.
    pub low: Point,
    pub high: Point,
    /// The side of its square.
    pub size: f64,
}

#[derive(Clone)]
pub struct Route {
    pub id: Id,
    pub source: Endpoint,
    pub target: Endpoint,
    pub points: Vec<Point>,
    /// The place among the trunks of the input bundle that it is a member of: it starts there.
    pub input: Option<usize>,
    /// The same for an output bundle: it ends there.
    pub output: Option<usize>,
}

/// A bundle as drawn.
#[derive(Clone)]
pub struct Trunk {
    pub id: Id,
    pub endpoint: Endpoint,
    pub role: Role,
    pub interior: bool,
    pub width: u32,
    pub collector: Segment,
    pub spine: Segment,
    pub taps: Vec<Tap>,
    /// How thick it is drawn.
    pub weight: f64,
}

#[derive(Clone)]
pub struct Tap {
    pub edge: Id,
    /// Its id in the picture.
    pub key: String,
    pub at: Point,
    /// It lies on the collector. At the rail, with lanes out of order, it need not.
    pub held: bool,
    /// The radius of its dot.
    pub radius: f64,
}

/// How often a route crosses a bundle.
#[derive(Clone, Copy, Default)]
pub struct Crossed {
    /// Runs that do.
    pub runs: usize,
    /// Places where they do: a route may go back over itself.
    pub places: usize,
}

/// A false joint, or what would look like one.
#[derive(Clone)]
pub struct Mark {
    pub at: Point,
    pub name: &'static str,
    pub words: String,
}

/// The radius of the ring around it, in millimetres.
pub const MARK: f64 = 2.4;
/// What a line at the port of others is called.
const NO_JOINT: &str = "no joint";

impl Mark {
    /// Of a line that lies on the place of a port and does not end there.
    pub fn no_joint((at, words): (Point, String)) -> Mark {
        let name = NO_JOINT;
        Mark { at, name, words }
    }

    pub fn means(&self) -> &'static str {
        if self.name == NO_JOINT {
            "no joint: a line at a port where it does not end"
        } else {
            "false joint, or an edge in a node"
        }
    }
}

impl Route {
    pub fn member_of(&self, place: usize) -> bool {
        self.input == Some(place) || self.output == Some(place)
    }
}

impl Trunk {
    /// A bundle as it is drawn, with the ids of its taps in the picture.
    fn of(bundle: &Bundle, drawn: &DrawnBundle, keys: impl Iterator<Item = String>) -> Trunk {
        let taps = drawn.taps.iter().zip(keys);
        let taps = taps.map(|(tap, key)| Tap {
            edge: tap.edge,
            key,
            at: tap.point,
            held: holds(drawn.collector, tap.point),
            radius: 0.0,
        });
        Trunk {
            id: drawn.id,
            endpoint: bundle.endpoint,
            role: bundle.role,
            interior: drawn.interior,
            width: bundle.width,
            collector: drawn.collector,
            spine: drawn.spine,
            taps: taps.collect(),
            weight: 0.0,
        }
    }

    pub fn parts(&self) -> [(Point, Point); 2] {
        [self.collector, self.spine].map(|part| (part.start, part.end))
    }
}

impl Scene {
    /// The finished sheet. Sizes, ports, roles and members are the board's.
    pub fn of_sheet(board: &Board, sheet: &Sheet) -> Scene {
        let placed = |(place, node): (usize, &Node)| {
            let at = sheet.node(node.id)?;
            let (x, y) = (at.x, at.y);
            Some((place, Node { x, y, ..*node }))
        };
        let nodes = board.nodes.iter().enumerate().filter_map(placed).collect();
        let mut keys = Keys::of(board, Some(sheet));
        let mut scene = Scene::of_nodes(board, nodes, &keys);
        for (place, route) in sheet.routes.iter().enumerate() {
            // An answer has its routes in the order of the board's edges.
            let edge = board.edges.get(place).filter(|edge| edge.id == route.id);
            if let Some(edge) = edge.or(board.edge(route.id)) {
                scene.add_route((place, edge), &route.points, &keys);
            }
        }
        for (place, drawn) in sheet.bundles.iter().enumerate() {
            if let Some(bundle) = board.bundle(drawn.id) {
                let trunk = Trunk::of(bundle, drawn, keys.taps[place].drain(..));
                scene.add_trunk((place, trunk), &keys);
            }
        }
        scene
    }

    /// The board as it was given, without its bundles.
    pub fn of_board(board: &Board) -> Scene {
        let nodes = board.nodes.iter().copied().enumerate().collect();
        let keys = Keys::of(board, None);
        let mut scene = Scene::of_nodes(board, nodes, &keys);
        for (place, edge) in board.edges.iter().enumerate() {
            scene.add_route((place, edge), &edge.points, &keys);
        }
        scene
    }

    /// Takes the stage's list of crossings of bundles and routes: equal places follow each other in it.
    pub fn list(&mut self, crossings: Option<&[Crossing]>) {
        self.crossings = crossings.map(|list| {
            let mut all = HashMap::<_, Crossed>::new();
            for (turn, one) in list.iter().enumerate() {
                let trunk = self.trunks.iter().position(|trunk| trunk.id == one.bundle);
                let route = self.routes.iter().position(|route| route.id == one.edge);
                // What cannot be shown crosses nothing on the page.
                let (Some(trunk), Some(route)) = (trunk, route) else {
                    continue;
                };
                let crossed = all.entry((trunk, route)).or_default();
                crossed.runs += 1;
                let before = turn.checked_sub(1).map(|before| list[before]);
                crossed.places += usize::from(before != Some(*one));
            }
            all
        });
    }

    fn of_nodes(board: &Board, nodes: Vec<(usize, Node)>, keys: &Keys) -> Scene {
        let count = nodes.len() + board.ports.len();
        let nodes = nodes.into_iter().filter(|(_, node)| shown_node(node));
        let (places, nodes): (Vec<usize>, Vec<Node>) = nodes.unzip();
        let homes = Places::of(board);
        let by_place = places.iter().zip(&nodes).collect::<HashMap<_, _>>();
        let port = |(place, port): (usize, &bundle_stage::Port)| {
            let at = by_place.get(&homes.home(place)?)?.port_point(port);
            let name = Endpoint {
                node: port.node,
                port: port.id,
            };
            let port = Port {
                name,
                at,
                side: port.side,
                low: at,
                high: at,
                size: 0.0,
            };
            shown(at).then_some((place, port))
        };
        let ports = board.ports.iter().enumerate().filter_map(port);
        let (ports_at, ports): (Vec<usize>, Vec<Port>) = ports.unzip();
        Scene {
            left_out: count - nodes.len() - ports.len(),
            records: Records::of(board, (&places, &ports_at), keys),
            nodes,
            ports,
            routes: Vec::new(),
            trunks: Vec::new(),
            marks: Vec::new(),
            crossings: None,
            tried: None,
            facts: Facts::default(),
            names: Names::default(),
        }
    }

    fn add_route(&mut self, (place, edge): (usize, &Edge), points: &[Point], keys: &Keys) {
        if !points.iter().all(|at| shown(*at)) {
            self.left_out += 1;
            return;
        }
        self.records.add_route(place, edge.id, keys);
        self.routes.push(Route {
            id: edge.id,
            source: edge.source,
            target: edge.target,
            points: points.to_vec(),
            input: None,
            output: None,
        });
    }

    fn add_trunk(&mut self, (turn, trunk): (usize, Trunk), keys: &Keys) {
        let ends = trunk.parts().into_iter().flat_map(|(a, b)| [a, b]);
        let taps = trunk.taps.iter().map(|tap| tap.at);
        if !ends.chain(taps).all(shown) {
            self.left_out += 1;
            return;
        }
        self.records.add_trunk(turn, trunk.id, keys);
        let place = self.trunks.len();
        for tap in &trunk.taps {
            let member = self.routes.iter_mut().find(|route| route.id == tap.edge);
            match (member, trunk.role) {
                (Some(route), Role::Input) => route.input = Some(place),
                (Some(route), Role::Output) => route.output = Some(place),
                (None, _) => {}
            }
        }
        self.trunks.push(trunk);
    }

    /// Marks false joints, in the middle of what is shared.
    pub fn mark(&mut self, joints: &[FalseJoint]) {
        let middle = |Segment { start, end }| Point {
            x: start.x / 2.0 + end.x / 2.0,
            y: start.y / 2.0 + end.y / 2.0,
        };
        let marks = joints.iter().map(|joint| Mark {
            at: middle(joint.shared),
            name: name(joint),
            words: words(joint),
        });
        self.marks.extend(marks.filter(|mark| shown(mark.at)));
    }

    /// Every point of it, nodes by two corners.
    pub fn points(&self) -> impl Iterator<Item = Point> {
        let nodes = self.nodes.iter().flat_map(corners);
        let routes = self.routes.iter().flat_map(|route| route.points.clone());
        let trunks = self.trunks.iter().flat_map(|trunk| {
            let ends = trunk.parts().into_iter().flat_map(|(a, b)| [a, b]);
            ends.chain(trunk.taps.iter().map(|tap| tap.at))
        });
        let ports = self.ports.iter().map(|port| port.at);
        let tried = self.tried.iter().flat_map(Tried::points);
        nodes.chain(routes).chain(trunks).chain(ports).chain(tried)
    }

    /// The same with every point moved.
    pub fn moved(mut self, to: impl Fn(Point) -> Point) -> Scene {
        let both = |part: Segment| Segment {
            start: to(part.start),
            end: to(part.end),
        };
        for node in &mut self.nodes {
            let [low, high] = corners(node).map(&to);
            (node.x, node.y) = (low.x, low.y);
            (node.width, node.height) = (high.x - low.x, high.y - low.y);
        }
        for port in &mut self.ports {
            port.at = to(port.at);
            (port.low, port.high) = (port.at, port.at);
        }
        for point in self.routes.iter_mut().flat_map(|route| &mut route.points) {
            *point = to(*point);
        }
        for mark in &mut self.marks {
            mark.at = to(mark.at);
        }
        self.tried = self.tried.map(|tried| tried.moved(&to));
        for trunk in &mut self.trunks {
            trunk.collector = both(trunk.collector);
            trunk.spine = both(trunk.spine);
            for tap in &mut trunk.taps {
                tap.at = to(tap.at);
            }
        }
        self
    }

    /// All runs and bundle segments, each as its two ends.
    pub fn lines(&self) -> Vec<(Point, Point)> {
        let runs = self.routes.iter().flat_map(|route| route.points.windows(2));
        let parts = self.trunks.iter().flat_map(Trunk::parts);
        runs.map(|run| (run[0], run[1])).chain(parts).collect()
    }
}

/// Upper left and lower right.
pub fn corners(node: &Node) -> [Point; 2] {
    let low = Point {
        x: node.x,
        y: node.y,
    };
    let high = Point {
        x: node.x + node.width,
        y: node.y + node.height,
    };
    [low, high]
}

fn holds(collector: Segment, at: Point) -> bool {
    let Segment { start, end } = collector;
    let (low, high) = (start.y.min(end.y), start.y.max(end.y));
    at.x == start.x && low <= at.y && at.y <= high
}

/// A job that is refused, or an answer that is not the stage's, may hold any number. Those of an
/// accepted sheet are below 2^34.
pub fn shown(at: Point) -> bool {
    let most = 2_f64.powi(40);
    at.x.abs() <= most && at.y.abs() <= most
}

fn shown_node(node: &Node) -> bool {
    corners(node).into_iter().all(shown) && node.width >= 0.0 && node.height >= 0.0
}
