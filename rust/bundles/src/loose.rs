//! Ends of routes that are not at their ports. The stage takes routes as they are and looks up no port of an
//! edge, so that it draws a board with such ends too; who follows a wire must not take it for joined there.

use std::collections::HashMap;

use bundle_stage::{Board, Endpoint, Id, Item, Node, Point, Role, Sheet};

use crate::lines::Lines;
use crate::names::Names;
use crate::signs::isolated;
use crate::text::number;

/// An end of an edge that the sheet does not lead to the edge's port.
#[derive(Clone, Debug, PartialEq)]
pub struct Loose {
    pub edge: Item,
    /// The place of the edge in its table.
    pub place: usize,
    pub end: End,
    /// Where the edge is said to end.
    pub port: Endpoint,
    pub why: Why,
}

#[derive(Clone, Copy, Debug, Eq, Hash, PartialEq)]
pub enum End {
    Source,
    Target,
}

#[derive(Clone, Copy, Debug, PartialEq)]
pub enum Why {
    /// The route ends in another place than the port has.
    Elsewhere { at: Point, port: Point },
    /// The route runs through the port's place and ends beyond it: it is joined there.
    Past { at: Point, port: Point },
    /// The board has no such port.
    NoPort { at: Point },
    /// The bundle that the edge is in there stands at another port.
    OtherPort { bundle: Item, port: Endpoint },
    /// The route has no points. So nothing leads to the port at its other end either.
    NoPoints { other: Endpoint },
}

/// How near to its port an end is at it: as near as no paper shows, and as roundings may put the two apart, a
/// port's place being a sum and the last shift a difference. Both are measured by the board, however small or
/// large it is.
#[derive(Clone, Copy)]
pub struct Near(f64);

/// No paper shows this part of the board's length; never more than the absolute number counts as near.
const UNSEEN: f64 = 1.0 / 4_294_967_296.0;
const MOST: f64 = 1.0 / 262_144.0;
/// Sixteen times what the rounding of a number may be, for several of them.
const ROUNDED: f64 = 16.0 * f64::EPSILON;

impl Near {
    /// `largest` is of other numbers that are counted too.
    fn with(board: &Board, largest: f64) -> Near {
        let nodes = board.nodes.iter();
        let nodes = nodes.flat_map(|node| {
            let Node { x, y, .. } = *node;
            [(x, y), (x + node.width, y + node.height)]
        });
        let points = board.edges.iter().flat_map(|edge| &edge.points);
        let all = nodes.chain(points.map(|at| (at.x, at.y)));
        let all = all.collect::<Vec<_>>();
        let ways = [|at: &(f64, f64)| at.0, |at: &(f64, f64)| at.1].map(|way| {
            let numbers = all.iter().map(way).filter(|number| number.is_finite());
            let both = (f64::INFINITY, f64::NEG_INFINITY);
            numbers.fold(both, |(low, high), at| (low.min(at), high.max(at)))
        });
        let long = ways.iter().map(|(low, high)| high - low);
        let long = long.fold(0.0, f64::max);
        let most = ways.iter().flat_map(|(low, high)| [-low, *high]);
        let most = most.fold(largest, f64::max);
        Near((UNSEEN * long).min(MOST).max(ROUNDED * most))
    }

    pub fn of(board: &Board) -> Near {
        Near::with(board, 0.0)
    }

    fn holds(self, one: f64, two: f64) -> bool {
        (one - two).abs() <= self.0
    }

    /// Whether two places are one.
    pub fn one(self, a: Point, b: Point) -> bool {
        self.holds(a.x, b.x) && self.holds(a.y, b.y)
    }
}

/// The loose ends of a board, whether it is drawn or refused: an end that is in a bundle is where the
/// bundle's port is, wherever its route begins.
pub fn on_board(board: &Board) -> Vec<Loose> {
    let routes = board.edges.iter().map(|edge| &edge.points[..]);
    Look::new(board, &board.nodes, Near::of(board)).ends(routes, &Members::of(board))
}

/// The same of a finished sheet. The last shift may have moved it: places are told as the board has them,
/// but for an end that is loose on a sheet that is not the board's own.
pub fn on_sheet(board: &Board, sheet: &Sheet) -> Vec<Loose> {
    let given = on_board(board).into_iter();
    let given = given.map(|one| ((one.place, one.end), one));
    let given = given.collect::<HashMap<_, _>>();
    let found = shown(board, sheet).into_iter();
    let told = found.map(|one| given.get(&(one.place, one.end)).cloned().unwrap_or(one));
    told.collect()
}

/// In the sheet's own numbers.
fn shown(board: &Board, sheet: &Sheet) -> Vec<Loose> {
    let placed = board.nodes.iter().filter_map(|node| {
        let at = sheet.node(node.id)?;
        Some(Node {
            x: at.x,
            y: at.y,
            ..*node
        })
    });
    let nodes = placed.collect::<Vec<_>>();
    let routes = sheet.routes.iter().map(|route| &route.points[..]);
    let near = Near::with(board, sheet.width.max(sheet.height));
    Look::new(board, &nodes, near).ends(routes, &Members::of(board))
}

/// The bundles that edges are in, by role and edge.
#[derive(Default)]
struct Members {
    bundles: HashMap<(bool, Id), (Item, Endpoint)>,
}

impl Members {
    fn of(board: &Board) -> Members {
        let mut members = Members::default();
        for (place, bundle) in board.bundles.iter().enumerate() {
            let item = Item::Bundle {
                place,
                id: bundle.id,
            };
            for member in &bundle.members {
                let key = (bundle.role == Role::Input, member.edge);
                let first = members.bundles.entry(key);
                first.or_insert((item, bundle.endpoint));
            }
        }
        members
    }

    fn at(&self, edge: Id, end: End) -> Option<(Item, Endpoint)> {
        self.bundles.get(&(end == End::Source, edge)).copied()
    }
}

/// The places of all ports, several where records have one id.
struct Look<'a> {
    board: &'a Board,
    ports: HashMap<(Id, Id), Vec<Point>>,
    near: Near,
}

impl<'a> Look<'a> {
    /// `nodes` are the board's, where they are placed.
    fn new(board: &'a Board, nodes: &[Node], near: Near) -> Look<'a> {
        let mut by_id = HashMap::<Id, Vec<&Node>>::new();
        for node in nodes {
            by_id.entry(node.id).or_default().push(node);
        }
        let mut ports = HashMap::<(Id, Id), Vec<Point>>::new();
        for port in &board.ports {
            let nodes = by_id.get(&port.node).into_iter().flatten();
            let places = nodes.map(|node| node.port_point(port));
            let of = ports.entry((port.node, port.id)).or_default();
            of.extend(places);
        }
        Look { board, ports, near }
    }

    fn ends<'b>(&self, routes: impl Iterator<Item = &'b [Point]>, members: &Members) -> Vec<Loose> {
        let edges = self.board.edges.iter().zip(routes).enumerate();
        let ends = edges.flat_map(|(place, (edge, points))| {
            let item = Item::Edge { place, id: edge.id };
            let other = edge.target;
            let none = points.is_empty().then_some(Why::NoPoints { other });
            let ends = [
                (End::Source, edge.source, points.first()),
                (End::Target, edge.target, points.last()),
            ];
            let ends = ends.map(|(end, port, at)| {
                let why = match members.at(edge.id, end) {
                    Some((bundle, at)) => {
                        let why = Why::OtherPort { bundle, port: at };
                        (at != port).then_some(why)
                    }
                    None => at.and_then(|at| self.why(points, *at, port)),
                };
                // Where there are no points this is said once.
                let why = why.or(none.filter(|_| end == End::Source));
                why.map(|why| Loose {
                    edge: item,
                    place,
                    end,
                    port,
                    why,
                })
            });
            ends.into_iter().flatten()
        });
        ends.collect()
    }

    fn why(&self, route: &[Point], at: Point, port: Endpoint) -> Option<Why> {
        let places = self.ports.get(&(port.node, port.port));
        let places = places.map_or(&[][..], Vec::as_slice);
        let Some(first) = places.first() else {
            return Some(Why::NoPort { at });
        };
        if places.iter().any(|place| self.near.one(*place, at)) {
            return None;
        }
        let near = self.near;
        let on = |place: &&Point| route.windows(2).any(|run| runs_through(run, **place, near));
        Some(match places.iter().find(on) {
            Some(port) => Why::Past { at, port: *port },
            None => Why::Elsewhere { at, port: *first },
        })
    }
}

/// Whether a level or upright run has a place on it.
fn runs_through(run: &[Point], place: Point, near: Near) -> bool {
    let [a, b] = [run[0], run[1]];
    let between = |a: f64, b: f64, at: f64| a.min(b) <= at && at <= a.max(b);
    let along = |a: f64, b: f64, at: f64| near.holds(a, at) && near.holds(b, at);
    let level = along(a.y, b.y, place.y) && between(a.x, b.x, place.x);
    let upright = along(a.x, b.x, place.x) && between(a.y, b.y, place.y);
    level || upright
}

impl Loose {
    /// What is so, as a clause.
    pub fn words(&self, names: &Names) -> String {
        let edge = names.item(self.edge);
        let port = port_words(self.port, names);
        let [ends, from, to] = match self.end {
            End::Source => ["starts", "comes out of", "from"],
            End::Target => ["ends", "leads into", "to"],
        };
        let ends = |at: Point| format!("{edge} {ends} at {}", place_words(at));
        match self.why {
            Why::Elsewhere { at, port: place } => {
                let (ends, place) = (ends(at), place_words(place));
                format!("{ends}, not at its {port}, which stands at {place}")
            }
            Why::Past { at, port: place } => {
                let (ends, place) = (ends(at), place_words(place));
                format!("{ends}, past its {port}, through which it runs at {place}")
            }
            Why::NoPort { at } => format!("{}, and the board has no {port}", ends(at)),
            Why::OtherPort {
                bundle,
                port: other,
            } => {
                let (bundle, other) = (names.item(bundle), port_words(other, names));
                format!("{edge} {from} {bundle} at {other}, not {to} its own {port}")
            }
            Why::NoPoints { other } => {
                let other = port_words(other, names);
                format!("{edge} has no points: no line is drawn from {port} to {other}")
            }
        }
    }

    /// Whether no line is joined to the port by this end.
    fn is_open(&self) -> bool {
        !matches!(self.why, Why::Past { .. })
    }

    /// Whether by this an end of its edge is joined to nothing.
    pub fn opens(&self, end: End) -> bool {
        let both = matches!(self.why, Why::NoPoints { .. });
        self.is_open() && (both || self.end == end)
    }

    /// Where the line ends on the sheet, if there is one that ends there.
    pub fn at(&self) -> Option<Point> {
        match self.why {
            Why::Elsewhere { at, .. } | Why::Past { at, .. } | Why::NoPort { at } => Some(at),
            Why::OtherPort { .. } | Why::NoPoints { .. } => None,
        }
    }

    /// The line in the text, as `line 3: `, if the board has one.
    pub fn line(&self, lines: &Lines) -> String {
        let line = lines.of(self.edge);
        line.map(|line| format!("line {line}: "))
            .unwrap_or_default()
    }
}

/// A line for each, with its line in the text, behind a line that counts them; nothing where there are none.
pub fn told(loose: &[Loose], names: &Names, lines: &Lines) -> String {
    let each = loose.iter();
    let each = each.map(|one| format!("  {}{}\n", one.line(lines), one.words(names)));
    match loose.len() {
        0 => String::new(),
        count => format!("{}\n{}", counted(count), each.collect::<String>()),
    }
}

/// No more are told where a job is drawn.
const MOST_TOLD: usize = 12;

/// The same of the first of them, and how many more there are.
pub fn told_shortly(loose: &[Loose], names: &Names, lines: &Lines) -> String {
    let all = told(loose, names, lines);
    let more = loose.len().saturating_sub(MOST_TOLD);
    if more == 0 {
        return all;
    }
    let first = all.split_inclusive('\n').take(1 + MOST_TOLD);
    let first = first.collect::<String>();
    format!("{first}  and {more} more: `bundles explain` names all\n")
}

fn counted(count: usize) -> String {
    match count {
        1 => "ends of routes: 1 is not at its port".to_string(),
        _ => format!("ends of routes: {count} are not at their ports"),
    }
}

fn port_words(at: Endpoint, names: &Names) -> String {
    let Endpoint { node, port: id } = at;
    let name = names.port(node, id).map(isolated);
    let name = name.map(|name| format!(" ({name})")).unwrap_or_default();
    format!("port {node}:{id}{name}")
}

/// Minus zero is said as 0, which it is taken for.
fn place_words(at: Point) -> String {
    format!("({}, {})", number(at.x + 0.0), number(at.y + 0.0))
}
