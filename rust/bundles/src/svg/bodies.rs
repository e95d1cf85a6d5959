//! Nodes of hardly any width or height, which would read as lines: they are drawn larger, as far as nothing is
//! near that is not theirs.

use bundle_stage::{Endpoint, Id, Node, Point};

use super::facts::{is_of, line_of};
use super::field::Rect;
use super::paths::flat;
use super::pens::Pens;
use super::ports::far;
use super::scene::{Scene, corners};
use super::stroke::{Piece, Stroke};
use super::white::WHITE;

/// No side of a node is shorter where there is room, in millimetres, and none at all.
const BODY: f64 = 1.6;
const LEAST: f64 = 0.4;

/// The sides of a node, the level ones first.
pub fn sides(node: &Node) -> [(Point, Point); 4] {
    let [a, c] = corners(node);
    let (b, d) = (Point { x: c.x, y: a.y }, Point { x: a.x, y: c.y });
    [(a, b), (d, c), (a, d), (b, c)]
}

/// Gives each node its body.
pub fn widen(scene: &mut Scene, strokes: &[Stroke], pens: &Pens) {
    let bodies = scene.nodes.iter().enumerate();
    let bodies = bodies.map(|(place, node)| body(scene, strokes, pens, (place, node)));
    let bodies = bodies.collect::<Vec<_>>();
    for (node, body) in scene.nodes.iter_mut().zip(bodies) {
        (node.x, node.y) = (body.low.x, body.low.y);
        (node.width, node.height) = (body.high.x - body.low.x, body.high.y - body.low.y);
    }
}

fn body(scene: &Scene, strokes: &[Stroke], pens: &Pens, (place, node): (usize, &Node)) -> Rect {
    let [low, high] = corners(node);
    let around = Rect { low, high };
    if node.width.min(node.height) >= BODY {
        return around;
    }
    let room = room(scene, strokes, (place, node.id), &around) - WHITE - pens.node / 2.0;
    let more = |side: f64| {
        let wanted = ((BODY - side) / 2.0).max(0.0);
        wanted.min(room).max((LEAST - side) / 2.0).max(0.0)
    };
    let (x, y) = (more(node.width), more(node.height));
    let mut body = around;
    (body.low.x, body.low.y) = (low.x - x, low.y - y);
    (body.high.x, body.high.y) = (high.x + x, high.y + y);
    body
}

/// How far the nearest line, dot, port or node is that is not the node's. Two nodes share what is between them.
fn room(scene: &Scene, strokes: &[Stroke], (place, id): (usize, Id), around: &Rect) -> f64 {
    let of_node = |at: Endpoint| at.node == id;
    let lines = strokes.iter().enumerate();
    let lines = lines.filter(|(turn, _)| !is_of(scene, line_of(scene, *turn), id));
    let lines = lines.flat_map(|(_, stroke)| {
        let pieces = flat(stroke).into_iter();
        pieces.map(|piece| far(around, &piece) - stroke.width / 2.0)
    });
    let trunks = scene.trunks.iter().filter(|trunk| !of_node(trunk.endpoint));
    let taps = trunks.flat_map(|trunk| &trunk.taps);
    let dots = taps.map(|tap| {
        let (start, end) = (tap.at, tap.at);
        far(around, &Piece { start, end }) - tap.radius
    });
    let ports = scene.ports.iter().filter(|port| !of_node(port.name));
    let ports = ports.map(|port| Rect::of(port.low, port.high, port.size).apart(around));
    let nodes = scene.nodes.iter().enumerate();
    let nodes = nodes.filter(|(other, _)| *other != place);
    let nodes = nodes.map(|(_, other)| {
        let [low, high] = corners(other);
        Rect { low, high }.apart(around) / 2.0
    });
    let all = lines.chain(dots).chain(ports).chain(nodes);
    all.fold(f64::INFINITY, f64::min)
}
