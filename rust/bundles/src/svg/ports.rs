//! Ports on the page: each has its square, which no line may come near that does not end there.

use bundle_stage::{Endpoint, Point};

use crate::signs::isolated;

use super::field::Rect;
use super::paths::flat;
use super::pens::Pens;
use super::scene::{Port, Route, Scene, Tap, Trunk};
use super::stroke::{Piece, Stroke};
use super::white::{NEARLY, WHITE};

/// No square has a shorter side, in millimetres.
const LEAST: f64 = 0.5;
/// How far a square reaches on each side, its frame being a quarter of its side.
const REACH: f64 = 0.625;

/// Whether a route ends at a port, by itself or in its bundle.
pub fn ends(scene: &Scene, route: &Route, port: Endpoint) -> bool {
    let bundles = [route.input, route.output].into_iter().flatten();
    let mut bundles = bundles.map(|place| scene.trunks[place].endpoint);
    route.source == port || route.target == port || bundles.any(|at| at == port)
}

/// A line or a dot on the page.
struct Ink<'a> {
    what: What<'a>,
    piece: Piece,
    half: f64,
    around: Rect,
}

#[derive(Clone, Copy)]
enum What<'a> {
    /// A stroke by its place.
    Stroke(usize),
    Dot(&'a Trunk, &'a Tap),
}

/// All of them.
fn inks<'a>(scene: &'a Scene, strokes: &[Stroke]) -> Vec<Ink<'a>> {
    let ink = |what: What<'a>, piece: Piece, half: f64| Ink {
        what,
        piece,
        half,
        around: Rect::of(piece.start, piece.end, half),
    };
    let lines = strokes.iter().enumerate().flat_map(|(place, stroke)| {
        let pieces = flat(stroke).into_iter();
        pieces.map(move |piece| ink(What::Stroke(place), piece, stroke.width / 2.0))
    });
    let dots = scene.trunks.iter().flat_map(|trunk| {
        let taps = trunk.taps.iter();
        taps.map(move |tap| {
            let (start, end) = (tap.at, tap.at);
            ink(What::Dot(trunk, tap), Piece { start, end }, tap.radius)
        })
    });
    lines.chain(dots).collect()
}

/// Nothing that is further from a port's place touches its square, in millimetres.
const NEAR: f64 = 4.0;

/// What is near a port, and how far its ink is from the port's place.
fn near<'a, 'b>(
    inks: &'b [Ink<'a>],
    port: &Port,
) -> impl Iterator<Item = (What<'a>, f64)> + use<'a, 'b> {
    let middle = Rect::of(port.low, port.high, 0.0);
    let square = Rect::of(port.low, port.high, NEAR);
    let inks = inks.iter().filter(move |ink| ink.around.meets(&square));
    inks.map(move |ink| (ink.what, far(&middle, &ink.piece) - ink.half))
}

/// Makes squares smaller where lines would touch them that do not end there.
pub fn fit(scene: &mut Scene, strokes: &[Stroke], pens: &Pens) {
    let inks = inks(scene, strokes);
    let size = |port: &Port| {
        // A square would hide a dot even of its own bundle.
        let lines = near(&inks, port)
            .filter(|(what, _)| matches!(what, What::Dot(..)) || !own(scene, *what, port));
        let others = scene.ports.iter().filter(|other| other.name != port.name);
        // Each of two squares has half of what is between them.
        let others = others.map(|other| (beside(port, other) + WHITE) / 2.0);
        let room = lines.map(|(_, room)| room).chain(others);
        let room = room.fold(f64::INFINITY, f64::min) - WHITE;
        pens.port.min(room / REACH).max(LEAST)
    };
    let sizes = scene.ports.iter().map(size).collect::<Vec<_>>();
    for (port, size) in scene.ports.iter_mut().zip(sizes) {
        port.size = size;
    }
}

/// What comes too near to a port's square, in words.
pub fn touched(scene: &Scene, strokes: &[Stroke]) -> Option<String> {
    let inks = inks(scene, strokes);
    for (place, port) in scene.ports.iter().enumerate() {
        let touches = |room: f64| room - REACH * port.size < WHITE - NEARLY;
        // What the sheet itself has is shown, with a ring around it.
        if scene.marks.iter().any(|mark| mark.at == port.at) {
            continue;
        }
        let mut foreign = near(&inks, port).filter(|(what, _)| !own(scene, *what, port));
        let at = words(scene, place);
        if let Some((what, _)) = foreign.find(|(_, room)| touches(*room)) {
            return Some(format!("{} would touch {at}", name(scene, what)));
        }
        let mut others = scene.ports[..place].iter();
        let other = others.position(|other| {
            touches(beside(port, other) - REACH * other.size)
                && [port, other].iter().all(|port| wired(scene, &inks, port))
        });
        if let Some(other) = other {
            return Some(format!("{at} would touch {}", words(scene, other)));
        }
    }
    None
}

/// Whether a line is drawn to a port. A square to which none is joins nothing.
fn wired(scene: &Scene, inks: &[Ink<'_>], port: &Port) -> bool {
    let mut own = near(inks, port).filter(|(what, _)| own(scene, *what, port));
    own.any(|(_, room)| room < REACH * port.size)
}

/// Whether it is of a route or a bundle that ends at a port.
fn own(scene: &Scene, what: What<'_>, port: &Port) -> bool {
    match what {
        What::Stroke(stroke) => match scene.routes.get(stroke) {
            Some(route) => ends(scene, route, port.name),
            None => of_stroke(scene, stroke).endpoint == port.name,
        },
        What::Dot(trunk, _) => trunk.endpoint == port.name,
    }
}

/// How far a line is from a box, 0 where some of it is inside.
pub fn far(around: &Rect, piece: &Piece) -> f64 {
    let Rect { low, high } = *around;
    let point = Rect::of(piece.start, piece.start, 0.0);
    if point.within(around) {
        return 0.0;
    }
    let [b, d] = [(high.x, low.y), (low.x, high.y)].map(|(x, y)| Point { x, y });
    let sides = [(low, b), (b, high), (high, d), (d, low)];
    let sides = sides.map(|(start, end)| Piece { start, end });
    let all = sides.iter().map(|side| side.to(piece).0);
    all.fold(f64::INFINITY, f64::min)
}

/// How far two ports are from each other, across or down, whichever is more.
fn beside(one: &Port, two: &Port) -> f64 {
    let x = (two.low.x - one.high.x).max(one.low.x - two.high.x);
    let y = (two.low.y - one.high.y).max(one.low.y - two.high.y);
    x.max(y).max(0.0)
}

// ---- what the sheet itself has

/// The lines of the sheet that run through the place of a port at which they do not end, with that place
/// and words: no paper can show them apart.
pub fn contacts(scene: &Scene) -> impl Iterator<Item = (Point, String)> + '_ {
    scene
        .ports
        .iter()
        .enumerate()
        .flat_map(move |(place, port)| {
            let routes = scene.routes.iter().enumerate();
            let routes = routes.filter(|(_, route)| !ends(scene, route, port.name));
            let routes = routes.filter(|(_, route)| on(&route.points, port.at));
            let trunks = scene.trunks.iter();
            let trunks = trunks.filter(|trunk| trunk.endpoint != port.name);
            let trunks = trunks.filter(|trunk| {
                let mut parts = trunk.parts().into_iter();
                parts.any(|(a, b)| on(&[a, b], port.at))
            });
            let routes = routes.map(|(route, _)| route_words(scene, route));
            let all = routes.chain(trunks.map(|trunk| trunk_words(scene, trunk)));
            let at = words(scene, place);
            let said =
                move |what| format!("{what} lies on the place of {at} and does not end there");
            all.map(move |what| (port.at, said(what)))
        })
}

/// Whether a point lies on a line. A slanted line may pass it by what its sums round.
pub fn on(line: &[Point], at: Point) -> bool {
    let between = |a: f64, b: f64, at: f64| a.min(b) <= at && at <= a.max(b);
    let run = |a: Point, b: Point| {
        between(a.x, b.x, at.x)
            && between(a.y, b.y, at.y)
            && (b.x - a.x) * (at.y - a.y) == (b.y - a.y) * (at.x - a.x)
    };
    line == [at] || line.windows(2).any(|two| run(two[0], two[1]))
}

// ---- words

fn of_stroke(scene: &Scene, place: usize) -> &Trunk {
    &scene.trunks[(place - scene.routes.len()) / 2]
}

fn name(scene: &Scene, what: What<'_>) -> String {
    match what {
        What::Stroke(stroke) => match scene.routes.get(stroke) {
            Some(_) => route_words(scene, stroke),
            None => trunk_words(scene, of_stroke(scene, stroke)),
        },
        What::Dot(trunk, tap) => {
            format!(
                "the tap of edge {} on {}",
                tap.edge,
                trunk_words(scene, trunk)
            )
        }
    }
}

fn called(what: String, name: Option<&str>) -> String {
    match name.map(isolated) {
        Some(name) => format!("{what} ({name})"),
        None => what,
    }
}

fn route_words(scene: &Scene, place: usize) -> String {
    let (route, record) = (&scene.routes[place], &scene.records.routes[place]);
    called(format!("edge {}", route.id), scene.names.of(record.item))
}

fn trunk_words(scene: &Scene, trunk: &Trunk) -> String {
    called(format!("bundle {}", trunk.id), scene.names.bundle(trunk.id))
}

/// A port by its place, and its node.
fn words(scene: &Scene, place: usize) -> String {
    let Endpoint { node, port } = scene.ports[place].name;
    let of = called(format!("node {node}"), scene.names.node(node));
    let name = scene.names.of(scene.records.ports[place].item);
    let port = called(format!("port {port}"), name);
    format!("{port} of {of}")
}
