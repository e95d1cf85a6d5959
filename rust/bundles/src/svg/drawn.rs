//! The lines of a scene as they are drawn: routes side by side, and what follows from it at their
//! ends.

use std::collections::BTreeSet;

use bundle_stage::{Id, Point, Role, Segment};

use super::bodies;
use super::crossings::{Found, bridge};
use super::ends::{held, part};
use super::field::moved;
use super::lanes::{self, Part};
use super::marking;
use super::palette::mark;
use super::pens::Pens;
use super::ports;
use super::scene::{Crossed, Port, Route, Scene, Tap, Trunk};
use super::spans::{Way, room};
use super::stroke::{Piece, Stroke, apart};
use super::white::{WHITE, most_under};

/// The routes' strokes, then for each bundle those of its spine and its collector. Taps and
/// collectors of the scene follow the routes that are drawn side by side; where these are very near
/// to each other, routes are drawn thinner. Where bundles and routes would cross otherwise than the
/// scene's list has it, words say so.
pub fn strokes(scene: &mut Scene, pens: &mut Pens, tunnels: bool) -> (Vec<Stroke>, Option<String>) {
    let routes = scene.routes.iter();
    let given = routes
        .map(|route| lanes::corners(&route.points))
        .collect::<Vec<_>>();
    let tapped = scene.routes.iter();
    let tapped = tapped.map(|route| (route.input.is_some(), route.output.is_some()));
    let tapped = tapped.collect::<Vec<_>>();
    let lines = lanes::Lines {
        routes: &given,
        tapped: &tapped,
        trunks: &trunks(scene, pens),
        sides: &sides(scene),
        over_routes: marking::over_route(),
    };
    let (mut shifted, least) = lanes::spread(&lines, pens.route + LANE);
    pens.route = pens.route.min((0.6 * least).max(0.14));
    for trunk in &mut scene.trunks {
        follow(trunk, &scene.routes, &given, &shifted);
    }
    widen(&mut scene.ports, &scene.routes, &shifted);
    let free = held(scene).into_iter().zip(&scene.facts.ends_on);
    let free = free.map(|(held, on)| (on.0 && !held.0, on.1 && !held.1));
    part(&mut shifted, &free.collect::<Vec<_>>(), 3.0 * pens.route);
    let mut strokes = shifted
        .into_iter()
        .map(|corners| Stroke::new(corners, pens.route, None))
        .collect::<Vec<_>>();
    weigh(scene, &strokes, pens);
    let of_trunks = of_trunks(scene, &strokes);
    strokes.extend(of_trunks);
    let found = bridge(&mut strokes, tunnels, scene.crossings.as_ref());
    ports::fit(scene, &strokes, pens);
    let miscounted = miscounted(scene, &found);
    (strokes, miscounted)
}

/// For each bundle the strokes of its spine and its collector.
fn of_trunks(scene: &Scene, routes: &[Stroke]) -> Vec<Stroke> {
    let trunks = scene.trunks.iter().enumerate();
    let strokes = trunks.flat_map(|(place, trunk)| {
        // Half a width more, so that a corner with the spine is full.
        let Segment { start, end } = trunk.collector;
        let more = |at| (0.3 * foreign(at, place, scene, routes).0).min(trunk.weight / 2.0);
        let collector = Segment {
            start: moved(start, 0.0, -more(start)),
            end: moved(end, 0.0, more(end)),
        };
        [trunk.spine, collector].map(|Segment { start, end }| {
            let corners = lanes::corners(&[start, end]);
            Stroke::new(corners, trunk.weight, Some(place))
        })
    });
    strokes.collect()
}

/// Where two lines cross on the page more or less often than on the sheet, in words.
fn miscounted(scene: &Scene, found: &Found) -> Option<String> {
    of_trunk(scene, found).or_else(|| of_routes(scene, found))
}

/// A bundle and a route. Runs of a route that goes back over itself may be drawn as one or side by side.
fn of_trunk(scene: &Scene, found: &Found) -> Option<String> {
    let listed = scene.crossings.as_ref()?;
    let found = &found.trunks;
    let pairs = listed.keys().chain(found.keys()).collect::<BTreeSet<_>>();
    pairs.into_iter().find_map(|pair| {
        let Crossed { runs, places } = listed.get(pair).copied().unwrap_or_default();
        let drawn = found.get(pair).copied().unwrap_or_default();
        let (trunk, route) = (scene.trunks[pair.0].id, scene.routes[pair.1].id);
        let what = format!("bundle {trunk}");
        (drawn < places || drawn > runs).then(|| wrongly(route, &what, drawn, places))
    })
}

/// Two routes that on the sheet do nothing else but cross, or do not meet.
fn of_routes(scene: &Scene, found: &Found) -> Option<String> {
    let (known, found) = (&scene.facts, &found.routes);
    let pairs = known.crossed.keys().chain(found.keys());
    let pairs = pairs.collect::<BTreeSet<_>>();
    pairs.into_iter().find_map(|pair| {
        let due = known.due(*pair)?;
        let drawn = found.get(pair).copied().unwrap_or_default();
        let [one, two] = [pair.0, pair.1].map(|place| scene.routes[place].id);
        (drawn != due).then(|| wrongly(one, &format!("edge {two}"), drawn, due))
    })
}

fn wrongly(edge: Id, what: &str, drawn: usize, due: usize) -> String {
    format!("edge {edge} would cross {what} in {drawn} places, and it does so in {due}")
}

/// Makes trunks and dots smaller where they would touch what is not theirs.
fn weigh(scene: &mut Scene, routes: &[Stroke], pens: &Pens) {
    for place in 0..scene.trunks.len() {
        let trunk = &scene.trunks[place];
        let runs = routes.iter().flat_map(Stroke::pieces);
        let runs = runs.map(|piece| (piece.start, piece.end));
        let lines = runs.chain(others_of(scene, place)).collect::<Vec<_>>();
        let rooms = Way::BOTH.map(|way| {
            let spans = way.spans(&lines);
            let parts = trunk.parts().map(|(a, b)| way.span(a, b));
            let rooms = parts.into_iter().flatten();
            let rooms = rooms.map(|span| room(&span, &spans, 0.0));
            rooms.fold(f64::INFINITY, f64::min)
        });
        let ends = others_of(scene, place).flat_map(|(a, b)| [a, b]);
        let ends = ends.flat_map(|end| {
            let parts = trunk.parts().into_iter();
            parts.map(move |(start, to)| Piece { start, end: to }.from(end))
        });
        let own = trunk.parts().into_iter().flat_map(|(a, b)| [a, b]);
        let own = own.map(|end| foreign(end, place, scene, routes).0);
        let room = rooms.into_iter().chain(ends).chain(own);
        let room = room.fold(f64::INFINITY, f64::min);
        let radius = |tap: &Tap| {
            let (trunks, runs) = foreign(tap.at, place, scene, routes);
            let others = trunk.taps.iter().map(|other| apart(other.at, tap.at));
            let others = others.filter(|far| *far >= lanes::NO_STEP);
            let others = others.fold(f64::INFINITY, f64::min);
            let room = (runs - pens.route / 2.0 - WHITE).min((others - WHITE) / 2.0);
            pens.dot.min(0.36 * trunks).min(0.98 * room).max(LEAST_DOT)
        };
        let radii = trunk.taps.iter().map(radius).collect::<Vec<_>>();
        let dot = radii.iter().copied().fold(f64::INFINITY, f64::min);
        let trunk = &mut scene.trunks[place];
        let weight = pens.trunk.min(0.7 * room).min(most_under(dot));
        trunk.weight = weight.max(LEAST);
        for (tap, radius) in trunk.taps.iter_mut().zip(radii) {
            tap.radius = radius;
        }
    }
}

/// No trunk is thinner, no dot has a smaller radius.
const LEAST: f64 = 0.3;
const LEAST_DOT: f64 = 0.3;
/// What is white between routes that are drawn side by side, where there is room.
const LANE: f64 = 1.15;

/// The segments of the other bundles.
fn others_of(scene: &Scene, place: usize) -> impl Iterator<Item = (Point, Point)> {
    let others = scene.trunks.iter().enumerate();
    let others = others.filter(move |(other, _)| *other != place);
    others.flat_map(|(_, other)| other.parts())
}

/// How far a point of a trunk is from the nearest other trunk, and from the nearest route that is no
/// member.
fn foreign(at: Point, place: usize, scene: &Scene, routes: &[Stroke]) -> (f64, f64) {
    let parts = others_of(scene, place).map(|(start, end)| Piece { start, end });
    let runs = scene.routes.iter().zip(routes);
    let runs = runs.filter(|(route, _)| !route.member_of(place));
    let runs = runs.flat_map(|(_, stroke)| stroke.pieces());
    let least = |least: f64, piece: Piece| least.min(piece.from(at));
    (
        parts.fold(f64::INFINITY, least),
        runs.fold(f64::INFINITY, least),
    )
}

/// The segments of all bundles.
fn trunks(scene: &Scene, pens: &Pens) -> Vec<Part> {
    let mut trunks = Vec::new();
    for (place, trunk) in scene.trunks.iter().enumerate() {
        let routes = scene.routes.iter().enumerate();
        let members = routes.filter(|(_, route)| route.member_of(place));
        let members = members.map(|(route, _)| route).collect::<Vec<_>>();
        trunks.extend(trunk.parts().map(|ends| Part {
            ends,
            members: members.clone(),
            pitch: marking::pitch(mark(place), pens.trunk),
        }));
    }
    trunks
}

fn sides(scene: &Scene) -> Vec<(Point, Point)> {
    scene.nodes.iter().flat_map(bodies::sides).collect()
}

/// Moves the taps of a trunk to where their routes start or end now, and lets the collector reach
/// those that lay on it.
fn follow(trunk: &mut Trunk, routes: &[Route], given: &[Vec<Point>], shifted: &[Vec<Point>]) {
    for Tap { edge, at, held, .. } in &mut trunk.taps {
        let Some(place) = routes.iter().position(|route| route.id == *edge) else {
            continue;
        };
        let end = |corners: &Vec<Point>| match trunk.role {
            Role::Input => corners.first().copied(),
            Role::Output => corners.last().copied(),
        };
        // A route may start in the same place as its tap, but not just there (document 01).
        if end(&given[place]).is_some_and(|end| apart(end, *at) < lanes::NO_STEP)
            && let Some(to) = end(&shifted[place])
        {
            *at = to;
        }
        if *held {
            let Segment { start, end } = &mut trunk.collector;
            let (low, high) = (start.y.min(at.y).min(end.y), start.y.max(at.y).max(end.y));
            (start.y, end.y) = (low, high);
        }
    }
}

/// Lets ports reach from the first to the last of the routes that end there. What roundings put between an end
/// and its port on the sheet is no step here.
fn widen(ports: &mut [Port], routes: &[Route], shifted: &[Vec<Point>]) {
    for (route, to) in routes.iter().zip(shifted) {
        let ends = [
            (route.source, route.points.first(), to.first()),
            (route.target, route.points.last(), to.last()),
        ];
        for (name, from, to) in ends {
            let Some((from, to)) = from.zip(to) else {
                continue;
            };
            let own = ports.iter_mut().filter(|port| port.name == name);
            for port in own.filter(|port| apart(port.at, *from) < lanes::NO_STEP) {
                let Port { low, high, .. } = port;
                (low.x, low.y) = (low.x.min(to.x), low.y.min(to.y));
                (high.x, high.y) = (high.x.max(to.x), high.y.max(to.y));
            }
        }
    }
}
