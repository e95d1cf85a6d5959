//! Ends of routes that are not at their ports: a cross at each, where there is room, so that nobody takes it
//! for joined to what is near.

use bundle_stage::Point;

use super::field::{Field, Rect, Spot, moved};
use super::palette::WARNING;
use super::paths::flat;
use super::scene::Scene;
use super::stroke::{Piece, Stroke, apart};
use super::white::WHITE;
use super::xml::{BOLD, escaped, mm, wide_bold, words};
use crate::loose::{End, Loose};

/// How far the arms of a cross reach, at most and at least.
const MOST: f64 = 1.3;
const LEAST: f64 = 0.4;
/// How wide they are, and those that are short.
const WIDTH: f64 = 0.35;
const THIN: f64 = 0.2;
const SHORT: f64 = 0.7;
/// The heights of letters that are tried.
const SIZES: [f64; 3] = [2.4, 2.1, 1.8];

/// A cross, and its words where there is room for them.
struct Cross<'a> {
    loose: &'a Loose,
    /// The id in the picture of its route.
    key: &'a str,
    at: Point,
    reach: f64,
    said: Option<(String, Spot)>,
}

/// All of them.
pub struct Crosses<'a> {
    scene: &'a Scene,
    crosses: Vec<Cross<'a>>,
    /// How many have no room.
    pub left_out: usize,
}

/// The loose ends of the routes that are shown: the place of the route among them, and where it ends on the
/// page.
fn ends<'a>(scene: &'a Scene, strokes: &[Stroke]) -> Vec<(usize, &'a Loose, Point)> {
    let routes = strokes.iter().take(scene.routes.len()).enumerate();
    let ends = routes.flat_map(|(route, stroke)| {
        let loose = scene.records.loose_of(route);
        loose.filter_map(move |one| {
            one.at()?;
            let at = match one.end {
                End::Source => stroke.corners.first(),
                End::Target => stroke.corners.last(),
            };
            Some((route, one, *at?))
        })
    });
    ends.collect()
}

/// How far each cross may reach, none where it has no room.
fn reaches(scene: &Scene, strokes: &[Stroke]) -> Vec<Option<f64>> {
    let ends = ends(scene, strokes);
    if ends.is_empty() {
        return Vec::new();
    }
    let inks = inks(strokes);
    let reach = |(turn, (route, _, at)): (usize, &(usize, &Loose, Point))| {
        let others = ends.iter().enumerate().filter(|(other, _)| *other != turn);
        let others = others.map(|(_, (.., other))| (apart(*at, *other) - WHITE) / 2.0);
        let room = room(scene, &inks, *route, *at).min(others.fold(f64::INFINITY, f64::min));
        let reach = MOST.min(room - WIDTH / 2.0);
        let reach = if is_short(reach) {
            (room - THIN / 2.0).min(SHORT)
        } else {
            reach
        };
        (reach >= LEAST).then_some(reach)
    };
    ends.iter().enumerate().map(reach).collect()
}

/// How many crosses have no room.
pub fn left_out(scene: &Scene, strokes: &[Stroke]) -> usize {
    let reaches = reaches(scene, strokes).into_iter();
    reaches.filter(Option::is_none).count()
}

impl<'a> Crosses<'a> {
    /// Takes the room for them from the field. They have no words yet.
    pub fn of(scene: &'a Scene, strokes: &[Stroke], field: &mut Field) -> Crosses<'a> {
        let ends = ends(scene, strokes);
        let count = ends.len();
        let reaches = reaches(scene, strokes);
        let there = ends.into_iter().zip(reaches);
        let there = there.filter_map(|(end, reach)| Some((end, reach?)));
        let crosses = there.map(|((route, loose, at), reach)| Cross {
            loose,
            key: &scene.records.routes[route].key,
            at,
            reach,
            said: None,
        });
        let crosses = crosses.collect::<Vec<_>>();
        for Cross { at, reach, .. } in &crosses {
            field.take(Rect::of(*at, *at, *reach));
        }
        Crosses {
            scene,
            left_out: count - crosses.len(),
            crosses,
        }
    }

    /// Finds places for words, where there is still room when all else has its place.
    pub fn say(&mut self, field: &mut Field) {
        for cross in &mut self.crosses {
            cross.said = cross.words(field);
            if let Some((_, spot)) = &cross.said {
                field.take(spot.rect);
            }
        }
    }

    pub fn draw(&self) -> String {
        let crosses = self.crosses.iter();
        crosses.map(|cross| cross.draw(self.scene)).collect()
    }
}

impl Cross<'_> {
    fn words(&self, field: &Field) -> Option<(String, Spot)> {
        let port = self.loose.port;
        let said = format!("not at {}:{}", port.node, port.port);
        let spots = SIZES.into_iter().flat_map(|size| {
            let (width, height) = (wide_bold(&said, size), size);
            let (x, y) = (
                self.reach + 0.4 + width / 2.0,
                self.reach + 0.3 + height / 2.0,
            );
            let around = [
                (x, 0.0),
                (-x, 0.0),
                (0.0, -y),
                (0.0, y),
                (x, -y),
                (x, y),
                (-x, -y),
                (-x, y),
            ];
            around.map(|(x, y)| Spot::new(Rect::around(moved(self.at, x, y), width, height), size))
        });
        let spots = spots.collect::<Vec<_>>();
        let free = spots.into_iter().find(|spot| field.free(spot))?;
        Some((said, free))
    }

    fn draw(&self, scene: &Scene) -> String {
        let title = escaped(&self.loose.words(&scene.names));
        let mut svg = format!(
            "<g class=\"loose-end\" data-of=\"{}\"><title>{title}</title>\n{}",
            self.key,
            cross(self.at, self.reach)
        );
        if let Some((said, spot)) = &self.said {
            let middle = moved(spot.rect.middle(), 0.0, 0.35 * spot.size);
            let more = format!(
                "text-anchor=\"middle\" {BOLD} fill=\"{WARNING}\" stroke=\"white\" \
                 stroke-width=\"0.6\" paint-order=\"stroke\""
            );
            svg.push_str(&words(middle, spot.size, &more, said));
        }
        svg + "</g>\n"
    }
}

fn is_short(reach: f64) -> bool {
    reach <= SHORT
}

/// Two strokes over each other.
pub fn cross(at: Point, reach: f64) -> String {
    let arm = reach * std::f64::consts::FRAC_1_SQRT_2;
    let to = |x: f64, y: f64| format!("{} {}", mm(at.x + x * arm), mm(at.y + y * arm));
    format!(
        "<path d=\"M{}L{}M{}L{}\" fill=\"none\" stroke=\"{WARNING}\" stroke-width=\"{}\"/>\n",
        to(-1.0, -1.0),
        to(1.0, 1.0),
        to(-1.0, 1.0),
        to(1.0, -1.0),
        mm(if is_short(reach) { THIN } else { WIDTH })
    )
}

/// A piece of a line, by the place of its stroke, and half its width.
type Ink = (usize, Piece, f64);

/// All of them, also those in a gap, where another line goes over.
fn inks(strokes: &[Stroke]) -> Vec<Ink> {
    let inks = strokes.iter().enumerate().flat_map(|(place, stroke)| {
        let pieces = flat(stroke).into_iter().chain(stroke.pieces());
        pieces.map(move |piece| (place, piece, stroke.width / 2.0))
    });
    inks.collect()
}

/// How far a cross at the end of a route may reach: up to no other line, dot or port, but for the route's own
/// ports, over which it is drawn.
fn room(scene: &Scene, inks: &[Ink], route: usize, at: Point) -> f64 {
    let others = inks.iter().filter(|(place, ..)| *place != route);
    let lines = others.map(|(_, piece, half)| piece.from(at) - half);
    let taps = scene.trunks.iter().flat_map(|trunk| &trunk.taps);
    let dots = taps.map(|tap| apart(tap.at, at) - tap.radius);
    let own = [scene.routes[route].source, scene.routes[route].target];
    let ports = scene.ports.iter().filter(|port| !own.contains(&port.name));
    let ports = ports.map(|port| {
        let square = Rect::of(port.low, port.high, 0.625 * port.size);
        let across = (square.low.x - at.x).max(at.x - square.high.x).max(0.0);
        let down = (square.low.y - at.y).max(at.y - square.high.y).max(0.0);
        across.hypot(down)
    });
    let all = lines.chain(dots).chain(ports);
    all.fold(f64::INFINITY, f64::min) - WHITE
}
