//! What was tried at a bundle that was refused: shown over the board as it was given, and on no sheet.

use bundle_stage::{Attempt, Board, DrawnBundle, Id, Point, Segment};

use crate::names::Names;
use crate::signs::isolated;

use super::beside::{Placed, at_collector, at_ring, others};
use super::field::Rect;
use super::palette::{GREY, WARNING};
use super::scene::{MARK, Scene, shown};
use super::shapes::ring;
use super::stroke::Stroke;
use super::xml::{escaped, mm, place};

/// The refused bundle as it was to be drawn.
#[derive(Clone)]
pub struct Tried {
    id: Id,
    /// Its spine and its collector.
    parts: Vec<Segment>,
    taps: Vec<Point>,
    /// Where its members are led off their given routes.
    led: Vec<Segment>,
    /// The bundles drawn before it that it meets, each with its segments.
    met: Vec<(Id, [Segment; 2])>,
    /// Where it was refused.
    at: Option<Point>,
}

/// The width of the refused bundle's lines.
const WIDTH: f64 = 0.7;

impl Tried {
    /// None where a number is no place.
    pub fn of(board: &Board, attempt: &Attempt) -> Option<Tried> {
        let refused = &attempt.refused;
        let members = board.bundle(refused.id)?.members.iter();
        let led = members.flat_map(|member| led(board, attempt, member.edge));
        let earlier = attempt.earlier.iter();
        let met = earlier.filter(|of| attempt.at.is_some_and(|at| meets(of, at)));
        let tried = Tried {
            id: refused.id,
            parts: vec![refused.spine, refused.collector],
            taps: refused.taps.iter().map(|tap| tap.point).collect(),
            led: led.collect(),
            met: met.map(|of| (of.id, [of.spine, of.collector])).collect(),
            at: attempt.at.map(middle),
        };
        let all = tried.points().all(shown);
        all.then_some(tried)
    }

    pub fn points(&self) -> impl Iterator<Item = Point> {
        let ends = self.lines().flat_map(|part| [part.start, part.end]);
        let taps = self.taps.iter().copied();
        ends.chain(taps).chain(self.at)
    }

    fn lines(&self) -> impl Iterator<Item = &Segment> {
        let met = self.met.iter().flat_map(|(_, parts)| parts);
        self.parts.iter().chain(&self.led).chain(met)
    }

    pub fn moved(self, to: impl Fn(Point) -> Point) -> Tried {
        let both = |part: Segment| Segment {
            start: to(part.start),
            end: to(part.end),
        };
        Tried {
            id: self.id,
            parts: self.parts.into_iter().map(both).collect(),
            taps: self.taps.into_iter().map(&to).collect(),
            led: self.led.into_iter().map(both).collect(),
            met: self
                .met
                .into_iter()
                .map(|(id, parts)| (id, parts.map(both)))
                .collect(),
            at: self.at.map(&to),
        }
    }

    /// The bundle's name behind its id.
    fn name(&self, names: &Names) -> String {
        let name = names.bundle(self.id).map(isolated);
        name.map(|name| format!(" {name}")).unwrap_or_default()
    }

    /// Over everything else: dashed lines, open dots, a ring where it was refused, and words.
    pub fn draw(&self, scene: &Scene, strokes: &[Stroke], frame: (Point, Point)) -> String {
        let (id, name) = (self.id, self.name(&scene.names));
        let d = |parts: &[Segment]| {
            let line = |part: &Segment| format!("M{}L{}", place(part.start), place(part.end));
            parts.iter().map(line).collect::<String>()
        };
        let met = self.met.iter().map(|(id, parts)| {
            let lines = dashed(&d(parts), WIDTH, GREY);
            format!("<g class=\"met\" data-of=\"bundle-{id}\" fill=\"none\">\n{lines}</g>\n")
        });
        let mut svg = met.collect::<String>();
        // No other bundle has the id: it would have been refused before anything was tried.
        svg.push_str(&format!(
            "<g class=\"refused\" id=\"bundle-{id}\" fill=\"none\"><title>bundle {id}{} as it was \
             tried: refused</title>\n",
            escaped(&name)
        ));
        svg.push_str(&dashed(&d(&self.led), WIDTH / 2.0, WARNING));
        svg.push_str(&dashed(&d(&self.parts), WIDTH, WARNING));
        for tap in &self.taps {
            svg.push_str(&open_dot(*tap));
        }
        if let Some(at) = self.at {
            svg.push_str(&ring(at.x, at.y, MARK));
        }
        let words = self.words(scene, strokes, frame);
        svg.extend(words.into_iter().map(|(words, _)| words));
        svg + "</g>\n"
    }

    fn ring(&self) -> Option<Rect> {
        self.at.map(|at| Rect::of(at, at, MARK))
    }

    /// What ids are to leave free.
    pub fn taken(&self, scene: &Scene, strokes: &[Stroke], frame: (Point, Point)) -> Vec<Rect> {
        let lines = self.lines();
        let lines = lines.map(|part| Rect::of(part.start, part.end, WIDTH));
        let dots = self.taps.iter().map(|tap| Rect::of(*tap, *tap, 1.0));
        let ring = self.ring();
        let words = self.words(scene, strokes, frame);
        let words = words.into_iter().map(|(_, rect)| rect);
        lines.chain(dots).chain(ring).chain(words).collect()
    }

    /// A word at the ring, and the bundle's name at its collector; and where they are: not over the lines of what
    /// was tried where there is room beside them, and over as few others as can be, if need be by the id alone.
    fn words(&self, scene: &Scene, strokes: &[Stroke], frame: (Point, Point)) -> Vec<Placed> {
        let lines = self.lines();
        let lines = lines.map(|part| Rect::of(part.start, part.end, WIDTH / 2.0 + 0.3));
        let dots = self.taps.iter().map(|tap| Rect::of(*tap, *tap, 1.0));
        let mut own = lines.chain(dots).chain(self.ring()).collect::<Vec<_>>();
        let others = others(scene, strokes);
        let here = self.at.map(|at| vec![at_ring(at, "refused here", frame)]);
        let names = [self.name(&scene.names), String::new()];
        let names = names.map(|name| format!("B{}{name}: refused, not drawn", self.id));
        let name = self.parts.last().map(|collector| {
            let all = names.iter();
            let all = all.map(|said| at_collector(*collector, said, frame));
            all.collect::<Vec<_>>()
        });
        let inside = |rect: &Rect| frame.0.y <= rect.low.y && rect.high.y <= frame.1.y;
        let met = |one: &Placed, of: &[Rect]| of.iter().filter(|rect| rect.meets(&one.1)).count();
        let mut words = Vec::new();
        for ways in here.into_iter().chain(name) {
            let free = ways.iter().flatten();
            let free = free.filter(|one| inside(&one.1) && met(one, &own) == 0);
            let counted = free.map(|one| (met(one, &others), one));
            let best = counted.min_by_key(|(count, _)| *count).map(|(_, one)| one);
            // The word at the ring is worth more than what it may lie over.
            let first = ways[0].first().filter(|_| words.is_empty());
            if let Some(one) = best.or(first).cloned() {
                own.push(one.1);
                words.push(one);
            }
        }
        words
    }
}

/// The runs of a member's route, as it was led, that do not lie on its given one.
fn led(board: &Board, attempt: &Attempt, edge: Id) -> Vec<Segment> {
    let given = board.edge(edge).map_or(&[][..], |edge| &edge.points);
    let routes = attempt.routes.iter().filter(|route| route.id == edge);
    let runs = routes.flat_map(|route| route.points.windows(2));
    let on = |run: &&[Point]| {
        let [a, b] = [run[0], run[1]];
        let mut given = given.windows(2);
        given.any(|of| {
            let of = Rect::of(of[0], of[1], 0.0);
            Rect::of(a, b, 0.0).within(&of)
        })
    };
    let runs = runs.filter(|run| !on(run));
    runs.map(|run| Segment {
        start: run[0],
        end: run[1],
    })
    .collect()
}

/// A dashed line on white, so that it shows on what it lies over.
pub fn dashed(d: &str, width: f64, colour: &str) -> String {
    if d.is_empty() {
        return String::new();
    }
    let (white, width) = (mm(width + 0.6), mm(width));
    format!(
        "<path d=\"{d}\" stroke=\"white\" stroke-width=\"{white}\" stroke-opacity=\"0.7\"/>\n\
         <path d=\"{d}\" stroke=\"{colour}\" stroke-width=\"{width}\" stroke-dasharray=\"2 1\"/>\n"
    )
}

fn open_dot(at: Point) -> String {
    format!(
        "<circle cx=\"{}\" cy=\"{}\" r=\"0.8\" fill=\"white\" stroke=\"{WARNING}\" \
         stroke-width=\"0.35\"/>\n",
        mm(at.x),
        mm(at.y)
    )
}

fn middle(Segment { start, end }: Segment) -> Point {
    Point {
        x: start.x / 2.0 + end.x / 2.0,
        y: start.y / 2.0 + end.y / 2.0,
    }
}

/// Whether a bundle has a segment at a place.
fn meets(bundle: &DrawnBundle, at: Segment) -> bool {
    let parts = [bundle.spine, bundle.collector];
    parts.iter().any(|part| {
        let [one, two] = [*part, at].map(|of| Rect::of(of.start, of.end, 0.0));
        one.low.x <= two.high.x
            && two.low.x <= one.high.x
            && one.low.y <= two.high.y
            && two.low.y <= one.high.y
    })
}
