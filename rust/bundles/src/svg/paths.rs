//! Lines as SVG paths.

use bundle_stage::Point;

use super::field::Rect;
use super::marking::marks;
use super::palette::Mark;
use super::stroke::{Arch, Gap, Piece, Stroke};
use super::xml::{mm, place};

/// How far before a corner a line starts to bend, in widths of the line: two routes that turn at the
/// same place then do not look like two that cross there.
const BEND: f64 = 2.6;

/// A step of a path.
pub enum Step {
    Move(Point),
    Line(Point),
    /// A bend, by the corner that it cuts and its end.
    Bend(Point, Point),
    Quarter(Quarter),
}

/// A quarter of an ellipse.
pub struct Quarter {
    run: f64,
    rise: f64,
    degrees: f64,
    /// Points of it, the last one being its end.
    via: Vec<Point>,
}

/// The line with its arches and without its gaps.
pub fn line(stroke: &Stroke) -> String {
    steps(stroke).iter().map(Step::text).collect()
}

/// The same as straight lines, bends and arches as several.
pub fn flat(stroke: &Stroke) -> Vec<Piece> {
    let mut pieces = Vec::new();
    let mut here = Point { x: 0.0, y: 0.0 };
    for step in steps(stroke) {
        if let Step::Move(to) = step {
            here = to;
            continue;
        }
        for end in step.points(here) {
            pieces.push(Piece { start: here, end });
            here = end;
        }
    }
    pieces
}

fn steps(stroke: &Stroke) -> Vec<Step> {
    let Some(first) = stroke.corners.first() else {
        return Vec::new();
    };
    let mut path = vec![Step::Move(*first)];
    let last = stroke.arches.len().saturating_sub(1);
    for (turn, arches) in stroke.arches.iter().enumerate() {
        let piece = stroke.piece(turn);
        let arches = arches.iter().map(|one| (one.from, arch(&piece, one)));
        let gaps = gaps(stroke, turn).into_iter().map(|gap| {
            let [from, to] = [gap.from, gap.to].map(|at| piece.at(at, 0.0));
            (gap.from, vec![Step::Line(from), Step::Move(to)])
        });
        let mut parts = arches.chain(gaps).collect::<Vec<_>>();
        parts.sort_by(|a, b| a.0.total_cmp(&b.0));
        path.extend(parts.into_iter().flat_map(|(_, part)| part));
        if turn == last {
            path.push(Step::Line(piece.end));
        } else {
            path.extend(corner(stroke, turn));
        }
    }
    path
}

impl Step {
    fn text(&self) -> String {
        match self {
            Step::Move(to) => format!("M{}", place(*to)),
            Step::Line(to) => format!("L{}", place(*to)),
            Step::Bend(corner, to) => format!("Q{} {}", place(*corner), place(*to)),
            Step::Quarter(quarter) => quarter.text(),
        }
    }

    /// Points that it goes through from one on, its end being the last.
    fn points(&self, from: Point) -> Vec<Point> {
        match self {
            Step::Move(to) | Step::Line(to) => vec![*to],
            Step::Bend(corner, to) => shares()
                .map(|t| {
                    let mix = |a: f64, b: f64, c: f64| {
                        (1.0 - t) * ((1.0 - t) * a + 2.0 * t * b) + t * t * c
                    };
                    Point {
                        x: mix(from.x, corner.x, to.x),
                        y: mix(from.y, corner.y, to.y),
                    }
                })
                .collect(),
            Step::Quarter(quarter) => quarter.via.clone(),
        }
    }
}

/// Parts of a curve that is taken as straight lines.
fn shares() -> impl Iterator<Item = f64> {
    (1..=8).map(|step| f64::from(step) / 8.0)
}

/// The gaps of a piece, but for what is in an arch of its own; those that meet are one.
pub fn gaps(stroke: &Stroke, turn: usize) -> Vec<Gap> {
    let mut gaps: Vec<Gap> = Vec::new();
    for Gap { mut from, mut to } in stroke.gaps[turn].iter().copied() {
        for arch in &stroke.arches[turn] {
            if from < arch.to && arch.to < to {
                from = arch.to;
            } else if from < arch.from && arch.from < to {
                to = arch.from;
            }
        }
        let mut arches = stroke.arches[turn].iter();
        if from >= to || arches.any(|arch| arch.from <= from && to <= arch.to) {
            continue;
        }
        match gaps.last_mut() {
            Some(last) if from <= last.to => last.to = last.to.max(to),
            _ => gaps.push(Gap { from, to }),
        }
    }
    gaps
}

/// To the corner behind a piece and around it.
fn corner(stroke: &Stroke, turn: usize) -> [Step; 2] {
    let (before, after) = (stroke.piece(turn), stroke.piece(turn + 1));
    let ends = stroke.arches[turn].iter().map(|arch| arch.to);
    let ends = ends.chain(stroke.gaps[turn].iter().map(|gap| gap.to));
    let starts = stroke.arches[turn + 1].iter().map(|arch| arch.from);
    let starts = starts.chain(stroke.gaps[turn + 1].iter().map(|gap| gap.from));
    let bend = (BEND * stroke.width)
        .min(0.5 * before.length())
        .min(0.5 * after.length())
        .min(before.length() - ends.fold(0.0, f64::max))
        .min(starts.fold(after.length(), f64::min))
        .max(0.0);
    let (from, to) = (before.at(before.length() - bend, 0.0), after.at(bend, 0.0));
    [Step::Line(from), Step::Bend(before.end, to)]
}

fn arch(piece: &Piece, arch: &Arch) -> Vec<Step> {
    let Arch {
        from,
        first,
        last,
        to,
        rise,
    } = *arch;
    let angle = |t: f64| (t * std::f64::consts::FRAC_PI_2).sin_cos();
    let up = shares().map(|t| {
        let (sin, cos) = angle(t);
        piece.at(first - (first - from) * cos, rise * sin)
    });
    let down = shares().map(|t| {
        let (sin, cos) = angle(t);
        piece.at(last + (to - last) * sin, rise * cos)
    });
    vec![
        Step::Line(piece.at(from, 0.0)),
        quarter(piece, first - from, rise, up.collect()),
        Step::Line(piece.at(last, rise)),
        quarter(piece, to - last, rise, down.collect()),
    ]
}

fn quarter(piece: &Piece, run: f64, rise: f64, via: Vec<Point>) -> Step {
    let (x, y) = (piece.end.x - piece.start.x, piece.end.y - piece.start.y);
    let degrees = y.atan2(x).to_degrees();
    Step::Quarter(Quarter {
        run,
        rise,
        degrees,
        via,
    })
}

impl Quarter {
    fn text(&self) -> String {
        let to = self.via.last().map(|to| place(*to)).unwrap_or_default();
        format!(
            "A{} {} {} 0 {} {to}",
            mm(self.run),
            mm(self.rise.abs()),
            mm(self.degrees),
            u8::from(self.rise > 0.0),
        )
    }
}

/// A path element, nothing for an empty path.
pub fn path(d: &str, more: &str) -> String {
    if d.is_empty() {
        return String::new();
    }
    format!("<path d=\"{d}\" {more}/>\n")
}

/// A trunk's strokes, each line with its marks, but for what is covered.
pub fn marked(
    strokes: &[Stroke],
    width: f64,
    (colour, mark): (&str, Mark),
    covered: &[Rect],
) -> String {
    let lines = strokes.iter().map(line).collect::<String>();
    let ink = |colour: &str, width: f64| {
        let width = mm(width);
        format!("stroke=\"{colour}\" stroke-width=\"{width}\"")
    };
    path(&lines, &ink(colour, width))
        + &path(
            &marks(strokes, mark, covered),
            &ink("white", INSIDE * width),
        )
}

/// How wide the white of a mark is, in widths of its trunk.
pub const INSIDE: f64 = 0.36;
