//! The white marks of trunks, which tell bundles of one colour apart.
//!
//! A white dash in the middle of a trunk leaves two thin lines beside it. Where it ran out into a gap, these
//! would read as two routes. So a mark is drawn whole or not at all: within each straight part of a trunk
//! that is seen, between gaps, arches, dots and ends, with full ink before and behind it. What goes over a
//! trunk leaves enough of it for its mark.

use super::field::Rect;
use super::palette::{Mark, mark};
use super::paths::{INSIDE, gaps};
use super::spans::Way;
use super::stroke::{Gap, Piece, Stroke};
use super::white::{LEFT, NEARLY};
use super::xml::place;

/// Full ink before and behind a mark, in widths of the trunk.
const FULL: f64 = 0.4;
/// A trunk is seen between two lines that go over it for at least so many of its widths: a shorter piece is
/// no longer than it is thick, and a row of such pieces reads as a broken line.
const LONG: f64 = 2.0;

/// How much of a trunk's length is left between two lines that go over it, in millimetres.
fn least(mark: Mark, width: f64) -> f64 {
    let marked = match mark {
        Mark::Plain => 0.0,
        Mark::Dashed(dashes) => dashes.core() + 2.0 * FULL,
    };
    width * LONG.max(marked)
}

/// The least from one line to the next that go over a trunk: what is left between their gaps, and a gap.
pub fn pitch(mark: Mark, width: f64) -> f64 {
    least(mark, width).max(LEFT * GAP) + GAP
}

/// The same of those that go over a route.
pub fn over_route() -> f64 {
    LEFT * GAP + GAP
}

/// The gap of a line under the arch of a route, at most, with what one of two arches is higher than the other.
const GAP: f64 = 1.1;

/// What is left of a stroke between two gaps of it.
pub fn kept(stroke: &Stroke, gaps: [&Gap; 2]) -> f64 {
    let of_trunk = |place| least(mark(place), stroke.width);
    let longest = gaps[0].length().max(gaps[1].length());
    stroke.bundle.map_or(0.0, of_trunk).max(LEFT * longest)
}

/// The marks on a trunk's strokes as a path, its spine coming first. What is covered, as by a label or a dot, is
/// not seen. The spine ends at the collector's side, not in its middle: their white lines would run into each
/// other there.
pub fn marks(strokes: &[Stroke], mark: Mark, covered: &[Rect]) -> String {
    let Some((spine, collector)) = strokes.split_first() else {
        return String::new();
    };
    let across = collector.iter().flat_map(|stroke| {
        let pieces = stroke.pieces();
        pieces.map(|piece| Rect::of(piece.start, piece.end, stroke.width / 2.0))
    });
    let of_spine = covered.iter().copied().chain(across);
    let of_spine = on(spine, mark, &of_spine.collect::<Vec<_>>());
    let of_collector = collector.iter().map(|stroke| on(stroke, mark, covered));
    of_spine + &of_collector.collect::<String>()
}

fn on(stroke: &Stroke, mark: Mark, covered: &[Rect]) -> String {
    let mut d = String::new();
    for turn in 0..stroke.arches.len() {
        let piece = stroke.piece(turn);
        for Gap { from, to } in seen(stroke, turn, covered) {
            for (start, end) in dashes(mark, stroke.width, to - from) {
                let [start, end] = [start, end].map(|at| place(piece.at(from + at, 0.0)));
                d.push_str(&format!("M{start}L{end}"));
            }
        }
    }
    d
}

/// The straight parts of a piece that are seen.
fn seen(stroke: &Stroke, turn: usize, covered: &[Rect]) -> Vec<Gap> {
    let piece = stroke.piece(turn);
    let arches = stroke.arches[turn].iter();
    let arches = arches.map(|arch| Gap {
        from: arch.from,
        to: arch.to,
    });
    let mut holes = gaps(stroke, turn);
    holes.extend(arches);
    let half = INSIDE * stroke.width / 2.0;
    holes.extend(covered.iter().filter_map(|rect| under(&piece, half, rect)));
    holes.sort_by(|a, b| a.from.total_cmp(&b.from));
    let mut seen = Vec::new();
    let mut from = 0.0;
    for hole in holes {
        seen.push(Gap {
            from,
            to: hole.from,
        });
        from = hole.to.max(from);
    }
    let to = piece.length();
    seen.push(Gap { from, to });
    seen.retain(|part| part.from < part.to);
    seen
}

/// What is covered of the marks of a level or upright piece, which have this half width.
fn under(piece: &Piece, half: f64, rect: &Rect) -> Option<Gap> {
    let way = Way::of(piece.start, piece.end)?;
    let (low, high) = (way.across(rect.low) - half, way.across(rect.high) + half);
    if !(low..=high).contains(&way.across(piece.start)) {
        return None;
    }
    let start = way.along(piece.start);
    let ahead = (way.along(piece.end) - start).signum();
    let ends = [rect.low, rect.high].map(|corner| ahead * (way.along(corner) - start));
    let from = ends[0].min(ends[1]).max(0.0);
    let to = ends[0].max(ends[1]).min(piece.length());
    (from < to).then_some(Gap { from, to })
}

/// The dashes of a mark in a part of this length, from its start: in the middle of it, and none where it has
/// no room for so many as tell the mark.
fn dashes(mark: Mark, width: f64, length: f64) -> Vec<(f64, f64)> {
    let Mark::Dashed(dashes) = mark else {
        return Vec::new();
    };
    if length + NEARLY < (dashes.core() + 2.0 * FULL) * width {
        return Vec::new();
    }
    let behind = dashes.lengths.last().copied().unwrap_or_default();
    // Whole times, and full ink at both ends.
    let room = (length / width).min(length / width + behind - 2.0 * FULL);
    let times = (room / dashes.period()).floor() as usize;
    let lengths = dashes.lengths.repeat(times.max(dashes.times));
    let all = lengths.iter().sum::<f64>() - behind;
    let mut at = (length - all * width) / 2.0;
    let pairs = lengths.chunks(2).map(|two| {
        let start = at;
        at += two.iter().sum::<f64>() * width;
        (start, start + two[0] * width)
    });
    pairs.collect()
}
