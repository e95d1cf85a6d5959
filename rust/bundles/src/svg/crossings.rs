//! Where lines cross without a joint: the thinner one, or the level one of two alike, goes over the
//! other in an arch, and the other has a gap there. Where a bundle and a route do so is the stage's list,
//! if there is one.

use std::collections::HashMap;

use bundle_stage::Point;

use super::even::even;
use super::marking::kept;
use super::rings::unring;
use super::scene::Crossed;
use super::spans::{Span, Way};
use super::stroke::{Arch, Gap, Piece, Stroke};
use super::white::WHITE;

/// Where a piece goes over another.
pub struct Over {
    pub at: f64,
    /// How far from there an arch starts, where there is room.
    reach: f64,
    /// The place of the other among all pieces, and how far along it this is.
    pub under: usize,
    pub there: f64,
}

/// A piece of a stroke, by the places of both.
#[derive(Clone, Copy)]
pub struct Placed {
    pub stroke: usize,
    pub place: usize,
    pub piece: Piece,
}

type Pairs = HashMap<(usize, usize), usize>;

/// How often lines cross on the page, by their places.
#[derive(Default)]
pub struct Found {
    /// A bundle and a route.
    pub trunks: Pairs,
    /// Two routes, the lower place first.
    pub routes: Pairs,
}

impl Found {
    /// Counts a crossing of two pieces; whether it is to have an arch.
    fn take(
        &mut self,
        strokes: &[Stroke],
        (one, two): (&Placed, &Placed),
        listed: Option<&HashMap<(usize, usize), Crossed>>,
    ) -> bool {
        if let Some(pair) = pair(strokes, one, two) {
            *self.trunks.entry(pair).or_insert(0) += 1;
            return listed.is_none_or(|listed| listed.contains_key(&pair));
        }
        // Of two bundles none is without one.
        if strokes[one.stroke].bundle.is_none() && one.stroke != two.stroke {
            *self.routes.entry((one.stroke, two.stroke)).or_insert(0) += 1;
        }
        true
    }
}

/// Gives the strokes their arches, and says how often lines cross on the page. With
/// `tunnels` a line of which too little would be left between two that go over it has one gap there. A
/// bundle and a route that are not `listed` get no arch.
pub fn bridge(
    strokes: &mut [Stroke],
    tunnels: bool,
    listed: Option<&HashMap<(usize, usize), Crossed>>,
) -> Found {
    let pieces = placed(strokes);
    let (mut over, found) = crossed(strokes, &pieces, listed);
    let lines = pieces.iter().map(|of| (of.piece.start, of.piece.end));
    let lines = lines.collect::<Vec<_>>();
    let spans = Way::BOTH.map(|way| (way, way.spans(&lines)));
    let arches = pieces.iter().zip(&mut over).map(|(of, over)| {
        let width = strokes[of.stroke].width;
        narrow(&of.piece, over, &lines, width);
        let mut arches = joined(over, of.piece.length(), width);
        for arch in &mut arches {
            arch.rise = rise(&of.piece, arch, &spans, width);
        }
        arches
    });
    let mut arches = arches.collect::<Vec<_>>();
    let trunk = |of: &Over| strokes[pieces[of.under].stroke].bundle.is_some();
    let over_trunk = |piece: usize, arch: &Arch| {
        let mut over = over[piece].iter().filter(|of| trunk(of));
        over.any(|of| arch.holds(of.at))
    };
    unring(&pieces, &mut arches, &spans, strokes, over_trunk);
    even(strokes, &pieces, &over, &mut arches);
    for (turn, of) in pieces.iter().enumerate() {
        gaps(strokes, &pieces, of, &over[turn], &arches[turn]);
        // Without a rise the line goes straight on.
        let rising = arches[turn].iter().filter(|arch| arch.rise != 0.0);
        strokes[of.stroke].arches[of.place] = rising.copied().collect();
    }
    in_order(strokes, tunnels);
    found
}

/// Gaps by their places; with `tunnels` those between which too little would be left are one.
fn in_order(strokes: &mut [Stroke], tunnels: bool) {
    for stroke in strokes {
        for turn in 0..stroke.gaps.len() {
            stroke.gaps[turn].sort_by(|a, b| a.from.total_cmp(&b.from));
            if tunnels {
                stroke.gaps[turn] = merged(stroke, turn);
            }
        }
    }
}

/// All pieces, those of a stroke one behind the other.
fn placed(strokes: &[Stroke]) -> Vec<Placed> {
    let pieces = strokes.iter().enumerate();
    let pieces = pieces.flat_map(|(stroke, of)| {
        let pieces = of.pieces().enumerate();
        pieces.map(move |(place, piece)| Placed {
            stroke,
            place,
            piece,
        })
    });
    pieces.collect()
}

/// Where each piece goes over others, and how often each bundle and route cross.
fn crossed(
    strokes: &[Stroke],
    pieces: &[Placed],
    listed: Option<&HashMap<(usize, usize), Crossed>>,
) -> (Vec<Vec<Over>>, Found) {
    let mut found = Found::default();
    let mut over = pieces.iter().map(|_| Vec::new()).collect::<Vec<_>>();
    for (i, one) in pieces.iter().enumerate() {
        for (j, two) in pieces.iter().enumerate().skip(i + 1) {
            let (a, b) = (&strokes[one.stroke], &strokes[two.stroke]);
            let next = one.stroke == two.stroke && one.place.abs_diff(two.place) < 2;
            let same = a.bundle.is_some() && a.bundle == b.bundle;
            if next || same {
                continue;
            }
            let Some((here, there)) = one.piece.crossing(&two.piece) else {
                continue;
            };
            if !found.take(strokes, (one, two), listed) {
                continue;
            }
            let (place, at, reach, under, there) = if goes_over(a, &one.piece, b, &two.piece) {
                (i, here, reach(a, b), j, there)
            } else {
                (j, there, reach(b, a), i, here)
            };
            over[place].push(Over {
                at,
                reach,
                under,
                there,
            });
        }
    }
    (over, found)
}

/// A bundle and a route by their places: the routes' strokes stand first, in the scene's order.
fn pair(strokes: &[Stroke], one: &Placed, two: &Placed) -> Option<(usize, usize)> {
    match [one, two].map(|of| strokes[of.stroke].bundle) {
        [Some(trunk), None] => Some((trunk, two.stroke)),
        [None, Some(trunk)] => Some((trunk, one.stroke)),
        _ => None,
    }
}

/// Gives the lines below a piece their gaps.
fn gaps(strokes: &mut [Stroke], pieces: &[Placed], of: &Placed, over: &[Over], arches: &[Arch]) {
    let width = strokes[of.stroke].width;
    for crossed in over {
        let arch = arches.iter().find(|arch| arch.holds(crossed.at));
        let rise = arch.map_or(0.0, |arch| arch.rise);
        let under = &pieces[crossed.under];
        let widths = (width, strokes[under.stroke].width);
        let gap = gap(&of.piece, rise, widths, &under.piece, crossed.there);
        strokes[under.stroke].gaps[under.place].push(gap);
    }
}

/// Gaps in order, those that are too near to each other as one.
fn merged(stroke: &Stroke, turn: usize) -> Vec<Gap> {
    let mut to: Vec<Gap> = Vec::new();
    for gap in &stroke.gaps[turn] {
        let mut gap = *gap;
        while let Some(last) = to.pop_if(|last| gap.from - last.to < kept(stroke, [last, &gap])) {
            gap.from = last.from.min(gap.from);
            gap.to = last.to.max(gap.to);
        }
        to.push(gap);
    }
    to
}

/// The gap of a line where another one goes over it in an arch. The widths are those of the upper and
/// of the lower one.
pub fn gap(over: &Piece, rise: f64, widths: (f64, f64), under: &Piece, there: f64) -> Gap {
    let (ahead, left) = (over.at(1.0, 0.0), over.at(0.0, 1.0));
    let step = under.at(1.0, 0.0);
    let (x, y) = (step.x - under.start.x, step.y - under.start.y);
    let across = (left.x - over.start.x) * x + (left.y - over.start.y) * y;
    // 1 where the two are square to each other, less where they are not.
    let square = ((ahead.x - over.start.x) * y - (ahead.y - over.start.y) * x)
        .abs()
        .max(0.2);
    let middle = there + rise * across;
    // A slanted line is cut square, so that one of its corners reaches further.
    let slant = ((ahead.x - over.start.x) * x + (ahead.y - over.start.y) * y).abs();
    // It also meets the arch beside its top.
    let half = (widths.0 / 2.0 + 1.05 * WHITE + widths.1 / 2.0 * slant) / square
        + 0.5 * slant * rise.abs();
    // Below the arch, where its sides come down beside the line, a little more.
    let inside = half + (0.15 + slant) * rise.abs();
    let (before, after) = if rise * across > 0.0 {
        (inside, half)
    } else {
        (half, inside)
    };
    Gap {
        from: (middle - before).max(0.0),
        to: (middle + after).min(under.length()),
    }
}

/// Lets arches end before the lines beside them that the piece does not cross.
fn narrow(piece: &Piece, over: &mut [Over], lines: &[(Point, Point)], width: f64) {
    let Some(way) = Way::of(piece.start, piece.end) else {
        return;
    };
    let other = way.other();
    let crossed = over.iter().map(|over| over.under).collect::<Vec<_>>();
    let here = way.across(piece.start);
    for Over { at, reach, .. } in over {
        let under = way.along(piece.at(*at, 0.0));
        for (place, (a, b)) in lines.iter().enumerate() {
            let Some(span) = other.span(*a, *b) else {
                continue;
            };
            let far = (span.at - under).abs();
            let near = span.low < here + *reach && here - *reach < span.high;
            if near && far > 0.0 && far < *reach + 2.0 * width && !crossed.contains(&place) {
                *reach = reach.min((far - 2.0 * width).max(0.5 * far));
            }
        }
    }
}

fn goes_over(a: &Stroke, here: &Piece, b: &Stroke, there: &Piece) -> bool {
    if a.width != b.width {
        return a.width < b.width;
    }
    let (x, y) = (here.end.x - here.start.x, here.end.y - here.start.y);
    let (u, v) = (there.end.x - there.start.x, there.end.y - there.start.y);
    (x * v).abs() >= (u * y).abs()
}

/// How far from the crossing an arch of the one over the other starts.
fn reach(over: &Stroke, under: &Stroke) -> f64 {
    (under.width + over.width) / 2.0 + 2.3 * over.width.min(0.35)
}

/// Arches over all crossings of a piece; those that would run into each other are one. They end
/// before the corners of the piece.
fn joined(over: &mut [Over], length: f64, width: f64) -> Vec<Arch> {
    over.sort_by(|a, b| a.at.total_cmp(&b.at));
    let mut arches: Vec<Arch> = Vec::new();
    for Over { at, reach, .. } in over {
        let within = |room: f64| reach.min((room - 2.0 * width).max(0.7 * room));
        let (from, to) = (*at - within(*at), *at + within(length - *at));
        match arches.last_mut() {
            Some(arch) if from < arch.to + width => {
                arch.last = *at;
                arch.to = arch.to.max(to);
                arch.from = arch.from.min(from);
            }
            _ => arches.push(Arch {
                from,
                first: *at,
                last: *at,
                to,
                rise: 0.0,
            }),
        }
    }
    arches
}

/// How high an arch can be: up from a level piece, else to the right, or to the other side if there
/// is more room. A very small one is none: the line then goes straight over the other.
fn rise(piece: &Piece, arch: &Arch, spans: &[(Way, Vec<Span>); 2], width: f64) -> f64 {
    let reach = (arch.first - arch.from).min(arch.to - arch.last);
    if reach < 1.6 * width {
        return 0.0;
    }
    // Rather flat, so that two arches at one place do not meet.
    let most = 0.7 * (arch.first - arch.from).max(arch.to - arch.last);
    let better = match Way::of(piece.start, piece.end) {
        Some(Way::Upright) => (piece.end.y - piece.start.y).signum(),
        _ if piece.end.x == piece.start.x => 1.0,
        _ => (piece.end.x - piece.start.x).signum(),
    };
    // The line there may have an arch toward this one.
    let room = |side: f64| most.min(0.5 * nearest(piece, arch, spans, side) - 1.1 * width);
    let (one, two) = (room(better), room(-better));
    let (side, high) = if one >= 2.0 * width || one >= two {
        (better, one)
    } else {
        (-better, two)
    };
    if high < 1.2 * width { 0.0 } else { side * high }
}

/// How far the nearest line is beside an arch, on one side of its piece.
fn nearest(piece: &Piece, arch: &Arch, spans: &[(Way, Vec<Span>); 2], side: f64) -> f64 {
    let of_piece = Way::of(piece.start, piece.end);
    let spans = spans.iter().find(|(way, _)| Some(*way) == of_piece);
    let (from, to) = (piece.at(arch.from, 0.0), piece.at(arch.to, 0.0));
    let here = spans.and_then(|(way, spans)| Some((way, spans, way.span(from, to)?)));
    let Some((way, spans, here)) = here else {
        return f64::INFINITY;
    };
    let tip = way.across(piece.at(arch.first, side));
    let toward = (tip - here.at).signum();
    let beside = spans.iter().filter(|span| span.beside(&here, 0.0));
    let distances = beside.map(|span| (span.at - here.at) * toward);
    let distances = distances.filter(|distance| *distance > 0.0);
    distances.fold(f64::INFINITY, f64::min)
}
