//! Where the words beside what was tried may stand.

use bundle_stage::{Point, Segment};

use super::bodies::sides;
use super::field::{Rect, moved};
use super::page::MARGIN;
use super::palette::WARNING;
use super::scene::{MARK, Scene};
use super::stroke::Stroke;
use super::xml::{BOLD, cut, wide_bold, words};

/// The height of letters.
const SIZE: f64 = 2.6;
/// From one line that is tried to the next.
const STEP: f64 = 0.6 * SIZE;
/// How many are tried along a collector.
const MOST_ALONG: usize = 32;

/// Words as SVG, and where they are.
pub type Placed = (String, Rect);

/// The lines of the board as they are drawn, with room for a cross at their ends, the frames of its nodes, and its
/// ports.
pub fn others(scene: &Scene, strokes: &[Stroke]) -> Vec<Rect> {
    let pieces = strokes.iter().flat_map(Stroke::pieces);
    let pieces = pieces.map(|piece| (piece.start, piece.end));
    let sides = scene.nodes.iter().flat_map(sides);
    let lines = pieces.chain(sides).map(|(a, b)| Rect::of(a, b, 0.4));
    let ports = scene.ports.iter();
    let ports = ports.map(|port| Rect::of(port.low, port.high, port.size));
    let ends = strokes.iter();
    let ends = ends.flat_map(|stroke| [stroke.corners.first(), stroke.corners.last()]);
    let ends = ends.flatten().map(|end| Rect::of(*end, *end, 1.5));
    lines.chain(ports).chain(ends).collect()
}

/// Words at a ring, best first, and where they are: beside it, then over it and below it.
pub fn at_ring(at: Point, said: &str, frame: (Point, Point)) -> Vec<Placed> {
    let places = around(at).into_iter();
    let words = places.flat_map(|at| beside(at, said, frame.1.x));
    let over = along(moved(at, 0.0, -1.2 * MARK), said, frame);
    let below = along(moved(at, 0.0, 1.2 * MARK + SIZE), said, frame);
    words.chain(over).chain(below).collect()
}

/// The same at a collector: at its upper end, then down along it, over it and below it.
pub fn at_collector(collector: Segment, said: &str, frame: (Point, Point)) -> Vec<Placed> {
    let Segment { start, end } = collector;
    let [top, low] = if start.y < end.y {
        [start, end]
    } else {
        [end, start]
    };
    let downs = (1..=MOST_ALONG).map(|line| STEP * line as f64);
    let downs = downs.take_while(|down| top.y + down < low.y + 4.0 * SIZE);
    let places = above(top).into_iter();
    let places = places.chain(downs.map(|down| moved(top, 0.0, down)));
    let words = places.flat_map(|at| beside(at, said, frame.1.x));
    let lines = (0..4).map(|line| STEP * f64::from(line));
    let over = lines.clone();
    let over = over.flat_map(|line| along(moved(top, 0.0, -1.5 - line), said, frame));
    let below = lines.flat_map(|line| along(moved(low, 0.0, 1.5 + SIZE + line), said, frame));
    words.chain(over).chain(below).collect()
}

/// Words on a line through a place, as far as they are inside the frame: from those with their middle there to
/// those that begin or end there.
fn along(at: Point, said: &str, (low, high): (Point, Point)) -> Vec<Placed> {
    let long = wide_bold(said, SIZE);
    let parts = [0.5, 0.4, 0.6, 0.3, 0.7, 0.2, 0.8, 0.1, 0.9, 0.0, 1.0];
    let places = parts.map(|part| moved(at, -part * long, 0.0)).into_iter();
    let inside = places.filter(|at| low.x <= at.x && at.x + long <= high.x);
    let words = inside.map(|at| (written(at, "start", said), letters(at, long)));
    words.collect()
}

/// Where letters are that stand on a line from a place on: some go down below it.
fn letters(at: Point, long: f64) -> Rect {
    let (high, low) = (moved(at, 0.0, -0.8 * SIZE), moved(at, long, 0.2 * SIZE));
    Rect::of(high, low, 0.0)
}

fn written(at: Point, anchor: &str, said: &str) -> String {
    let more = format!(
        "text-anchor=\"{anchor}\" {BOLD} fill=\"{WARNING}\" stroke=\"white\" \
         stroke-width=\"0.6\" paint-order=\"stroke\""
    );
    words(at, SIZE, &more, said)
}

/// Where words at a ring may begin: a little below its middle, then further down and up.
fn around(at: Point) -> Vec<Point> {
    let lines = [
        1.0, -0.6, 0.2, 1.4, -1.0, 1.8, -1.4, 2.6, -2.2, 3.4, -3.0, 4.2, -3.8,
    ];
    lines.map(|line| moved(at, 0.0, line * MARK)).to_vec()
}

/// The same at the upper end of a collector.
fn above(top: Point) -> Vec<Point> {
    let lines = (0..8).map(f64::from);
    let places = lines.map(|line| moved(top, 0.0, -STEP * line - 0.5));
    places.collect()
}

/// Words to the right of a place and to its left, where the page has more room first, and where they are.
fn beside(at: Point, said: &str, width: f64) -> Vec<Placed> {
    let long = wide_bold(said, SIZE);
    let rooms = [width - at.x, at.x].map(|room| room - 1.2 * MARK - MARGIN / 2.0);
    let right = (1.0, "start", rooms[0]);
    let left = (-1.0, "end", rooms[1]);
    let sides = if long < rooms[0] || rooms[0] > rooms[1] {
        [right, left]
    } else {
        [left, right]
    };
    // Words that are cut stand where there is more room.
    let first = sides[0].2;
    let sides = sides.into_iter();
    let sides = sides.filter(|(.., room)| *room == first || long < *room);
    let words = sides.map(|(side, anchor, room)| {
        // The whole name is there under the pointer.
        let said = &cut(said, SIZE, room);
        let long = wide_bold(said, SIZE);
        let at = moved(at, 1.2 * side * MARK, 0.0);
        let rect = letters(at, side * long);
        (written(at, anchor, said), rect)
    });
    words.collect()
}
