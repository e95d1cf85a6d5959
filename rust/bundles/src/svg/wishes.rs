//! What is to be labelled, and where its label may stand.

use bundle_stage::{Node, Point, Side};

use super::field::{Anchor, Over, Rect, Spot, Wish, moved};
use super::labels::{AROUND, NODES, pill_size};
use super::pens::Pens;
use super::scene::{Port, Route, Trunk, corners};
use super::spans::Way;
use super::stroke::{Piece, Stroke, apart};
use super::white::NEARLY;
use super::xml::{wide, wide_bold};

/// A node's id or name beside it is no larger.
const OUTSIDE: f64 = 2.4;
/// A name beside a narrower node is no longer.
const LONGEST: f64 = 30.0;
/// A bundle's id stands at both ends of a spine that is longer.
const LONG: f64 = 90.0;

// ---- nodes

/// Inside it as large as fits, else beside it.
pub fn node_wish(place: usize, node: &Node, text: String) -> Wish {
    let [low, high] = corners(node);
    let around = Rect { low, high };
    let spots = {
        let text = text.clone();
        move |size: f64| {
            let size_of = |size: f64| (wide_bold(&text, size) + 0.4, size);
            let smaller = NODES.into_iter().filter(|smaller| *smaller <= size);
            let inside = smaller.flat_map(|size| within(&around, size_of(size), size));
            let small = size.min(OUTSIDE);
            let outside = outside(&around, size_of(small), small);
            of_node(place, inside.chain(outside))
        }
    };
    Wish {
        text,
        place,
        spots: Box::new(spots),
    }
}

/// Places inside a node, level ones first.
fn within(around: &Rect, (width, height): (f64, f64), size: f64) -> Vec<Spot> {
    let mut spots = Vec::new();
    for (width, height, turned) in [(width, height, false), (height, width, true)] {
        for (x, y) in [(0, 0), (0, -1), (0, 1), (-1, 0), (1, 0), (0, -2), (0, 2)] {
            let part = |step: i32, size: f64| f64::from(step) * size / 5.0;
            let x = part(x, around.high.x - around.low.x);
            let y = part(y, around.high.y - around.low.y);
            let rect = Rect::around(moved(around.middle(), x, y), width, height);
            if rect.within(around) {
                spots.push(Spot {
                    inside: true,
                    turned,
                    ..Spot::new(rect, size)
                });
            }
        }
    }
    spots
}

/// A node's name: below its id, or above it, where that stands inside; else elsewhere inside, else beside
/// the node.
pub fn name_wish(place: usize, node: &Node, id: Spot, name: &str) -> Wish {
    let [low, high] = corners(node);
    let around = Rect { low, high };
    let text = name.to_string();
    let spots = {
        let text = text.clone();
        move |size: f64| {
            let (width, height) = (wide(&text, size) + 0.4, size);
            let far = (id.rect.high.y - id.rect.low.y + height) / 2.0 + 0.3;
            let near = [far, -far].map(|y| moved(id.rect.middle(), 0.0, y));
            let near = near.map(|at| Rect::around(at, width, height));
            let near = near.into_iter().filter(|rect| rect.within(&around));
            let near = near.map(|rect| Spot {
                inside: true,
                ..Spot::new(rect, size)
            });
            let inside = within(&around, (width, height), size);
            let small = size.min(OUTSIDE);
            let (width, height) = (wide(&text, small) + 0.4, small);
            let outside = outside(&around, (width, height), small).into_iter();
            // A longer one would reach to what is not its node's.
            let outside = outside.filter(|_| width <= (high.x - low.x).max(LONGEST));
            of_node(place, near.chain(inside).chain(outside))
        }
    };
    Wish {
        text,
        place,
        spots: Box::new(spots),
    }
}

/// Places beside a node, those in the middle of its sides first.
fn outside(around: &Rect, (width, height): (f64, f64), size: f64) -> Vec<Spot> {
    let sides = beside(around, width, height);
    let Rect { low, high } = *around;
    let xs = [high.x + 0.5 + width / 2.0, low.x - 0.5 - width / 2.0];
    let ys = [low.y + height / 2.0, high.y - height / 2.0];
    let ends = xs.into_iter().flat_map(|x| ys.map(|y| Point { x, y }));
    let ends = ends.map(|at| Rect::around(at, width, height));
    let corners = at_corners(around, width, height);
    let all = sides.chain(ends).chain(corners);
    all.map(|rect| Spot {
        anchor: toward(around, &rect),
        ..Spot::new(rect, size)
    })
    .collect()
}

/// Words may be less wide than their place: they start at their node, or end there.
fn toward(node: &Rect, rect: &Rect) -> Anchor {
    if rect.low.x >= node.low.x - NEARLY && rect.high.x > node.high.x {
        Anchor::Left
    } else if rect.high.x <= node.high.x + NEARLY && rect.low.x < node.low.x {
        Anchor::Right
    } else {
        Anchor::Middle
    }
}

/// Places for what is of a node.
fn of_node(place: usize, spots: impl Iterator<Item = Spot>) -> Vec<Spot> {
    let node = Some(place);
    spots.map(|spot| Spot { node, ..spot }).collect()
}

/// Above, below, to the right and to the left of something.
fn beside(around: &Rect, width: f64, height: f64) -> impl Iterator<Item = Rect> {
    let Rect { low, high } = *around;
    let middle = around.middle();
    let gap = 0.5;
    let across = [middle.x, low.x + width / 2.0, high.x - width / 2.0];
    let upright = [low.y - gap - height / 2.0, high.y + gap + height / 2.0];
    let sides = [high.x + gap + width / 2.0, low.x - gap - width / 2.0];
    let level = upright.map(|y| across.map(|x| Point { x, y }));
    let sides = sides.map(|x| Point { x, y: middle.y });
    let points = level.into_iter().flatten().chain(sides);
    points.map(move |at| Rect::around(at, width, height))
}

/// Inside its node, which has this place, in front of it.
pub fn port_wish(
    place: usize,
    port: &Port,
    (of, node): (usize, &Node),
    pens: &Pens,
    text: String,
) -> Wish {
    let (at, side) = (port.at, port.side);
    let [low, high] = corners(node);
    let around = Rect { low, high };
    let gap = pens.port / 2.0 + 0.5;
    let spots = {
        let text = text.clone();
        move |size: f64| {
            let (width, height) = (wide(&text, size), 0.8 * size);
            let (x, y) = match side {
                Side::North => (0.0, gap + height / 2.0),
                Side::East => (-gap - width / 2.0, 0.0),
                Side::South => (0.0, -gap - height / 2.0),
                Side::West => (gap + width / 2.0, 0.0),
            };
            let spot = Spot {
                node: Some(of),
                inside: true,
                anchor: match side {
                    Side::East => Anchor::Right,
                    Side::West => Anchor::Left,
                    Side::North | Side::South => Anchor::Middle,
                },
                ..Spot::new(Rect::around(moved(at, x, y), width, height), size)
            };
            let fits = spot.rect.within(&around);
            fits.then_some(spot).into_iter().collect()
        }
    };
    Wish {
        text,
        place,
        spots: Box::new(spots),
    }
}

// ---- edges

/// Beside its longest runs, those near the end that is in no bundle first.
pub fn edge_wish(place: usize, route: &Route, stroke: &Stroke, text: String) -> Wish {
    let mut pieces = stroke.pieces().collect::<Vec<_>>();
    if route.input.is_some() || route.output.is_none() {
        pieces.reverse();
    }
    let from_end = route.input.is_some() || route.output.is_none();
    let spots = {
        let text = text.clone();
        let half = stroke.width / 2.0;
        move |size: f64| {
            let box_of = (wide(&text, size) + 0.4, 0.8 * size);
            let level = pieces.iter().filter(|piece| way(piece) == Some(Way::Level));
            let upright = pieces
                .iter()
                .filter(|piece| way(piece) == Some(Way::Upright));
            let level = level.flat_map(|piece| along(piece, from_end, box_of, half));
            let upright = upright.flat_map(|piece| along(piece, from_end, box_of, half));
            let rects = level.chain(upright);
            rects.map(|rect| Spot::new(rect, size)).collect()
        }
    };
    Wish {
        text,
        place,
        spots: Box::new(spots),
    }
}

fn way(piece: &Piece) -> Option<Way> {
    Way::of(piece.start, piece.end)
}

/// Places on both sides of a run, from the end that the reader comes from.
fn along(piece: &Piece, from_end: bool, (width, height): (f64, f64), half: f64) -> Vec<Rect> {
    let length = piece.length();
    let (run, across) = match way(piece) {
        Some(Way::Level) => (width, height),
        _ => (height, width),
    };
    // A label that is longer than its run would hang over.
    if run + 0.6 > length {
        return Vec::new();
    }
    let far = half + 0.45 + across / 2.0;
    let spare = length - run - 0.6;
    let parts = [0.0, 0.06, 0.12, 0.2, 0.3, 0.35, 0.4, 0.5, 0.7, 0.85, 1.0];
    let places = parts.map(|part| {
        let at = 0.3 + run / 2.0 + part * spare;
        if from_end { length - at } else { at }
    });
    // Above a level run first, to the right of an upright one.
    let start = match way(piece) {
        Some(Way::Level) if piece.end.x < piece.start.x => -1.0,
        Some(Way::Upright) if piece.end.y < piece.start.y => -1.0,
        _ => 1.0,
    };
    let both = places
        .into_iter()
        .flat_map(|at| [(at, start), (at, -start)]);
    both.map(|(at, side)| Rect::around(piece.at(at, side * far), width, height))
        .collect()
}

// ---- bundles

/// The end of a spine near which an id is to stand.
#[derive(Clone, Copy, PartialEq)]
pub enum End {
    Collector,
    Port,
}

pub fn is_long(trunk: &Trunk) -> bool {
    apart(trunk.spine.start, trunk.spine.end) > LONG
}

/// On the spine or the collector, else beside them; over a node only where there is nowhere else, as where a
/// trunk at the far side of its node lies over it; over its side only where there is no room some millimetres away
/// from the trunk either. The second id, at the port, is never over one.
pub fn bundle_wish(place: usize, trunk: &Trunk, end: End, pens: &Pens, text: &str) -> Wish {
    let parts = [trunk.spine, trunk.collector].map(|part| Piece {
        start: part.start,
        end: part.end,
    });
    let half = pens.trunk / 2.0;
    let text = text.to_string();
    let spots = {
        let text = text.clone();
        move |size: f64| {
            let (width, height) = pill_size(&text, size);
            let box_of = (width + 2.0 * AROUND, height + 2.0 * AROUND);
            let rects = bundle_rects(&parts, end, half, box_of);
            let on = |over: Over| {
                move |rect: &Rect| Spot {
                    on: Some(place),
                    over,
                    ..Spot::new(*rect, size)
                }
            };
            if end == End::Port {
                return rects.iter().map(on(Over::Nothing)).collect();
            }
            let away = away(&parts, half, box_of);
            let away = away.iter().map(on(Over::Nothing));
            let away = away.map(|spot| Spot { away: true, ..spot });
            let clear = [Over::Nothing, Over::Ground].into_iter();
            let clear = clear.flat_map(|over| rects.iter().map(on(over)));
            let sides = rects.iter().map(on(Over::Sides));
            clear.chain(away).chain(sides).collect()
        }
    };
    Wish {
        text,
        place,
        spots: Box::new(spots),
    }
}

/// The places that are tried for a bundle's id, best first.
fn bundle_rects(
    [spine, collector]: &[Piece; 2],
    end: End,
    half: f64,
    (width, height): (f64, f64),
) -> Vec<Rect> {
    let mut rects = Vec::new();
    let near = width / 2.0 + 2.5 * half + 0.8;
    let length = spine.length();
    if length > width + 4.0 * half {
        let places = [near, 0.25 * length, 0.5 * length, 0.75 * length];
        let places = places.map(|at| at.min(length / 2.0).max(at.min(length - near)));
        let places = places.map(|at| if end == End::Port { at } else { length - at });
        rects.extend(places.map(|at| Rect::around(spine.at(at, 0.0), width, height)));
    }
    let length = collector.length();
    let parts = [0.5, 0.25, 0.75, 0.1, 0.9].map(|part| part * length);
    if length > height + 1.0 {
        rects.extend(parts.map(|at| Rect::around(collector.at(at, 0.0), width, height)));
    }
    let boxes = [collector, spine].map(|part| trunk_box(part, half));
    for part in &boxes {
        rects.extend(beside(part, width, height));
    }
    for part in [spine, collector] {
        rects.extend(anywhere(part, half, (width, height)));
    }
    for part in &boxes {
        rects.extend(at_corners(part, width, height));
    }
    rects
}

/// Places around a bundle, but not right beside it.
fn away([spine, collector]: &[Piece; 2], half: f64, (width, height): (f64, f64)) -> Vec<Rect> {
    let mut rects = Vec::new();
    for far in [1.0, 2.0, 3.0, 4.0] {
        for part in [collector, spine] {
            let around = trunk_box(part, half + far);
            rects.extend(beside(&around, width, height));
            rects.extend(at_corners(&around, width, height));
        }
    }
    rects
}

/// Places all along a part of a trunk, on it and on both sides of it.
fn anywhere(part: &Piece, half: f64, (width, height): (f64, f64)) -> Vec<Rect> {
    let length = part.length();
    let (long, across) = match way(part) {
        Some(Way::Upright) => (height, width),
        _ => (width, height),
    };
    let spare = length - long;
    if spare < 0.0 {
        return Vec::new();
    }
    let steps = (spare / STEP).ceil().min(MOST_STEPS);
    let places = (0..=steps as usize).map(|step| long / 2.0 + spare * step as f64 / steps.max(1.0));
    let beside = across / 2.0 + half + 0.4;
    let lefts = [0.0, beside, -beside].into_iter();
    let points = lefts.flat_map(|left| places.clone().map(move |at| part.at(at, left)));
    points.map(|at| Rect::around(at, width, height)).collect()
}

/// From one place that is tried along a trunk to the next, in millimetres, and how many are tried.
const STEP: f64 = 2.0;
const MOST_STEPS: f64 = 200.0;

/// Beside the corners of something, above and below its middle.
fn at_corners(around: &Rect, width: f64, height: f64) -> Vec<Rect> {
    let Rect { low, high } = *around;
    let xs = [high.x + 0.5 + width / 2.0, low.x - 0.5 - width / 2.0];
    let ys = [low.y - 0.1 - height / 2.0, high.y + 0.1 + height / 2.0];
    let points = xs.into_iter().flat_map(|x| ys.map(|y| Point { x, y }));
    points.map(|at| Rect::around(at, width, height)).collect()
}

fn trunk_box(piece: &Piece, half: f64) -> Rect {
    Rect::of(piece.start, piece.end, half + 0.4)
}
