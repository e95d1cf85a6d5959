//! Where there is room for words.

use std::cmp::Reverse;

use bundle_stage::Point;

use super::scene::{MARK, Scene, corners};
use super::stroke::Stroke;

#[derive(Clone, Copy)]
pub struct Rect {
    pub low: Point,
    pub high: Point,
}

impl Rect {
    pub fn around(middle: Point, width: f64, height: f64) -> Rect {
        Rect {
            low: moved(middle, -width / 2.0, -height / 2.0),
            high: moved(middle, width / 2.0, height / 2.0),
        }
    }

    pub fn of(a: Point, b: Point, more: f64) -> Rect {
        Rect {
            low: moved(
                Point {
                    x: a.x.min(b.x),
                    y: a.y.min(b.y),
                },
                -more,
                -more,
            ),
            high: moved(
                Point {
                    x: a.x.max(b.x),
                    y: a.y.max(b.y),
                },
                more,
                more,
            ),
        }
    }

    pub fn meets(&self, other: &Rect) -> bool {
        self.low.x < other.high.x
            && other.low.x < self.high.x
            && self.low.y < other.high.y
            && other.low.y < self.high.y
    }

    pub fn within(&self, other: &Rect) -> bool {
        self.low.x >= other.low.x
            && self.high.x <= other.high.x
            && self.low.y >= other.low.y
            && self.high.y <= other.high.y
    }

    /// How far two are from each other, 0 where they meet.
    pub fn apart(&self, other: &Rect) -> f64 {
        let x = (other.low.x - self.high.x).max(self.low.x - other.high.x);
        let y = (other.low.y - self.high.y).max(self.low.y - other.high.y);
        x.max(0.0).hypot(y.max(0.0))
    }

    pub fn middle(&self) -> Point {
        Point {
            x: (self.low.x + self.high.x) / 2.0,
            y: (self.low.y + self.high.y) / 2.0,
        }
    }
}

pub fn moved(at: Point, x: f64, y: f64) -> Point {
    Point {
        x: at.x + x,
        y: at.y + y,
    }
}

/// What is on the page already.
pub struct Field {
    /// Lines, with the bundle whose trunk it is, and labels.
    taken: Vec<(Rect, Option<usize>)>,
    nodes: Vec<Rect>,
    page: Rect,
}

/// A place for a label.
#[derive(Clone, Copy)]
pub struct Spot {
    pub rect: Rect,
    /// The place of the node that it is of, if it is of one.
    pub node: Option<usize>,
    /// Inside that node.
    pub inside: bool,
    pub over: Over,
    /// The bundle on whose trunk it may stand.
    pub on: Option<usize>,
    /// It stands away from that trunk, and is to be nearer to it than to any other.
    pub away: bool,
    /// From below upwards.
    pub turned: bool,
    /// The height of its letters.
    pub size: f64,
    pub anchor: Anchor,
}

/// What of nodes that are not its own it may lie over.
#[derive(Clone, Copy, PartialEq, PartialOrd)]
pub enum Over {
    Nothing,
    /// Their ground.
    Ground,
    /// Their sides too.
    Sides,
}

/// Where the words begin or end.
#[derive(Clone, Copy, PartialEq)]
pub enum Anchor {
    Left,
    Middle,
    Right,
}

impl Spot {
    pub fn new(rect: Rect, size: f64) -> Spot {
        Spot {
            rect,
            node: None,
            inside: false,
            over: Over::Nothing,
            on: None,
            away: false,
            turned: false,
            size,
            anchor: Anchor::Middle,
        }
    }
}

impl Field {
    /// Nothing else is to stand there.
    pub fn take(&mut self, rect: Rect) {
        self.taken.push((rect, None));
    }

    /// Whether it lies over no node but its own, or one that this lies in, and beside its own is nearer to it
    /// than to any other.
    fn is_of_its_node(&self, spot: &Spot) -> bool {
        let own = spot.node.map(|place| self.nodes[place]);
        let middle = Rect::of(spot.rect.middle(), spot.rect.middle(), 0.0);
        let others = self.nodes.iter().enumerate();
        let mut others = others.filter(|(place, _)| spot.node != Some(*place));
        others.all(|(_, other)| match own {
            Some(own) if spot.inside => own.within(other) || !other.meets(&spot.rect),
            Some(own) => [spot.rect, middle].iter().all(|of| {
                // Both its edge and its middle.
                own.apart(of) + NEARER < other.apart(of)
            }),
            None => !other.meets(&spot.rect),
        })
    }

    /// Whether it lies in each node that it meets.
    fn hides_no_side(&self, spot: &Spot) -> bool {
        let mut nodes = self.nodes.iter();
        nodes.all(|node| !node.meets(&spot.rect) || spot.rect.within(node))
    }

    /// Whether it is nearer to the trunk of its bundle than to any other.
    fn is_of_its_trunk(&self, spot: &Spot) -> bool {
        let nearest = |own: bool| {
            let trunks = self.taken.iter().filter(|(_, of)| of.is_some());
            let trunks = trunks.filter(|(_, of)| (*of == spot.on) == own);
            let apart = trunks.map(|(rect, _)| rect.apart(&spot.rect));
            apart.fold(f64::INFINITY, f64::min)
        };
        nearest(true) + NEARER < nearest(false)
    }

    pub fn free(&self, spot: &Spot) -> bool {
        let mut taken = self.taken.iter();
        let is_clear = match spot.over {
            Over::Nothing => self.is_of_its_node(spot),
            Over::Ground => self.hides_no_side(spot),
            Over::Sides => true,
        };
        spot.rect.within(&self.page)
            && is_clear
            && (!spot.away || self.is_of_its_trunk(spot))
            && !taken.any(|(rect, of)| (of.is_none() || *of != spot.on) && rect.meets(&spot.rect))
    }
}

/// How much nearer a label beside its node is to it than to any other node, in millimetres, and one that stands
/// away from its trunk to that.
const NEARER: f64 = 0.3;

/// A thing to be labelled: its words and its places, best first.
pub struct Wish {
    pub text: String,
    pub place: usize,
    pub spots: Box<dyn Fn(f64) -> Vec<Spot>>,
}

pub struct Label {
    pub text: String,
    pub place: usize,
    pub spot: Spot,
    /// The place of its wish in the list.
    wish: usize,
    /// The place of its rectangle in the field.
    taken: usize,
}

/// Labels for as many wishes as can be, as few of them over the sides of nodes or over nodes and as many inside
/// theirs, at the largest size that allows it. Says how many are left out.
pub fn placed(field: &mut Field, wishes: &[Wish], sizes: &[f64]) -> (Vec<Label>, usize) {
    let before = field.taken.len();
    let worth = |labels: &[Label]| {
        let count = |of: fn(&Spot) -> bool| labels.iter().filter(|one| of(&one.spot)).count();
        let sides = Reverse(count(|spot| spot.over == Over::Sides));
        let over = Reverse(count(|spot| spot.over > Over::Nothing));
        (labels.len(), sides, over, count(|spot| spot.inside))
    };
    let mut best: Vec<Label> = Vec::new();
    for size in sizes {
        let mut labels = Vec::new();
        for (wish, Wish { text, place, spots }) in wishes.iter().enumerate() {
            let spot = spots(*size).into_iter().find(|spot| field.free(spot));
            if let Some(spot) = spot {
                let taken = field.taken.len();
                field.taken.push((spot.rect, None));
                let (text, place) = (text.clone(), *place);
                labels.push(Label {
                    text,
                    place,
                    spot,
                    wish,
                    taken,
                });
            }
        }
        field.taken.truncate(before);
        if worth(&labels) > worth(&best) {
            best = labels;
        }
    }
    let rects = best.iter().map(|label| (label.spot.rect, None));
    field.taken.extend(rects);
    let left_out = wishes.len() - best.len();
    (best, left_out)
}

/// Replaces labels by longer ones of the same things, where there is room that is no worse; `longer` has one, or none,
/// for each wish that the labels were placed by. Says which were replaced, by the places of their things.
pub fn lengthen(
    field: &mut Field,
    labels: &mut [Label],
    longer: &[Option<Wish>],
    sizes: &[f64],
) -> Vec<usize> {
    let nowhere = Point {
        x: f64::INFINITY,
        y: f64::INFINITY,
    };
    let mut replaced = Vec::new();
    for label in labels {
        let Some(Wish { text, spots, .. }) = &longer[label.wish] else {
            continue;
        };
        // Its own place is free for it.
        field.taken[label.taken].0 = Rect::of(nowhere, nowhere, 0.0);
        let sizes = sizes.iter().filter(|size| **size <= label.spot.size);
        let all = sizes.flat_map(|size| spots(*size));
        let mut all = all.filter(|spot| spot.over <= label.spot.over);
        if let Some(spot) = all.find(|spot| field.free(spot)) {
            (label.text, label.spot) = (text.clone(), spot);
            replaced.push(label.place);
        }
        field.taken[label.taken].0 = label.spot.rect;
    }
    replaced
}

/// All that is drawn, on a page from one corner to the other.
pub fn field(scene: &Scene, strokes: &[Stroke], page: (Point, Point)) -> Field {
    let mut taken = Vec::new();
    for stroke in strokes {
        let half = stroke.width / 2.0 + 0.15;
        for (piece, arches) in stroke.pieces().zip(&stroke.arches) {
            taken.push((Rect::of(piece.start, piece.end, half), stroke.bundle));
            for arch in arches {
                let (from, top) = (piece.at(arch.from, 0.0), piece.at(arch.to, arch.rise));
                taken.push((Rect::of(from, top, half), None));
            }
        }
    }
    let taps = scene.trunks.iter().flat_map(|trunk| &trunk.taps);
    let dots = taps.map(|tap| Rect::of(tap.at, tap.at, tap.radius + 0.1));
    let ports = scene.ports.iter();
    let ports = ports.map(|port| Rect::of(port.low, port.high, port.size / 2.0 + 0.1));
    let marks = scene.marks.iter();
    let marks = marks.map(|mark| Rect::of(mark.at, mark.at, MARK));
    let tried = scene.tried.iter();
    let tried = tried.flat_map(|tried| tried.taken(scene, strokes, page));
    let taken_too = dots.chain(ports).chain(marks).chain(tried);
    taken.extend(taken_too.map(|rect| (rect, None)));
    let nodes = scene.nodes.iter().map(corners);
    Field {
        taken,
        nodes: nodes.map(|[low, high]| Rect::of(low, high, 0.2)).collect(),
        page: Rect {
            low: page.0,
            high: page.1,
        },
    }
}
