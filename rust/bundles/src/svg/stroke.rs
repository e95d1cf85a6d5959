//! A line with arches and gaps.

use bundle_stage::Point;

/// A line as it is drawn: from corner to corner, with arches where it goes over others and gaps where
/// others go over it.
pub struct Stroke {
    pub corners: Vec<Point>,
    /// For each piece from a corner to the next, in order along it.
    pub arches: Vec<Vec<Arch>>,
    pub gaps: Vec<Vec<Gap>>,
    pub width: f64,
    /// Strokes of one bundle meet without an arch.
    pub bundle: Option<usize>,
}

/// Distances from the start of a piece: the arch goes up from `from` to `first`, where it goes over
/// a line, stays up to `last`, where it goes over the last one, and is down again at `to`.
#[derive(Clone, Copy)]
pub struct Arch {
    pub from: f64,
    pub first: f64,
    pub last: f64,
    pub to: f64,
    /// How high it is, seen to the left of the piece; below 0 to the right. 0 where there is no room.
    pub rise: f64,
}

impl Arch {
    /// Whether it goes over a line at this place.
    pub fn holds(&self, at: f64) -> bool {
        self.first <= at && at <= self.last
    }
}

/// Distances from the start of a piece.
#[derive(Clone, Copy)]
pub struct Gap {
    pub from: f64,
    pub to: f64,
}

impl Gap {
    pub fn length(&self) -> f64 {
        self.to - self.from
    }
}

/// A piece of a stroke.
#[derive(Clone, Copy)]
pub struct Piece {
    pub start: Point,
    pub end: Point,
}

impl Stroke {
    pub fn new(corners: Vec<Point>, width: f64, bundle: Option<usize>) -> Stroke {
        let pieces = corners.len().saturating_sub(1);
        Stroke {
            corners,
            arches: vec![Vec::new(); pieces],
            gaps: vec![Vec::new(); pieces],
            width,
            bundle,
        }
    }

    pub fn piece(&self, place: usize) -> Piece {
        Piece {
            start: self.corners[place],
            end: self.corners[place + 1],
        }
    }

    pub fn pieces(&self) -> impl Iterator<Item = Piece> {
        (0..self.arches.len()).map(|place| self.piece(place))
    }
}

impl Piece {
    pub fn length(&self) -> f64 {
        apart(self.start, self.end)
    }

    /// The point so far along it and so far to its left.
    pub fn at(&self, along: f64, left: f64) -> Point {
        let length = self.length();
        if length == 0.0 {
            return self.start;
        }
        let (x, y) = (
            (self.end.x - self.start.x) / length,
            (self.end.y - self.start.y) / length,
        );
        Point {
            x: self.start.x + x * along + y * left,
            y: self.start.y + y * along - x * left,
        }
    }

    /// How far a point is from it.
    pub fn from(&self, at: Point) -> f64 {
        let (x, y) = (self.end.x - self.start.x, self.end.y - self.start.y);
        let part = (at.x - self.start.x) * x + (at.y - self.start.y) * y;
        let along = part / self.length();
        let along = if along.is_nan() { 0.0 } else { along };
        apart(at, self.at(along.clamp(0.0, self.length()), 0.0))
    }

    /// How far another piece is from it, and a place on one of the two where it is.
    pub fn to(&self, other: &Piece) -> (f64, Point) {
        if let Some((here, _)) = self.crossing(other) {
            return (0.0, self.at(here, 0.0));
        }
        let ends = [
            (self.start, other),
            (self.end, other),
            (other.start, self),
            (other.end, self),
        ];
        let near = ends.map(|(end, piece)| (piece.from(end), end));
        let first = near[0];
        near.into_iter().fold(
            first,
            |least, one| if one.0 < least.0 { one } else { least },
        )
    }

    /// How far along each of the two they cross, if they do, ends not counting.
    pub fn crossing(&self, other: &Piece) -> Option<(f64, f64)> {
        let apart = |a: f64, b: f64, c: f64, d: f64| a.max(b) < c.min(d) || c.max(d) < a.min(b);
        if apart(self.start.x, self.end.x, other.start.x, other.end.x)
            || apart(self.start.y, self.end.y, other.start.y, other.end.y)
        {
            return None;
        }
        let (ax, ay) = (self.end.x - self.start.x, self.end.y - self.start.y);
        let (bx, by) = (other.end.x - other.start.x, other.end.y - other.start.y);
        let (x, y) = (other.start.x - self.start.x, other.start.y - self.start.y);
        let turn = ax * by - ay * bx;
        if turn == 0.0 {
            return None;
        }
        let place = |part: f64, length: f64| {
            let at = part * length;
            (at > NO_END && at < length - NO_END).then_some(at)
        };
        let here = place((x * by - y * bx) / turn, self.length())?;
        let there = place((x * ay - y * ax) / turn, other.length())?;
        Some((here, there))
    }
}

/// Nearer than this to an end, in millimetres, a line does not cross another.
pub const NO_END: f64 = 0.005;

pub fn apart(a: Point, b: Point) -> f64 {
    (a.x - b.x).hypot(a.y - b.y)
}

/// The first place of a piece, from one on, that is in no arch and no gap.
fn outside(stroke: &Stroke, turn: usize, from: f64) -> f64 {
    let arches = stroke.arches[turn].iter().map(|arch| (arch.from, arch.to));
    let gaps = stroke.gaps[turn].iter().map(|gap| (gap.from, gap.to));
    let mut taken = arches.chain(gaps).collect::<Vec<_>>();
    taken.sort_by(|a, b| a.0.total_cmp(&b.0));
    let past = |at: f64, (from, to): (f64, f64)| if from < at && at < to { to } else { at };
    taken.into_iter().fold(from, past)
}

/// A stroke in two, near the middle of its length and outside every arch and gap.
pub fn halves(stroke: &Stroke) -> (Stroke, Stroke) {
    let (corners, arches) = (&stroke.corners, &stroke.arches);
    let new = |corners: &[&[Point]]| Stroke::new(corners.concat(), stroke.width, stroke.bundle);
    if arches.is_empty() {
        return (new(&[corners]), new(&[corners]));
    }
    let (turn, wanted) = middle(stroke);
    let piece = stroke.piece(turn);
    let cut = outside(stroke, turn, wanted.clamp(0.0, piece.length()));
    let at = piece.at(cut, 0.0);
    let mut first = new(&[&corners[..=turn], &[at]]);
    let mut rest = new(&[&[at], &corners[turn + 1..]]);
    first.arches[..turn].clone_from_slice(&arches[..turn]);
    first.gaps[..turn].clone_from_slice(&stroke.gaps[..turn]);
    rest.arches[1..].clone_from_slice(&arches[turn + 1..]);
    rest.gaps[1..].clone_from_slice(&stroke.gaps[turn + 1..]);
    let (before, behind) = arches[turn].iter().partition(|arch| arch.to <= cut);
    first.arches[turn] = before;
    rest.arches[0] = behind;
    for arch in &mut rest.arches[0] {
        for at in [
            &mut arch.from,
            &mut arch.first,
            &mut arch.last,
            &mut arch.to,
        ] {
            *at -= cut;
        }
    }
    let shifted = |gap: &Gap, low: f64, high: f64| Gap {
        from: gap.from.max(low) - low,
        to: gap.to.min(high) - low,
    };
    let gaps = stroke.gaps[turn].iter();
    let before = gaps.clone().filter(|gap| gap.from < cut);
    first.gaps[turn].extend(before.map(|gap| shifted(gap, 0.0, cut)));
    let behind = gaps.filter(|gap| gap.to > cut);
    rest.gaps[0].extend(behind.map(|gap| shifted(gap, cut, f64::INFINITY)));
    (first, rest)
}

/// The piece in which the middle of a stroke's length is, and how far along it that is.
fn middle(stroke: &Stroke) -> (usize, f64) {
    let half = stroke.pieces().map(|piece| piece.length()).sum::<f64>() / 2.0;
    let (mut before, mut turn) = (0.0, 0);
    while turn + 1 < stroke.arches.len() && before + stroke.piece(turn).length() < half {
        before += stroke.piece(turn).length();
        turn += 1;
    }
    (turn, half - before)
}
