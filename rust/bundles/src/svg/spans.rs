//! Level and upright lines, and how much room is beside them.

use bundle_stage::Point;

#[derive(Clone, Copy, Debug, Eq, PartialEq)]
pub enum Way {
    Level,
    Upright,
}

/// A line that goes one of the two ways: where it lies, and from where to where it goes.
#[derive(Clone, Copy, Debug, PartialEq)]
pub struct Span {
    pub at: f64,
    pub low: f64,
    pub high: f64,
}

impl Way {
    pub const BOTH: [Way; 2] = [Way::Level, Way::Upright];

    /// The way of a line, if it has one of the two.
    pub fn of(a: Point, b: Point) -> Option<Way> {
        match (a.x == b.x, a.y == b.y) {
            (false, true) => Some(Way::Level),
            (true, false) => Some(Way::Upright),
            _ => None,
        }
    }

    pub fn other(self) -> Way {
        match self {
            Way::Level => Way::Upright,
            Way::Upright => Way::Level,
        }
    }

    pub fn along(self, point: Point) -> f64 {
        match self {
            Way::Level => point.x,
            Way::Upright => point.y,
        }
    }

    pub fn across(self, point: Point) -> f64 {
        match self {
            Way::Level => point.y,
            Way::Upright => point.x,
        }
    }

    pub fn span(self, a: Point, b: Point) -> Option<Span> {
        let (from, to) = (self.along(a), self.along(b));
        (Way::of(a, b) == Some(self)).then(|| Span {
            at: self.across(a),
            low: from.min(to),
            high: from.max(to),
        })
    }

    /// Where lines of this way turn straight back, as a line of the other way that has no length.
    pub fn turn(self, three: &[Point]) -> Option<Span> {
        let [a, b, c] = three else { return None };
        let at = Span {
            at: self.along(*b),
            low: self.across(*b),
            high: self.across(*b),
        };
        let both = [Way::of(*a, *b), Way::of(*b, *c)] == [Some(self); 2];
        let ahead = [(a, b), (b, c)].map(|(from, to)| self.along(*to) > self.along(*from));
        (both && ahead[0] != ahead[1]).then_some(at)
    }

    /// Those of the lines that go this way.
    pub fn spans(self, lines: &[(Point, Point)]) -> Vec<Span> {
        let spans = lines.iter().filter_map(|(a, b)| self.span(*a, *b));
        spans.collect()
    }
}

impl Span {
    /// Whether some of each lies beside the other, `slack` more being allowed.
    pub fn beside(&self, other: &Span, slack: f64) -> bool {
        self.low < other.high + slack && other.low < self.high + slack
    }
}

impl Span {
    /// Whether it goes over a line of the other way, or over its end, or misses that by `slack`. Its own ends do
    /// not count.
    pub fn goes_over(&self, under: &Span, slack: f64) -> bool {
        let along = self.low < under.at && under.at < self.high;
        along && under.low - slack <= self.at && self.at <= under.high + slack
    }

    /// Whether it ends, or nearly, on a line of the other way that goes on to both sides, or has no length.
    pub fn ends_on(&self, under: &Span, slack: f64) -> bool {
        let ends = [self.low, self.high];
        let passed = under.low + slack < self.at && self.at < under.high - slack;
        let turned = under.low == under.high && (self.at - under.low).abs() <= slack;
        (passed || turned) && ends.iter().any(|end| (end - under.at).abs() <= slack)
    }

    /// Whether a line of the other way crosses it, ends not counting.
    pub fn crosses(&self, other: &Span) -> bool {
        self.low < other.at && other.at < self.high && other.low < self.at && self.at < other.high
    }
}

/// How far the nearest line is, of those that lie further than `near`.
pub fn room(span: &Span, others: &[Span], near: f64) -> f64 {
    let beside = others.iter().filter(|other| span.beside(other, 0.0));
    let distances = beside.map(|other| (other.at - span.at).abs());
    distances
        .filter(|distance| *distance > near)
        .fold(f64::INFINITY, f64::min)
}

/// What only one in `parts` of the numbers is below.
pub fn low(mut numbers: Vec<f64>, parts: usize) -> Option<f64> {
    numbers.sort_by(f64::total_cmp);
    numbers.get(numbers.len() / parts).copied()
}
