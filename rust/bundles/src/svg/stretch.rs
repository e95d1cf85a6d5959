//! A sheet stretched where lines are near to each other, and only there.
//!
//! Across and down, each place of the sheet gets a place on the page in the same order. So lines that
//! cross still cross, lines that touch still touch, and no others do: what is drawn is the same sheet, but
//! not to scale. Lines beside each other get the room that they need, as do routes that lie on one line and
//! are drawn in lanes; what is left of the page is shared out by the sheet's lengths.

use std::collections::BTreeMap;

use super::bodies::sides;
use super::labels::on_trunk;
use super::marking;
use super::palette::mark;
use super::pens::HEAVIEST;
use super::scene::Scene;
use super::spans::{Span, Way};

/// Between two lines beside each other, in millimetres: level ones, and upright ones.
const LINES: f64 = 1.7;
/// More for each lane, where routes lie on one line.
const LANE: f64 = 1.7;
/// More beside a trunk.
const TRUNK: f64 = 1.2;
/// The least length of a run.
const RUN: f64 = 1.6;
/// Between a port and a line or an end that passes it: its square may be small.
const PORT: f64 = 0.8;
/// Between two places of the sheet that nothing else keeps apart.
const PLACES: f64 = 0.02;

/// Places of the sheet along one axis, in order, and where they are on the page.
#[derive(Clone)]
pub struct Stretch {
    from: Vec<f64>,
    to: Vec<f64>,
}

impl Stretch {
    /// Where a place of the sheet is on the page; it is one of those that the stretch was made for.
    pub fn at(&self, place: f64) -> f64 {
        let at = self.from.partition_point(|from| *from < place);
        self.to[at.min(self.to.len() - 1)]
    }

    pub fn length(&self) -> f64 {
        self.to.last().copied().unwrap_or_default()
    }
}

/// What is to be kept along one axis.
pub struct Needs {
    places: Vec<f64>,
    /// For each place, by its number: those before it, and how far it is to be from them.
    apart: Vec<Vec<(usize, f64)>>,
}

/// The numbers of two places, and how far they are to be from each other.
type Need = ((usize, usize), f64);

/// Whether all lines are level or upright: a slanted one would not stay where it is.
pub fn is_straight(scene: &Scene) -> bool {
    let mut lines = scene.lines().into_iter();
    lines.all(|(a, b)| a.x == b.x || a.y == b.y)
}

impl Needs {
    /// Across: of upright lines. Down: of level ones.
    pub fn of(scene: &Scene, lines: Way) -> Needs {
        let mut places = scene
            .points()
            .map(|at| lines.across(at))
            .collect::<Vec<_>>();
        places.sort_by(f64::total_cmp);
        places.dedup();
        let mut needs = Needs {
            apart: vec![Vec::new(); places.len()],
            places,
        };
        let all = needs.lines(scene, lines);
        let all = beside(&all)
            .chain(needs.runs(scene, lines))
            .chain(needs.over_trunks(scene, lines))
            .chain(needs.over_routes(scene, lines))
            .chain(needs.ids(scene, lines));
        let mut most = needs.ports(scene, lines);
        for (pair, far) in all {
            let need = most.entry(pair).or_insert(far);
            *need = far.max(*need);
        }
        for ((low, high), far) in most {
            needs.apart[high].push((low, far));
        }
        needs
    }

    /// How long lines are to be.
    fn runs(&self, scene: &Scene, way: Way) -> Vec<Need> {
        let runs = scene.lines().into_iter().map(|(start, end)| {
            let ends = [start, end].map(|at| self.number(way.across(at)));
            ((ends[0].min(ends[1]), ends[0].max(ends[1])), RUN)
        });
        runs.filter(|((low, high), _)| low < high).collect()
    }

    /// Room for the id of each bundle: on its spine, where nothing goes over it for longest on the sheet.
    fn ids(&self, scene: &Scene, way: Way) -> Vec<Need> {
        let spans = way.spans(&scene.lines());
        let needs = scene.trunks.iter().filter_map(|trunk| {
            let spine = trunk.spine;
            let part = way.other().span(spine.start, spine.end)?;
            let over = spans.iter().filter(|span| span.crosses(&part));
            let mut places = over.map(|span| span.at).collect::<Vec<_>>();
            places.extend([part.low, part.high]);
            places.sort_by(f64::total_cmp);
            let long = |two: &&[f64]| two[1] - two[0];
            let parts = places.windows(2);
            let part = parts.max_by(|a, b| long(a).total_cmp(&long(b)))?;
            let pair = (self.number(part[0]), self.number(part[1]));
            Some((pair, on_trunk(&format!("B{}", trunk.id))))
        });
        needs.collect()
    }

    /// How far lines that go over a trunk one after the other are to be from each other, so that enough of it
    /// is seen between them; those on one line are drawn in lanes.
    fn over_trunks(&self, scene: &Scene, way: Way) -> Vec<Need> {
        let spans = way.spans(&scene.lines());
        let mut needs = Vec::new();
        for (place, trunk) in scene.trunks.iter().enumerate() {
            let pitch = marking::pitch(mark(place), HEAVIEST);
            for (a, b) in trunk.parts() {
                let Some(part) = way.other().span(a, b) else {
                    continue;
                };
                needs.extend(self.over(&spans, &part, pitch));
            }
        }
        needs
    }

    /// The same of level runs of routes that go over an upright one.
    fn over_routes(&self, scene: &Scene, way: Way) -> Vec<Need> {
        if way == Way::Upright {
            return Vec::new();
        }
        let runs = scene.routes.iter();
        let runs = runs.flat_map(|route| route.points.windows(2));
        let runs = runs.map(|run| (run[0], run[1])).collect::<Vec<_>>();
        let spans = way.spans(&runs);
        let uprights = way.other().spans(&runs);
        let needs = uprights.iter();
        let needs = needs.flat_map(|part| self.over(&spans, part, marking::over_route()));
        needs.collect()
    }

    /// How far the lines that go over a part are to be from each other, so many for each lane.
    fn over(&self, spans: &[Span], part: &Span, pitch: f64) -> Vec<Need> {
        let mut over = BTreeMap::<usize, f64>::new();
        for span in spans.iter().filter(|span| span.goes_over(part, 0.0)) {
            *over.entry(self.number(span.at)).or_default() += 1.0;
        }
        let over = over.into_iter().collect::<Vec<_>>();
        let needs = over.windows(2).map(|two| {
            let [(low, first), (high, last)] = [two[0], two[1]];
            ((low, high), pitch * (first + last) / 2.0)
        });
        needs.collect()
    }

    /// How far ports are to be from lines and ends beside them, by the numbers of their places.
    fn ports(&self, scene: &Scene, way: Way) -> BTreeMap<(usize, usize), f64> {
        let mut most = BTreeMap::new();
        for port in &scene.ports {
            let (at, along) = (way.across(port.at), way.along(port.at));
            for (a, b) in scene.lines() {
                let ends = [way.along(a), way.along(b)];
                if along < ends[0].min(ends[1]) || along > ends[0].max(ends[1]) {
                    continue;
                }
                let across = [a, b].map(|end| way.across(end));
                for end in across.into_iter().filter(|end| *end != at) {
                    let pair = [self.number(end.min(at)), self.number(end.max(at))];
                    most.insert((pair[0], pair[1]), PORT);
                }
            }
        }
        most
    }

    fn number(&self, place: f64) -> usize {
        self.places.partition_point(|from| *from < place)
    }

    /// The lines that go one way, and the ends of those that go the other, by their places.
    fn lines(&self, scene: &Scene, way: Way) -> Vec<Line> {
        let lines = spans(scene, way).into_iter().map(|(span, more)| Line {
            at: self.number(span.at),
            span,
            more,
            lanes: 0.0,
        });
        let mut lines = lines.collect::<Vec<_>>();
        lines.sort_by_key(|line| line.at);
        let lanes = lines.iter().map(|line| match lanes(line, &lines) {
            0.0 => 0.0,
            count => count * lane(scene, way, &line.span),
        });
        let lanes = lanes.collect::<Vec<_>>();
        for (line, lanes) in lines.iter_mut().zip(lanes) {
            line.lanes = lanes;
        }
        lines
    }

    /// The stretch of this length, as far as lengths of the sheet can be kept; none where all that is
    /// needed is longer. `wide` is how many times what is needed lines are kept apart.
    pub fn stretch(&self, wide: f64, length: f64) -> Option<Stretch> {
        let least = self.with_scale(wide, 0.0);
        if least.length() > length {
            return None;
        }
        let first = self.places.first().copied().unwrap_or_default();
        let size = self.places.last().copied().unwrap_or_default() - first;
        let (mut low, mut high) = (0.0, length / size);
        if !high.is_finite() {
            return Some(least);
        }
        for _ in 0..40 {
            let middle = f64::midpoint(low, high);
            if self.with_scale(wide, middle).length() <= length {
                low = middle;
            } else {
                high = middle;
            }
        }
        Some(self.with_scale(wide, low))
    }

    /// The shortest one in which lengths of the sheet are at least so long.
    fn with_scale(&self, wide: f64, scale: f64) -> Stretch {
        let mut to: Vec<f64> = Vec::with_capacity(self.places.len());
        for (number, place) in self.places.iter().enumerate() {
            let next = number.checked_sub(1).map_or(0.0, |before| {
                to[before] + (scale * (place - self.places[before])).max(PLACES)
            });
            let needs = self.apart[number].iter();
            let needs = needs.map(|(before, far)| to[*before] + wide * far);
            to.push(needs.fold(next, f64::max));
        }
        Stretch {
            from: self.places.clone(),
            to,
        }
    }
}

/// A line by the number of its place.
struct Line {
    at: usize,
    span: Span,
    /// More room beside it.
    more: f64,
    /// Room for others that lie on it.
    lanes: f64,
}

impl Line {
    /// Whether one lies beside the other, an end beside a line counting, two ends not.
    fn beside(&self, other: &Line) -> bool {
        let (a, b) = (&self.span, &other.span);
        a.low < b.high && b.low < a.high
    }
}

/// How far lines beside each other are to be apart.
fn beside(lines: &[Line]) -> impl Iterator<Item = Need> {
    lines.iter().enumerate().flat_map(|(turn, one)| {
        let behind = lines[turn + 1..].iter().filter(|two| two.at > one.at);
        let beside = behind.filter(|two| one.beside(two));
        beside.map(|two| {
            let far = LINES + one.lanes.max(two.lanes) + one.more.max(two.more);
            ((one.at, two.at), far)
        })
    })
}

/// The lines that go one way, sides of nodes too, and the ends of all lines, each with the room that is to
/// be more beside it.
fn spans(scene: &Scene, way: Way) -> Vec<(Span, f64)> {
    let routes = scene.routes.iter();
    let runs = routes.flat_map(|route| route.points.windows(2));
    let runs = runs.map(|run| ((run[0], run[1]), 0.0));
    let trunks = scene.trunks.iter().flat_map(|trunk| trunk.parts());
    let trunks = trunks.map(|part| (part, TRUNK));
    let parts = runs.chain(trunks).collect::<Vec<_>>();
    let sides = scene.nodes.iter().flat_map(sides);
    let sides = sides.map(|side| (side, 0.0));
    let spans = parts.iter().copied().chain(sides);
    let spans = spans.filter_map(|((a, b), more)| Some((way.span(a, b)?, more)));
    let ends = parts
        .iter()
        .flat_map(|((a, b), more)| [(a, more), (b, more)]);
    let ends = ends.map(|(end, more)| {
        let (at, along) = (way.across(*end), way.along(*end));
        let (low, high) = (along, along);
        (Span { at, low, high }, *more)
    });
    spans.chain(ends).collect()
}

/// The room for a lane where routes lie on one line: more over a trunk.
fn lane(scene: &Scene, way: Way, span: &Span) -> f64 {
    let trunks = scene.trunks.iter().enumerate();
    let over = trunks.filter_map(|(place, trunk)| {
        let parts = trunk.parts().map(|(a, b)| way.other().span(a, b));
        let mut parts = parts.into_iter().flatten();
        let crossed = parts.any(|part| span.crosses(&part));
        crossed.then(|| marking::pitch(mark(place), HEAVIEST))
    });
    let mut uprights = scene.routes.iter().flat_map(|route| {
        let runs = route.points.windows(2);
        let turns = route.points.windows(3);
        let runs = runs.filter_map(|run| Way::Upright.span(run[0], run[1]));
        runs.chain(turns.filter_map(|three| Way::Level.turn(three)))
    });
    let over_route = way == Way::Level
        && uprights.any(|part| span.goes_over(&part, 0.0) || span.ends_on(&part, 0.0));
    let over_route = over_route.then(marking::over_route);
    // Lanes take at most nine tenths of what is beside them.
    let all = over.chain(over_route);
    all.fold(LANE, |most, pitch| most.max(pitch / 0.9))
}

/// How many lines lie on a line, or on one that lies on it.
fn lanes(line: &Line, lines: &[Line]) -> f64 {
    let from = lines.partition_point(|other| other.at < line.at);
    let same = lines[from..].iter().take_while(|other| other.at == line.at);
    let on = same.filter(|other| other.span.low < other.span.high);
    let on = on.filter(|other| other.span.beside(&line.span, 1e-9));
    (on.count() as f64 - 1.0).max(0.0)
}
