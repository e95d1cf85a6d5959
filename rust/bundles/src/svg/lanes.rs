//! Routes that lie over each other, drawn side by side.
//!
//! Runs of routes on one line are shifted apart by less than a millimetre or two, as far as the
//! lines beside them leave room. Of two routes the one that turns off to the left keeps to the left,
//! so that a shift makes no crossing that is not there.

use bundle_stage::Point;

use super::shifts::moved;
use super::spans::{Span, Way, room};
use super::walk::{Walk, side};

/// Lines nearer than this, in millimetres, are one line to the eye.
pub const ONE_LINE: f64 = 0.1;
/// A shorter step, in millimetres, is none.
pub const NO_STEP: f64 = 0.05;
/// Runs on one line that end this near to each other would look like one.
pub const ONE_RUN: f64 = 0.8;

/// What lies on the page: routes, which are shifted, and other lines, which are not.
pub struct Lines<'a> {
    /// The corners of each route.
    pub routes: &'a [Vec<Point>],
    /// Whether each route starts, and whether it ends, at a tap: an upright run must not leave it.
    pub tapped: &'a [(bool, bool)],
    /// Segments of bundles.
    pub trunks: &'a [Part],
    /// The sides of nodes.
    pub sides: &'a [(Point, Point)],
    /// The pitch of level lanes that go over an upright run of a route.
    pub over_routes: f64,
}

/// A segment of a bundle.
pub struct Part {
    pub ends: (Point, Point),
    /// The places of the routes that are members.
    pub members: Vec<usize>,
    /// The pitch of lanes that go over it: some of it is to be seen between them.
    pub pitch: f64,
}

/// A run of a route, or a bundle's segment.
struct Run<'a> {
    route: usize,
    /// From this corner of the route to the next.
    start: usize,
    span: Span,
    /// A bundle's segment has members, and stays where it is.
    members: Option<&'a [usize]>,
}

/// The corners of a route: no point twice in a row, none that goes straight on, no steps that nobody
/// would see.
pub fn corners(points: &[Point]) -> Vec<Point> {
    let mut corners: Vec<Point> = Vec::new();
    for point in points {
        let mut point = *point;
        if let Some(last) = corners.last() {
            let near = |to: f64, last: f64| {
                if (to - last).abs() < NO_STEP {
                    last
                } else {
                    to
                }
            };
            (point.x, point.y) = (near(point.x, last.x), near(point.y, last.y));
        }
        push(&mut corners, point);
    }
    corners
}

/// A point behind the corners of a line, if it is another one; where the line goes straight on to it the last
/// corner is none.
pub fn push(corners: &mut Vec<Point>, point: Point) {
    if corners.last() == Some(&point) {
        return;
    }
    if let [.., before, last] = corners[..]
        && let Some(way) = Way::of(before, last)
        && Way::of(last, point) == Some(way)
        && (way.along(last) > way.along(before)) == (way.along(point) > way.along(last))
    {
        corners.pop();
    }
    corners.push(point);
}

/// The corners of the routes where they are shifted. `pitch` is the shift from one to the next where
/// there is room; the least one that was used is told too. Where little room is left, lines that are
/// further from each other are shifted together.
pub fn spread(lines: &Lines<'_>, pitch: f64) -> (Vec<Vec<Point>>, f64) {
    let mut best = spread_near(lines, pitch, (0.6 * pitch).max(ONE_LINE));
    for further in [1.2, 2.4, 4.8] {
        if best.1 > TIGHT {
            break;
        }
        let other = spread_near(lines, pitch, further * pitch);
        if other.1 > best.1 {
            best = other;
        }
    }
    best
}

/// A pitch that leaves too little white, in millimetres.
const TIGHT: f64 = 0.42;
/// The most for upright runs that end at a tap: the shift is then inside its dot.
const AT_TAP: f64 = 0.6;

fn spread_near(lines: &Lines<'_>, pitch: f64, near: f64) -> (Vec<Vec<Point>>, f64) {
    let routes = lines.routes;
    let mut least = pitch;
    let mut uprights = runs(lines, Way::Upright);
    uprights.extend(turns(lines));
    let mut shifts = routes
        .iter()
        .map(|route| vec![0.0; route.len().saturating_sub(1)])
        .collect::<Vec<_>>();
    for way in Way::BOTH {
        let runs = runs(lines, way);
        let sides = way.spans(lines.sides);
        for group in groups(&runs, near) {
            let rows = rows(routes, way, &group, near);
            let last = rows.iter().copied().max().unwrap_or(0);
            let most = most(lines, (&group, &uprights), (way, near), pitch);
            let pitch = most.min(0.9 * free(&group, &runs, &sides) / last.max(1) as f64);
            least = least.min(pitch);
            // Row 0 is where a trunk keeps its place, or else the middle does.
            let trunk = group
                .iter()
                .zip(&rows)
                .find(|(run, _)| run.members.is_some());
            let middle = group.iter().map(|run| run.span.at).sum::<f64>() / group.len() as f64;
            let first = match trunk {
                Some((trunk, row)) => trunk.span.at - *row as f64 * pitch,
                None => middle - last as f64 / 2.0 * pitch,
            };
            for (run, row) in group.iter().zip(rows) {
                if last > 0 && run.members.is_none() {
                    shifts[run.route][run.start] = first + row as f64 * pitch - run.span.at;
                }
            }
        }
    }
    (moved(lines, &shifts, pitch), least)
}

/// The pitch of a group's lanes where there is room.
fn most(
    lines: &Lines<'_>,
    (group, uprights): (&[&Run<'_>], &[Run<'_>]),
    (way, near): (Way, f64),
    pitch: f64,
) -> f64 {
    if way == Way::Upright && group.iter().any(|run| at_tap(lines, run)) {
        return AT_TAP;
    }
    let over_routes = goes_over(group, uprights, (way, near));
    let over_routes = over_routes.then_some(lines.over_routes);
    let over = over_trunks(lines, way, group).chain(over_routes);
    over.fold(pitch, f64::max)
}

/// The pitches of lanes over the bundles that a group of runs crosses.
fn over_trunks<'a>(
    lines: &'a Lines<'_>,
    way: Way,
    group: &'a [&Run<'_>],
) -> impl Iterator<Item = f64> + 'a {
    lines.trunks.iter().filter_map(move |part| {
        let span = way.other().span(part.ends.0, part.ends.1)?;
        let mut runs = group.iter().filter(|run| run.members.is_none());
        runs.any(|run| run.span.crosses(&span))
            .then_some(part.pitch)
    })
}

/// Whether runs of a group go over a route: level ones go over upright ones, also over the end of one that turns
/// into the group. One that ends on another route's upright line goes over it where that is drawn before its end.
fn goes_over(group: &[&Run<'_>], uprights: &[Run<'_>], (way, near): (Way, f64)) -> bool {
    let routes = |run: &&Run<'_>| run.members.is_none();
    let crosses = |run: &Run<'_>| {
        let mut uprights = uprights.iter().filter(routes);
        uprights.any(|other| {
            let ends = other.route != run.route && run.span.ends_on(&other.span, near);
            ends || run.span.goes_over(&other.span, near)
        })
    };
    let mut runs = group.iter().filter(|run| routes(run));
    way == Way::Level && runs.any(|run| crosses(run))
}

/// Whether a run of a route ends at its tap.
fn at_tap(lines: &Lines<'_>, run: &Run<'_>) -> bool {
    let (first, last) = lines.tapped.get(run.route).copied().unwrap_or_default();
    let count = lines.routes.get(run.route).map_or(0, Vec::len);
    run.members.is_none() && (first && run.start == 0 || last && run.start + 2 == count)
}

/// Where level runs turn straight back: there an upright piece is between the two as they are drawn.
fn turns<'a>(lines: &Lines<'a>) -> impl Iterator<Item = Run<'a>> {
    let routes = lines.routes.iter().enumerate();
    routes.flat_map(|(route, corners)| {
        let threes = corners.windows(3).enumerate();
        threes.filter_map(move |(start, three)| {
            Some(Run {
                route,
                start,
                span: Way::Level.turn(three)?,
                members: None,
            })
        })
    })
}

fn runs<'a>(lines: &Lines<'a>, way: Way) -> Vec<Run<'a>> {
    let mut runs = Vec::new();
    for (route, corners) in lines.routes.iter().enumerate() {
        for (start, run) in corners.windows(2).enumerate() {
            runs.extend(way.span(run[0], run[1]).map(|span| Run {
                route,
                start,
                span,
                members: None,
            }));
        }
    }
    for Part { ends, members, .. } in lines.trunks {
        runs.extend(way.span(ends.0, ends.1).map(|span| Run {
            route: 0,
            start: 0,
            span,
            members: Some(members),
        }));
    }
    runs.sort_by(|a, b| a.span.at.total_cmp(&b.span.at));
    runs
}

/// Whether two runs look like one line, or nearly, and are not. A member's may do so with its bundle.
fn meet(a: &Run<'_>, b: &Run<'_>, near: f64) -> bool {
    let own = match (a.members, b.members) {
        (None, None) => false,
        (Some(members), None) => members.contains(&b.route),
        (None, Some(members)) => members.contains(&a.route),
        (Some(_), Some(_)) => true,
    };
    !own && (a.span.at - b.span.at).abs() <= near && a.span.beside(&b.span, ONE_RUN)
}

/// Runs that look like one line, directly or over others.
fn groups<'a, 'b>(runs: &'b [Run<'a>], near: f64) -> Vec<Vec<&'b Run<'a>>> {
    let mut group = (0..runs.len()).collect::<Vec<_>>();
    for (place, run) in runs.iter().enumerate() {
        let before = runs[..place].iter().enumerate().rev();
        let before = before.take_while(|(_, other)| run.span.at - other.span.at <= near);
        for (other, _) in before.filter(|(_, other)| meet(run, other, near)) {
            let (from, to) = (group[place], group[other]);
            if from != to {
                group
                    .iter_mut()
                    .filter(|of| **of == from)
                    .for_each(|of| *of = to);
            }
        }
    }
    let members = |of: usize| {
        let members = runs.iter().zip(&group).filter(move |(_, at)| **at == of);
        members.map(|(run, _)| run).collect::<Vec<_>>()
    };
    (0..runs.len())
        .map(members)
        .filter(|group| group.len() > 1)
        .collect()
}

/// How far the nearest line beside a group is.
fn free(group: &[&Run<'_>], runs: &[Run<'_>], sides: &[Span]) -> f64 {
    let member = |run: &Run<'_>| group.iter().any(|member| std::ptr::eq(*member, run));
    let others = runs.iter().filter(|run| !member(run));
    let others = others.map(|run| run.span).collect::<Vec<_>>();
    let rooms = group
        .iter()
        .map(|run| room(&run.span, &others, 0.0).min(room(&run.span, sides, ONE_LINE)));
    rooms.fold(f64::INFINITY, f64::min)
}

/// The row of each run of a group, from above or from the left: two that look like one line are in
/// different rows.
fn rows(routes: &[Vec<Point>], way: Way, group: &[&Run<'_>], near: f64) -> Vec<usize> {
    let before = |a: &Run<'_>, b: &Run<'_>| order(routes, way, a, b);
    // Which of two comes first need not be an order of all: each is placed by how many it follows.
    let rank = |run: &&Run<'_>| {
        let others = group.iter().filter(|other| meet(other, run, near));
        others.map(|other| before(run, other)).sum::<i32>()
    };
    let mut ranked = group.iter().map(rank).enumerate().collect::<Vec<_>>();
    ranked.sort_by_key(|(place, rank)| (*rank, *place));
    let mut rows = vec![0; group.len()];
    for (turn, (place, _)) in ranked.iter().enumerate() {
        let earlier = ranked[..turn].iter().map(|(earlier, _)| *earlier);
        let beside = earlier.filter(|earlier| meet(group[*earlier], group[*place], near));
        rows[*place] = beside.map(|earlier| rows[earlier] + 1).max().unwrap_or(0);
    }
    rows
}

/// −1 where run a belongs above or to the left of run b, 1 where it belongs on the other side.
fn order(routes: &[Vec<Point>], way: Way, a: &Run<'_>, b: &Run<'_>) -> i32 {
    if std::ptr::eq(a, b) {
        return 0;
    }
    let gap = a.span.at - b.span.at;
    if gap.abs() > ONE_LINE || a.members.is_some() || b.members.is_some() {
        return if gap < 0.0 { -1 } else { 1 };
    }
    let rises = |run: &Run<'_>| {
        let corners = &routes[run.route];
        way.along(corners[run.start]) < way.along(corners[run.start + 1])
    };
    let walk = |run: &Run<'_>, onwards: bool| Walk {
        corners: &routes[run.route],
        at: run.start + usize::from(rises(run) == onwards),
        forward: rises(run) == onwards,
    };
    let onwards = side(way, walk(a, true), walk(b, true));
    let back = side(way, walk(a, false), walk(b, false));
    // Where nothing tells them apart, the first in the job keeps to its left all the way.
    let first = if a.route <= b.route { a } else { b };
    let tie = if rises(first) == (a.route <= b.route) {
        -1
    } else {
        1
    };
    let left = [onwards, -back, tie].into_iter().find(|side| *side != 0);
    let left = left.unwrap_or(0);
    match way {
        Way::Level => left,
        Way::Upright => -left,
    }
}

#[cfg(test)]
mod tests {
    use super::*;

    const OVER_ROUTES: f64 = 2.75;

    /// How far the level runs of routes beside each other are apart, those on one line of the board.
    fn least_pitch(routes: &[&[(f64, f64)]], line: f64) -> f64 {
        let route = |points: &&[(f64, f64)]| points.iter().map(|&(x, y)| Point { x, y }).collect();
        let routes = routes.iter().map(route).collect::<Vec<Vec<Point>>>();
        let lines = Lines {
            routes: &routes,
            tapped: &vec![(false, false); routes.len()],
            trunks: &[],
            sides: &[],
            over_routes: OVER_ROUTES,
        };
        let (shifted, _) = spread(&lines, 1.5);
        let runs = shifted.iter().flat_map(|route| route.windows(2));
        let level = runs.filter_map(|run| Way::Level.span(run[0], run[1]));
        let mut places = level.map(|run| run.at).collect::<Vec<_>>();
        places.retain(|at| (at - line).abs() < 15.0);
        places.sort_by(f64::total_cmp);
        let pairs = places.windows(2).map(|two| two[1] - two[0]);
        pairs.fold(f64::INFINITY, f64::min)
    }

    #[test]
    fn lanes_over_a_route_that_turns_straight_back() {
        let back = [(80.0, 0.0), (80.0, 140.0), (10.0, 140.0), (80.0, 140.0)];
        assert!(least_pitch(&[&back, &back], 140.0) > OVER_ROUTES - 1e-9);
        assert!(
            least_pitch(&[&back[..3], &back[..3]], 140.0) < 1.6,
            "one beside the other"
        );
    }

    #[test]
    fn lanes_that_end_on_a_route() {
        let under = [(80.0, 0.0), (80.0, 400.0)];
        let ending = [(10.0, 140.0), (80.0, 140.0), (80.0, 200.0)];
        assert!(least_pitch(&[&under, &ending, &ending], 140.0) > OVER_ROUTES - 1e-9);
        assert!(
            least_pitch(&[&ending, &ending], 140.0) < 1.6,
            "one beside the other"
        );
    }
}
