//! Routes where their runs are shifted, and what follows from it at their taps and where they turn straight
//! back.

use bundle_stage::Point;

use super::lanes::{Lines, ONE_LINE, ONE_RUN};
use super::spans::{Span, Way};

/// The corners of the routes, each run shifted across its way.
pub fn moved(lines: &Lines<'_>, shifts: &[Vec<f64>], pitch: f64) -> Vec<Vec<Point>> {
    let pairs = lines.routes.iter().zip(shifts).zip(lines.tapped);
    let shifted = pairs.map(|((route, shifts), tapped)| {
        let mut to = shifted(route, shifts);
        // A short piece between a tap and an upright run that is shifted is inside the dot.
        let moved = |from: Option<&Point>, to: Option<&Point>| {
            from.zip(to)
                .filter(|(from, to)| from.x != to.x)
                .map(|(from, _)| *from)
        };
        if tapped.0
            && let Some(tap) = moved(route.first(), to.first())
        {
            to.insert(0, tap);
        }
        if tapped.1
            && let Some(tap) = moved(route.last(), to.last())
        {
            to.push(tap);
        }
        to
    });
    let mut shifted = shifted.collect::<Vec<_>>();
    leave_last(lines, &mut shifted);
    turn_apart(lines, &mut shifted, pitch);
    shifted
}

/// Where the taps of several routes are at one place and some are shifted along the collector, one that
/// leaves along it leaves from the last of them: else it would run through their dots.
fn leave_last(lines: &Lines<'_>, shifted: &mut [Vec<Point>]) {
    let (given, to) = (taps(lines, lines.routes), taps(lines, shifted));
    for (route, at_start, at) in &given {
        let corners = &lines.routes[*route];
        let run = if *at_start {
            corners.first().zip(corners.get(1))
        } else {
            corners.last().zip(corners.iter().nth_back(1))
        };
        let Some((_, next)) =
            run.filter(|(tap, next)| Way::of(**tap, **next) == Some(Way::Upright))
        else {
            continue;
        };
        let here = given.iter().zip(&to).filter(|((.., other), _)| other == at);
        let ys = here.map(|(_, (.., at))| at.y);
        let last = if next.y > at.y {
            ys.filter(|y| *y < next.y).fold(at.y, f64::max)
        } else {
            ys.filter(|y| *y > next.y).fold(at.y, f64::min)
        };
        // The piece from the tap to a run that is shifted beside it moves too.
        let corners = shifted[*route].iter_mut();
        let ends: Box<dyn Iterator<Item = &mut Point>> = if *at_start {
            Box::new(corners)
        } else {
            Box::new(corners.rev())
        };
        for corner in ends.take_while(|corner| corner.y == at.y) {
            corner.y = last;
        }
    }
}

/// The ends of routes that are taps: the route, whether it is its start, and the place.
fn taps(lines: &Lines<'_>, routes: &[Vec<Point>]) -> Vec<(usize, bool, Point)> {
    let ends = routes.iter().zip(lines.tapped).enumerate();
    let ends = ends.flat_map(|(route, (corners, tapped))| {
        let first = corners.first().filter(|_| tapped.0).copied();
        let last = corners.last().filter(|_| tapped.1).copied();
        [(route, true, first), (route, false, last)]
    });
    let ends = ends.filter_map(|(route, at_start, at)| Some((route, at_start, at?)));
    ends.collect()
}

/// A piece between two runs of a route that turns straight back.
struct Turn {
    route: usize,
    /// Its first corner.
    at: usize,
    way: Way,
    span: Span,
    /// 1 where the route comes from below or from the left, −1 from the other side.
    ahead: f64,
    /// The length of the shorter of the two runs.
    long: f64,
}

/// Such a piece has no length on the sheet, so that others may lie there: those of other routes that turn back
/// at the same place, or runs. The route then turns as much earlier as they need, the outermost last.
fn turn_apart(lines: &Lines<'_>, shifted: &mut [Vec<Point>], pitch: f64) {
    let turns = shifted.iter().zip(lines.routes).enumerate();
    let turns = turns.flat_map(|(route, (to, given))| turns_of(route, to, given));
    let mut turns = turns.collect::<Vec<_>>();
    turns.sort_by(|a, b| (b.span.high - b.span.low).total_cmp(&(a.span.high - a.span.low)));
    let mut taken = lying(lines, shifted, &turns);
    let runs = taken.len();
    for turn in &turns {
        let beside =
            |(way, span): &&(Way, Span)| *way == turn.way && span.beside(&turn.span, ONE_RUN);
        let [others, before] = [&taken[..runs], &taken[runs..]].map(|of| {
            let of = of.iter().filter(beside);
            of.map(|(_, span)| span.at).collect::<Vec<_>>()
        });
        let pitch = match turn.way {
            Way::Level => pitch.max(lines.over_routes),
            Way::Upright => pitch,
        };
        let at = turn.place(&others, &before, pitch);
        for corner in &mut shifted[turn.route][turn.at..=turn.at + 1] {
            match turn.way {
                Way::Upright => corner.x = at,
                Way::Level => corner.y = at,
            }
        }
        taken.push((turn.way, Span { at, ..turn.span }));
    }
}

/// All runs and bundles but for the turns, and the ends of routes: a turn through one would look like a joint.
fn lying(lines: &Lines<'_>, shifted: &[Vec<Point>], turns: &[Turn]) -> Vec<(Way, Span)> {
    let is_turn = |at: &(usize, usize)| turns.iter().any(|turn| (turn.route, turn.at) == *at);
    let all = Way::BOTH.into_iter().flat_map(|way| {
        let runs = shifted
            .iter()
            .enumerate()
            .flat_map(move |(route, corners)| {
                let runs = corners.windows(2).enumerate();
                runs.map(move |(at, run)| ((route, at), way.span(run[0], run[1])))
            });
        let runs = runs.filter(|(at, _)| !is_turn(at));
        let parts = lines.trunks.iter().map(|part| part.ends);
        let parts = parts.map(move |(a, b)| way.span(a, b));
        let ends = shifted
            .iter()
            .flat_map(|route| [route.first(), route.last()]);
        let ends = ends.flatten().map(move |end| Span {
            at: way.across(*end),
            low: way.along(*end),
            high: way.along(*end),
        });
        let spans = runs.map(|(_, span)| span).chain(parts).flatten();
        let spans = spans.chain(ends);
        spans.map(move |span| (way, span)).collect::<Vec<_>>()
    });
    all.collect()
}

/// The turns of a route: on its given line each is one corner.
fn turns_of(route: usize, to: &[Point], given: &[Point]) -> Vec<Turn> {
    let backs = given.windows(3).filter_map(|three| {
        let way = Way::of(three[0], three[1])?;
        let back = Way::of(three[1], three[2]) == Some(way);
        back.then(|| (way, way.along(three[1])))
    });
    let backs = backs.collect::<Vec<_>>();
    let turns = to.windows(4).enumerate().filter_map(|(at, four)| {
        let way = Way::of(four[1], four[2])?;
        let runs = way.other();
        let place = way.across(four[1]);
        if !backs.contains(&(runs, place)) {
            return None;
        }
        let long = [(four[0], four[1]), (four[3], four[2])]
            .map(|(from, to)| runs.along(to) - runs.along(from));
        (long[0] * long[1] > 0.0).then_some(Turn {
            route,
            at: at + 1,
            way,
            span: way.span(four[1], four[2])?,
            ahead: long[0].signum(),
            long: long[0].abs().min(long[1].abs()),
        })
    });
    turns.collect()
}

impl Turn {
    /// Where it can be: as near to its place as runs and turns beside it leave room. No run that the route
    /// crosses before is passed; where there is no room it is its own place.
    fn place(&self, runs: &[f64], turns: &[f64], pitch: f64) -> f64 {
        let before = runs.iter().map(|run| self.ahead * (self.span.at - run));
        let before = before.filter(|far| *far > ONE_LINE);
        let room = before.fold(0.5 * self.long, f64::min);
        let steps = (0..).map(|step| f64::from(step) * pitch);
        let steps = steps.take_while(|far| *far <= room);
        let mut places = steps.map(|far| self.span.at - self.ahead * far);
        let near = |at: f64| move |other: &f64| (other - at).abs() < NEAR * pitch;
        let free = |at: &f64| !runs.iter().chain(turns).any(near(*at));
        places.find(free).unwrap_or(self.span.at)
    }
}

/// Lines nearer than so many pitches to a turn are in its way.
const NEAR: f64 = 0.6;

/// The corners where each run is shifted across its way. Where a route turns straight back, the two
/// runs get a short piece between them.
fn shifted(corners: &[Point], shifts: &[f64]) -> Vec<Point> {
    let way = |run: usize| Way::of(corners[run], corners[run + 1]);
    let mut to = Vec::new();
    for (place, corner) in corners.iter().enumerate() {
        let before = place.checked_sub(1);
        let after = (place < shifts.len()).then_some(place);
        let runs = [before, after].map(|run| run.map(|run| (way(run), shifts[run])));
        let moved = |runs: &[Option<(Option<Way>, f64)>]| {
            let mut at = *corner;
            for (way, shift) in runs.iter().flatten() {
                match way {
                    Some(Way::Level) => at.y = corner.y + shift,
                    Some(Way::Upright) => at.x = corner.x + shift,
                    None => {}
                }
            }
            at
        };
        match runs {
            [Some((a, _)), Some((b, _))] if a == b => {
                to.push(moved(&runs[..1]));
                to.push(moved(&runs[1..]));
            }
            _ => to.push(moved(&runs)),
        }
    }
    to.dedup();
    to
}
