//! Inner cases: records for `oracle calls`. A case is fixed by its kind, the seed and its place.

use oracle::calls::{call, op};
use oracle::job::Job;
use oracle::wire::Writer;

use crate::contacts;
use crate::families::{FAMILIES, any_board};
use crate::floats::{Palette, clean, near, power};
use crate::rng::Rng;
use crate::zeros::put_in_search;

pub struct Kind {
    pub name: &'static str,
    pub shows: &'static str,
    make: fn(&mut Rng, u64, u64) -> Vec<u8>,
}

pub const KINDS: [Kind; 9] = [
    Kind {
        name: "leaves",
        shows: "operations 01 to 0C",
        make: leaf,
    },
    Kind {
        name: "contacts",
        shows: "operation 0D, the deciding cases first",
        make: contacts::some,
    },
    Kind {
        name: "contact-grid",
        shows: "operation 0D on three small grids, all in turn; the seed does nothing",
        make: contacts::on_grid,
    },
    Kind {
        name: "routes",
        shows: "operations 10 to 19",
        make: route,
    },
    Kind {
        name: "search",
        shows: "operations 20 to 22",
        make: search,
    },
    Kind {
        name: "read",
        shows: "operation 30 on jobs of every family",
        make: read,
    },
    Kind {
        name: "plans",
        shows: "operation 3B, ids as places",
        make: plan,
    },
    Kind {
        name: "ranges",
        shows: "operations 31 to 37 and 3A, ids as places",
        make: range,
    },
    Kind {
        name: "sheets",
        shows: "operations 38 and 39, ids as places",
        make: sheet,
    },
];

impl Kind {
    pub fn record(&self, seed: u64, index: u64) -> Vec<u8> {
        (self.make)(&mut Rng::new(self.name, seed, index), seed, index)
    }
}

pub fn kind(name: &str) -> Option<&'static Kind> {
    KINDS.iter().find(|kind| kind.name == name)
}

pub(crate) fn put(out: &mut Writer, (x, y): (f64, f64)) {
    out.f64(x);
    out.f64(y);
}

pub(crate) fn put_run(out: &mut Writer, (start, end): ((f64, f64), (f64, f64))) {
    put(out, start);
    put(out, end);
}

fn put_points(out: &mut Writer, points: &[(f64, f64)]) {
    out.count(points.len());
    for &point in points {
        put(out, point);
    }
}

fn leaf(rng: &mut Rng, _: u64, _: u64) -> Vec<u8> {
    let palette = Palette::new(rng);
    let mut out = Writer::new();
    let operation = rng.pick(&[
        op::STRETCH,
        op::CONTACT,
        op::CONTACT,
        op::CONTACT,
        op::CONTACT,
        op::SPACING,
        op::SPACING,
        op::INTERIOR,
        op::INTERIOR,
        op::PORT_POINT,
        op::VERTICAL_LINE,
        op::TRUNK,
        op::SAME_PLACE,
        op::PITCH_AND_RAIL,
        op::SEPARATED,
        op::OVERLAP,
        op::NUMBERS,
    ]);
    out.u8(operation);
    match operation {
        op::STRETCH => {
            out.u8(rng.below(2) as u8);
            let run = rightward(rng, &palette);
            put_run(&mut out, run);
            out.f64(some_length(rng, &palette, run));
        }
        op::CONTACT => {
            bus_run_and_tap(rng, &palette, &mut out);
            out.u8(rng.below(2) as u8);
        }
        op::SPACING => {
            let (left, mut right) = (palette.run(rng), palette.run(rng));
            if rng.chance(1, 2) {
                // Both level or both upright.
                right.1 = match left.0.1 == left.1.1 {
                    true => (palette.any(rng), right.0.1),
                    false => (right.0.0, palette.any(rng)),
                };
            }
            put_run(&mut out, left);
            put_run(&mut out, right);
            let apart = match left.0.1 == left.1.1 {
                true => (left.0.1 - right.0.1).abs(),
                false => (left.0.0 - right.0.0).abs(),
            };
            let spacing = match rng.below(4) {
                0 => near(rng, apart).abs(),
                1 => clean(apart * 2.0),
                _ => palette.length(rng),
            };
            out.f64(spacing);
        }
        op::INTERIOR => {
            put(&mut out, palette.point(rng));
            for _ in 0..2 {
                let size = match rng.chance(1, 2) {
                    true => palette.distance(rng),
                    false => palette.length(rng),
                };
                out.f64(size);
            }
            put_run(&mut out, palette.run(rng));
        }
        op::PORT_POINT => {
            put(&mut out, palette.point(rng));
            out.f64(palette.length(rng));
            out.f64(palette.length(rng));
            out.u8(rng.below(4) as u8);
            out.f64(palette.any(rng));
        }
        op::VERTICAL_LINE => {
            put_run(&mut out, palette.run(rng));
            out.f64(palette.any(rng));
            out.u8(rng.below(2) as u8);
        }
        op::TRUNK => {
            out.u8(rng.below(2) as u8);
            let run = rightward(rng, &palette);
            put_run(&mut out, run);
            let length = some_length(rng, &palette, run);
            out.f64(match rng.below(6) {
                0 => run.0.0,
                1 => run.1.0,
                2 => clean(run.0.0 + length),
                3 => clean(run.1.0 - length),
                _ => palette.any(rng),
            });
            out.f64(length);
        }
        op::SAME_PLACE => {
            let (x, y) = palette.point(rng);
            put(&mut out, (x, y));
            let other = match rng.below(3) {
                0 => palette.point(rng),
                _ => (near(rng, x), near(rng, y)),
            };
            put(&mut out, other);
        }
        op::PITCH_AND_RAIL => {
            for _ in 0..4 {
                out.f64(palette.length(rng));
            }
        }
        op::SEPARATED => {
            let pitch = palette.length(rng);
            let candidate = palette.any(rng);
            out.f64(candidate);
            out.f64(pitch);
            let count = rng.below(4);
            out.count(count);
            for _ in 0..count {
                let used = match rng.below(3) {
                    0 => near(rng, candidate + pitch),
                    1 => near(rng, candidate - pitch),
                    _ => palette.any(rng),
                };
                out.f64(used);
            }
        }
        op::OVERLAP => put_run(&mut out, (palette.point(rng), palette.point(rng))),
        _ => put(&mut out, palette.point(rng)),
    }
    out.bytes
}

/// A run that mostly is usable.
fn rightward(rng: &mut Rng, palette: &Palette) -> ((f64, f64), (f64, f64)) {
    match rng.below(3) {
        0 => palette.run(rng),
        _ => palette.wide(rng),
    }
}

/// A length that is often at most the run's, or just about it.
fn some_length(rng: &mut Rng, palette: &Palette, run: ((f64, f64), (f64, f64))) -> f64 {
    let whole = (run.1.0 - run.0.0).abs().min(power(20));
    match rng.below(6) {
        0 => 0.0,
        1 => whole,
        2 => near(rng, whole).abs(),
        3 => whole / 2.0,
        _ => palette.length(rng),
    }
}

/// A bus, a run that often meets it, and a tap that often is where they do.
pub(crate) fn bus_run_and_tap(rng: &mut Rng, palette: &Palette, out: &mut Writer) {
    let bus = palette.run(rng);
    let mut run = palette.run(rng);
    if rng.chance(1, 2) {
        // A run from a point of the bus, or through it.
        let on = match rng.below(3) {
            0 => bus.0,
            1 => bus.1,
            _ if bus.0.1 == bus.1.1 => (palette.any(rng), bus.0.1),
            _ => (bus.0.0, palette.any(rng)),
        };
        run = (on, palette.next(rng, on));
        if rng.chance(1, 3) && run.0.0 == run.1.0 {
            run.0.1 = palette.any(rng);
        } else if rng.chance(1, 3) && run.0.1 == run.1.1 {
            run.0.0 = palette.any(rng);
        }
    }
    if rng.chance(1, 2) {
        run = (run.1, run.0);
    }
    put_run(out, bus);
    put_run(out, run);
    let crossing = match (bus.0.1 == bus.1.1, run.0.1 == run.1.1) {
        (true, _) => (run.0.0, bus.0.1),
        (false, true) => (bus.0.0, run.0.1),
        (false, false) => run.0,
    };
    let tap = match rng.below(8) {
        0 | 1 => None,
        2 => Some(run.0),
        3 => Some(run.1),
        4 => Some(crossing),
        5 => Some((near(rng, crossing.0), near(rng, crossing.1))),
        6 => Some((near(rng, run.0.0), run.0.1)),
        _ => Some(palette.point(rng)),
    };
    out.u8(u8::from(tap.is_some()));
    put(out, tap.unwrap_or((0.0, 0.0)));
}

fn route(rng: &mut Rng, _: u64, _: u64) -> Vec<u8> {
    let palette = Palette::new(rng);
    let mut out = Writer::new();
    let operation = rng.pick(&[
        op::PUSH_POINT,
        op::PUSH_ALL,
        op::FIRST_VERTICAL_LINE,
        op::LAST_VERTICAL_LINE,
        op::FIRST_TRUNK,
        op::LAST_TRUNK,
        op::REWRITE_INPUT_SHARED_TRUNK,
        op::REWRITE_INPUT_SHARED_TRUNK,
        op::REWRITE_OUTPUT_SHARED_TRUNK,
        op::REWRITE_OUTPUT_SHARED_TRUNK,
        op::REWRITE_INPUT_ROUTE,
        op::REWRITE_INPUT_ROUTE,
        op::REWRITE_OUTPUT_ROUTE,
        op::REWRITE_OUTPUT_ROUTE,
    ]);
    out.u8(operation);
    let most = if rng.chance(1, 20) { 64 } else { 7 };
    let mut points = palette.some_route(rng, most);
    if rng.chance(1, 6) && !points.is_empty() {
        let place = rng.below(points.len());
        points.insert(place, points[place]);
        points.truncate(64);
    }
    let mut length = palette.length(rng);
    let mut on = some_place(rng, &palette, &points, length);
    let trunk = matches!(
        operation,
        op::FIRST_TRUNK
            | op::LAST_TRUNK
            | op::REWRITE_INPUT_SHARED_TRUNK
            | op::REWRITE_OUTPUT_SHARED_TRUNK
    );
    if trunk && points.len() > 1 && rng.chance(2, 3) {
        // A place in the stretch of some run, if that has one.
        let place = rng.below(points.len() - 1);
        let run = (points[place], points[place + 1]);
        length = some_length(rng, &palette, run);
        let input = matches!(operation, op::FIRST_TRUNK | op::REWRITE_INPUT_SHARED_TRUNK);
        let (low, high) = match input {
            true => (run.0.0, clean(run.1.0 - length)),
            false => (clean(run.0.0 + length), run.1.0),
        };
        let x = match rng.below(3) {
            0 => low,
            1 => high,
            _ => clean(low + (high - low) / 2.0),
        };
        let y = match rng.below(5) {
            0 => near(rng, run.0.1),
            _ => run.0.1,
        };
        on = (x, y);
    }
    match operation {
        op::PUSH_POINT => {
            let pushed = match (rng.below(3), points.last()) {
                (0, Some(&last)) => (near(rng, last.0), near(rng, last.1)),
                (1, Some(&last)) => palette.next(rng, last),
                _ => palette.point(rng),
            };
            put(&mut out, pushed);
        }
        op::PUSH_ALL => {}
        op::FIRST_VERTICAL_LINE | op::LAST_VERTICAL_LINE => out.f64(on.0),
        op::FIRST_TRUNK | op::LAST_TRUNK => {
            out.u8(rng.below(2) as u8);
            out.f64(on.0);
            out.f64(length);
        }
        op::REWRITE_INPUT_SHARED_TRUNK | op::REWRITE_OUTPUT_SHARED_TRUNK => {
            put(&mut out, on);
            out.f64(length);
        }
        _ => {
            // The tap stands a corridor's depth beside a place of the route.
            let side = if operation == op::REWRITE_INPUT_ROUTE {
                -1.0
            } else {
                1.0
            };
            let x = clean(on.0 + side * length);
            let y = match rng.below(3) {
                0 => on.1,
                1 => near(rng, on.1),
                _ => palette.any(rng),
            };
            put(&mut out, (x, y));
            out.f64(length);
        }
    }
    put_points(&mut out, &points);
    out.bytes
}

/// A place on some run of the route, near one, or anywhere.
fn some_place(rng: &mut Rng, palette: &Palette, points: &[(f64, f64)], length: f64) -> (f64, f64) {
    if points.len() < 2 || rng.chance(1, 8) {
        return palette.point(rng);
    }
    let run = rng.below(points.len() - 1);
    let (start, end) = (points[run], points[run + 1]);
    let x = match rng.below(6) {
        0 => start.0,
        1 => end.0,
        2 => clean(start.0 + length),
        3 => clean(end.0 - length),
        4 => clean(start.0 + (end.0 - start.0) / 2.0),
        _ => palette.any(rng),
    };
    match rng.below(6) {
        0 => (near(rng, x), start.1),
        1 => (x, near(rng, start.1)),
        _ => (x, start.1),
    }
}

fn search(rng: &mut Rng, _: u64, _: u64) -> Vec<u8> {
    let mut record = match rng.chance(1, 40) {
        true => many_candidates(rng),
        false => some_search(rng),
    };
    if rng.chance(1, 4) {
        put_in_search(rng, &mut record);
    }
    record
}

fn some_search(rng: &mut Rng) -> Vec<u8> {
    let palette = Palette::new(rng);
    let operation = rng.pick(&[op::SEARCH, op::SEARCH, op::COMMON, op::PROMOTION]);
    let role = rng.below(2) as u8;
    let pitch = match rng.below(3) {
        0 => palette.length(rng),
        1 => (palette.distance(rng) / 4.0).min(power(20)),
        _ => rng.pick(&[0.0, 1.0, 2.0, 4.0, 1e-7]),
    };
    let (mut low, mut high) = (palette.any(rng), palette.any(rng));
    if low > high && rng.chance(9, 10) {
        (low, high) = (high, low);
    }
    let desired = match rng.below(4) {
        0 => palette.any(rng),
        _ if role == 0 => high,
        _ => low,
    };
    let members = match rng.below(20) {
        0 => 0,
        1 => 6 + rng.below(59),
        _ => 1 + rng.below(4),
    };
    let together = rng.chance(1, 2);
    let routes = (0..members)
        .map(|_| {
            let most = match members {
                0..=5 => 6,
                _ => 4,
            };
            if together {
                let (start, end) = palette.wide(rng);
                let mut points = vec![start, end];
                if rng.chance(1, 2) {
                    points.push((end.0, palette.any(rng)));
                }
                if rng.chance(1, 3) {
                    points.insert(0, (start.0, palette.any(rng)));
                }
                return points;
            }
            palette.some_route(rng, most)
        })
        .collect::<Vec<_>>();
    let bounds = operation != op::PROMOTION || rng.chance(9, 10);
    let record = |grant: u32| {
        let mut out = Writer::new();
        out.u8(operation);
        out.u8(role);
        out.f64(pitch);
        if operation == op::PROMOTION {
            out.u8(u8::from(bounds));
        }
        out.f64(low);
        out.f64(desired);
        out.f64(high);
        out.u32(grant);
        out.count(routes.len());
        for points in &routes {
            put_points(&mut out, points);
        }
        out.bytes
    };
    let whole = record(oracle::job::MAX_TAP_VISITS);
    let answer = call(&whole).expect("a call");
    let left = u32::from_be_bytes(answer[1..5].try_into().expect("visits left"));
    let paid = oracle::job::MAX_TAP_VISITS - left;
    match rng.below(8) {
        0 => record(paid.saturating_sub(1)),
        1 => record(paid),
        2 => record(paid + 1),
        3 => record(rng.below(paid as usize + 1) as u32),
        _ => whole,
    }
}

/// A search of one or two members with up to 32 stretches each: more candidates than are kept.
fn many_candidates(rng: &mut Rng) -> Vec<u8> {
    let mut out = Writer::new();
    let role = rng.below(2) as u8;
    let promotion = rng.chance(3, 4);
    out.u8(if promotion { op::PROMOTION } else { op::COMMON });
    out.u8(role);
    out.f64(2.0);
    if promotion {
        out.u8(1);
    }
    let desired = if role == 0 { 200.0 } else { 0.0 };
    for bound in [0.0, desired, 200.0] {
        out.f64(bound);
    }
    out.u32(oracle::job::MAX_TAP_VISITS);
    let members = 1 + rng.below(2);
    out.count(members);
    let runs = 12 + rng.below(21);
    for _ in 0..members {
        out.count(2 * runs);
        for run in 0..runs {
            // Between the level runs the route goes back aslant.
            let (low, high) = (rng.between(-10, 60), rng.between(70, 210));
            put(&mut out, (low as f64, run as f64));
            put(&mut out, (high as f64, run as f64));
        }
    }
    out.bytes
}

/// A job of any family, whole or damaged.
fn read(rng: &mut Rng, seed: u64, _: u64) -> Vec<u8> {
    let family = loop {
        let family = &FAMILIES[rng.below(FAMILIES.len())];
        if family.name != "largest" || rng.chance(1, 200) {
            break family;
        }
    };
    let mut out = Writer::new();
    out.u8(op::READ);
    out.raw(&family.job(seed, rng.below(family.count as usize) as u64));
    out.bytes
}

fn plan(rng: &mut Rng, seed: u64, _: u64) -> Vec<u8> {
    let mut out = Writer::new();
    out.u8(op::PLANNING);
    out.raw(&any_board(rng, seed).encode());
    out.bytes
}

fn range(rng: &mut Rng, seed: u64, _: u64) -> Vec<u8> {
    let job = any_board(rng, seed);
    let operation = rng.pick(&[
        op::DEPTH_OFFSETS,
        op::CORRIDORS,
        op::BOUNDS,
        op::BOUNDS,
        op::RANGES,
        op::RANGES,
        op::PLAN,
        op::BOARD_PROMOTION,
        op::REQUIRED,
        op::REQUIRED,
        op::SUFFICIENT,
    ]);
    let mut out = Writer::new();
    out.u8(operation);
    if matches!(operation, op::BOUNDS | op::RANGES) {
        for _ in 0..2 {
            out.u8(rng.below(2) as u8);
            out.f64(some_x(rng, &job));
        }
    }
    out.raw(&job.encode());
    if operation == op::REQUIRED {
        put_plan(rng, &mut out, &job);
    }
    out.bytes
}

fn sheet(rng: &mut Rng, seed: u64, _: u64) -> Vec<u8> {
    let mut job = any_board(rng, seed);
    let mut plan = Writer::new();
    put_plan(rng, &mut plan, &job);
    let record = |operation: u8, job: &Job| {
        let mut out = Writer::new();
        out.u8(operation);
        out.raw(&job.encode());
        out.raw(&plan.bytes);
        out.bytes
    };
    if rng.chance(1, 6) {
        return record(op::BUILD, &job);
    }
    if rng.chance(1, 4) {
        // A grant about what the sheet pays until it is accepted or refused.
        let result = call(&record(op::SHEET, &job)).expect("a call");
        let left = u32::from_be_bytes(result[3..7].try_into().expect("visits left"));
        let paid = job.geometry_visits - left;
        job.geometry_visits = match rng.below(4) {
            0 => paid,
            1 => rng.below(paid as usize + 1) as u32,
            _ => paid.saturating_sub(1),
        };
    }
    record(op::SHEET, &job)
}

/// An x of the board, or near one.
fn some_x(rng: &mut Rng, job: &Job) -> f64 {
    let points = job
        .edges
        .iter()
        .flat_map(|edge| &edge.points)
        .collect::<Vec<_>>();
    if points.is_empty() {
        return rng.between(-10, 10) as f64;
    }
    let (left, right) = (rng.pick(&points).0, rng.pick(&points).0);
    match rng.below(5) {
        0 => near(rng, left),
        1 => clean(left + (right - left) / 2.0),
        2 => clean(left + job.route_lane_gap),
        3 => rng.pick(&[0.0, power(30), -power(30)]),
        _ => left,
    }
}

/// The plan of the Rust, or that plan with some numbers changed.
fn put_plan(rng: &mut Rng, out: &mut Writer, job: &Job) {
    let mut planned = planned(job).unwrap_or_else(|| vec![None; job.bundles.len()]);
    if rng.chance(1, 3) {
        for x in &mut planned {
            match rng.below(4) {
                0 => *x = None,
                1 => *x = Some(some_x(rng, job)),
                2 => *x = x.map(|x| near(rng, x)),
                _ => {}
            }
        }
    }
    for x in planned {
        out.u8(u8::from(x.is_some()));
        out.f64(x.unwrap_or(0.0));
    }
}

/// The Rust's plan of a job, by operation 35; none where it is refused.
pub fn planned(job: &Job) -> Option<Vec<Option<f64>>> {
    let mut record = vec![op::PLAN];
    record.extend(job.encode());
    let result = call(&record).expect("a call");
    if result[0] != 0 {
        return None;
    }
    let mut from = oracle::wire::Reader::new(&result[1..]);
    let count = from.u16().expect("a count");
    let planned = (0..count).map(|_| match from.u8() {
        Ok(1) => Some(from.f64().expect("an x")),
        _ => None,
    });
    Some(planned.collect())
}
