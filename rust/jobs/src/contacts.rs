//! Cases of operation 0D: a bus, a run and a tap, and which kind of contact they have.

use oracle::calls::op;
use oracle::wire::Writer;

use crate::cases::{bus_run_and_tap, put, put_run};
use crate::floats::{Palette, power};
use crate::rng::Rng;

type At = (f64, f64);

/// A case that decides a doubt (docs/DECISIONS.md, Kinds of contact), and its kind's number.
pub struct Deciding {
    pub shows: &'static str,
    pub bus: (At, At),
    pub run: (At, At),
    pub tap: Option<At>,
    pub number: u8,
}

const BUS: (At, At) = ((0.0, 0.0), (10.0, 0.0));
const BELOW_TEN: f64 = 9.999_999_999_999_998;

const fn case(
    shows: &'static str,
    bus: (At, At),
    run: (At, At),
    tap: Option<At>,
    number: u8,
) -> Deciding {
    Deciding {
        shows,
        bus,
        run,
        tap,
        number,
    }
}

/// The rows of crates/geometry/proofs/KindCases.antt, in their order.
#[rustfmt::skip]
pub const DECIDING: [Deciding; 18] = [
    case("a run of no length at its tap", BUS, ((5.0, 0.0), (5.0, 0.0)), Some((5.0, 0.0)), 0),
    case("a run of no length on a slanted bus", ((0.0, 0.0), (10.0, 10.0)), ((5.0, 5.0), (5.0, 5.0)), None, 0),
    case("a slanted run that shares nothing", BUS, ((20.0, 1.0), (30.0, 2.0)), None, 5),
    case("a bus of no length inside an upright run", ((5.0, 5.0), (5.0, 5.0)), ((5.0, 0.0), (5.0, 10.0)), None, 3),
    case("a bus of no length inside a level run", ((5.0, 0.0), (5.0, 0.0)), ((0.0, 0.0), (10.0, 0.0)), None, 3),
    case("a run that goes 1e-7 beyond the bus", BUS, ((5.0, 5.0), (5.0, -1e-7)), None, 3),
    case("a run that goes 2e-7 beyond the bus", BUS, ((5.0, 5.0), (5.0, -2e-7)), None, 2),
    case("a run that goes 1e-7 beyond the bus, its tap there", BUS, ((5.0, 5.0), (5.0, -1e-7)), Some((5.0, 0.0)), 1),
    case("a crossing 1e-7 from the end of the bus", BUS, ((1e-7, 5.0), (1e-7, -5.0)), None, 3),
    case("a run right through its tap", BUS, ((5.0, 5.0), (5.0, -5.0)), Some((5.0, 0.0)), 2),
    case("a run that ends on the bus at its tap", BUS, ((5.0, 0.0), (5.0, 5.0)), Some((5.0, 0.0)), 1),
    case("a run that ends on the bus, its tap 1e-7 off", BUS, ((5.0, 0.0), (5.0, 5.0)), Some((5.0, 1e-7)), 1),
    case("a run that ends on the bus, no tap", BUS, ((5.0, 0.0), (5.0, 5.0)), None, 3),
    case("end to end in one line, a tap there", BUS, ((10.0, 0.0), (20.0, 0.0)), Some((10.0, 0.0)), 1),
    case("end to end in one line, no tap", BUS, ((10.0, 0.0), (20.0, 0.0)), None, 3),
    case("in one line, over by the last place, a tap there", BUS, ((BELOW_TEN, 0.0), (20.0, 0.0)), Some((10.0, 0.0)), 4),
    case("beside the bus", BUS, ((0.0, 3.0), (10.0, 3.0)), None, 0),
    case("a bus from x = -0 to x = 0", ((-0.0, -5.0), (0.0, 5.0)), ((-5.0, 0.0), (5.0, 0.0)), None, 2),
];

fn record(bus: (At, At), run: (At, At), tap: Option<At>) -> Vec<u8> {
    let mut out = Writer::new();
    out.u8(op::KIND);
    put_run(&mut out, bus);
    put_run(&mut out, run);
    out.u8(u8::from(tap.is_some()));
    put(&mut out, tap.unwrap_or((0.0, 0.0)));
    out.bytes
}

/// The deciding cases, then random ones.
pub fn some(rng: &mut Rng, _: u64, index: u64) -> Vec<u8> {
    if let Some(case) = DECIDING.get(index as usize) {
        return record(case.bus, case.run, case.tap);
    }
    let palette = Palette::new(rng);
    let mut out = Writer::new();
    out.u8(op::KIND);
    bus_run_and_tap(rng, &palette, &mut out);
    out.bytes
}

/// The coordinates of a grid, as multiples of two to the power given. With 2^-25 three steps are
/// within the tolerance and four are not.
const GRIDS: [(&[i64], i64); 3] = [
    (&[0, 1, 2, 3], 0),
    (&[0, 1, 1 << 25, (1 << 25) + 1, 2 << 25], -25),
    (&[-(1 << 25), -4, -1, 0, 3, 1 << 25], -25),
];

/// The segments of a grid: from each point to those level with it (itself too), to the others
/// upright from it, and to one neither level nor upright.
fn segments_of(grid: &[i64]) -> u64 {
    2 * grid.len().pow(3) as u64
}

fn segment(grid: &[i64], place: u64) -> [(usize, usize); 2] {
    let side = grid.len();
    let place = place as usize;
    let (x, y, end) = (place % side, place / side % side, place / side / side);
    let end = match end {
        _ if end < side => (end, y),
        _ if end + 1 < 2 * side => (x, (y + 1 + end - side) % side),
        _ => ((x + 1) % side, (y + 1) % side),
    };
    [(x, y), end]
}

/// Every bus, run and tap, or no tap, of a grid.
fn cases_of(grid: &[i64]) -> u64 {
    segments_of(grid).pow(2) * (grid.len().pow(2) as u64 + 1)
}

/// How many cases there are on all grids: so many that follow one another are all, each once.
pub fn on_all_grids() -> u64 {
    GRIDS.iter().map(|(grid, _)| cases_of(grid)).sum()
}

/// Prime to `on_all_grids`, so that neighbours are scattered.
const STRIDE: u64 = 4_050_379;

pub fn on_grid(_: &mut Rng, _: u64, index: u64) -> Vec<u8> {
    let all = on_all_grids();
    let mut left = (u128::from(index) * u128::from(STRIDE) % u128::from(all)) as u64;
    let mut of = 0;
    while left >= cases_of(GRIDS[of].0) {
        left -= cases_of(GRIDS[of].0);
        of += 1;
    }
    let (grid, unit) = GRIDS[of];
    let mut next = |count: u64| {
        let place = left % count;
        left /= count;
        place
    };
    let number = |place: usize| grid[place] as f64 * power(unit);
    let point = |(x, y): (usize, usize)| (number(x), number(y));
    let [bus, run] = [(); 2].map(|()| segment(grid, next(segments_of(grid))).map(point));
    // The last place is no tap.
    let side = grid.len();
    let tap = next(side.pow(2) as u64 + 1) as usize;
    let tap = (tap < side * side).then(|| point((tap % side, tap / side)));
    record((bus[0], bus[1]), (run[0], run[1]), tap)
}
