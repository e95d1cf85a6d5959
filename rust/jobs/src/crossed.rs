//! Jobs for the list of crossings (document 02, F-7): boards on which crossings are permitted, with many of
//! them, of collectors and of spines, with several at one place, and with numbers of them about 1,024.

use oracle::job::Job;

use crate::boards;
use crate::draft::{Draft, DraftBundle, EAST, INPUT, OUTPUT, Scale, WEST, rename};
use crate::floats::power;
use crate::rng::Rng;

/// From band to band, and from lane to lane.
const BAND: i64 = 400;
const GAP: i64 = 8;
/// How far the rail is from the port.
const RAIL: i64 = 2_000;
/// The most points of all routes, and of one.
const POINTS: usize = 2_048;
const ROUTE_POINTS: usize = 64;

pub fn job(seed: u64, index: u64) -> Vec<u8> {
    let mut rng = Rng::new("crossed", seed, index);
    let mut draft = match rng.below(8) {
        0 => about_the_limit(&mut rng),
        1 | 2 => realistic(&mut rng),
        _ => combed(&mut rng),
    };
    draft.shuffle(&mut rng);
    draft.crossings = rng.chance(15, 16);
    let mut job = draft.job(&scale(&mut rng));
    job.on_grid = has_grid_numbers(&job) && rng.chance(1, 2);
    if rng.chance(3, 4) {
        rename(&mut job, &mut rng);
    }
    job.encode()
}

/// A job with exactly so many crossings, for tests: 1,023, 1,024, 1,025.
pub fn exactly(seed: u64, crossings: usize) -> Vec<u8> {
    let mut rng = Rng::new("exactly", seed, crossings as u64);
    let mut draft = combs(&mut rng, 32, crossings);
    draft.shuffle(&mut rng);
    draft.job(&Scale::ONE).encode()
}

/// Whole numbers, others on the grid, thirds, numbers that are shifted far.
fn scale(rng: &mut Rng) -> Scale {
    match rng.below(8) {
        0 => Scale {
            unit: 0.1,
            shift_x: -300.0,
            shift_y: 7.7,
        },
        1 => Scale {
            unit: 1.0 / 3.0,
            shift_x: power(29),
            shift_y: -power(29),
        },
        2 => Scale {
            unit: rng.between(1, 40) as f64 / 64.0,
            shift_x: rng.between(-6400, 6400) as f64 / 64.0,
            shift_y: rng.between(-6400, 6400) as f64 / 64.0,
        },
        3 => Scale {
            unit: 1.0,
            shift_x: -rng.between(0, RAIL) as f64,
            shift_y: -rng.between(0, 4 * BAND) as f64,
        },
        _ => Scale::ONE,
    }
}

fn has_grid_numbers(job: &Job) -> bool {
    let mut job = job.clone();
    let numbers = crate::values::all_numbers(&mut job);
    numbers
        .iter()
        .all(|value| crate::numbers::is_on_grid(value.to_bits()))
}

/// 1,020 to 1,030 crossings, or up to some more.
fn about_the_limit(rng: &mut Rng) -> Draft {
    let count = match rng.below(4) {
        0 => rng.between(900, 1_500),
        1 => 1_024,
        _ => rng.between(1_022, 1_027),
    };
    let bundles = 16 + rng.below(17);
    combs(rng, bundles, count as usize)
}

/// Bundles without members, whose spines are crossed by upright runs: so many times in all.
fn combs(rng: &mut Rng, bundles: usize, crossings: usize) -> Draft {
    let mut draft = bare(rng);
    draft.spacing = 0;
    for band in 0..bundles as i64 {
        let port = port(&mut draft, INPUT, BAND * band);
        draft.bundles.push(DraftBundle {
            port,
            role: INPUT,
            width: 0,
            members: Vec::new(),
        });
    }
    let mut left = crossings;
    let (mut points, mut route) = (0, Vec::new());
    let mut x = 10;
    while left > 0 && points + 2 <= POINTS {
        // From above the first band down to below some band, or up again.
        let bands = match rng.below(8) {
            0 => 1 + rng.below(bundles),
            _ => bundles,
        };
        let bands = bands.min(left) as i64;
        let (top, bottom) = (-20, BAND * bands - BAND / 2);
        let (from, to) = match route.last() {
            Some(&(_, y)) if y == top => (top, bottom),
            // It goes on from where it is, beside the spines.
            Some(_) => {
                draft.edge(0, 0, std::mem::take(&mut route));
                continue;
            }
            None => (bottom, top),
        };
        route.extend([(x, from), (x, to)]);
        points += 2;
        left -= bands as usize;
        // Half of the runs stand at a place of their own, so that others are crossed where they are.
        if rng.chance(1, 2) {
            x = 10 + rng.between(0, 400) * 4;
        }
        if route.len() + 2 > ROUTE_POINTS || to != top {
            draft.edge(0, 0, std::mem::take(&mut route));
        }
    }
    if !route.is_empty() {
        draft.edge(0, 0, route);
    }
    draft
}

fn bare(rng: &mut Rng) -> Draft {
    Draft {
        crossings: true,
        separate: rng.chance(1, 4),
        stub: RAIL - GAP,
        gap: GAP,
        reserve: rng.between(0, 40),
        ..Draft::default()
    }
}

/// A node beside x = 0 with a port at that height, on its east side for an input.
fn port(draft: &mut Draft, role: u8, y: i64) -> usize {
    match role {
        INPUT => {
            let node = draft.node(-100, y - 40, 100, 80);
            draft.port_at(node, EAST, y)
        }
        _ => {
            let node = draft.node(6 * RAIL, y - 40, 100, 80);
            draft.port_at(node, WEST, y)
        }
    }
}

/// Bundles at the rail with members, and routes that wind across their collectors and spines.
fn combed(rng: &mut Rng) -> Draft {
    let mut draft = bare(rng);
    let bands = 1 + rng.below(12) as i64;
    for band in 0..bands {
        let role = rng.pick(&[INPUT, OUTPUT]);
        let members = rng.below(7) as i64;
        let middle = BAND * band;
        let port = port(&mut draft, role, middle);
        let top = middle - GAP * (members - 1) / 2;
        let edges = (0..members)
            .map(|lane| {
                let y = top + GAP * lane;
                draft.edge(port, port, vec![(0, y), (6 * RAIL, y)])
            })
            .collect::<Vec<_>>();
        draft.bundles.push(DraftBundle {
            port,
            role,
            width: rng.pick(&[1, 1, 4]),
            members: edges.iter().copied().zip(0..).collect(),
        });
    }
    let winding = 1 + rng.below(6);
    for _ in 0..winding {
        wind(rng, &mut draft, bands);
    }
    draft
}

/// A route of level and upright runs in turn, at places where no bundle's segment or tap lies; some go
/// back over themselves, some are there twice.
fn wind(rng: &mut Rng, draft: &mut Draft, bands: i64) {
    let count = 2 + rng.below(20);
    let x = |rng: &mut Rng| match rng.below(5) {
        0 | 1 => RAIL + rng.pick(&[-6, -2, 2, 6, 200]),
        2 | 3 => 5 * RAIL + rng.pick(&[-6, -2, 2, 6, -200]),
        _ => 2 + 4 * rng.between(0, 3 * RAIL / 2),
    };
    let y = |rng: &mut Rng| {
        let band = BAND * rng.between(-1, bands);
        band + rng.pick(&[-31, -22, -2, 2, 6, 14, 26, 150])
    };
    let mut points = vec![(x(rng), y(rng))];
    while points.len() < count {
        let (old_x, old_y) = points[points.len() - 1];
        points.push(match points.len() % 2 {
            0 => (old_x, y(rng)),
            _ => (x(rng), old_y),
        });
        if points.len() >= 2 && rng.chance(1, 8) {
            points.push(points[points.len() - 2]);
            points.push(points[points.len() - 2]);
        }
    }
    points.truncate(ROUTE_POINTS);
    if rng.chance(1, 4) {
        draft.edge(0, 0, points.clone());
    }
    draft.edge(0, 0, points);
}

/// A board as it is handed over, with routes across it.
fn realistic(rng: &mut Rng) -> Draft {
    let bands = 2 + rng.below(5);
    let mut draft = boards::realistic(rng, bands, 5);
    draft.bundles.truncate(32);
    draft.spacing = 0;
    let points = draft.edges.iter().flat_map(|edge| &edge.points);
    let (xs, ys): (Vec<i64>, Vec<i64>) = points.copied().unzip();
    if xs.is_empty() || draft.ports.is_empty() {
        return draft;
    }
    for _ in 0..1 + rng.below(4) {
        let near = |rng: &mut Rng, list: &[i64]| rng.pick(list) + rng.between(-3, 3);
        let (x, y) = (near(rng, &xs), near(rng, &ys));
        let points = match rng.below(2) {
            0 => vec![(x, -2_000), (x, 4_000)],
            _ => vec![(-2_000, y), (4_000, y)],
        };
        draft.edge(0, 0, points);
    }
    draft
}
