//! The families of jobs. A job is fixed by its family, the seed and its place.

use oracle::calls::{call, op};
use oracle::job::{Job, plus};

use crate::boards;
use crate::draft::{Draft, DraftBundle, EAST, INPUT, OUTPUT, Scale, WEST, rename};
use crate::floats::{LARGEST, Palette, clean, near, power, step};
use crate::grid;
use crate::rng::Rng;
use crate::zeros;

/// A family and how many of its jobs the distribution runs.
pub struct Family {
    pub name: &'static str,
    pub shows: &'static str,
    pub count: u64,
    make: fn(u64, u64) -> Vec<u8>,
}

impl Family {
    pub fn job(&self, seed: u64, index: u64) -> Vec<u8> {
        (self.make)(seed, index)
    }
}

pub const FAMILIES: [Family; 18] = [
    Family {
        name: "small",
        shows: "realistic, one or two bands, two or three members",
        count: 40_000,
        make: small,
    },
    Family {
        name: "realistic",
        shows: "inputs left, outputs right, rails, chains, up to eight bands",
        count: 30_000,
        make: realistic,
    },
    Family {
        name: "grid",
        shows: "multiples of 1/64 up to 2^20, bit 2 in most: all kinds of boards, the largest too",
        count: 30_000,
        make: grid::job,
    },
    Family {
        name: "random",
        shows: "random walks over few whole numbers",
        count: 30_000,
        make: random,
    },
    Family {
        name: "adversarial",
        shows: "subnormals, up to 2^30, differences near 1e-7, sums that round",
        count: 30_000,
        make: adversarial,
    },
    Family {
        name: "depths",
        shows: "several bundles of one role, widths and options that make depths round",
        count: 10_000,
        make: depths,
    },
    Family {
        name: "degenerate",
        shows: "0 and 1 point routes, runs of no length, width 0 and 1, no members, pitch 0",
        count: 30_000,
        make: degenerate,
    },
    Family {
        name: "nothing",
        shows: "one bundle whose members have no x in common",
        count: 2_000,
        make: nothing,
    },
    Family {
        name: "narrow",
        shows: "one chain on a board hardly wide enough: given up, limits, splits",
        count: 8_000,
        make: narrow,
    },
    Family {
        name: "clamp",
        shows: "the input split's clamp, at and around 13",
        count: 4_000,
        make: clamp,
    },
    Family {
        name: "largest",
        shows: "every count at its limit",
        count: 600,
        make: largest,
    },
    Family {
        name: "grants",
        shows: "tap and geometry grants one below, at and one above what is needed",
        count: 30_000,
        make: grants,
    },
    Family {
        name: "fans",
        shows: "one component of several bundles, tap grants somewhere below what is needed",
        count: 20_000,
        make: fans,
    },
    Family {
        name: "off_grid",
        shows: "bit 2 and numbers off the grid, or right at its limit, in each kind of field",
        count: 20_000,
        make: grid::off_grid,
    },
    Family {
        name: "zeros",
        shows: "minus zeros in number fields, alone in each kind and many at once",
        count: 30_000,
        make: zeros::job,
    },
    Family {
        name: "damaged",
        shows: "flipped bytes, extra bytes, fields out of range, ids twice or unknown",
        count: 40_000,
        make: damaged,
    },
    Family {
        name: "limits",
        shows: "each field of one small job at, inside and past its limits, and the grid's, one at a time",
        count: LIMITS,
        make: limits,
    },
    Family {
        name: "truncated",
        shows: "every truncation of eight jobs, with and without the length set right",
        count: 16_384,
        make: truncated,
    },
];

pub fn family(name: &str) -> Option<&'static Family> {
    FAMILIES.iter().find(|family| family.name == name)
}

/// A board of a family, with ids that are places.
pub fn any_board(rng: &mut Rng, seed: u64) -> Job {
    match rng.below(20) {
        0..=5 => small_draft(rng).job(&Scale::ONE),
        6..=8 => realistic_draft(rng).job(&Scale::ONE),
        9..=10 => Job {
            on_grid: true,
            ..grid_job(rng)
        },
        11..=13 => adversarial_job(rng),
        14 => boards::random(rng).job(&Scale::ONE),
        15 => match rng.below(2) {
            0 => boards::degenerate(rng).job(&Scale::ONE),
            _ => depths_job(rng),
        },
        16 => boards::nothing_common(rng).job(&Scale::ONE),
        17 => match rng.below(2) {
            0 => clamp_job(rng),
            _ => boards::narrow(rng).job(&Scale::ONE),
        },
        18 => fans_job(rng),
        _ => grants_job(seed, rng.below(10_000) as u64),
    }
}

/// A job of a board, with ids that mostly are not places.
fn finish(rng: &mut Rng, mut job: Job) -> Vec<u8> {
    if rng.chance(3, 4) {
        rename(&mut job, rng);
    }
    job.encode()
}

pub fn small_draft(rng: &mut Rng) -> Draft {
    let bands = 1 + rng.below(2);
    boards::realistic(rng, bands, 3)
}

fn small(seed: u64, index: u64) -> Vec<u8> {
    let mut rng = Rng::new("small", seed, index);
    let draft = small_draft(&mut rng);
    finish(&mut rng, draft.job(&Scale::ONE))
}

pub fn realistic_draft(rng: &mut Rng) -> Draft {
    let bands = 2 + rng.below(7);
    let mut draft = boards::realistic(rng, bands, 6);
    draft.bundles.truncate(32);
    draft
}

fn realistic(seed: u64, index: u64) -> Vec<u8> {
    let mut rng = Rng::new("realistic", seed, index);
    let draft = realistic_draft(&mut rng);
    finish(&mut rng, draft.job(&Scale::ONE))
}

pub fn grid_job(rng: &mut Rng) -> Job {
    let draft = match rng.below(3) {
        0 => boards::random(rng),
        _ => small_draft(rng),
    };
    let scale = Scale {
        unit: rng.between(1, 160) as f64 / 64.0,
        shift_x: rng.between(-6400, 6400) as f64 / 64.0,
        shift_y: rng.between(-6400, 6400) as f64 / 64.0,
    };
    draft.job(&scale)
}

fn random(seed: u64, index: u64) -> Vec<u8> {
    let mut rng = Rng::new("random", seed, index);
    let draft = boards::random(&mut rng);
    finish(&mut rng, draft.job(&Scale::ONE))
}

pub fn adversarial_job(rng: &mut Rng) -> Job {
    let draft = match rng.below(4) {
        0 => boards::random(rng),
        _ => small_draft(rng),
    };
    let scale = match rng.below(8) {
        0 => Scale {
            unit: 0.1,
            ..Scale::ONE
        },
        1 => Scale {
            unit: 5e-324 * rng.between(1, 9) as f64,
            ..Scale::ONE
        },
        2 => Scale {
            unit: power(rng.between(0, 14)) / 3.0,
            ..Scale::ONE
        },
        3 => Scale {
            unit: 1.0 / 3.0,
            shift_x: power(29),
            shift_y: -power(29),
        },
        4 => Scale {
            unit: 1e-7,
            shift_x: 0.0,
            shift_y: rng.between(-3, 3) as f64,
        },
        5 => Scale {
            unit: power(rng.between(-40, 18)),
            shift_x: power(rng.between(-40, 28)),
            shift_y: -power(rng.between(-40, 28)),
        },
        _ => Scale::ONE,
    };
    let mut job = draft.job(&scale);
    for _ in 0..rng.below(4) {
        nudge(rng, &mut job);
    }
    if rng.chance(1, 6) {
        // Depths that follow one another with nothing between but rounding.
        for bundle in &mut job.bundles {
            if rng.chance(1, 2) {
                bundle.members.clear();
            }
        }
        for node in &mut job.nodes {
            node.width = plus(scale.length(rng.between(0, 99)));
        }
    }
    within_limits(&mut job);
    job
}

/// Moves one line of the board, one point of it, or one option a little.
fn nudge(rng: &mut Rng, job: &mut Job) {
    let edges = job.edges.len();
    if edges == 0 {
        return;
    }
    let points = &job.edges[rng.below(edges)].points;
    if points.is_empty() {
        return;
    }
    let place = rng.below(points.len());
    let (x, y) = points[place];
    match rng.below(6) {
        0 => {
            let to = near(rng, x);
            move_line(job, |point| &mut point.0, x, to);
        }
        1 => {
            let to = near(rng, y);
            move_line(job, |point| &mut point.1, y, to);
        }
        2 => {
            let edge = rng.below(edges);
            for point in &mut job.edges[edge].points {
                if point.1 == y {
                    point.1 = near(rng, y);
                }
            }
        }
        3 => job.route_lane_gap = near(rng, job.route_lane_gap).abs(),
        4 => {
            let nodes = job.nodes.len();
            let node = &mut job.nodes[rng.below(nodes)];
            node.x = near(rng, node.x);
            node.width = near(rng, node.width).abs();
        }
        _ => job.member_endpoint_reserve = near(rng, job.member_endpoint_reserve).abs(),
    }
}

fn move_line(job: &mut Job, field: fn(&mut (f64, f64)) -> &mut f64, from: f64, to: f64) {
    for point in job.edges.iter_mut().flat_map(|edge| &mut edge.points) {
        let value = field(point);
        if *value == from {
            *value = to;
        }
    }
}

fn within_limits(job: &mut Job) {
    for option in job.options_mut() {
        *option = plus(option.clamp(0.0, power(20)));
    }
    for node in &mut job.nodes {
        node.x = clean(node.x);
        node.y = clean(node.y);
        node.width = plus(node.width.clamp(0.0, LARGEST));
        node.height = plus(node.height.clamp(0.0, LARGEST));
    }
    for port in &mut job.ports {
        port.offset = clean(port.offset);
    }
    for point in job.edges.iter_mut().flat_map(|edge| &mut edge.points) {
        *point = (clean(point.0), clean(point.1));
    }
}

fn adversarial(seed: u64, index: u64) -> Vec<u8> {
    let mut rng = Rng::new("adversarial", seed, index);
    let job = adversarial_job(&mut rng);
    finish(&mut rng, job)
}

/// Bundles of mostly one role with few members, so that depths build on one another.
pub fn depths_job(rng: &mut Rng) -> Job {
    let palette = Palette::new(rng);
    let mut draft = Draft {
        separate: rng.chance(1, 2),
        crossings: rng.chance(1, 2),
        ..Draft::default()
    };
    let most = rng.pick(&[INPUT, OUTPUT]);
    for _ in 0..3 + rng.below(4) {
        let node = draft.node(0, 0, 0, 0);
        let role = if rng.chance(1, 6) { 1 - most } else { most };
        let side = if role == INPUT { EAST } else { WEST };
        let port = draft.port_at(node, side, 0);
        let members = rng.pick(&[0, 0, 1, 1, 2]);
        let members = (0..members)
            .map(|_| {
                let edge = draft.edge(port, port, Vec::new());
                (edge, rng.below(4) as u16)
            })
            .collect::<Vec<_>>();
        draft.bundles.push(DraftBundle {
            port,
            role,
            width: members.len() as u32,
            members,
        });
    }
    let mut job = draft.job(&Scale::ONE);
    for option in job.options_mut() {
        *option = match rng.below(3) {
            0 => 0.0,
            1 => palette.length(rng),
            _ => palette.length(rng) / 3.0,
        };
    }
    job.minimum_parallel_wire_spacing = 0.0;
    for (place, node) in job.nodes.iter_mut().enumerate() {
        // Far from one another, so that some of these are accepted.
        node.y = place as f64 * power(24);
        node.x = palette.any(rng);
        node.width = palette.length(rng);
    }
    for edge in &mut job.edges {
        let y = job.nodes[edge.source_node as usize].y;
        let (low, high) = (-power(28), power(28));
        edge.points = vec![(low, y), (high, y)];
    }
    within_limits(&mut job);
    job
}

fn depths(seed: u64, index: u64) -> Vec<u8> {
    let mut rng = Rng::new("depths", seed, index);
    let job = depths_job(&mut rng);
    finish(&mut rng, job)
}

fn degenerate(seed: u64, index: u64) -> Vec<u8> {
    let mut rng = Rng::new("degenerate", seed, index);
    let draft = boards::degenerate(&mut rng);
    finish(&mut rng, draft.job(&Scale::ONE))
}

fn nothing(seed: u64, index: u64) -> Vec<u8> {
    let mut rng = Rng::new("nothing", seed, index);
    let draft = boards::nothing_common(&mut rng);
    finish(&mut rng, draft.job(&Scale::ONE))
}

fn narrow(seed: u64, index: u64) -> Vec<u8> {
    let mut rng = Rng::new("narrow", seed, index);
    let draft = boards::narrow(&mut rng);
    finish(&mut rng, draft.job(&Scale::ONE))
}

/// A chain with the largest input minimum at `low`, pitch and smallest output maximum at `pitch`,
/// or near that.
pub fn clamp_job(rng: &mut Rng) -> Job {
    let pitch = power(rng.between(-20, 20));
    let low = pitch * power(-53) * rng.pick(&[0.0, 0.5, 1.0, 1.0, 1.0, 1.0, 2.0, 4.0]);
    let mut draft = Draft {
        separate: rng.chance(1, 2),
        crossings: rng.chance(1, 2),
        ..Draft::default()
    };
    let left = draft.node(0, 0, 0, 0);
    let right = draft.node(0, 0, 0, 0);
    let source = draft.port_at(left, EAST, 0);
    let target = draft.port_at(right, WEST, 0);
    let members = 2 + rng.below(2);
    let mut edges = Vec::new();
    for _ in 0..members {
        edges.push(draft.edge(source, target, Vec::new()));
    }
    for (port, role) in [(source, INPUT), (target, OUTPUT)] {
        draft.bundles.push(DraftBundle {
            port,
            role,
            width: members as u32,
            members: edges.iter().map(|&edge| (edge, 0)).collect(),
        });
    }
    rng.shuffle(&mut draft.bundles);
    let mut job = draft.job(&Scale::ONE);
    // Minimum: left + clearance + pitch = low. Maximum: right - clearance - pitch = pitch.
    job.route_lane_gap = pitch;
    job.edge_node_clearance = low;
    job.nodes[0].x = -pitch;
    job.nodes[1].x = 2.0 * pitch;
    if rng.chance(1, 6) {
        job.nodes[1].x = step(2.0 * pitch, rng.between(-2, 2));
    }
    for (place, edge) in job.edges.iter_mut().enumerate() {
        let y = place as f64;
        edge.points = vec![(-pitch, y), (2.0 * pitch, y)];
    }
    within_limits(&mut job);
    job
}

fn clamp(seed: u64, index: u64) -> Vec<u8> {
    let mut rng = Rng::new("clamp", seed, index);
    let job = clamp_job(&mut rng);
    finish(&mut rng, job)
}

fn largest(seed: u64, index: u64) -> Vec<u8> {
    let mut rng = Rng::new("largest", seed, index);
    let draft = boards::largest(&mut rng);
    finish(&mut rng, draft.job(&Scale::ONE))
}

/// Visits that a job pays, if it is accepted: tap and geometry.
pub fn paid(job: &Job) -> Option<(u32, u32)> {
    let answer = oracle::answer_of(&job.encode());
    if oracle::number(&answer) != 0 {
        return None;
    }
    let (tap, geometry) = oracle::visits_left(&answer);
    Some((job.tap_visits - tap, job.geometry_visits - geometry))
}

/// Ten jobs to a board: each grant one below, at and one above what is needed, and four times
/// somewhere below.
pub fn grants_job(seed: u64, index: u64) -> Job {
    let mut rng = Rng::new("grants", seed, index / 10);
    let mut tries = 0;
    let (mut job, tap, geometry) = loop {
        tries += 1;
        assert!(tries < 1_000, "no board is accepted");
        let draft = match rng.below(8) {
            0 => boards::nothing_common(&mut rng),
            1 => realistic_draft(&mut rng),
            _ => small_draft(&mut rng),
        };
        let job = draft.job(&Scale::ONE);
        match paid(&job) {
            Some((tap, geometry)) if geometry > 0 => break (job, tap, geometry),
            _ => {}
        }
    };
    let mut rng = Rng::new("grant", seed, index);
    match index % 10 {
        0 => job.tap_visits = tap.saturating_sub(1),
        1 => job.tap_visits = tap,
        2 => job.tap_visits = tap + 1,
        3 => job.geometry_visits = geometry - 1,
        4 => job.geometry_visits = geometry,
        5 => job.geometry_visits = geometry + 1,
        6 => job.geometry_visits = rng.below(geometry as usize) as u32,
        7 => job.tap_visits = 0,
        _ => job.tap_visits = rng.below(tap as usize + 1) as u32,
    }
    job
}

fn grants(seed: u64, index: u64) -> Vec<u8> {
    let mut rng = Rng::new("grants names", seed, index);
    finish(&mut rng, grants_job(seed, index))
}

/// The order of a component decides who pays, so this is where it shows.
pub fn fans_job(rng: &mut Rng) -> Job {
    let mut job = boards::fans(rng).job(&Scale::ONE);
    let record = [&[op::SUFFICIENT], &job.encode()[..]].concat();
    let result = call(&record).expect("a call");
    if result[0] == 0 {
        let visits = u64::from_be_bytes(result[13..21].try_into().expect("eight bytes"));
        // Mostly enough for the first searches.
        let short = match rng.below(4) {
            0 => rng.below(visits as usize + 1),
            _ => rng.below(visits as usize / 2 + 1),
        };
        job.tap_visits = visits as u32 - short as u32;
    }
    job
}

fn fans(seed: u64, index: u64) -> Vec<u8> {
    let mut rng = Rng::new("fans", seed, index);
    let job = fans_job(&mut rng);
    finish(&mut rng, job)
}

fn damaged(seed: u64, index: u64) -> Vec<u8> {
    let mut rng = Rng::new("damaged", seed, index);
    let mut job = match rng.below(5) {
        0 => boards::random(&mut rng).job(&Scale::ONE),
        1 => boards::degenerate(&mut rng).job(&Scale::ONE),
        _ => small_draft(&mut rng).job(&Scale::ONE),
    };
    if rng.chance(1, 2) {
        rename(&mut job, &mut rng);
    }
    match rng.below(3) {
        0 => damage_bytes(&mut rng, job.encode()),
        1 => {
            damage_fields(&mut rng, &mut job);
            let bytes = job.encode();
            if rng.chance(1, 4) {
                damage_bytes(&mut rng, bytes)
            } else {
                bytes
            }
        }
        _ => {
            damage_ids(&mut rng, &mut job);
            if rng.chance(1, 4) {
                damage_ids(&mut rng, &mut job);
            }
            job.encode()
        }
    }
}

fn damage_bytes(rng: &mut Rng, mut bytes: Vec<u8>) -> Vec<u8> {
    for _ in 0..1 + rng.below(2) {
        let place = match rng.below(4) {
            0 => rng.below(bytes.len().min(62)),
            _ => rng.below(bytes.len()),
        };
        match rng.below(6) {
            0 => bytes[place] ^= 1 << rng.below(8),
            1 => bytes[place] = rng.pick(&[0x00, 0x01, 0x7f, 0x80, 0xff]),
            2 => bytes[place] = rng.below(256) as u8,
            3 => {
                bytes.push(rng.below(256) as u8);
                set_length(&mut bytes, rng.chance(3, 4));
            }
            4 => {
                bytes.truncate(place.max(5));
                set_length(&mut bytes, rng.chance(3, 4));
            }
            _ => {
                bytes.insert(place.max(4), rng.below(256) as u8);
                set_length(&mut bytes, rng.chance(3, 4));
            }
        }
    }
    bytes
}

fn set_length(bytes: &mut [u8], really: bool) {
    if really {
        let length = (bytes.len() - 4) as u32;
        bytes[..4].copy_from_slice(&length.to_be_bytes());
    }
}

/// A number that 7 is due for, one right at a limit, or minus zero.
fn odd_number(rng: &mut Rng) -> f64 {
    match rng.below(10) {
        0 => f64::NAN,
        1 => f64::INFINITY,
        2 => f64::NEG_INFINITY,
        3 => -0.0,
        4 => step(LARGEST, 1),
        5 => LARGEST,
        6 => step(power(20), 1),
        7 => power(20),
        8 => -5e-324,
        _ => step(-LARGEST, -1),
    }
}

fn damage_fields(rng: &mut Rng, job: &mut Job) {
    let odd = odd_number(rng);
    let (nodes, ports, edges, bundles) = (
        job.nodes.len(),
        job.ports.len(),
        job.edges.len(),
        job.bundles.len(),
    );
    match rng.below(14) {
        0 => job.port_stub = odd,
        1 => job.route_lane_gap = odd,
        2 => job.edge_node_clearance = odd,
        3 => job.minimum_parallel_wire_spacing = odd,
        4 => job.member_endpoint_reserve = odd,
        5 => job.tap_visits = rng.pick(&[2_000_000, 2_000_001, u32::MAX, 0]),
        6 => job.geometry_visits = rng.pick(&[20_000_000, 20_000_001, u32::MAX, 0]),
        7 => {
            let node = &mut job.nodes[rng.below(nodes)];
            match rng.below(4) {
                0 => node.x = odd,
                1 => node.y = odd,
                2 => node.width = odd,
                _ => node.height = odd,
            }
        }
        8 => job.ports[rng.below(ports)].offset = odd,
        9 => job.ports[rng.below(ports)].side = rng.below(8) as u8,
        10 if edges > 0 => {
            let points = &mut job.edges[rng.below(edges)].points;
            match rng.below(4) {
                0 => points.resize(rng.pick(&[64, 65, 70]), (1.0, 1.0)),
                _ => {
                    if !points.is_empty() {
                        let place = rng.below(points.len());
                        points[place].0 = odd;
                    }
                }
            }
        }
        11 if bundles > 0 => job.bundles[rng.below(bundles)].role = rng.below(4) as u8,
        12 if bundles > 0 => {
            let members = &mut job.bundles[rng.below(bundles)].members;
            match (rng.below(3), members.first().copied()) {
                (0, Some(member)) => members.resize(rng.pick(&[64, 65]), member),
                (_, Some(_)) => members[0].lane = rng.pick(&[255, 256, u16::MAX]),
                _ => {}
            }
        }
        _ => grow(rng, job),
    }
}

/// A count at its limit, one above it, or a total one above its limit.
fn grow(rng: &mut Rng, job: &mut Job) {
    let more = rng.below(2);
    match rng.below(6) {
        0 => {
            let row = job.nodes[0].clone();
            job.nodes.resize(128 + more, row);
        }
        1 => {
            let row = job.ports[0].clone();
            job.ports.resize(256 + more, row);
        }
        2 => {
            if let Some(row) = job.edges.first().cloned() {
                job.edges.resize(256 + more, row);
            }
        }
        3 => {
            if let Some(row) = job.bundles.first().cloned() {
                job.bundles.resize(32 + more, row);
            }
        }
        4 => {
            // 32 routes of 64 points are the total; one point more passes it.
            if let Some(mut row) = job.edges.first().cloned() {
                row.points = vec![(1.0, 1.0); 64];
                job.edges = vec![row.clone(); 32];
                row.points.truncate(more);
                job.edges.push(row);
            }
        }
        _ => {
            if let Some(mut row) = job.bundles.first().cloned() {
                let member = oracle::job::JobMember { edge: 0, lane: 0 };
                row.members = vec![member; 64];
                job.bundles = vec![row.clone(); 4];
                row.members.truncate(more);
                job.bundles.push(row);
            }
        }
    }
}

/// Ids twice (8) or unknown (9).
fn damage_ids(rng: &mut Rng, job: &mut Job) {
    let (nodes, ports, edges, bundles) = (
        job.nodes.len(),
        job.ports.len(),
        job.edges.len(),
        job.bundles.len(),
    );
    let strange = rng.word() as u32;
    match rng.below(13) {
        0 => job.nodes[rng.below(nodes)].id = job.nodes[rng.below(nodes)].id,
        1 if edges > 0 => job.edges[rng.below(edges)].id = job.edges[rng.below(edges)].id,
        2 if bundles > 0 => {
            job.bundles[rng.below(bundles)].id = job.bundles[rng.below(bundles)].id;
        }
        3 => {
            let row = job.ports[rng.below(ports)].clone();
            job.ports.insert(rng.below(ports), row);
        }
        4 if bundles > 0 => {
            // An edge twice in one role, perhaps in one bundle.
            let row = job.bundles[rng.below(bundles)].clone();
            let to = &mut job.bundles[rng.below(bundles)];
            to.members.extend(row.members.first().copied());
        }
        5 => job.nodes[rng.below(nodes)].id = strange,
        6 => job.ports[rng.below(ports)].node = strange,
        7 => job.ports[rng.below(ports)].id = strange,
        8 if edges > 0 => job.edges[rng.below(edges)].source_node = strange,
        9 if edges > 0 => job.edges[rng.below(edges)].target_node = strange,
        10 if edges > 0 => job.edges[rng.below(edges)].source_port = strange,
        11 if bundles > 0 => {
            let bundle = &mut job.bundles[rng.below(bundles)];
            if rng.chance(1, 2) {
                bundle.node = strange;
            } else {
                bundle.port = strange;
            }
        }
        _ if bundles > 0 => {
            let members = &mut job.bundles[rng.below(bundles)].members;
            if let Some(member) = members.first_mut() {
                member.edge = strange;
            }
        }
        _ => {}
    }
}

/// One node, one port, one edge of two points, one bundle of one member.
fn one_of_each() -> Vec<u8> {
    let mut draft = Draft {
        stub: 5,
        gap: 4,
        ..Draft::default()
    };
    let node = draft.node(-10, -10, 10, 20);
    let port = draft.port_at(node, EAST, 0);
    let edge = draft.edge(port, port, vec![(0, 0), (40, 0)]);
    draft.bundles.push(DraftBundle {
        port,
        role: INPUT,
        width: 1,
        members: vec![(edge, 0)],
    });
    draft.job(&Scale::ONE).encode()
}

// Where the fields of `one_of_each` stand.
const BYTES: [usize; 4] = [4, 5, 106, 181]; // version, flags, side, role
const NUMBERS: [usize; 14] = [
    6, 14, 22, 30, 38, // the five options
    66, 74, 82, 90,  // node
    107, // offset
    137, 145, 153, 161, // points
];
const GRANTS: [(usize, u32); 2] = [(46, 2_000_000), (50, 20_000_000)];
const COUNTS: [(usize, u16); 7] = [
    (54, 128),
    (56, 256),
    (58, 256),
    (60, 32),
    (135, 64),
    (186, 64),
    (192, 255), // the lane
];
const LIMITS: u64 = 4 * 256 + 14 * 22 + 2 * 5 + 7 * 6 + 14 * 12;

fn limits(_: u64, index: u64) -> Vec<u8> {
    let mut bytes = one_of_each();
    let mut index = index as usize % LIMITS as usize;
    if index < 4 * 256 {
        bytes[BYTES[index / 256]] = (index % 256) as u8;
        return bytes;
    }
    index -= 4 * 256;
    if index < 14 * 22 {
        let at = NUMBERS[index / 22];
        let value = limit_number(index % 22);
        bytes[at..at + 8].copy_from_slice(&value.to_bits().to_be_bytes());
        return bytes;
    }
    index -= 14 * 22;
    if index < 2 * 5 {
        let (at, limit) = GRANTS[index / 5];
        let value = [0, 1, limit, limit + 1, u32::MAX][index % 5];
        bytes[at..at + 4].copy_from_slice(&value.to_be_bytes());
        return bytes;
    }
    index -= 2 * 5;
    if index < 7 * 6 {
        let (at, limit) = COUNTS[index / 6];
        let value = [0, 1, limit - 1, limit, limit + 1, u16::MAX][index % 6];
        bytes[at..at + 2].copy_from_slice(&value.to_be_bytes());
        return bytes;
    }
    index -= 7 * 6;
    bytes[5] |= 4;
    let at = NUMBERS[index / 12];
    let value = grid_number(index % 12);
    bytes[at..at + 8].copy_from_slice(&value.to_be_bytes());
    bytes
}

/// At, inside and past the drafting grid's limit, and beside its numbers.
fn grid_number(which: usize) -> f64 {
    let (unit, limit) = (power(-6), power(20));
    match which {
        0 => limit,
        1 => -limit,
        2 => limit + unit,
        3 => -limit - unit,
        4 => step(limit, 1),
        5 => step(limit, -1),
        6 => limit - unit,
        7 => unit,
        8 => unit / 2.0,
        9 => step(unit, 1),
        10 => step(unit, -1),
        _ => -0.0,
    }
}

fn limit_number(which: usize) -> f64 {
    let (coordinate, option) = (LARGEST, power(20));
    match which {
        0 => 0.0,
        1 => -0.0,
        2 => 5e-324,
        3 => -5e-324,
        4 => coordinate,
        5 => step(coordinate, 1),
        6 => step(coordinate, -1),
        7 => -coordinate,
        8 => step(-coordinate, -1),
        9 => step(-coordinate, 1),
        10 => option,
        11 => step(option, 1),
        12 => step(option, -1),
        13 => -option,
        14 => f64::MAX,
        15 => f64::MIN,
        16 => f64::INFINITY,
        17 => f64::NEG_INFINITY,
        18 => f64::from_bits(0x7ff0_0000_0000_0001),
        19 => f64::from_bits(0x7ff8_0000_0000_0000),
        20 => f64::from_bits(0xffff_ffff_ffff_ffff),
        _ => 1.5,
    }
}

/// Eight small jobs; of each, every truncation, half of them with the length set right.
fn truncated(seed: u64, index: u64) -> Vec<u8> {
    let (which, index) = (index % 8, index / 8);
    let mut attempt = 0;
    let mut bytes = loop {
        let bytes = match which {
            7 => random(seed, attempt),
            _ => small(seed, which * 1000 + attempt),
        };
        if bytes.len() <= 1_000 {
            break bytes;
        }
        attempt += 1;
    };
    let right = index % 2 == 0;
    let cut = (index / 2) as usize;
    let length = cut.min(bytes.len());
    bytes.truncate(length);
    // Past the whole job: bytes are added instead.
    bytes.resize(length + (cut - length) % 8, 0);
    if bytes.len() >= 4 {
        set_length(&mut bytes, right);
    }
    bytes
}

/// The alphabet of the exhaustive strings of four to six bytes.
pub const ALPHABET: [u8; 6] = [0x00, 0x01, 0x02, 0x03, 0x3a, 0xff];

/// Calls `each` with every byte string of up to three bytes, then with every string of four to
/// six bytes over the alphabet.
pub fn every_short(mut each: impl FnMut(&[u8])) {
    each(&[]);
    for length in 1..=3_u32 {
        for number in 0..1_u32 << (8 * length) {
            each(&number.to_be_bytes()[4 - length as usize..]);
        }
    }
    for length in 4..=6_usize {
        let mut digits = vec![0; length];
        loop {
            let bytes = digits
                .iter()
                .map(|&digit| ALPHABET[digit])
                .collect::<Vec<_>>();
            each(&bytes);
            let Some(place) = digits.iter().rposition(|&digit| digit + 1 < ALPHABET.len()) else {
                break;
            };
            digits[place] += 1;
            digits[place + 1..].fill(0);
        }
    }
}
