//! The jobs that are measured, by name; each is fixed by its name and the seed.

use jobs::draft::{Draft, DraftBundle, EAST, INPUT, OUTPUT, Scale, WEST};
use jobs::families;

/// Jobs that are measured together.
pub struct Set {
    pub name: &'static str,
    pub jobs: Vec<Vec<u8>>,
}

pub const NAMES: [&str; 6] = [
    "empty",
    "small",
    "realistic",
    "largest",
    "search",
    "contacts",
];

/// Members and runs a member of the search that pays nearly all of 2,000,000 tap visits.
const SEARCH: (i64, i64) = (32, 62);
/// Members a bundle and bundles without any of the contact check that pays the most.
const CONTACTS: (i64, i64) = (64, 28);

/// The set of that name.
pub fn set(name: &str, seed: u64) -> Option<Set> {
    let name = *NAMES.iter().find(|&&known| known == name)?;
    let jobs = match name {
        "empty" => vec![Draft::default().job(&Scale::ONE).encode()],
        "search" => vec![search(SEARCH.0, SEARCH.1)],
        "contacts" => vec![contacts(CONTACTS.0, CONTACTS.1)],
        "largest" => accepted(name, seed, 10),
        _ => accepted(name, seed, 100),
    };
    Some(Set { name, jobs })
}

/// The first `wanted` jobs of a family that are accepted.
fn accepted(family: &str, seed: u64, wanted: usize) -> Vec<Vec<u8>> {
    let family = families::family(family).expect("a family");
    (0..)
        .map(|index| family.job(seed, index))
        .filter(|job| oracle::number(&oracle::answer_of(job)) == 0)
        .take(wanted)
        .collect()
}

/// Searches of growing size, so that time shows against tap visits.
pub fn searches() -> Vec<Vec<u8>> {
    [2, 4, 8, 12, 16, 20, 24, 28]
        .into_iter()
        .map(|members| search(members, SEARCH.1))
        .chain([search(SEARCH.0, SEARCH.1)])
        .collect()
}

/// Contact checks of growing size, so that time shows against geometry visits.
pub fn contact_checks() -> Vec<Vec<u8>> {
    [
        (1, 0),
        (4, 2),
        (8, 6),
        (16, 10),
        (24, 14),
        (32, 20),
        (48, 24),
    ]
    .into_iter()
    .chain([CONTACTS])
    .map(|(members, alone)| contacts(members, alone))
    .collect()
}

/// One Input bundle whose members have many runs each, so that nearly all visits are the search's:
/// every stretch gives another candidate, and most are found in every member.
fn search(members: i64, runs: i64) -> Vec<u8> {
    let mut draft = Draft {
        gap: 1,
        ..Draft::default()
    };
    let left = draft.node(-200, -10, 100, 20);
    let right = draft.node(5_000, -10, 100, 20);
    let source = draft.port_at(left, EAST, 0);
    let target = draft.port_at(right, WEST, 0);
    let edges = (0..members)
        .map(|member| {
            let points = (0..=runs).map(|run| (64 * run + member, 40 * member));
            draft.edge(source, target, points.collect())
        })
        .collect::<Vec<_>>();
    draft
        .bundles
        .push(bundle(source, INPUT, members as u32, &edges));
    draft.job(&Scale::ONE).encode()
}

/// Chains whose searches sort nearly 2,000 numbers and yet pay few visits: a member with one short run, at
/// which most numbers fail, stands before those with many. Collectors are separated or not.
pub fn chains() -> [Vec<u8>; 2] {
    [false, true].map(|separate| {
        let mut draft = Draft {
            gap: 1,
            separate,
            ..Draft::default()
        };
        let left = draft.node(-200, -10, 100, 20);
        let right = draft.node(5_000, -10, 100, 20);
        let source = draft.port_at(left, EAST, 0);
        let target = draft.port_at(right, WEST, 0);
        let mut edges = vec![draft.edge(source, target, vec![(1_000, -40), (1_400, -40)])];
        for member in 0..31 {
            let points = (0..=SEARCH.1).map(|run| (64 * run + member, 40 * member));
            edges.push(draft.edge(source, target, points.collect()));
        }
        for (port, role) in [(source, INPUT), (target, OUTPUT)] {
            let width = edges.len() as u32;
            draft.bundles.push(bundle(port, role, width, &edges));
        }
        draft.job(&Scale::ONE).encode()
    })
}

/// Two Input and two Output bundles at the rail, each with `members` members, the same for both
/// roles, and before them `alone` bundles without any, which every changed route is checked
/// against. A route of 16 points bends where no bundle is. There are no foreign nodes, so that
/// every geometry visit is the contact check's; the grant is what is paid, so that none is left.
fn contacts(members: i64, alone: i64) -> Vec<u8> {
    const RIGHT: i64 = 5_000;
    const GAP: i64 = 4;
    let mut draft = Draft {
        stub: 10,
        gap: GAP,
        ..Draft::default()
    };
    let left = draft.node(-20, -1_000, 20, 3_000);
    let right = draft.node(RIGHT, -1_000, 20, 3_000);
    for place in 0..alone {
        let port = draft.port_at(left, EAST, -500 - 10 * place);
        draft.bundles.push(bundle(port, INPUT, 0, &[]));
    }
    for half in 0..2 {
        let middle = 600 * half;
        let source = draft.port_at(left, EAST, middle);
        let target = draft.port_at(right, WEST, middle + 1);
        // A route starts and ends at its taps' heights.
        let top = middle - GAP * (members - 1) / 2;
        let edges = (0..members)
            .map(|lane| draft.edge(source, target, bends(RIGHT, top + GAP * lane)))
            .collect::<Vec<_>>();
        for (port, role) in [(source, INPUT), (target, OUTPUT)] {
            // Of width 1, so that no collector is searched for.
            draft.bundles.push(bundle(port, role, 1, &edges));
        }
    }
    let mut job = draft.job(&Scale::ONE);
    let (_, paid) = families::paid(&job).expect("an accepted job");
    job.geometry_visits = paid;
    job.encode()
}

/// A level route with seven bends in its middle, the last one down to y + 1: 16 points.
fn bends(right: i64, y: i64) -> Vec<(i64, i64)> {
    let bend = |place: i64| {
        let x = 2_000 + 100 * place;
        let (before, after) = if place % 2 == 0 {
            (y, y + 1)
        } else {
            (y + 1, y)
        };
        [(x, before), (x, after)]
    };
    [(0, y)]
        .into_iter()
        .chain((0..7).flat_map(bend))
        .chain([(right, y + 1)])
        .collect()
}

fn bundle(port: usize, role: u8, width: u32, edges: &[usize]) -> DraftBundle {
    DraftBundle {
        port,
        role,
        width,
        members: edges.iter().copied().zip(0..).collect(),
    }
}
