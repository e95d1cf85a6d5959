//! False joints of sheets before and after the last shift, and what the binding says of that shift,
//! against the sheet before it, which only the oracle has.

use bundle_stage::{Answer, Board, FalseJoint, Meeting, Node, Segment, Sheet, Shift};
use jobs::families::FAMILIES;
use jobs::mutations::Mutations;

/// What was found on the accepted jobs of a family.
#[derive(Clone, Copy, Debug, Default)]
pub struct Found {
    pub jobs: u64,
    pub accepted: u64,
    /// With crossings forbidden, so that joints are looked at.
    pub looked_at: u64,
    /// Sheets whose answer has a false joint: what the rounding of the shift has made.
    pub with_false_joints: u64,
    /// One of those, and the place of its job.
    pub one: Option<(u64, FalseJoint)>,
    /// Axes, two a sheet, by what the binding says: nothing, exact, rounded, not known.
    pub said: [u64; 4],
    /// Of those not known, how many are exact.
    pub exact_unknown: u64,
}

/// Prints a table of `count` jobs of each family and of mutated ones. True where nothing is wrong.
pub fn joints(seed: u64, count: u64) -> bool {
    println!(
        "{:12} {:>8} {:>8} {:>9} {:>6}   axes: {:>8} {:>8} {:>8} {:>9} (exact)",
        "family",
        "jobs",
        "accepted",
        "looked at",
        "false",
        "nothing",
        "exact",
        "rounded",
        "not known"
    );
    let mut mutations = Mutations::new(seed);
    let mutated = (
        "mutated",
        of_jobs((0..count).map(|index| mutations.job(index))),
    );
    let families = FAMILIES.iter().map(|family| {
        let jobs = (0..count.min(family.count)).map(|index| family.job(seed, index));
        (family.name, of_jobs(jobs))
    });
    let mut well = true;
    for (name, found) in families.chain([mutated]) {
        match found {
            Ok(found) => row(name, &found),
            Err(message) => {
                println!("{name}, seed {seed}: {message}");
                well = false;
            }
        }
    }
    well
}

fn row(name: &str, found: &Found) {
    let [nothing, exact, rounded, not_known] = found.said;
    println!(
        "{name:12} {:>8} {:>8} {:>9} {:>6}         {nothing:>8} {exact:>8} {rounded:>8} \
         {not_known:>9} ({})",
        found.jobs, found.accepted, found.looked_at, found.with_false_joints, found.exact_unknown
    );
    if let Some((place, joint)) = found.one {
        println!("  false in job {place}: {joint:?}");
    }
}

/// Looks at all of them, or says at which job something is wrong.
pub fn of_jobs(jobs: impl Iterator<Item = Vec<u8>>) -> Result<Found, String> {
    let mut found = Found::default();
    for (index, job) in jobs.enumerate() {
        found.jobs += 1;
        let answer = Answer::from_bytes(&bundle_stage::answer(&job));
        let before = Answer::from_bytes(&oracle::stage::answer_before_shift(&job));
        match (answer, before) {
            (Ok(Answer::Drawn(sheet)), Ok(Answer::Drawn(before))) => {
                let board = Board::from_bytes(&job).map_err(|error| error.to_string())?;
                let looked = look(&board, &before, &sheet, &mut found);
                looked.map_err(|message| format!("job {index}: {message}"))?;
            }
            (Ok(Answer::Refused(ours)), Ok(Answer::Refused(theirs))) if ours == theirs => {}
            other => return Err(format!("job {index}: {other:?}")),
        }
    }
    Ok(found)
}

/// One accepted job.
fn look(board: &Board, before: &Sheet, after: &Sheet, found: &mut Found) -> Result<(), String> {
    found.accepted += 1;
    let shift = after.last_shift(board);
    let axes = [
        (shift.x, axis(board, before, after, X)),
        (shift.y, axis(board, before, after, Y)),
    ];
    for (said, truth) in axes {
        count(said, truth, found)?;
    }
    let Some(joints) = after.false_joints(board) else {
        return Ok(());
    };
    found.looked_at += 1;
    if let Some(joint) = joints.first() {
        found.with_false_joints += 1;
        found.one.get_or_insert((found.jobs - 1, *joint));
    }
    // Demand 3 of the sheet before the shift.
    match before.false_joints(board) {
        Some(joints) if joints.is_empty() => {}
        other => return Err(format!("before the shift: {other:?}")),
    }
    // And of the answer, where the shift is exact.
    let lines = axes.iter().all(|(_, truth)| truth.lines);
    let nodes = lines && axes.iter().all(|(_, truth)| truth.nodes);
    let in_node = |meeting: Meeting| matches!(meeting, Meeting::Node { .. });
    let wrong = joints
        .iter()
        .find(|joint| if in_node(joint.meeting) { nodes } else { lines });
    match wrong {
        Some(joint) => Err(format!("the shift is exact, and there is {joint:?}")),
        None => Ok(()),
    }
}

/// What is said of the shift along an axis, against what it is.
fn count(said: Shift, truth: Truth, found: &mut Found) -> Result<(), String> {
    let exact = truth.lines && truth.nodes;
    found.said[said as usize] += 1;
    found.exact_unknown += u64::from(said == Shift::NotKnown && exact);
    let right = match said {
        Shift::Nothing => truth.nothing,
        Shift::Exact => exact,
        Shift::Rounded => !exact,
        Shift::NotKnown => !truth.nothing || !truth.known_zero,
        _ => false,
    };
    match right {
        true => Ok(()),
        false => Err(format!("{said:?} is said of a shift that is {truth:?}")),
    }
}

type Axis = (fn(bundle_stage::Point) -> f64, fn(&Node) -> (f64, f64));
const X: Axis = (|point| point.x, |node| (node.x, node.width));
const Y: Axis = (|point| point.y, |node| (node.y, node.height));

/// The shift along an axis.
#[derive(Clone, Copy, Debug)]
struct Truth {
    /// The least coordinate is 0.
    nothing: bool,
    /// The differences of routes, collectors, spines and taps are exact.
    lines: bool,
    /// Those of node corners are, and those of far sides, summed anew.
    nodes: bool,
    /// A node stands at 0 before the shift or after it.
    known_zero: bool,
}

fn axis(board: &Board, before: &Sheet, after: &Sheet, (of, part): Axis) -> Truth {
    let numbers = |sheet: &Sheet| lines(sheet).into_iter().map(of).collect::<Vec<_>>();
    let nodes = |sheet: &Sheet| {
        let placed = board.nodes.iter().zip(&sheet.nodes);
        let placed = placed.map(|(node, at)| Node {
            x: at.x,
            y: at.y,
            ..*node
        });
        placed.map(|node| part(&node)).collect::<Vec<_>>()
    };
    let (lines, moved) = (numbers(before), numbers(after));
    let (corners, placed) = (nodes(before), nodes(after));
    let all = lines.iter().chain(corners.iter().map(|(corner, _)| corner));
    let least = all.copied().fold(0.0, f64::min);
    let node = |((a, size), (b, _)): (&(f64, f64), &(f64, f64))| {
        exactly(*a, least, *b) && exactly(a + size, least, b + size)
    };
    Truth {
        nothing: least == 0.0,
        lines: lines
            .iter()
            .zip(&moved)
            .all(|(a, b)| exactly(*a, least, *b)),
        nodes: corners.iter().zip(&placed).all(node),
        known_zero: corners
            .iter()
            .chain(&placed)
            .any(|(corner, _)| *corner == 0.0),
    }
}

fn lines(sheet: &Sheet) -> Vec<bundle_stage::Point> {
    let mut points = Vec::new();
    for route in &sheet.routes {
        points.extend(&route.points);
    }
    for bundle in &sheet.bundles {
        for Segment { start, end } in [bundle.collector, bundle.spine] {
            points.extend([start, end]);
        }
        points.extend(bundle.taps.iter().map(|tap| tap.point));
    }
    points
}

/// Whether `before` less `least` is `after`, nothing being rounded. No number is below `least`, which
/// is not above 0.
fn exactly(before: f64, least: f64, after: f64) -> bool {
    if before < 0.0 {
        sum(after, -before) == fixed(-least)
    } else {
        sum(before, -least) == fixed(after)
    }
}

/// A number from 0 up to 2^60 in binary, from the least bit of the format on.
type Fixed = [u64; 18];

fn fixed(number: f64) -> Fixed {
    let bits = number.abs().to_bits();
    let (power, rest) = ((bits >> 52) as usize, bits & ((1 << 52) - 1));
    let mantissa = if power == 0 { rest } else { rest | 1 << 52 };
    let (word, by) = (power.max(1) / 64, power.max(1) % 64);
    let wide = u128::from(mantissa) << by;
    let mut fixed = [0; 18];
    fixed[word] = wide as u64;
    fixed[word + 1] = (wide >> 64) as u64;
    fixed
}

fn sum(a: f64, b: f64) -> Fixed {
    let mut carry = false;
    let (a, b) = (fixed(a), fixed(b));
    std::array::from_fn(|place| {
        let (one, over) = a[place].overflowing_add(b[place]);
        let (all, more) = one.overflowing_add(u64::from(carry));
        carry = over || more;
        all
    })
}
