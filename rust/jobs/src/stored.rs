//! The stored answers: which jobs and cases are kept, and the files that hold them.

use std::collections::{BTreeMap, BTreeSet};
use std::fmt::Write as _;
use std::fs;
use std::path::Path;

use oracle::calls::{call, op};
use oracle::wire::Writer;

use crate::cases;
use crate::families::family;
use crate::numbers::{fields, has_minus_zero, search_fields};
use crate::survey::{Shown, lone_without_x, look, marks};

const SEED: u64 = 1;

/// What a stored job is to show: the first `count` jobs of the family that fit are kept.
struct Wanted {
    shows: &'static str,
    family: &'static str,
    count: usize,
    most_bytes: usize,
    fits: fn(&Shown, &[u8]) -> bool,
}

fn accepted(shown: &Shown) -> bool {
    shown.number == 0 && shown.bundles > 0
}

/// The number that the job gets with one flag bit turned.
fn turned(job: &[u8], bit: u8) -> Vec<u8> {
    let mut job = job.to_vec();
    job[5] ^= bit;
    oracle::answer_of(&job)
}

/// A number is 2^20 or minus 2^20.
fn has_grid_limit(job: &[u8]) -> bool {
    let limit = 1_048_576.0_f64.to_bits();
    fields(job)
        .iter()
        .any(|field| field.bits(job) & !(1 << 63) == limit)
}

macro_rules! wanted {
    ($($shows:literal, $family:literal, $count:literal, $most:literal, $fits:expr;)*) => {
        &[$(Wanted {
            shows: $shows,
            family: $family,
            count: $count,
            most_bytes: $most,
            fits: $fits,
        }),*]
    };
}

const WANTED: &[Wanted] = wanted! {
    "number 1", "truncated", 6, 400, |shown, _| shown.number == 1;
    "number 4", "truncated", 8, 400, |shown, _| shown.number == 4;
    "number 1", "damaged", 3, 600, |shown, _| shown.number == 1;
    "number 3", "damaged", 4, 600, |shown, _| shown.number == 3;
    "number 4", "damaged", 6, 600, |shown, _| shown.number == 4;
    "number 5", "limits", 8, 600, |shown, _| shown.number == 5;
    "number 5", "damaged", 6, 600, |shown, _| shown.number == 5;
    "number 6", "damaged", 6, 600, |shown, _| shown.number == 6;
    "number 7", "damaged", 12, 600, |shown, _| shown.number == 7;
    "number 8", "damaged", 12, 700, |shown, _| shown.number == 8;
    "number 9", "damaged", 12, 700, |shown, _| shown.number == 9;
    "number 10", "small", 3, 700, |shown, _| shown.number == 10;
    "number 10", "random", 3, 400, |shown, _| shown.number == 10;
    "number 10", "degenerate", 3, 500, |shown, _| shown.number == 10;
    "number 11", "small", 4, 700, |shown, _| shown.number == 11;
    "number 11", "random", 3, 400, |shown, _| shown.number == 11;
    "number 11", "adversarial", 3, 600, |shown, _| shown.number == 11;
    "number 12", "small", 3, 800, |shown, _| shown.number == 12;
    "number 12", "random", 3, 500, |shown, _| shown.number == 12;
    "number 12", "adversarial", 3, 600, |shown, _| shown.number == 12;
    "number 13", "clamp", 8, 400, |shown, _| shown.number == 13;
    "number 14", "grants", 8, 600, |shown, _| shown.number == 14;
    "Input interior", "small", 6, 500, |shown, _| accepted(shown) && shown.drawn[1] > 0;
    "Output interior", "small", 6, 500, |shown, _| accepted(shown) && shown.drawn[3] > 0;
    "Input rail", "small", 4, 500, |shown, _| accepted(shown) && shown.drawn[0] > 0;
    "Output rail", "small", 4, 500, |shown, _| accepted(shown) && shown.drawn[2] > 0;
    "chain, both interior", "small", 6, 600, |shown, _| {
        accepted(shown) && shown.events[0] > 0 && shown.drawn[1] > 0 && shown.drawn[3] > 0
    };
    "split without limit", "small", 5, 700, |shown, _| {
        accepted(shown) && shown.events[2] > 0 && shown.events[3] == 0
    };
    "chain without split", "small", 2, 800, |shown, _| {
        accepted(shown) && shown.events[0] > 0 && shown.events[2] == 0
    };
    "limit", "small", 5, 600, |shown, _| accepted(shown) && shown.events[3] > 0;
    "limit", "narrow", 5, 600, |shown, _| accepted(shown) && shown.events[3] > 0;
    "given up", "narrow", 4, 600, |shown, _| accepted(shown) && shown.events[1] > 0;
    "separation", "small", 6, 900, |shown, _| accepted(shown) && shown.events[4] > 0;
    "separation changes the answer", "small", 4, 900, |shown, job| {
        accepted(shown) && shown.separate && turned(job, 1) != oracle::answer_of(job)
    };
    "accepted only as crossings are permitted", "small", 5, 900, |shown, job| {
        accepted(shown) && shown.crossings && oracle::number(&turned(job, 2)) == 11
    };
    "one bundle, no common x, sufficient grant", "nothing", 6, 700, |shown, _| {
        lone_without_x(shown)
    };
    "one bundle, no common x, sufficient grant", "small", 2, 900, |shown, _| {
        lone_without_x(shown)
    };
    "tap visits spent", "grants", 8, 600, |shown, _| accepted(shown) && shown.spent > 0;
    "grants", "grants", 12, 600, |shown, _| accepted(shown);
    "planned, yet mark 0", "small", 4, 900, |shown, _| accepted(shown) && shown.fallen > 0;
    "planned, yet mark 0", "adversarial", 4, 900, |shown, _| accepted(shown) && shown.fallen > 0;
    "mark 1 without a planned x", "degenerate", 4, 600, |shown, _| {
        accepted(shown) && shown.unplanned > 0
    };
    "accepted", "grid", 10, 500, |shown, _| accepted(shown) && shown.on_grid;
    "on the grid, split", "grid", 4, 700, |shown, _| {
        accepted(shown) && shown.on_grid && shown.events[2] > 0
    };
    "on the grid, separation", "grid", 4, 900, |shown, _| {
        accepted(shown) && shown.on_grid && shown.events[4] > 0
    };
    "on the grid, refused by the drawing", "grid", 4, 600, |shown, _| {
        matches!(shown.number, 10..=12) && shown.on_grid
    };
    "number 15", "off_grid", 12, 600, |shown, _| shown.number == 15;
    "number 15, on its own", "off_grid", 6, 600, |shown, job| {
        shown.number == 15 && oracle::number(&turned(job, 4)) == 0
    };
    "at the grid's limit", "off_grid", 6, 600, |shown, job| {
        accepted(shown) && shown.on_grid && has_grid_limit(job)
    };
    "bit 2 and number 7", "off_grid", 4, 600, |shown, job| shown.number == 7 && job[5] & 4 != 0;
    "accepted", "random", 8, 400, |shown, _| accepted(shown);
    "accepted", "adversarial", 16, 500, |shown, _| accepted(shown);
    "accepted", "degenerate", 12, 500, |shown, _| accepted(shown);
    "accepted", "clamp", 4, 400, |shown, _| accepted(shown);
    "accepted", "realistic", 3, 2000, |shown, _| accepted(shown) && shown.bundles > 3;
    "minus zero in an option", "zeros", 4, 600, |shown, _| accepted(shown) && shown.minus_zeros[0];
    "minus zero as a coordinate", "zeros", 6, 600, |shown, _| {
        accepted(shown) && shown.minus_zeros[1]
    };
    "minus zero as a size", "zeros", 4, 600, |shown, _| accepted(shown) && shown.minus_zeros[2];
    "minus zero as an offset", "zeros", 4, 600, |shown, _| accepted(shown) && shown.minus_zeros[3];
    "minus zeros, number 8 or 9", "zeros", 3, 700, |shown, _| {
        matches!(shown.number, 8 | 9) && shown.minus_zeros.contains(&true)
    };
    "minus zeros, refused by the drawing", "zeros", 6, 600, |shown, _| {
        matches!(shown.number, 10..=12) && shown.minus_zeros.contains(&true)
    };
};

/// Jobs that are written here byte by byte.
fn literal() -> Vec<(&'static str, Vec<u8>)> {
    let mut empty = vec![0, 0, 0, 0x3a, 1, 0];
    empty.extend([0; 56]);
    let with = |at: usize, value: u8| {
        let mut job = empty.clone();
        job[at] = value;
        job
    };
    vec![
        ("no bytes", vec![]),
        ("four bytes", vec![0, 0, 0, 0]),
        ("length one more than follows", vec![0, 0, 0, 2, 1]),
        ("version 0, nothing else", vec![0, 0, 0, 1, 0]),
        ("version 1, nothing else", vec![0, 0, 0, 1, 1]),
        ("flags not listed, nothing else", vec![0, 0, 0, 2, 1, 8]),
        ("flags, nothing else", vec![0, 0, 0, 2, 1, 7]),
        ("the empty job", empty.clone()),
        ("the empty job, bit 0", with(5, 1)),
        ("the empty job, bit 1", with(5, 2)),
        ("the empty job, both bits", with(5, 3)),
        ("the empty job, bit 2", with(5, 4)),
        ("the empty job, all bits", with(5, 7)),
        ("the empty job, version 2", with(4, 2)),
        ("the empty job with a byte more", {
            let mut job = with(3, 0x3b);
            job.push(0);
            job
        }),
    ]
}

/// How many cases of a kind are kept for one operation and outcome, and how long they may be.
struct Quota {
    kind: &'static str,
    each: usize,
    most_bytes: usize,
    tries: u64,
}

/// Classes of which fewer are kept.
const FULL: &str = "op 22 32 kept";
const MINUS_ZERO: &str = "minus zero";

impl Quota {
    /// How many cases of a class are kept.
    fn most(&self, class: &str) -> usize {
        if class == FULL {
            4
        } else if class.ends_with(MINUS_ZERO) {
            8
        } else {
            self.each
        }
    }
}

const QUOTAS: [Quota; 9] = [
    Quota {
        kind: "leaves",
        each: 20,
        most_bytes: 200,
        tries: 8_000,
    },
    Quota {
        kind: "contacts",
        each: 20,
        most_bytes: 200,
        tries: 8_000,
    },
    Quota {
        kind: "contact-grid",
        each: 20,
        most_bytes: 200,
        tries: 8_000,
    },
    Quota {
        kind: "routes",
        each: 18,
        most_bytes: 160,
        tries: 8_000,
    },
    Quota {
        kind: "search",
        each: 24,
        most_bytes: 360,
        tries: 8_000,
    },
    Quota {
        kind: "read",
        each: 14,
        most_bytes: 560,
        tries: 40_000,
    },
    Quota {
        kind: "plans",
        each: 16,
        most_bytes: 900,
        tries: 20_000,
    },
    Quota {
        kind: "ranges",
        each: 16,
        most_bytes: 600,
        tries: 8_000,
    },
    Quota {
        kind: "sheets",
        each: 20,
        most_bytes: 700,
        tries: 20_000,
    },
];

/// The classes of a case: it is kept as long as one of them has room.
fn classes(record: &[u8], result: &[u8]) -> Vec<String> {
    let operation = record[0];
    let numeric = matches!(
        operation,
        op::PORT_POINT | op::PITCH_AND_RAIL | op::NUMBERS | op::PUSH_POINT | op::PUSH_ALL
    );
    let tag = if numeric { 0 } else { result[0] };
    match operation {
        op::PLANNING => plan_classes(&record[1..]),
        op::SHEET if tag == 0 => sheet_classes(&record[1..], &result[7..]),
        op::SEARCH..=op::PROMOTION if has_minus_zero(record, &search_fields(record)) => {
            vec![format!("tag {tag}"), format!("tag {tag}, {MINUS_ZERO}")]
        }
        _ => vec![format!("tag {tag}")],
    }
    .into_iter()
    .map(|class| format!("op {operation:02x} {class}"))
    .collect()
}

/// The roles and marks of an accepted sheet; its plan need not be the Rust's.
fn sheet_classes(record: &[u8], answer: &[u8]) -> Vec<String> {
    let length = u32::from_be_bytes(record[..4].try_into().expect("four bytes")) as usize;
    let job = oracle::job::read(&record[..length + 4]).expect("an accepted job");
    let marks = marks(answer, job.bundles.len()).expect("a whole sheet");
    let mut shown = Shown::default();
    for (bundle, mark) in job.bundles.iter().zip(marks) {
        shown.drawn[usize::from(bundle.role * 2 + mark)] += 1;
    }
    let mut list = drawn_classes(&shown);
    list.push("accepted".to_string());
    list
}

fn plan_classes(job: &[u8]) -> Vec<String> {
    let (_, shown) = look(job);
    let mut list = Vec::new();
    for (name, count) in ["chain", "given up", "split", "limit", "separation"]
        .iter()
        .zip(shown.events)
    {
        if count > 0 {
            list.push((*name).to_string());
        }
    }
    if shown.nothing > 0 {
        list.push("nothing common".to_string());
    }
    if shown.spent > 0 {
        list.push("spent".to_string());
    }
    if shown.number == 13 {
        list.push("13".to_string());
    }
    list.extend(drawn_classes(&shown));
    if list.is_empty() {
        list.push("other".to_string());
    }
    list
}

fn drawn_classes(shown: &Shown) -> Vec<String> {
    let names = [
        "Input rail",
        "Input interior",
        "Output rail",
        "Output interior",
    ];
    names
        .iter()
        .zip(shown.drawn)
        .filter(|&(_, count)| count > 0)
        .map(|(name, _)| (*name).to_string())
        .collect()
}

/// Every stored file by name.
fn files() -> BTreeMap<String, Vec<u8>> {
    let mut files = BTreeMap::new();
    let (pairs, index) = stored_jobs();
    files.insert("jobs.bin".to_string(), pairs);
    files.insert("jobs.txt".to_string(), index.into_bytes());
    files.insert("largest.bin".to_string(), largest());
    let mut index = String::from("kind index bytes result-bytes what it shows\n");
    for quota in &QUOTAS {
        let (input, output) = stored_cases(quota, &mut index);
        files.insert(format!("{}.in", quota.kind), input);
        files.insert(format!("{}.out", quota.kind), output);
    }
    files.insert("cases.txt".to_string(), index.into_bytes());
    files
}

fn stored_jobs() -> (Vec<u8>, String) {
    let mut pairs = Writer::new();
    let mut index = String::from(
        "place family seed index bytes answer-bytes number flags marks what it shows\n",
    );
    let mut place = 0;
    let mut seen = BTreeSet::new();
    let mut keep = |origin: String, job: &[u8], shows: &str| {
        if !seen.insert(job.to_vec()) {
            return false;
        }
        let (answer, shown) = look(job);
        let flags = u8::from(shown.separate)
            | u8::from(shown.crossings) << 1
            | u8::from(shown.on_grid) << 2;
        let [in_rail, in_interior, out_rail, out_interior] = shown.drawn;
        writeln!(
            index,
            "{place} {origin} {} {} {} {flags} {in_interior}I{in_rail}R/{out_interior}I{out_rail}R {shows}",
            job.len(),
            answer.len(),
            shown.number,
        )
        .expect("text");
        pairs.record(job);
        pairs.record(&answer);
        place += 1;
        true
    };
    for (shows, job) in literal() {
        keep("literal - -".to_string(), &job, shows);
    }
    for wanted in WANTED {
        let family = family(wanted.family).expect("a family");
        let mut left = wanted.count;
        for place in 0..family.count {
            if left == 0 {
                break;
            }
            // Scattered, so that families that count up are not met at their start only.
            let place = place * 7_919 % family.count;
            let job = family.job(SEED, place);
            if job.len() > wanted.most_bytes {
                continue;
            }
            let (_, shown) = look(&job);
            if (wanted.fits)(&shown, &job) {
                let origin = format!("{} {SEED} {place}", wanted.family);
                left -= usize::from(keep(origin, &job, wanted.shows));
            }
        }
    }
    (pairs.bytes, index)
}

/// One accepted job with every count at its limit, and its answer.
fn largest() -> Vec<u8> {
    let family = family("largest").expect("a family");
    let mut pair = Writer::new();
    let job = (0..family.count)
        .map(|index| family.job(SEED, index))
        .find(|job| {
            let (_, shown) = look(job);
            accepted(&shown) && shown.events[2] > 0
        })
        .expect("a chain among the largest");
    pair.record(&job);
    pair.record(&oracle::answer_of(&job));
    pair.bytes
}

/// Promotion candidates of which the limit of 32 cuts some off, or none just so.
fn is_full(record: &[u8]) -> bool {
    record[0] == op::PROMOTION
        && call(record).is_ok_and(|result| result[0] == 1 && result[5..7] == [0, 32])
}

fn stored_cases(quota: &Quota, index: &mut String) -> (Vec<u8>, Vec<u8>) {
    let kind = cases::kind(quota.kind).expect("a kind");
    let (mut input, mut output) = (Writer::new(), Writer::new());
    let mut room = BTreeMap::<String, usize>::new();
    for place in 0..quota.tries {
        let record = kind.record(SEED, place);
        let full = is_full(&record);
        if record.len() > quota.most_bytes && !full {
            continue;
        }
        let result = call(&record).expect("a call");
        let classes = if full {
            vec![FULL.to_string()]
        } else {
            classes(&record, &result)
        };
        let new = classes
            .iter()
            .any(|class| room.get(class).is_none_or(|&kept| kept < quota.most(class)));
        if !new {
            continue;
        }
        writeln!(
            index,
            "{} {place} {} {} {}",
            quota.kind,
            record.len(),
            result.len(),
            classes.join(", ")
        )
        .expect("text");
        for class in classes {
            *room.entry(class).or_default() += 1;
        }
        input.record(&record);
        output.record(&result);
    }
    (input.bytes, output.bytes)
}

pub fn write(folder: &Path) -> Result<(), String> {
    fs::create_dir_all(folder).map_err(|error| format!("{}: {error}", folder.display()))?;
    for (name, bytes) in files() {
        let path = folder.join(&name);
        fs::write(&path, &bytes).map_err(|error| format!("{}: {error}", path.display()))?;
        println!("{name}: {} bytes", bytes.len());
    }
    Ok(())
}

/// True where every file is there and unchanged.
pub fn check(folder: &Path) -> Result<bool, String> {
    let mut unchanged = true;
    for (name, bytes) in files() {
        let path = folder.join(&name);
        let there = fs::read(&path).map_err(|error| format!("{}: {error}", path.display()))?;
        let same = there == bytes;
        println!("{name}: {}", if same { "unchanged" } else { "DIFFERENT" });
        unchanged &= same;
    }
    Ok(unchanged)
}
