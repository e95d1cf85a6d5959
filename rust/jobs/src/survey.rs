//! What a job shows: its number, the marks of its bundles, what its plan came to. Tables of these.

use std::collections::BTreeMap;

use oracle::calls::{call, op};
use oracle::job;
use oracle::wire::{Reader, Short};

use crate::cases::{KINDS, planned};
use crate::families::{FAMILIES, every_short};
use crate::numbers;

/// What one job shows.
#[derive(Clone, Debug, Default)]
pub struct Shown {
    pub number: u8,
    pub separate: bool,
    pub crossings: bool,
    pub on_grid: bool,
    /// Bundles drawn, by role and mark: Input rail, Input interior, Output rail, Output interior.
    pub drawn: [u32; 4],
    /// Components with both roles, of these given up, splits, input limits, separations.
    pub events: [u32; 5],
    /// Bundles with a planned x but mark 0, and with mark 1 but no planned x.
    pub fallen: u32,
    pub unplanned: u32,
    /// First searches with bounds present that found nothing, and those spent.
    pub nothing: u32,
    pub spent: u32,
    /// The tap grant is at least the sum of n * (n + 2).
    pub sufficient: bool,
    pub bundles: usize,
    /// There is a minus zero in a field of each kind of `numbers::KINDS`.
    pub minus_zeros: [bool; NUMBER_KINDS],
}

const NUMBER_KINDS: usize = numbers::KINDS.len();

/// The job's answer and what the two show.
pub fn look(bytes: &[u8]) -> (Vec<u8>, Shown) {
    let answer = oracle::answer_of(bytes);
    let mut shown = Shown {
        number: oracle::number(&answer),
        minus_zeros: minus_zeros(bytes),
        ..Shown::default()
    };
    if let Ok(job) = job::read(bytes) {
        shown.separate = job.separate;
        shown.crossings = job.crossings;
        shown.on_grid = job.on_grid;
        shown.bundles = job.bundles.len();
        let roles = job
            .bundles
            .iter()
            .map(|bundle| bundle.role)
            .collect::<Vec<_>>();
        if shown.number == 0 {
            let marks = marks(&answer, roles.len()).expect("the answer is whole");
            let planned = planned(&job).expect("the job is accepted");
            for ((&role, &mark), planned) in roles.iter().zip(&marks).zip(planned) {
                shown.drawn[usize::from(role * 2 + mark)] += 1;
                shown.fallen += u32::from(planned.is_some() && mark == 0);
                shown.unplanned += u32::from(planned.is_none() && mark == 1);
            }
        }
        plan_events(bytes, job.tap_visits, &mut shown).expect("the results are whole");
    }
    (answer, shown)
}

fn minus_zeros(job: &[u8]) -> [bool; NUMBER_KINDS] {
    let fields = numbers::fields(job);
    numbers::KINDS.map(|kind| numbers::minus_zeros(job, &fields).any(|field| field.kind == kind))
}

/// The interior marks of an answer.
pub fn marks(answer: &[u8], bundles: usize) -> Result<Vec<u8>, Short> {
    let mut marks = Vec::new();
    let mut from = Reader::new(answer);
    from.take(30)?;
    let (nodes, routes) = (from.u16()?, from.u16()?);
    from.take(2 + usize::from(nodes) * 20)?;
    for _ in 0..routes {
        from.u32()?;
        let points = from.u16()?;
        from.take(usize::from(points) * 16)?;
    }
    for _ in 0..bundles {
        from.u32()?;
        marks.push(from.u8()?);
        from.take(64)?;
        let taps = from.u16()?;
        from.take(usize::from(taps) * 20)?;
    }
    Ok(marks)
}

fn result(operation: u8, before: &[u8], job: &[u8]) -> Vec<u8> {
    let record = [&[operation], before, job].concat();
    call(&record).expect("a call on a job")
}

fn plan_events(job: &[u8], grant: u32, shown: &mut Shown) -> Result<(), Short> {
    let events = result(op::EVENTS, &[], job);
    let mut from = Reader::new(&events);
    if from.u8()? == 0 {
        for count in &mut shown.events {
            *count = u32::from(from.u16()?);
        }
        let sufficient = result(op::SUFFICIENT, &[], job);
        let mut from = Reader::new(&sufficient);
        from.take(5)?;
        let sum = u64::from(from.u32()?) << 32 | u64::from(from.u32()?);
        shown.sufficient = u64::from(grant) >= sum;
    }
    let ranges = result(op::RANGES, &[0; 18], job);
    let mut from = Reader::new(&ranges);
    from.u8()?;
    for _ in 0..from.u16()? {
        match from.u8()? {
            0 => shown.nothing += 1,
            1 => {
                from.take(24)?;
            }
            2 => shown.spent += 1,
            _ => {}
        }
    }
    Ok(())
}

/// The numbers from 0, accepted, to the last refusal that there is.
pub const NUMBERS: usize = 16;

/// Counts of a family, or of all.
#[derive(Clone, Debug, Default)]
struct Tally {
    jobs: u64,
    numbers: [u64; NUMBERS],
    features: [u64; FEATURES.len()],
}

/// Where the features begin that count accepted jobs with a minus zero, by kind of field.
const MINUS_ZEROS: usize = 17;
const FEATURES: [&str; MINUS_ZEROS + NUMBER_KINDS] = [
    "in rail",
    "in inter",
    "out rail",
    "out inter",
    "chain",
    "given up",
    "split",
    "limit",
    "separate",
    "nothing",
    "spent",
    "bit 0",
    "bit 1",
    "alone none",
    "fallen",
    "unplanned",
    "bit 2",
    "-0 option",
    "-0 coord",
    "-0 size",
    "-0 offset",
];

impl Tally {
    /// A job counts once for a feature, whether accepted or refused later; the marks count
    /// bundles of accepted jobs.
    fn add(&mut self, shown: &Shown) {
        self.jobs += 1;
        self.numbers[usize::from(shown.number)] += 1;
        for (place, &count) in shown.drawn.iter().enumerate() {
            self.features[place] += u64::from(count);
        }
        for (place, &count) in shown.events.iter().enumerate() {
            self.features[4 + place] += u64::from(count);
        }
        let accepted = shown.number == 0;
        self.features[9] += u64::from(shown.nothing);
        self.features[10] += u64::from(shown.spent);
        self.features[11] += u64::from(accepted && shown.separate);
        self.features[12] += u64::from(accepted && shown.crossings);
        self.features[13] += u64::from(lone_without_x(shown));
        self.features[14] += u64::from(shown.fallen);
        self.features[15] += u64::from(shown.unplanned);
        self.features[16] += u64::from(accepted && shown.on_grid);
        for (place, &there) in shown.minus_zeros.iter().enumerate() {
            self.features[MINUS_ZEROS + place] += u64::from(accepted && there);
        }
    }

    fn join(&mut self, other: &Tally) {
        self.jobs += other.jobs;
        for (to, from) in self.numbers.iter_mut().zip(&other.numbers) {
            *to += from;
        }
        for (to, from) in self.features.iter_mut().zip(&other.features) {
            *to += from;
        }
    }
}

/// An accepted job of one bundle for which no common x exists, under a sufficient grant.
pub fn lone_without_x(shown: &Shown) -> bool {
    shown.number == 0 && shown.bundles == 1 && shown.nothing == 1 && shown.sufficient
}

/// Prints how many of each number every family gives, and what else the jobs show. False where a
/// number that `stage` tells, 1 to 15, but 2 is not reached, less than a third of the jobs is
/// accepted, or no accepted job has a minus zero in some kind of field.
pub fn distribution(seed: u64, percent: u64) -> bool {
    let mut all = Tally::default();
    let mut lines = Vec::new();
    heading(
        "family",
        &(0..NUMBERS).map(|n| n.to_string()).collect::<Vec<_>>(),
    );
    for family in &FAMILIES {
        let mut tally = Tally::default();
        for index in 0..(family.count * percent).div_ceil(100) {
            tally.add(&look(&family.job(seed, index)).1);
        }
        row(family.name, tally.jobs, &tally.numbers);
        all.join(&tally);
        lines.push((family.name, tally));
    }
    row("all", all.jobs, &all.numbers);
    let mut short = Tally::default();
    every_short(|bytes| {
        short.jobs += 1;
        short.numbers[usize::from(oracle::number(&oracle::answer_of(bytes)))] += 1;
    });
    row("short", short.jobs, &short.numbers);
    println!();
    heading("family", &FEATURES.map(String::from));
    for (name, tally) in &lines {
        row(name, tally.jobs, &tally.features);
    }
    row("all", all.jobs, &all.features);
    println!();
    let missing = (1..NUMBERS)
        .filter(|&number| number != 2 && all.numbers[number] == 0)
        .collect::<Vec<_>>();
    let third = all.numbers[0] * 3 >= all.jobs;
    println!(
        "accepted {} of {} (short strings apart); numbers not reached: {missing:?}",
        all.numbers[0], all.jobs
    );
    let zeros = all.features[MINUS_ZEROS..].iter().all(|&count| count > 0);
    third && missing.is_empty() && zeros
}

fn heading(first: &str, names: &[String]) {
    print!("{first:12}{:>10}", "jobs");
    for name in names {
        print!("{name:>11}");
    }
    println!();
}

fn row(name: &str, jobs: u64, counts: &[u64]) {
    print!("{name:12}{jobs:>10}");
    for count in counts {
        print!("{count:>11}");
    }
    println!();
}

/// Prints how often each operation gives each first byte.
pub fn outcomes(seed: u64, count: u64) {
    for kind in &KINDS {
        let mut table = BTreeMap::<u8, BTreeMap<u8, u64>>::new();
        for index in 0..count {
            let record = kind.record(seed, index);
            let result = call(&record).expect("a call");
            *table
                .entry(record[0])
                .or_default()
                .entry(result[0])
                .or_default() += 1;
        }
        println!("{} ({})", kind.name, kind.shows);
        for (operation, tags) in table {
            let tags = tags
                .iter()
                .take(16)
                .map(|(tag, count)| format!(" {tag}: {count}"))
                .collect::<String>();
            println!("  op {operation:02x} {tags}");
        }
    }
}
