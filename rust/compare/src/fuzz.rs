//! Jobs of every family and mutations of accepted ones, without end or up to a bound: compared one
//! by one in processes of their own, so that whatever a stage does to its process, the job at which
//! it did so is known.

use std::fmt;
use std::ops::Range;
use std::sync::atomic::{AtomicU64, Ordering};
use std::time::{Duration, Instant};

use jobs::families::FAMILIES;
use jobs::mutations::Mutations;
use jobs::{crossed, pages};

use crate::check::{Checker, Entries};
use crate::counts::Counts;
use crate::outside::{End, PANICKED, end_after, forked, shared_words, wait_for_any};

/// Jobs of each kind among `CYCLE` that follow one another: of each family, mutated ones, those for pages
/// and those with crossings. Few are of the families that come around after some thousands of jobs, or whose jobs take
/// long.
const SHARES: [u64; KINDS] = [
    64, 48, 96, 64, 96, 24, 64, 8, 24, 12, 1, 32, 24, 48, 48, 32, 1, 2, 272, 32, 32,
];
pub const KINDS: usize = FAMILIES.len() + OTHERS.len();
/// The kinds of jobs that are of no family.
const OTHERS: [&str; 3] = ["mutated", "pages", "crossed"];
pub const MUTATED: usize = FAMILIES.len();
const CYCLE: u64 = 1_024;
/// How many jobs there are between two lines that say how far it is.
const MILLION: u64 = 1_000_000;

/// What to run, and the bounds.
#[derive(Clone, Copy, Debug)]
pub struct Settings {
    pub seed: u64,
    /// Index of the first job.
    pub from: u64,
    pub jobs: u64,
    pub seconds: u64,
    /// Processes that share the jobs.
    pub workers: u64,
    /// Seconds after which a job is said to run on.
    pub guard: u32,
    /// The kind of jobs that alone are run, by its place.
    pub only: Option<usize>,
}

impl Settings {
    /// The kind of the job at an index, and its place among those of its kind.
    fn place(&self, index: u64) -> (usize, u64) {
        self.only.map_or_else(|| place(index), |kind| (kind, index))
    }
}

impl Default for Settings {
    fn default() -> Settings {
        Settings {
            seed: 1,
            from: 0,
            jobs: 10_000_000,
            seconds: 7_200,
            workers: 1,
            guard: 30,
            only: None,
        }
    }
}

/// How a job failed.
#[derive(Clone, Copy, Debug, Eq, PartialEq)]
pub enum How {
    /// Another answer, another count, a byte outside changed.
    Differs,
    /// A trap, an access outside (SIGSEGV, SIGBUS), a run-on (SIGALRM).
    Signal(i32),
    /// The judge or the generator panicked, or the process ended in some other way.
    Ended(i32),
}

impl fmt::Display for How {
    fn fmt(&self, to: &mut fmt::Formatter<'_>) -> fmt::Result {
        let signal = match *self {
            How::Differs => return to.write_str("it differs, as said above"),
            How::Ended(PANICKED) => return to.write_str("a panic, as said above"),
            How::Ended(status) => return write!(to, "the process ended with status {status}"),
            How::Signal(signal) => signal,
        };
        let name = match signal {
            4 => "SIGILL",
            6 => "SIGABRT",
            7 => "SIGBUS",
            8 => "SIGFPE",
            11 => "SIGSEGV",
            14 => "SIGALRM: it runs on",
            _ => "another signal",
        };
        write!(to, "signal {signal} ({name})")
    }
}

/// What a run came to.
#[derive(Clone, Debug, Eq, PartialEq)]
pub struct Outcome {
    pub counts: Counts,
    /// The index of the job that failed.
    pub failure: Option<(u64, How)>,
}

/// What a worker shares with the process that waits for it: the index of its present job, then its
/// counts.
struct Board {
    words: &'static [AtomicU64],
}

impl Board {
    fn words() -> usize {
        1 + Counts::default().all().count()
    }

    fn begin(&self, index: u64) {
        self.words[0].store(index, Ordering::Relaxed);
    }

    fn index(&self) -> u64 {
        self.words[0].load(Ordering::Relaxed)
    }

    fn write(&self, counts: &mut Counts) {
        for (word, count) in self.words[1..].iter().zip(counts.all()) {
            word.store(*count, Ordering::Relaxed);
        }
    }

    fn add_to(&self, counts: &mut Counts) {
        for (word, count) in self.words[1..].iter().zip(counts.all()) {
            *count += word.load(Ordering::Relaxed);
        }
    }
}

/// The kind of the job at an index, and its place among those of its kind.
fn place(index: u64) -> (usize, u64) {
    let (cycle, mut turn) = (index / CYCLE, index % CYCLE);
    for (kind, share) in SHARES.into_iter().enumerate() {
        if turn < share {
            return (kind, cycle * share + turn);
        }
        turn -= share;
    }
    unreachable!("the shares make a cycle");
}

pub fn name(kind: usize) -> &'static str {
    let family = FAMILIES.get(kind);
    family.map_or_else(|| OTHERS[kind - MUTATED], |family| family.name)
}

/// The place of a family, or of another kind of jobs, by name.
pub fn kind(family: &str) -> Option<usize> {
    (0..KINDS).find(|&kind| name(kind) == family)
}

/// The jobs of a seed by index.
struct Jobs {
    seed: u64,
    mutations: Mutations,
}

impl Jobs {
    fn new(seed: u64) -> Jobs {
        Jobs {
            seed,
            mutations: Mutations::new(seed),
        }
    }

    fn job(&mut self, kind: usize, place: u64) -> Vec<u8> {
        match FAMILIES.get(kind) {
            Some(family) => family.job(self.seed, place),
            None if kind == MUTATED => self.mutations.job(place),
            None if kind == MUTATED + 1 => pages::job(self.seed, place),
            None => crossed::job(self.seed, place),
        }
    }
}

const DIFFERS: i32 = 1;

/// One worker's share of the jobs, until the time is over, one fails, or `stop` is set.
fn work(settings: &Settings, entries: Entries, first: u64, board: &Board, stop: &AtomicU64) -> i32 {
    let start = Instant::now();
    let bound = Duration::from_secs(settings.seconds);
    let mut checker = Checker::new(entries, settings.seed);
    let mut jobs = Jobs::new(settings.seed);
    let mut counts = Counts::default();
    let indices = settings.from + first..settings.from + settings.jobs;
    let mut status = 0;
    for index in indices.step_by(settings.workers as usize) {
        if start.elapsed() >= bound || stop.load(Ordering::Relaxed) > 0 {
            break;
        }
        let done = index - settings.from;
        if done > 0 && done.is_multiple_of(MILLION) {
            println!(
                "{done} jobs in {:.0} seconds",
                start.elapsed().as_secs_f64()
            );
        }
        board.begin(index);
        end_after(settings.guard);
        let (kind, place) = settings.place(index);
        let job = jobs.job(kind, place);
        match checker.check(&job, index) {
            Ok(same) => counts.add(kind, &job, same),
            Err(what) => {
                println!("index {index}: {what}");
                status = DIFFERS;
                break;
            }
        }
        if index % CYCLE < settings.workers {
            board.write(&mut counts);
        }
    }
    board.write(&mut counts);
    status
}

/// Runs the jobs in `settings.workers` processes. The calling process must have one thread.
pub fn run(settings: &Settings, entries: Entries) -> Outcome {
    let size = Board::words();
    let workers = settings.workers as usize;
    let words = shared_words(1 + workers * size);
    let (stop, words) = words.split_first().expect("there is a first word");
    let boards = words.chunks(size).map(|words| Board { words });
    let boards = boards.collect::<Vec<_>>();
    let processes = boards
        .iter()
        .zip(0..)
        .map(|(board, first)| forked(|| work(settings, entries, first, board, stop)))
        .collect::<Vec<_>>();
    let mut failure = None;
    for _ in &processes {
        let (process, end) = wait_for_any();
        let worker = processes.iter().position(|&known| known == process);
        let how = match end {
            End::Exit(0) => continue,
            End::Exit(DIFFERS) => How::Differs,
            End::Exit(status) => How::Ended(status),
            End::Signal(signal) => How::Signal(signal),
        };
        stop.store(1, Ordering::Relaxed);
        let index = worker.map_or(settings.from, |worker| boards[worker].index());
        failure = failure.or(Some((index, how)));
    }
    let mut counts = Counts::default();
    for board in &boards {
        board.add_to(&mut counts);
    }
    Outcome { counts, failure }
}

/// Runs and prints; true where nothing fails.
pub fn fuzz(settings: &Settings, entries: Entries) -> bool {
    let Range { start, end } = settings.from..settings.from + settings.jobs;
    println!(
        "seed {}, jobs {start} to {end}, at most {} seconds, {} workers",
        settings.seed, settings.seconds, settings.workers
    );
    let began = Instant::now();
    let outcome = run(settings, entries);
    let seconds = began.elapsed().as_secs_f64();
    outcome.counts.print();
    let total = outcome.counts.total();
    if let Some((index, how)) = outcome.failure {
        let (kind, place) = settings.place(index);
        println!("FAILS: seed {} index {index}: {how}", settings.seed);
        println!("it is job {place} of the kind {}", name(kind));
        // A panic may be the generator's own.
        if how != How::Ended(PANICKED) {
            let job = Jobs::new(settings.seed).job(kind, place);
            println!("its bytes: {}", hexadecimal(&job));
        }
        let only = settings
            .only
            .map(|kind| format!(" --family {}", name(kind)));
        println!(
            "again: compare fuzz --seed {} --from {index} --jobs 1{}",
            settings.seed,
            only.unwrap_or_default()
        );
        return false;
    }
    let bound = if total == settings.jobs {
        "all jobs are done"
    } else {
        "the time is over"
    };
    println!(
        "{bound}: {total} jobs in {seconds:.0} seconds, {:.0} seconds a million; no trap, no byte \
         outside, no difference",
        seconds * 1e6 / total as f64
    );
    true
}

fn hexadecimal(bytes: &[u8]) -> String {
    bytes.iter().map(|byte| format!("{byte:02x}")).collect()
}
