//! Microseconds a job in both stages, on the same accepted jobs, from one driver.

use std::hint::black_box;
use std::time::Instant;

use jobs::families;
use oracle::job;
use oracle::stage::{BUFFER, Part};

use crate::boards::Set;
use crate::outside::{microseconds, stage};

/// The least time that one timing takes, so that reading the clock does not show.
pub const LEAST: f64 = 2_000.0;

/// What one set of jobs comes to. Visits, bytes and times are means over its jobs, times the
/// median of the rounds.
pub struct Measured {
    pub name: &'static str,
    pub jobs: usize,
    pub bytes: f64,
    pub tap_visits: f64,
    pub geometry_visits: f64,
    /// Microseconds of the proved stage.
    pub ours: f64,
    /// Microseconds of the Rust, and the part of it that is named functions.
    pub rust: f64,
    pub named: f64,
    /// Median over the rounds of ours by the Rust's.
    pub ratio: f64,
}

impl Measured {
    /// Ours by the Rust's named functions alone.
    pub fn ratio_to_named(&self) -> f64 {
        self.ratio * self.rust / self.named
    }
}

/// The two stages.
#[derive(Clone, Copy, Debug, Eq, PartialEq)]
pub enum Whose {
    Ours,
    Rust,
}

impl Whose {
    pub fn name(self) -> &'static str {
        match self {
            Whose::Ours => "ours",
            Whose::Rust => "rust",
        }
    }

    pub fn of(name: &str) -> Option<Whose> {
        [Whose::Ours, Whose::Rust]
            .into_iter()
            .find(|whose| whose.name() == name)
    }
}

/// Calls one stage on all jobs, `times` times.
pub fn repeat(set: &Set, whose: Whose, times: usize) {
    let mut buffer = vec![0; BUFFER];
    let call = match whose {
        Whose::Ours => stage,
        Whose::Rust => oracle::stage,
    };
    for _ in 0..times {
        for job in &set.jobs {
            black_box(call(black_box(job), &mut buffer));
        }
    }
}

/// Measures in rounds: in each both stages do all jobs, the one first in even rounds and the other
/// in odd ones, and the round's ratio is that of the two times.
pub fn measure(set: &Set, rounds: usize) -> Measured {
    let timing = |whose: Whose, times: usize| {
        let start = microseconds();
        repeat(set, whose, times);
        microseconds() - start
    };
    let once = timing(Whose::Ours, 1).min(timing(Whose::Rust, 1));
    let times = (LEAST / once).ceil().max(1.0) as usize;
    let (mut ours, mut rust, mut ratios) = (vec![], vec![], vec![]);
    let mut parts = Parts::new(set.jobs.len());
    for round in 0..rounds {
        let (first, second) = match round % 2 {
            0 => (Whose::Ours, Whose::Rust),
            _ => (Whose::Rust, Whose::Ours),
        };
        let (one, other) = (timing(first, times), timing(second, times));
        let (mine, its) = match first {
            Whose::Ours => (one, other),
            Whose::Rust => (other, one),
        };
        ours.push(mine);
        rust.push(its);
        ratios.push(mine / its);
        parts.measure(set);
    }
    let count = set.jobs.len() as f64;
    let calls = count * times as f64;
    let rust = median(rust) / calls;
    let mut all = Measured {
        name: set.name,
        jobs: set.jobs.len(),
        bytes: 0.0,
        tap_visits: 0.0,
        geometry_visits: 0.0,
        ours: median(ours) / calls,
        rust,
        named: parts.named() * rust,
        ratio: median(ratios),
    };
    for job in &set.jobs {
        let read = job::read(job).expect("a job");
        let (tap, geometry) = families::paid(&read).expect("an accepted job");
        all.bytes += job.len() as f64 / count;
        all.tap_visits += f64::from(tap) / count;
        all.geometry_visits += f64::from(geometry) / count;
    }
    all
}

/// The least time of each job in either part of the Rust, over all rounds. By the wall's clock,
/// which can be read often: what else ran meanwhile only adds to it, so that the least is right.
struct Parts {
    jobs: Vec<[f64; 2]>,
}

impl Parts {
    fn new(jobs: usize) -> Parts {
        Parts {
            jobs: vec![[f64::INFINITY; 2]; jobs],
        }
    }

    fn measure(&mut self, set: &Set) {
        for (job, least) in set.jobs.iter().zip(&mut self.jobs) {
            let mut spent = [0.0; 2];
            let (mut part, mut since) = (Part::Around, Instant::now());
            let mut enter = |next: Part| {
                spent[part as usize] += since.elapsed().as_secs_f64();
                (part, since) = (next, Instant::now());
            };
            black_box(oracle::stage::answer_in_parts(black_box(job), &mut enter));
            enter(Part::Around);
            for (least, spent) in least.iter_mut().zip(spent) {
                *least = least.min(spent);
            }
        }
    }

    /// The share of the named functions, all jobs together.
    fn named(&self) -> f64 {
        let sum = |part: Part| self.jobs.iter().map(|job| job[part as usize]).sum::<f64>();
        sum(Part::Named) / (sum(Part::Around) + sum(Part::Named))
    }
}

pub fn median(mut values: Vec<f64>) -> f64 {
    values.sort_by(f64::total_cmp);
    values[values.len() / 2]
}

/// Nanoseconds per visit: the slope of the line nearest to all (least squares).
pub fn slope(
    measured: &[Measured],
    visits: fn(&Measured) -> f64,
    time: fn(&Measured) -> f64,
) -> f64 {
    let mean = |field: fn(&Measured) -> f64| {
        measured.iter().map(field).sum::<f64>() / measured.len() as f64
    };
    let (visits_mean, time_mean) = (mean(visits), mean(time));
    let (mut over, mut under) = (0.0, 0.0);
    for one in measured {
        let from = visits(one) - visits_mean;
        over += from * (time(one) - time_mean);
        under += from * from;
    }
    over / under * 1e3
}
