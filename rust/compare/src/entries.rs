//! Microseconds a job in each entry, on the same accepted jobs.

use std::hint::black_box;

use oracle::crossings::CROSSINGS_BUFFER;
use oracle::outputs::{PAGE_BUFFER, WANT_CROSSINGS, WANT_PAGE};
use oracle::plan::PLAN_BUFFER;
use oracle::stage::BUFFER;

use crate::boards::{self, NAMES, Set};
use crate::outside::{microseconds, stage, stage_draw, stage_plan, stage_sheet};
use crate::sheets::Lent;
use crate::time::{LEAST, median};

/// The buffers of all outputs.
struct Buffers {
    answer: Vec<u8>,
    plan: Vec<u8>,
    page: Vec<u8>,
    crossings: Vec<u8>,
}

impl Buffers {
    fn sheet(&mut self, wants: u32, job: &[u8]) -> usize {
        stage_sheet(Lent {
            wants,
            job,
            plan: &[],
            answer: &mut self.answer,
            page: &mut self.page,
            crossings: &mut self.crossings,
        })
    }
}

/// A call of an entry, by name.
type Call = (&'static str, fn(&mut Buffers, &[u8]) -> usize);

const CALLS: [Call; 6] = [
    ("stage", |buffers, job| stage(job, &mut buffers.answer)),
    ("stage_plan", |buffers, job| {
        stage_plan(job, &mut buffers.plan)
    }),
    ("plan and draw", |buffers, job| {
        let count = stage_plan(job, &mut buffers.plan);
        stage_draw(job, &buffers.plan[..count], &mut buffers.answer)
    }),
    ("stage_sheet", |buffers, job| buffers.sheet(0, job)),
    ("with the page", |buffers, job| {
        buffers.sheet(WANT_PAGE, job)
    }),
    ("with the list", |buffers, job| {
        buffers.sheet(WANT_CROSSINGS, job)
    }),
];

/// The set with bits 1 and 2 in all jobs, whose numbers are whole, so that a page can be wanted and
/// crossings are permitted.
fn on_grid(mut set: Set) -> Set {
    for job in &mut set.jobs {
        job[5] |= 6;
        assert_eq!(
            oracle::number(&oracle::answer_of(job)),
            0,
            "an accepted job"
        );
    }
    set
}

/// The median of the rounds for each call; in a round all calls do all jobs, another one first.
fn measure(set: &Set, rounds: usize) -> [f64; CALLS.len()] {
    let mut buffers = Buffers {
        answer: vec![0; BUFFER],
        plan: vec![0; PLAN_BUFFER],
        page: vec![0; PAGE_BUFFER],
        crossings: vec![0; CROSSINGS_BUFFER],
    };
    let mut timing = |call: Call, times: usize| {
        let start = microseconds();
        for _ in 0..times {
            for job in &set.jobs {
                black_box(call.1(&mut buffers, black_box(job)));
            }
        }
        microseconds() - start
    };
    let times = (LEAST / timing(CALLS[0], 1)).ceil().max(1.0) as usize;
    let mut all = [const { Vec::new() }; CALLS.len()];
    for round in 0..rounds {
        for turn in 0..CALLS.len() {
            let which = (round + turn) % CALLS.len();
            all[which].push(timing(CALLS[which], times));
        }
    }
    all.map(|times_of| median(times_of) / (set.jobs.len() * times) as f64)
}

/// Each board with its times.
fn measured(seed: u64, rounds: usize) -> impl Iterator<Item = (&'static str, [f64; CALLS.len()])> {
    NAMES.into_iter().map(move |name| {
        let set = on_grid(boards::set(name, seed).expect("a name of the list"));
        (name, measure(&set, rounds))
    })
}

/// Prints one row a board.
pub fn entries(seed: u64, rounds: usize) {
    print!("{:10}", "board");
    for (name, _) in CALLS {
        print!("{name:>16}");
    }
    println!();
    for (name, times) in measured(seed, rounds) {
        print!("{name:10}");
        for time in times {
            print!("{time:>16.2}");
        }
        println!();
    }
    println!("microseconds a job, bits 1 and 2 set; {rounds} rounds, seed {seed}");
}

/// The same as a table of a document.
pub fn table(seed: u64, rounds: usize) -> String {
    let names = CALLS.map(|(name, _)| format!("{name}, µs"));
    let line = "|---".repeat(1 + CALLS.len());
    let mut text = format!("| board | {} |\n{line}|\n", names.join(" | "));
    for (name, times) in measured(seed, rounds) {
        let times = times.map(|time| format!("{time:.2}"));
        text += &format!("| {name} | {} |\n", times.join(" | "));
    }
    text
}
