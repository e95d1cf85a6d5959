//! The entries `stage_plan` and `stage_draw`: the planner's bytes against the judge's, the two in turn
//! against the stage, and sheets from plans that are made up, damaged, or of another job.

use jobs::families::family;
use jobs::plans::{about_minus_zero, damaged, made_up, revised};
use jobs::rng::Rng;
use oracle::job::{self, Job};
use oracle::page::rows;
use oracle::plan::{PLAN_BUFFER, Plan};
use oracle::stage::{BUFFER, answer_from, plan_of, planned};

use crate::check::ENOUGH;
use crate::rooms::{Rooms, Side};

/// The planner: the job, the plan's buffer, how many bytes are written.
pub type Planner = fn(&[u8], &mut [u8]) -> usize;
/// The drawing: the job, the plan, the answer's buffer, how many bytes are written.
pub type Drawer = fn(&[u8], &[u8], &mut [u8]) -> usize;

/// Lengths of the plan's buffer that 2 lets through, and some that it does not.
const PLAN_ENOUGH: [usize; 3] = [PLAN_BUFFER, PLAN_BUFFER + 1, 5_000];
const PLAN_SHORT: [usize; 4] = [0, 6, 9, PLAN_BUFFER - 1];

/// Numbers that the two tell: 0 to 18.
pub const PLAN_NUMBERS: usize = 19;

/// What a plan that is drawn from is.
#[derive(Clone, Copy, Debug, Eq, PartialEq)]
pub enum Kind {
    /// The planner's own, or nothing where it makes none.
    Own,
    MadeUp,
    Damaged,
    /// Of another revision of the job, or of another job altogether.
    Others,
}

pub const KINDS: [(Kind, &str); 4] = [
    (Kind::Own, "its own"),
    (Kind::MadeUp, "made up"),
    (Kind::Damaged, "damaged"),
    (Kind::Others, "another job's"),
];

/// A plan's bytes for a job's, and the judge's answer.
pub struct Given {
    kind: Kind,
    pub job: Vec<u8>,
    pub plan: Vec<u8>,
    pub answer: Vec<u8>,
    minus_zero: bool,
}

/// A job in whose plans nothing differs: the planner's number, that of each kind of plan, whether the
/// made-up plan has a minus zero, and whether it is then accepted and whether a collector of its answer has
/// one.
#[derive(Clone, Copy, Debug, Eq, PartialEq)]
pub struct PlanSame {
    pub planner: u8,
    pub numbers: [u8; KINDS.len()],
    pub minus_zero: bool,
    pub accepted: bool,
    pub answered: bool,
}

/// Rooms for what is lent.
pub struct Plans {
    plan: Planner,
    draw: Drawer,
    jobs: Rooms,
    /// Plans that are lent to read, and buffers for them.
    given: Rooms,
    made: Rooms,
    answers: Rooms,
    seed: u64,
}

impl Plans {
    pub fn new(plan: Planner, draw: Drawer, seed: u64) -> Plans {
        Plans {
            plan,
            draw,
            jobs: Rooms::new(seed),
            given: Rooms::new(seed),
            made: Rooms::new(seed),
            answers: Rooms::new(seed),
            seed,
        }
    }

    /// The planner, and a sheet from one plan of each kind, for a job with this answer by the judge.
    /// One of the plans comes back, for the entry that can be given it too.
    pub fn check(
        &mut self,
        job: &[u8],
        answer: &[u8],
        index: u64,
    ) -> Result<(PlanSame, Given), String> {
        let mut rng = Rng::new("plans", self.seed, index);
        let due = plan_of(job);
        let enough = rng.pick(&PLAN_ENOUGH);
        self.make(&mut rng, job, enough, &due)?;
        let short = match rng.below(5) {
            0 => rng.below(PLAN_BUFFER),
            _ => rng.pick(&PLAN_SHORT),
        };
        self.make(&mut rng, job, short, &[])?;
        // A notice has six bytes, a plan nine or more.
        let planner = if due.len() == 6 { due[5] } else { 0 };
        let all = plans(&mut rng, self.seed, job, due, answer);
        let mut same = PlanSame {
            planner,
            numbers: [0; KINDS.len()],
            minus_zero: false,
            accepted: false,
            answered: false,
        };
        for given in &all {
            self.drawn(&mut rng, given)?;
            let number = oracle::number(&given.answer);
            same.numbers[given.kind as usize] = number;
            if given.minus_zero {
                same.minus_zero = true;
                same.accepted = number == 0;
                same.answered = number == 0 && has_minus_zero(&given.answer);
            }
        }
        // Its own more often, as more of these are accepted.
        let place = rng.below(2 * all.len()).saturating_sub(all.len());
        let given = all.into_iter().nth(place).expect("a plan");
        Ok((same, given))
    }

    fn make(&mut self, rng: &mut Rng, job: &[u8], length: usize, due: &[u8]) -> Result<(), String> {
        let mut lent = self.jobs.lend_filled(Side::any(rng), job);
        let mut plan = self.made.lend(Side::any(rng), length);
        let count = (self.plan)(lent.bytes(), plan.bytes());
        let places = [lent.settle(job), plan.settle(due)];
        if count != due.len() || places != [None; 2] {
            return Err(format!(
                "the planner with a buffer of {length}: {count} bytes, due {}; first differences \
                 in job and plan {places:?}",
                due.len()
            ));
        }
        Ok(())
    }

    /// With buffers of the answer that are long enough, and too short.
    fn drawn(&mut self, rng: &mut Rng, given: &Given) -> Result<(), String> {
        let enough = rng.pick(&ENOUGH);
        self.draw(rng, given, enough, &given.answer)?;
        match rng.below(4) {
            0 => {
                let short = rng.pick(&[0, 6, BUFFER - 1]);
                self.draw(rng, given, short, &[])
            }
            _ => Ok(()),
        }
    }

    fn draw(
        &mut self,
        rng: &mut Rng,
        given: &Given,
        length: usize,
        due: &[u8],
    ) -> Result<(), String> {
        let mut job = self.jobs.lend_filled(Side::any(rng), &given.job);
        let mut plan = self.given.lend_filled(Side::any(rng), &given.plan);
        let mut answer = self.answers.lend(Side::any(rng), length);
        let count = (self.draw)(job.bytes(), plan.bytes(), answer.bytes());
        let places = [
            job.settle(&given.job),
            plan.settle(&given.plan),
            answer.settle(due),
        ];
        if count != due.len() || places != [None; 3] {
            return Err(format!(
                "drawn from a plan ({:?}, {:02x?}), buffer of {length}: {count} bytes, due {}; first \
                 differences in job, plan and answer {places:?}",
                given.kind,
                given.plan,
                due.len()
            ));
        }
        Ok(())
    }
}

/// A plan of each kind.
fn plans(rng: &mut Rng, seed: u64, bytes: &[u8], own: Vec<u8>, answer: &[u8]) -> Vec<Given> {
    let given = |kind: Kind, job: &[u8], plan: Vec<u8>, minus_zero: bool| Given {
        kind,
        job: job.to_vec(),
        answer: answer_from(job, &plan),
        plan,
        minus_zero,
    };
    let job = job::read(bytes).ok();
    let plan = job.as_ref().map(|job| {
        planned(job).unwrap_or_else(|| Plan {
            tap_visits: job.tap_visits,
            entries: vec![None; job.bundles.len()],
        })
    });
    let (Some(job), Some(plan)) = (job, plan) else {
        // The reader refuses before the plan is looked at, whatever it is.
        let word = rng.word().to_be_bytes();
        return KINDS
            .map(|(kind, _)| given(kind, bytes, word.to_vec(), false))
            .into();
    };
    let mut first = given(Kind::Own, bytes, own, false);
    if oracle::number(answer) != 13 {
        // The two in turn are the stage.
        first.answer = answer.to_vec();
    }
    let moved = match rng.below(4) {
        0 => about_minus_zero(rng, &job, &plan),
        _ => None,
    };
    let (on, made) = match moved {
        Some((job, plan)) => (job.encode(), plan),
        None => (bytes.to_vec(), made_up(rng, &job, &plan)),
    };
    let minus = made.entries.iter().flatten();
    let minus_zero = minus.into_iter().any(|x| x.to_bits() == 1 << 63);
    vec![
        first,
        given(Kind::MadeUp, &on, made.encode(), minus_zero),
        given(Kind::Damaged, bytes, damaged(rng, &job, &plan), false),
        given(Kind::Others, bytes, others(rng, seed, &job), false),
    ]
}

/// The plan of another revision, or, in one of four, of a small job.
fn others(rng: &mut Rng, seed: u64, job: &Job) -> Vec<u8> {
    if rng.chance(1, 4) {
        let small = family("small").expect("a family");
        return plan_of(&small.job(seed, rng.below(1 << 20) as u64));
    }
    plan_of(&revised(rng, job).encode())
}

/// A collector of an accepted answer has a minus zero.
fn has_minus_zero(answer: &[u8]) -> bool {
    let rows = rows(answer);
    rows.iter().any(|row| row.collector.contains(&(1 << 63)))
}
