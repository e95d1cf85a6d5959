//! One job, in both stages: the same bytes, and no other byte changed.

use jobs::rng::Rng;
use oracle::stage::{BUFFER, answer_and_crossings};

use crate::plans::{Drawer, PlanSame, Planner, Plans};
use crate::rooms::{LONGEST, Rooms, Side};
use crate::sheets::{Sheet, SheetSame, Sheets};

/// A stage: the job, the answer's buffer, how many bytes are written.
pub type Stage = fn(&[u8], &mut [u8]) -> usize;

/// The entries that are compared.
#[derive(Clone, Copy)]
pub struct Entries {
    pub stage: Stage,
    pub plan: Planner,
    pub draw: Drawer,
    pub sheet: Sheet,
}

/// Lengths of the answer's buffer that 2 lets through.
pub const ENOUGH: [usize; 4] = [BUFFER, BUFFER + 1, 70_000, LONGEST];
/// Lengths that it does not; there are others too.
pub const SHORT: [usize; 3] = [0, 6, BUFFER - 1];

/// One way of calling the stage: where job and answer lie, and the length of the answer's buffer.
#[derive(Clone, Copy, Debug)]
struct Call {
    job: Side,
    answer: Side,
    length: usize,
}

/// A job in which nothing differs.
#[derive(Clone, Copy, Debug, Eq, PartialEq)]
pub struct Same {
    pub number: u8,
    /// Which of `ENOUGH` was the buffer's length, and which of `SHORT` in the other call: 3 is
    /// another one.
    pub enough: usize,
    pub short: usize,
    pub plan: PlanSame,
    pub sheet: SheetSame,
}

/// Rooms for jobs and for answers.
pub struct Checker {
    stage: Stage,
    jobs: Rooms,
    answers: Rooms,
    plans: Plans,
    sheets: Sheets,
    seed: u64,
}

impl Checker {
    pub fn new(entries: Entries, seed: u64) -> Checker {
        Checker {
            stage: entries.stage,
            jobs: Rooms::new(seed),
            answers: Rooms::new(seed),
            plans: Plans::new(entries.plan, entries.draw, seed),
            sheets: Sheets::new(entries.sheet, seed),
            seed,
        }
    }

    /// Compares one job in all entries, or says what differs. The places of what is lent and the lengths
    /// of the buffers are fixed by seed and index.
    pub fn check(&mut self, job: &[u8], index: u64) -> Result<Same, String> {
        let (answer, list) = answer_and_crossings(job, None);
        let (enough, short) = self.check_stage(job, &answer, index)?;
        let number = oracle::number(&answer);
        let (plan, given) = self.plans.check(job, &answer, index)?;
        Ok(Same {
            number,
            enough,
            short,
            plan,
            sheet: self.sheets.check(job, (answer, list), &given, index)?,
        })
    }

    /// Compares one job in `stage` alone with this answer by the judge; which of the lengths the buffers
    /// had.
    pub fn check_stage(
        &mut self,
        job: &[u8],
        answer: &[u8],
        index: u64,
    ) -> Result<(usize, usize), String> {
        let mut rng = Rng::new("places", self.seed, index);
        let (enough, short) = (rng.below(ENOUGH.len()), rng.below(SHORT.len() + 1));
        let mut call = |length: usize| Call {
            job: Side::any(&mut rng),
            answer: Side::any(&mut rng),
            length,
        };
        let whole = call(ENOUGH[enough]);
        let mut none = call(0);
        none.length = match SHORT.get(short) {
            Some(&length) => length,
            None => rng.below(BUFFER),
        };
        self.call(job, whole, answer)?;
        self.call(job, none, &[])?;
        Ok((enough, short))
    }

    /// Calls the stage; these bytes of the answer are due, and nothing else may change.
    fn call(&mut self, job: &[u8], call: Call, due: &[u8]) -> Result<(), String> {
        let mut lent = self.jobs.lend_filled(call.job, job);
        let mut answer = self.answers.lend(call.answer, call.length);
        let count = (self.stage)(lent.bytes(), answer.bytes());
        if let Some(place) = lent.settle(job) {
            return Err(format!("the job's byte {place} is changed ({call:?})"));
        }
        let place = answer.settle(due);
        if count != due.len() || place.is_some() {
            return Err(format!(
                "{count} bytes, due {}; first difference {place:?} ({call:?})",
                due.len()
            ));
        }
        Ok(())
    }
}
