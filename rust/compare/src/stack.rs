//! How much stack the stage needs.

use std::process::Command;

use jobs::crossed;
use jobs::families::{FAMILIES, Family};
use oracle::crossings::{CROSSINGS_BUFFER, Crossing, MOST};
use oracle::outputs::{Outputs, PAGE_BUFFER, PLAN_GIVEN, WANT_CROSSINGS, WANT_PAGE, beside};
use oracle::plan::PLAN_BUFFER;
use oracle::stage::{BUFFER, answer_and_crossings, plan_of};

use crate::boards;
use crate::outside::{
    Fenced, PAGE, stage_draw_on_stack, stage_on_stack, stage_plan_on_stack, stage_sheet_on_stack,
};
use crate::sheets::Lent;

/// Pages of stack that are enough for every job: what `stack` has measured, rounded up.
pub const PAGES: usize = 161;
/// More than the stage needs, to measure on.
const MEASURED_ON: usize = 256;
const PATTERN: u8 = 0xa5;

/// An answer by the judge, with its crossings.
type Told = (Vec<u8>, Vec<Crossing>);

/// A job with its answer and its plan by the judge, and the answer from that plan.
struct Case {
    job: Vec<u8>,
    told: Told,
    plan: Vec<u8>,
    from_plan: Told,
}

fn cases(family: &Family, seed: u64, count: u64) -> Vec<Case> {
    let count = match family.name {
        "largest" => count.min(60),
        _ => count,
    };
    (0..count)
        .map(|turn| family.job(seed, turn * 7_919 % family.count))
        .map(case)
        .collect()
}

fn case(job: Vec<u8>) -> Case {
    let plan = plan_of(&job);
    Case {
        told: answer_and_crossings(&job, None),
        from_plan: answer_and_crossings(&job, Some(&plan)),
        plan,
        job,
    }
}

/// The jobs of each family, such whose searches sort the most numbers, by halves of halves, and such with
/// the longest lists of crossings.
fn all_cases(seed: u64, count: u64) -> impl Iterator<Item = (&'static str, Vec<Case>)> {
    let families = FAMILIES.iter();
    let families = families.map(move |family| (family.name, cases(family, seed, count)));
    let search = boards::set("search", seed).expect("a name of the list");
    let crossed = (0..6).map(|seed| crossed::exactly(seed, MOST));
    let others = [
        ("search", search.jobs),
        ("chains", boards::chains().into()),
        ("crossed", crossed.collect()),
    ];
    let others = others.map(|(name, jobs)| (name, jobs.into_iter().map(case).collect()));
    families.chain(others)
}

/// The buffers that are written to.
struct Buffers {
    answer: Vec<u8>,
    plan: Vec<u8>,
    page: Vec<u8>,
    crossings: Vec<u8>,
}

impl Buffers {
    fn new() -> Buffers {
        Buffers {
            answer: vec![0; BUFFER],
            plan: vec![0; PLAN_BUFFER],
            page: vec![0; PAGE_BUFFER],
            crossings: vec![0; CROSSINGS_BUFFER],
        }
    }

    /// `stage` on that stack; true where the answer is the judge's.
    fn stage(&mut self, stack: &mut Fenced, case: &Case) -> bool {
        let count = stage_on_stack(stack, &case.job, &mut self.answer);
        self.answer[..count] == case.told.0
    }

    fn plan(&mut self, stack: &mut Fenced, case: &Case) -> bool {
        let count = stage_plan_on_stack(stack, &case.job, &mut self.plan);
        self.plan[..count] == case.plan
    }

    fn draw(&mut self, stack: &mut Fenced, case: &Case) -> bool {
        let count = stage_draw_on_stack(stack, &case.job, &case.plan, &mut self.answer);
        self.answer[..count] == case.from_plan.0
    }

    /// `stage_sheet` with all that can be wanted, and with the list alone, since a page that is refused
    /// withholds the list.
    fn sheet(&mut self, stack: &mut Fenced, case: &Case) -> bool {
        [WANT_PAGE | WANT_CROSSINGS, WANT_CROSSINGS]
            .iter()
            .all(|wants| self.sheet_with(stack, case, *wants, &case.told))
    }

    /// The same from a plan.
    fn sheet_from_plan(&mut self, stack: &mut Fenced, case: &Case) -> bool {
        [WANT_PAGE | WANT_CROSSINGS, WANT_CROSSINGS]
            .iter()
            .all(|wants| self.sheet_with(stack, case, PLAN_GIVEN | wants, &case.from_plan))
    }

    fn sheet_with(&mut self, stack: &mut Fenced, case: &Case, wants: u32, told: &Told) -> bool {
        let lent = Lent {
            wants,
            job: &case.job,
            plan: &case.plan,
            answer: &mut self.answer,
            page: &mut self.page,
            crossings: &mut self.crossings,
        };
        let count = stage_sheet_on_stack(stack, lent);
        let due = beside(wants, &case.job, told.0.clone(), &told.1);
        let Outputs {
            answer,
            page,
            crossings,
        } = due;
        self.answer[..count] == answer
            && self.page.starts_with(&page)
            && self.crossings.starts_with(&crossings)
    }
}

/// A call of an entry on a stack of its own.
type Entry = fn(&mut Buffers, &mut Fenced, &Case) -> bool;
const ENTRIES: [Entry; 5] = [
    Buffers::stage,
    Buffers::plan,
    Buffers::draw,
    Buffers::sheet,
    Buffers::sheet_from_plan,
];

/// The most bytes of stack that a job needs, the return address of the call among them, and the words
/// that are lent on the stack.
fn deepest(entry: Entry, cases: &[Case]) -> usize {
    let mut stack = Fenced::new(MEASURED_ON);
    let mut buffers = Buffers::new();
    let mut most = 0;
    for case in cases {
        stack.bytes().fill(PATTERN);
        assert!(entry(&mut buffers, &mut stack, case), "another answer");
        let bytes = stack.bytes();
        let untouched = bytes.iter().take_while(|&&byte| byte == PATTERN).count();
        most = most.max(bytes.len() - untouched);
    }
    most
}

/// Runs jobs on a stack of that many pages and no more; true where the answers are the judge's.
fn runs_on(pages: usize, cases: &[Case]) -> bool {
    let mut stack = Fenced::new(pages);
    let mut buffers = Buffers::new();
    cases.iter().all(|case| {
        let mut entries = ENTRIES.iter();
        entries.all(|entry| entry(&mut buffers, &mut stack, case))
    })
}

/// Measures, then runs the same jobs on `PAGES` pages. True where that is enough.
pub fn stack(seed: u64, count: u64) -> bool {
    let mut most = 0;
    for (name, cases) in all_cases(seed, count) {
        let bytes = ENTRIES.map(|entry| deepest(entry, &cases));
        let [stage, plan, draw, sheet, from_plan] = bytes;
        println!(
            "{:12}{:>8} jobs, bytes: stage{stage:>8}, stage_plan{plan:>8}, stage_draw{draw:>8}, \
             stage_sheet{sheet:>8}, from a plan{from_plan:>8}",
            name,
            cases.len()
        );
        most = bytes.into_iter().fold(most, usize::max);
    }
    let pages = most.div_ceil(PAGE);
    println!("the most: {most} bytes, {pages} pages; {PAGES} are promised");
    if pages > PAGES {
        return false;
    }
    let enough = all_cases(seed, count).all(|(_, cases)| runs_on(PAGES, &cases));
    println!(
        "on {PAGES} pages: {}",
        if enough { "runs" } else { "DIFFERS" }
    );
    enough
}

/// Largest jobs, chains that sort much and jobs with the longest lists, on a stack of that many pages. Too few
/// end the process by a signal.
pub fn stack_of(pages: usize) -> bool {
    let good = all_cases(1, 6)
        .filter(|(name, _)| ["largest", "chains", "crossed"].contains(name))
        .all(|(_, cases)| runs_on(pages, &cases));
    println!(
        "on {pages} pages: {}",
        if good { "runs" } else { "DIFFERS" }
    );
    good
}

/// Whether a process of this program with that many pages of stack ends well.
pub fn survives(program: &str, pages: usize) -> std::io::Result<bool> {
    let status = Command::new(program)
        .args(["stack-of", &pages.to_string()])
        .status()?;
    Ok(status.success())
}
