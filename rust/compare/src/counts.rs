//! What a run of the fuzzer came to, in numbers.

use jobs::numbers::{fields, has_minus_zero};
use jobs::survey::NUMBERS;
use oracle::outputs::{PLAN_GIVEN, WANT_CROSSINGS, WANT_PAGE};

use crate::check::{ENOUGH, SHORT, Same};
use crate::fuzz::{KINDS, MUTATED, name};
use crate::plans::{self, PLAN_NUMBERS, PlanSame};
use crate::sheets::{LISTED, ListFacts, PageFacts, SheetSame};

/// Numbers that `stage_sheet` tells: 0 to 19.
const SHEET_NUMBERS: usize = 20;

/// Jobs by kind and number, those that have a minus zero in a number field, and calls by the length of
/// the answer's buffer.
#[derive(Clone, Debug, Default, Eq, PartialEq)]
pub struct Counts {
    pub jobs: [[u64; NUMBERS]; KINDS],
    pub with_minus_zeros: u64,
    pub enough: [u64; ENOUGH.len()],
    pub short: [u64; SHORT.len() + 1],
    pub plans: PlanCounts,
    pub sheets: SheetCounts,
}

/// Calls of the planner by number; of the drawing, by kind of plan and number; made-up plans with a minus
/// zero, sheets from these that are accepted, and such that have one.
#[derive(Clone, Debug, Default, Eq, PartialEq)]
pub struct PlanCounts {
    pub planner: [u64; PLAN_NUMBERS],
    pub drawn: [[u64; PLAN_NUMBERS]; plans::KINDS.len()],
    pub minus_zeros: u64,
    pub accepted: u64,
    pub answered: u64,
}

impl PlanCounts {
    fn all(&mut self) -> impl Iterator<Item = &mut u64> {
        let drawn = self.drawn.iter_mut().flatten();
        let planner = self.planner.iter_mut();
        planner.chain(drawn).chain([
            &mut self.minus_zeros,
            &mut self.accepted,
            &mut self.answered,
        ])
    }

    fn add(&mut self, same: PlanSame) {
        self.planner[usize::from(same.planner)] += 1;
        for (counts, number) in self.drawn.iter_mut().zip(same.numbers) {
            counts[usize::from(number)] += 1;
        }
        self.minus_zeros += u64::from(same.minus_zero);
        self.accepted += u64::from(same.accepted);
        self.answered += u64::from(same.answered);
    }

    fn print(&self) {
        println!("calls of stage_plan with a buffer that is long enough, by number:");
        print_numbers(&self.planner);
        for ((_, name), counts) in plans::KINDS.iter().zip(&self.drawn) {
            println!("calls of stage_draw, the plan being {name}:");
            print_numbers(counts);
        }
        println!(
            "made-up plans with a minus zero: {}, accepted sheets from them: {}, with one in a \
             collector of the answer: {}",
            self.minus_zeros, self.accepted, self.answered
        );
    }
}

/// Calls of `stage_sheet`: by number, by what is wanted, with bits that are not listed, with a plan; and
/// what pages and lists have.
#[derive(Clone, Debug, Default, Eq, PartialEq)]
pub struct SheetCounts {
    pub numbers: [u64; SHEET_NUMBERS],
    /// Nothing, the page, the list, both; the second time with bits that are not listed.
    pub wanted: [[u64; 4]; 2],
    pub with_plan: u64,
    /// The page is wanted with bit 2 clear, and another refusal came before 16: by its number.
    pub before_16: [u64; SHEET_NUMBERS],
    pub page: PageFacts,
    pub list: ListFacts,
    /// Calls with too short a buffer of the answer, of the page, of the list, of several.
    pub short: [u64; 4],
}

impl PageFacts {
    fn all(&mut self) -> [&mut u64; 8] {
        [
            &mut self.pages,
            &mut self.lines,
            &mut self.interior,
            &mut self.zeros,
            &mut self.odd,
            &mut self.large,
            &mut self.largest,
            &mut self.negative,
        ]
    }
}

impl ListFacts {
    fn all(&mut self) -> impl Iterator<Item = &mut u64> {
        [
            &mut self.lists,
            &mut self.empty,
            &mut self.forbidden,
            &mut self.entries,
            &mut self.of_spines,
            &mut self.ties,
            &mut self.ties_of_edges,
            &mut self.looked_at,
            &mut self.minus_zeros,
        ]
        .into_iter()
        .chain(&mut self.about_limit)
    }

    fn print(&self) {
        let ListFacts {
            lists,
            empty,
            forbidden,
            entries,
            of_spines,
            ties,
            ties_of_edges,
            about_limit: [less, most, one_more, more],
            looked_at,
            minus_zeros,
        } = self;
        println!(
            "lists with entries: {lists}, empty with crossings permitted: {empty}, forbidden: \
             {forbidden}; made again by kinds, in whole numbers: {looked_at}"
        );
        println!(
            "entries: {entries}, of spines {of_spines}, at the place of the one before {ties}, of \
             these of the same edge {ties_of_edges}, with a minus zero {minus_zeros}"
        );
        println!(
            "lists of 1,023: {less}, of 1,024: {most}; 19 for 1,025: {one_more}, for more: {more}"
        );
    }
}

impl SheetCounts {
    fn all(&mut self) -> impl Iterator<Item = &mut u64> {
        let wanted = self.wanted.iter_mut().flatten();
        self.numbers
            .iter_mut()
            .chain(wanted)
            .chain([&mut self.with_plan])
            .chain(&mut self.before_16)
            .chain(self.page.all())
            .chain(self.list.all())
            .chain(&mut self.short)
    }

    fn add(&mut self, mut same: SheetSame) {
        self.numbers[usize::from(same.number)] += 1;
        let wanted = [WANT_PAGE, WANT_CROSSINGS].map(|bit| usize::from(same.wants & bit != 0));
        let unlisted = usize::from(same.wants & !LISTED != 0);
        self.wanted[unlisted][wanted[0] + 2 * wanted[1]] += 1;
        self.with_plan += u64::from(same.wants & PLAN_GIVEN != 0);
        if same.before_16 {
            self.before_16[usize::from(same.number)] += 1;
        }
        for (sum, count) in self.page.all().into_iter().zip(same.page.all()) {
            *sum += *count;
        }
        for (sum, count) in self.list.all().zip(same.list.all()) {
            *sum += *count;
        }
        let which = match same.short {
            [true, false, false] => 0,
            [false, true, false] => 1,
            [false, false, true] => 2,
            _ => 3,
        };
        self.short[which] += 1;
    }

    fn print(&self) {
        println!("calls of stage_sheet with buffers that are long enough, by number:");
        print_numbers(&self.numbers);
        for (words, [nothing, page, list, both]) in [
            ("wanted", self.wanted[0]),
            ("and with bits that are not listed", self.wanted[1]),
        ] {
            println!("{words}: nothing {nothing}, the page {page}, the list {list}, both {both}");
        }
        println!("a plan given: {}", self.with_plan);
        println!("16 would be due, but for this number before it:");
        print_numbers(&self.before_16);
        let PageFacts {
            pages,
            lines,
            interior,
            zeros,
            odd,
            large,
            largest,
            negative,
        } = self.page;
        println!("pages with lines: {pages}, lines: {lines}, of these I: {interior}");
        println!(
            "printed numbers: {}, zero {zeros}, no multiple of 1/64 {odd}, at least 2^20 {large}, \
             at least 2^22 {largest}, negative {negative}",
            3 * lines
        );
        self.list.print();
        let [answer, page, list, several] = self.short;
        println!(
            "nothing written, too short: the answer {answer}, the page {page}, the list {list}, \
             several {several}"
        );
    }
}

fn print_numbers(counts: &[u64]) {
    let told = counts.iter().enumerate().filter(|&(_, &count)| count > 0);
    let told = told.map(|(number, count)| format!("{number}: {count}"));
    println!("    {}", told.collect::<Vec<_>>().join(", "));
}

impl Counts {
    /// Every count, always in the same order.
    pub fn all(&mut self) -> impl Iterator<Item = &mut u64> {
        let jobs = self.jobs.iter_mut().flatten();
        jobs.chain([&mut self.with_minus_zeros])
            .chain(&mut self.enough)
            .chain(&mut self.short)
            .chain(self.plans.all())
            .chain(self.sheets.all())
    }

    pub fn add(&mut self, kind: usize, job: &[u8], same: Same) {
        self.jobs[kind][usize::from(same.number)] += 1;
        self.with_minus_zeros += u64::from(has_minus_zero(job, &fields(job)));
        self.enough[same.enough] += 1;
        self.short[same.short] += 1;
        self.plans.add(same.plan);
        self.sheets.add(same.sheet);
    }

    pub fn total(&self) -> u64 {
        self.jobs.iter().flatten().sum()
    }

    pub fn print(&self) {
        print!("{:12}{:>10}", "family", "jobs");
        for number in (0..NUMBERS).filter(|&number| number != 2) {
            print!("{number:>9}");
        }
        println!();
        let mut all = [0; NUMBERS];
        for (kind, numbers) in self.jobs.iter().enumerate() {
            if numbers.iter().any(|&count| count > 0) {
                print_row(name(kind), numbers);
            }
            for (sum, count) in all.iter_mut().zip(numbers) {
                *sum += count;
            }
        }
        print_row("all", &all);
        let mutated = &self.jobs[MUTATED];
        let deep = mutated[10..=14].iter().sum::<u64>();
        println!(
            "mutated jobs: {} accepted, {deep} refused with 10 to 14",
            mutated[0]
        );
        println!(
            "jobs with a minus zero in a number field: {}",
            self.with_minus_zeros
        );
        self.print_lengths();
        self.plans.print();
        self.sheets.print();
    }

    fn print_lengths(&self) {
        println!("calls of stage by the length of the answer's buffer:");
        for (length, count) in ENOUGH.iter().zip(&self.enough) {
            println!("{length:>10}{count:>10}");
        }
        for (length, count) in SHORT.iter().zip(&self.short) {
            println!("{length:>10}{count:>10}   nothing written");
        }
        let others = self.short[SHORT.len()];
        println!("{:>10}{others:>10}   nothing written", "less");
    }
}

fn print_row(name: &str, numbers: &[u64; NUMBERS]) {
    print!("{name:12}{:>10}", numbers.iter().sum::<u64>());
    for (number, count) in numbers.iter().enumerate() {
        if number != 2 {
            print!("{count:>9}");
        }
    }
    println!();
}
