//! The entry `stage_sheet`, which is told what outputs are wanted beside the answer: every output's
//! bytes against the judge's, and no other byte changed.

use jobs::rng::Rng;
use oracle::crossings::{CROSSINGS_BUFFER, Crossing, MOST};
use oracle::outputs::{
    Lengths, Outputs, PAGE_BUFFER, PLAN_GIVEN, WANT_CROSSINGS, WANT_PAGE, beside, outputs,
};
use oracle::page::{LINE, rows, ten_millionths};
use oracle::stage::{BUFFER, answer_and_crossings, kinds_of_crossings};

use crate::check::{ENOUGH, SHORT};
use crate::plans::Given;
use crate::rooms::{Rooms, Side};

/// What a call of `stage_sheet` is lent.
pub struct Lent<'a> {
    pub wants: u32,
    pub job: &'a [u8],
    pub plan: &'a [u8],
    pub answer: &'a mut [u8],
    pub page: &'a mut [u8],
    pub crossings: &'a mut [u8],
}

/// The entry: how many bytes of the answer are written.
pub type Sheet = fn(Lent<'_>) -> usize;

/// The bits of `wants` that are listed.
pub const LISTED: u32 = PLAN_GIVEN | WANT_PAGE | WANT_CROSSINGS;
/// Lengths of the page's buffer that 2 lets through, and some that it does not.
pub const PAGE_ENOUGH: [usize; 3] = [PAGE_BUFFER, PAGE_BUFFER + 1, 10_000];
pub const PAGE_SHORT: [usize; 4] = [0, 1, LINE, PAGE_BUFFER - 1];
/// The same of the list of crossings.
pub const LIST_ENOUGH: [usize; 3] = [CROSSINGS_BUFFER, CROSSINGS_BUFFER + 1, 30_000];
pub const LIST_SHORT: [usize; 5] = [0, 1, 2, 26, CROSSINGS_BUFFER - 1];
/// Of so many jobs one has its list made again by the kinds of request F-6, in whole numbers.
const LOOKED_AT: u64 = 16;

/// One way of calling it.
#[derive(Clone, Copy, Debug)]
struct Call {
    wants: u32,
    job: Side,
    plan: Side,
    answer: Side,
    page: Side,
    crossings: Side,
    lengths: Lengths,
}

/// What the pages of accepted jobs have: each number counts pages, lines or printed numbers.
#[derive(Clone, Copy, Debug, Default, Eq, PartialEq)]
pub struct PageFacts {
    pub pages: u64,
    pub lines: u64,
    pub interior: u64,
    pub zeros: u64,
    /// No multiples of 1/64.
    pub odd: u64,
    /// Of at least 2^20, and of at least 2^22.
    pub large: u64,
    pub largest: u64,
    pub negative: u64,
}

/// What the lists of accepted jobs have: each number counts lists or entries.
#[derive(Clone, Copy, Debug, Default, Eq, PartialEq)]
pub struct ListFacts {
    /// With an entry or more; empty ones where crossings are permitted, and where they are not.
    pub lists: u64,
    pub empty: u64,
    pub forbidden: u64,
    pub entries: u64,
    pub of_spines: u64,
    /// Entries at the place of the one before them, and those of the same edge.
    pub ties: u64,
    pub ties_of_edges: u64,
    /// Lists of 1,023 and of 1,024 entries, and calls that are refused for 1,025 and for more.
    pub about_limit: [u64; 4],
    /// Lists that were made again by kinds.
    pub looked_at: u64,
    pub minus_zeros: u64,
}

/// A call in which nothing differs.
#[derive(Clone, Copy, Debug, Eq, PartialEq)]
pub struct SheetSame {
    pub wants: u32,
    pub number: u8,
    /// The page is wanted, bit 2 is clear, and yet another number than 16 came: its turn is last.
    pub before_16: bool,
    pub page: PageFacts,
    pub list: ListFacts,
    /// Whether the buffer of the answer was too short in the other call, that of the page, and that of the
    /// list.
    pub short: [bool; 3],
}

/// Rooms for what is lent.
pub struct Sheets {
    sheet: Sheet,
    jobs: Rooms,
    plans: Rooms,
    answers: Rooms,
    pages: Rooms,
    lists: Rooms,
    seed: u64,
}

impl Sheets {
    pub fn new(sheet: Sheet, seed: u64) -> Sheets {
        Sheets {
            sheet,
            jobs: Rooms::new(seed),
            plans: Rooms::new(seed),
            answers: Rooms::new(seed),
            pages: Rooms::new(seed),
            lists: Rooms::new(seed),
            seed,
        }
    }

    /// Two calls for a job with this answer and these crossings by the judge, and a plan that may be given:
    /// one with buffers that are long enough, one with a buffer that is too short.
    pub fn check(
        &mut self,
        job: &[u8],
        told: (Vec<u8>, Vec<Crossing>),
        given: &Given,
        index: u64,
    ) -> Result<SheetSame, String> {
        let mut rng = Rng::new("sheets", self.seed, index);
        let call = call(&mut rng);
        let plan = (call.wants & PLAN_GIVEN != 0).then_some(&given.plan[..]);
        // A plan may be for the job moved along x.
        let job = if plan.is_some() { &given.job } else { job };
        let (answer, list) = match plan {
            None => told,
            Some(_) => answer_and_crossings(job, plan),
        };
        let due = beside(call.wants, job, answer, &list);
        self.call(job, &given.plan, call, &due)?;
        let page = page_facts(&due)?;
        let told = oracle::number(&due.answer);
        let mut facts = ListFacts::default();
        if call.wants & WANT_CROSSINGS != 0 && matches!(told, 0 | 19) {
            facts = list_facts(&list, job[5] & 2 != 0)?;
            if index.is_multiple_of(LOOKED_AT) {
                if kinds_of_crossings(job, plan) != list {
                    return Err("the judge's two lists differ".to_string());
                }
                facts.looked_at = 1;
            }
        }
        let none = too_short(&mut rng);
        self.call(job, &given.plan, none, &Outputs::default())?;
        Ok(SheetSame {
            wants: call.wants,
            number: told,
            before_16: call.wants & WANT_PAGE != 0
                && !matches!(told, 0 | 16)
                && job.get(5).is_some_and(|flags| flags & 4 == 0),
            page,
            list: facts,
            short: [
                none.lengths.answer < BUFFER,
                none.wants & WANT_PAGE != 0 && none.lengths.page < PAGE_BUFFER,
                none.wants & WANT_CROSSINGS != 0 && none.lengths.crossings < CROSSINGS_BUFFER,
            ],
        })
    }

    /// With this `wants`, for tests.
    pub fn check_wants(
        &mut self,
        job: &[u8],
        plan: &[u8],
        wants: u32,
        index: u64,
    ) -> Result<u8, String> {
        let mut rng = Rng::new("wants", self.seed, index);
        let mut call = call(&mut rng);
        call.wants = wants;
        if wants & WANT_PAGE != 0 {
            call.lengths.page = PAGE_BUFFER;
        }
        if wants & WANT_CROSSINGS != 0 {
            call.lengths.crossings = CROSSINGS_BUFFER;
        }
        let due = outputs(wants, job, plan, call.lengths);
        self.call(job, plan, call, &due)?;
        Ok(oracle::number(&due.answer))
    }

    fn call(&mut self, job: &[u8], plan: &[u8], call: Call, due: &Outputs) -> Result<(), String> {
        let mut lent = self.jobs.lend_filled(call.job, job);
        let mut read = self.plans.lend_filled(call.plan, plan);
        let mut answer = self.answers.lend(call.answer, call.lengths.answer);
        let mut page = self.pages.lend(call.page, call.lengths.page);
        let mut list = self.lists.lend(call.crossings, call.lengths.crossings);
        let count = (self.sheet)(Lent {
            wants: call.wants,
            job: lent.bytes(),
            plan: read.bytes(),
            answer: answer.bytes(),
            page: page.bytes(),
            crossings: list.bytes(),
        });
        let places = [
            ("job", lent.settle(job)),
            ("plan", read.settle(plan)),
            ("answer", answer.settle(&due.answer)),
            ("page", page.settle(&due.page)),
            ("list", list.settle(&due.crossings)),
        ];
        if count != due.answer.len() {
            return Err(format!(
                "{count} bytes, due {} ({call:?})",
                due.answer.len()
            ));
        }
        for (what, place) in places {
            if let Some(place) = place {
                return Err(format!("the {what} differs at its byte {place} ({call:?})"));
            }
        }
        Ok(())
    }
}

/// What is wanted: the page in two of three, the list in three of four, and in one of three bits that are
/// not listed; a plan is given in one of two.
fn wants(rng: &mut Rng) -> u32 {
    let mut listed = if rng.chance(2, 3) { WANT_PAGE } else { 0 };
    if rng.chance(1, 2) {
        listed |= PLAN_GIVEN;
    }
    if rng.chance(3, 4) {
        listed |= WANT_CROSSINGS;
    }
    let others = match rng.below(6) {
        0 => rng.word() as u32,
        1 => 1 << rng.below(32),
        _ => 0,
    };
    listed | others & !LISTED
}

/// A call whose buffers are long enough; one that is not wanted may have any length.
fn call(rng: &mut Rng) -> Call {
    let wants = wants(rng);
    let long = |rng: &mut Rng, bit: u32| wants & bit != 0 || rng.chance(1, 4);
    Call {
        wants,
        job: Side::any(rng),
        plan: Side::any(rng),
        answer: Side::any(rng),
        page: Side::any(rng),
        crossings: Side::any(rng),
        lengths: Lengths {
            answer: rng.pick(&ENOUGH),
            page: match long(rng, WANT_PAGE) {
                true => rng.pick(&PAGE_ENOUGH),
                false => rng.pick(&PAGE_SHORT),
            },
            crossings: match long(rng, WANT_CROSSINGS) {
                true => rng.pick(&LIST_ENOUGH),
                false => rng.pick(&LIST_SHORT),
            },
        },
    }
}

/// A call with the answer's buffer too short, or that of an output that is wanted, or several.
fn too_short(rng: &mut Rng) -> Call {
    let mut call = call(rng);
    let mut which = [
        true,
        call.wants & WANT_PAGE != 0,
        call.wants & WANT_CROSSINGS != 0,
    ];
    // One of those that can be too short stays so, and the others by chance.
    let kept = loop {
        let kept = rng.below(which.len());
        if which[kept] {
            break kept;
        }
    };
    for (place, short) in which.iter_mut().enumerate() {
        *short &= place == kept || rng.chance(1, 4);
    }
    if which[0] {
        call.lengths.answer = rng.pick(&SHORT);
    }
    if which[1] {
        call.lengths.page = match rng.below(5) {
            0 => rng.below(PAGE_BUFFER),
            _ => rng.pick(&PAGE_SHORT),
        };
    }
    if which[2] {
        call.lengths.crossings = match rng.below(5) {
            0 => rng.below(CROSSINGS_BUFFER),
            _ => rng.pick(&LIST_SHORT),
        };
    }
    call
}

/// Counts of a list.
fn list_facts(list: &[Crossing], permitted: bool) -> Result<ListFacts, String> {
    if !permitted && !list.is_empty() {
        return Err("crossings where they are forbidden".to_string());
    }
    let mut facts = ListFacts::default();
    let limit = [MOST - 1, MOST, MOST + 1]
        .iter()
        .position(|&count| count == list.len());
    match (list.len(), limit) {
        (_, Some(place)) => facts.about_limit[place] = 1,
        (more, None) if more > MOST => facts.about_limit[3] = 1,
        _ => {}
    }
    if list.len() > MOST {
        return Ok(facts);
    }
    facts.lists = u64::from(!list.is_empty());
    facts.empty = u64::from(list.is_empty() && permitted);
    facts.forbidden = u64::from(!permitted);
    facts.entries = list.len() as u64;
    for one in list {
        facts.of_spines += u64::from(one.place[2] == 1);
        let bits = [one.x, one.y].map(f64::to_bits);
        facts.minus_zeros += u64::from(bits.contains(&(1 << 63)));
    }
    for pair in list.windows(2) {
        let [before, one] = [pair[0], pair[1]];
        if (before.x, before.y) == (one.x, one.y) {
            facts.ties += 1;
            facts.ties_of_edges += u64::from(before.edge == one.edge);
        }
    }
    Ok(facts)
}

/// Counts of a page. Each line has its length, and each number in it, read by the standard library, is
/// the answer's, bit for bit.
fn page_facts(due: &Outputs) -> Result<PageFacts, String> {
    let mut facts = PageFacts::default();
    // No page, or that of a board without bundles.
    if due.page.is_empty() {
        return Ok(facts);
    }
    let rows = rows(&due.answer);
    let text = str::from_utf8(&due.page).map_err(|_| "a page that is no text")?;
    facts.pages = 1;
    let lines = text.split_inclusive('\n').collect::<Vec<_>>();
    if lines.len() != rows.len() || lines.iter().any(|line| line.len() != LINE) {
        return Err(format!("a page of {} lines: {text:?}", lines.len()));
    }
    for (line, row) in lines.iter().zip(rows) {
        let words = line.split_whitespace().collect::<Vec<_>>();
        let [_, _, numbers @ ..] = &words[..] else {
            return Err(format!("no line: {line:?}"));
        };
        let [x, start, _, end] = row.collector;
        let read = numbers.iter().map(|word| word.parse::<f64>());
        let read = read.map(|number| number.map(f64::to_bits));
        if !read.eq([Ok(x), Ok(start), Ok(end)]) {
            return Err(format!("{line:?} does not read back"));
        }
        facts.lines += 1;
        facts.interior += u64::from(row.interior);
        for bits in [x, start, end] {
            let count = ten_millionths(bits).expect("it was printed");
            // 1/64 is 156,250 ten-millionths.
            facts.odd += u64::from(count % 156_250 != 0);
            facts.zeros += u64::from(count == 0);
            facts.large += u64::from(count >= 10_000_000 << 20);
            facts.largest += u64::from(count >= 10_000_000 << 22);
            facts.negative += u64::from(bits >> 63 == 1);
        }
    }
    Ok(facts)
}
