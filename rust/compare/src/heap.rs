//! Jobs and answers in heap memory of exactly their size, for memcheck.

use jobs::families::FAMILIES;
use oracle::crossings::CROSSINGS_BUFFER;
use oracle::outputs::{Lengths, PAGE_BUFFER, PLAN_GIVEN, WANT_CROSSINGS, WANT_PAGE, outputs};
use oracle::plan::PLAN_BUFFER;
use oracle::stage::{BUFFER, answer_from, plan_of};

use crate::outside::{stage_draw_on_heap, stage_on_heap, stage_plan_on_heap, stage_sheet_on_heap};

/// The same bytes by `stage_sheet`, with plan, page and crossings and without them, in buffers of the
/// least sizes; nothing in shorter ones.
fn same_sheets(job: &[u8], plan: &[u8]) -> bool {
    let least = Lengths {
        answer: BUFFER,
        page: PAGE_BUFFER,
        crossings: CROSSINGS_BUFFER,
    };
    let alone = Lengths {
        page: 0,
        crossings: 0,
        ..least
    };
    let short_page = Lengths {
        page: PAGE_BUFFER - 1,
        ..least
    };
    let short_list = Lengths {
        crossings: CROSSINGS_BUFFER - 1,
        ..least
    };
    let both = WANT_PAGE | WANT_CROSSINGS;
    let calls = [
        (0, alone),
        (WANT_PAGE, least),
        (WANT_CROSSINGS, least),
        (WANT_PAGE, short_page),
        (WANT_CROSSINGS, short_list),
        (PLAN_GIVEN | both, least),
    ];
    calls.into_iter().all(|(wants, lengths)| {
        let due = outputs(wants, job, plan, lengths);
        stage_sheet_on_heap(job, plan, wants, lengths) == due
    })
}

/// The same plan, and the same sheet drawn from it.
fn same_plans(job: &[u8], plan: &[u8]) -> bool {
    stage_plan_on_heap(job, PLAN_BUFFER) == plan
        && stage_plan_on_heap(job, PLAN_BUFFER - 1).is_empty()
        && stage_draw_on_heap(job, plan, BUFFER) == answer_from(job, plan)
        && stage_draw_on_heap(job, plan, BUFFER - 1).is_empty()
}

/// Compares `count` jobs, the families by turns. True where nothing differs.
pub fn heap(seed: u64, count: u64) -> bool {
    let mut accepted = 0;
    for turn in 0..count {
        let family = &FAMILIES[turn as usize % FAMILIES.len()];
        // Scattered over the family, whose jobs may count up.
        let index = turn * 7_919 % family.count;
        let job = family.job(seed, index).into_boxed_slice();
        let answer = stage_on_heap(&job, BUFFER);
        let plan = plan_of(&job).into_boxed_slice();
        if answer != oracle::answer_of(&job)
            || !stage_on_heap(&job, BUFFER - 1).is_empty()
            || !same_plans(&job, &plan)
            || !same_sheets(&job, &plan)
        {
            println!("DIFFERS: {} seed {seed} index {index}", family.name);
            return false;
        }
        accepted += u64::from(oracle::number(&answer) == 0);
    }
    println!("{count} jobs, {accepted} accepted: no difference");
    true
}
