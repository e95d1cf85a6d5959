//! Wrong pages, and wrong ways of taking what is wanted and given.

use compare::outside::stage_sheet;
use compare::sheets::{Lent, Sheet};
use oracle::outputs::{PLAN_GIVEN, WANT_PAGE};
use oracle::page::LINE;

use crate::accepted;

/// The entry with the page in a copy, so that it can be changed where it is wanted and has lines.
fn with_page(lent: Lent<'_>, change: fn(&mut [u8])) -> usize {
    let Lent {
        wants,
        job,
        plan,
        answer,
        page,
        crossings,
    } = lent;
    let lines = |answer: &[u8]| usize::from(u16::from_be_bytes([answer[34], answer[35]]));
    let count = stage_sheet(Lent {
        wants,
        job,
        plan,
        answer,
        page,
        crossings,
    });
    if accepted(count) && wants & WANT_PAGE != 0 && lines(answer) > 0 {
        change(page);
    }
    count
}

fn prints_another_digit(lent: Lent<'_>) -> usize {
    with_page(lent, |page| page[LINE - 2] ^= 1)
}

fn prints_r_for_i(lent: Lent<'_>) -> usize {
    with_page(lent, |page| page[11] = b'R')
}

fn prints_a_line_more(lent: Lent<'_>) -> usize {
    with_page(lent, |page| page[2_431] = b'\n')
}

/// The same lines, the last number in the place of the one before it.
fn swaps_the_ys(lent: Lent<'_>) -> usize {
    with_page(lent, |page| {
        let (low, high) = (page[34..54].to_vec(), page[55..75].to_vec());
        page[34..54].copy_from_slice(&high);
        page[55..75].copy_from_slice(&low);
    })
}

/// As if 16 were looked at before the sheet is made.
fn says_16_first(lent: Lent<'_>) -> usize {
    let off_grid = lent.wants & WANT_PAGE != 0 && lent.job.get(5).is_some_and(|bits| bits & 4 == 0);
    let answer = lent.answer.as_mut_ptr();
    let count = stage_sheet(lent);
    if count == 6 && off_grid {
        // SAFETY: the sixth byte of a notice that was just written.
        unsafe { answer.add(5).write(16) };
    }
    count
}

fn never_says_16(lent: Lent<'_>) -> usize {
    let on_grid = lent.job.get(5).is_none_or(|bits| bits & 4 != 0);
    let wants = match on_grid {
        true => lent.wants,
        false => lent.wants & !WANT_PAGE,
    };
    stage_sheet(Lent { wants, ..lent })
}

fn prints_for_a_refusal(lent: Lent<'_>) -> usize {
    let page = lent.page.first_mut().map(|byte| byte as *mut u8);
    let wanted = lent.wants & WANT_PAGE != 0;
    let count = stage_sheet(lent);
    if let Some(page) = page.filter(|_| count == 6 && wanted) {
        // SAFETY: the first byte of the page's buffer, which is lent for this call.
        unsafe { page.write(!page.read()) };
    }
    count
}

fn prints_unasked(lent: Lent<'_>) -> usize {
    let wants = match lent.page.len() {
        2_432.. => lent.wants | WANT_PAGE,
        _ => lent.wants,
    };
    stage_sheet(Lent { wants, ..lent })
}

/// As if a page of 2,431 bytes were enough.
fn takes_a_short_page(lent: Lent<'_>) -> usize {
    match lent.page.len() {
        2_431 => stage_sheet(Lent { wants: 0, ..lent }),
        _ => stage_sheet(lent),
    }
}

/// As if every bit asked for the page.
fn takes_any_bit_for_the_page(lent: Lent<'_>) -> usize {
    let wants = match lent.page.len() {
        2_432.. if lent.wants != 0 => WANT_PAGE,
        _ => lent.wants,
    };
    stage_sheet(Lent { wants, ..lent })
}

/// As if bit 0 said nothing.
fn ignores_the_plan(lent: Lent<'_>) -> usize {
    let wants = lent.wants & !PLAN_GIVEN;
    stage_sheet(Lent { wants, ..lent })
}

/// As if a plan that is lent were given.
fn takes_the_plan_unasked(lent: Lent<'_>) -> usize {
    let wants = lent.wants | PLAN_GIVEN;
    stage_sheet(Lent { wants, ..lent })
}

pub const WRONG_SHEETS: [(&str, Sheet); 12] = [
    ("a plan not looked at", ignores_the_plan),
    ("a plan unasked", takes_the_plan_unasked),
    ("another digit", prints_another_digit),
    ("R for I", prints_r_for_i),
    ("past the page", prints_a_line_more),
    ("the ys swapped", swaps_the_ys),
    ("16 first", says_16_first),
    ("never 16", never_says_16),
    ("a page for a refusal", prints_for_a_refusal),
    ("a page unasked", prints_unasked),
    ("a short page", takes_a_short_page),
    ("any bit for the page", takes_any_bit_for_the_page),
];
