//! Wrong planners, and wrong drawings from a plan.

use compare::fuzz::How;
use compare::outside::{stage, stage_draw, stage_plan};
use compare::plans::{Drawer, Planner};

use crate::{SIGSEGV, accepted, beside};

/// A plan has nine bytes or more, a notice six.
fn planned(count: usize) -> bool {
    count > 6
}

fn plans_another_x(job: &[u8], plan: &mut [u8]) -> usize {
    let count = stage_plan(job, plan);
    if count >= 18 {
        plan[count - 1] ^= 1;
    }
    count
}

fn counts_visits_paid(job: &[u8], plan: &mut [u8]) -> usize {
    let count = stage_plan(job, plan);
    if planned(count) {
        plan[8] ^= 1;
    }
    count
}

fn plans_the_rail_for_13(job: &[u8], plan: &mut [u8]) -> usize {
    let count = stage_plan(job, plan);
    if count == 6 && plan[5] == 13 {
        plan[..11].copy_from_slice(&[0, 0, 0, 7, 1, 0, 0, 0, 0, 0, 0]);
        return 11;
    }
    count
}

fn plans_in_a_short_buffer(job: &[u8], plan: &mut [u8]) -> usize {
    match plan.len() {
        296 => {
            let mut whole = [0; 297];
            let count = stage_plan(job, &mut whole);
            plan[..count].copy_from_slice(&whole[..count]);
            count
        }
        _ => stage_plan(job, plan),
    }
}

/// As if the planner also drew.
fn plans_only_what_is_drawn(job: &[u8], plan: &mut [u8]) -> usize {
    let mut answer = vec![0; 65_536];
    let count = stage_plan(job, plan);
    if planned(count) && stage(job, &mut answer) == 6 {
        plan[..6].copy_from_slice(&answer[..6]);
        return 6;
    }
    count
}

pub const WRONG_PLANNERS: [(&str, Planner); 5] = [
    ("another x", plans_another_x),
    ("visits paid", counts_visits_paid),
    ("a plan for 13", plans_the_rail_for_13),
    ("a short plan", plans_in_a_short_buffer),
    ("a planner that draws", plans_only_what_is_drawn),
];

/// As if the plan were not looked at.
fn draws_its_own_plan(job: &[u8], _: &[u8], answer: &mut [u8]) -> usize {
    stage(job, answer)
}

fn says_13(job: &[u8], plan: &[u8], answer: &mut [u8]) -> usize {
    let mut made = [0; 297];
    if answer.len() >= 65_536 && stage_plan(job, &mut made) == 6 && made[5] == 13 {
        answer[..6].copy_from_slice(&made[..6]);
        return 6;
    }
    stage_draw(job, plan, answer)
}

fn says_18_before_17(job: &[u8], plan: &[u8], answer: &mut [u8]) -> usize {
    let count = stage_draw(job, plan, answer);
    let no_number = |bytes: &[u8]| {
        let number = f64::from_be_bytes(bytes.try_into().expect("eight bytes"));
        !number.is_finite()
    };
    if count == 6 && answer[5] == 17 && plan.get(10..18).is_some_and(no_number) {
        answer[5] = 18;
    }
    count
}

/// Minus zero as plus zero: of a plan, where it stays.
fn draws_plus_zeros(job: &[u8], plan: &[u8], answer: &mut [u8]) -> usize {
    let mut plan = plan.to_vec();
    let mut at = 9;
    while let Some(&mark) = plan.get(at) {
        if mark != 1 {
            at += 1;
            continue;
        }
        if plan.get(at + 1..at + 9) == Some(&(-0.0_f64).to_be_bytes()) {
            plan[at + 1] = 0;
        }
        at += 9;
    }
    stage_draw(job, &plan, answer)
}

fn hands_no_visits_on(job: &[u8], plan: &[u8], answer: &mut [u8]) -> usize {
    let count = stage_draw(job, plan, answer);
    if accepted(count) {
        answer[6..10].fill(0);
    }
    count
}

fn takes_any_visits(job: &[u8], plan: &[u8], answer: &mut [u8]) -> usize {
    let mut plan = plan.to_vec();
    if let Some(visits) = plan.get_mut(5..9) {
        visits.fill(0);
    }
    stage_draw(job, &plan, answer)
}

fn takes_more_bytes(job: &[u8], plan: &[u8], answer: &mut [u8]) -> usize {
    let count = stage_draw(job, plan, answer);
    if let Some((_, less)) = plan.split_last()
        && count == 6
        && answer[5] == 17
        && less.len() > 4
    {
        let mut less = less.to_vec();
        let length = less.len() as u32 - 4;
        less[..4].copy_from_slice(&length.to_be_bytes());
        return stage_draw(job, &less, answer);
    }
    count
}

fn reads_past_the_plan(job: &[u8], plan: &[u8], answer: &mut [u8]) -> usize {
    // SAFETY: none; this is the wrong that has to be caught.
    unsafe { beside(plan.as_ptr(), plan.len() as isize).read_volatile() };
    stage_draw(job, plan, answer)
}

pub const WRONG_DRAWERS: [(&str, Drawer, &[How]); 8] = [
    ("its own plan", draws_its_own_plan, &[How::Differs]),
    ("13 in the drawing", says_13, &[How::Differs]),
    ("18 before 17", says_18_before_17, &[How::Differs]),
    ("plus zeros", draws_plus_zeros, &[How::Differs]),
    ("no visits", hands_no_visits_on, &[How::Differs]),
    ("any visits", takes_any_visits, &[How::Differs]),
    ("more bytes", takes_more_bytes, &[How::Differs]),
    (
        "reads past the plan",
        reads_past_the_plan,
        &[How::Signal(SIGSEGV)],
    ),
];
