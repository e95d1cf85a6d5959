//! The fuzzer itself: wrong stages are caught, at a job that fails again by itself, and the proved
//! one passes. A program of one thread, since the fuzzer forks.

mod lists;
mod pages;
mod plans;

use std::arch::asm;
use std::hint::black_box;

use compare::check::{Entries, Stage};
use compare::fuzz::{How, Outcome, Settings, run};
use compare::outside::{PROVED, stage};
use jobs::numbers::{fields, has_minus_zero};

use lists::WRONG_LISTS;
use pages::WRONG_SHEETS;
use plans::{WRONG_DRAWERS, WRONG_PLANNERS};

const SIGILL: i32 = 4;
const SIGFPE: i32 = 8;
const SIGSEGV: i32 = 11;
const SIGALRM: i32 = 14;

fn settings() -> Settings {
    Settings {
        seed: 3,
        jobs: 4_000,
        guard: 2,
        ..Settings::default()
    }
}

fn accepted(count: usize) -> bool {
    count > 6
}

fn flips_a_byte(job: &[u8], answer: &mut [u8]) -> usize {
    let count = stage(job, answer);
    if accepted(count) {
        answer[count - 1] ^= 1;
    }
    count
}

fn says_11_for_14(job: &[u8], answer: &mut [u8]) -> usize {
    let count = stage(job, answer);
    if count == 6 && answer[5] == 14 {
        answer[5] = 11;
    }
    count
}

fn says_7_for_minus_zero(job: &[u8], answer: &mut [u8]) -> usize {
    let count = stage(job, answer);
    if accepted(count) && has_minus_zero(job, &fields(job)) {
        answer[..6].copy_from_slice(&[0, 0, 0, 2, 1, 7]);
        return 6;
    }
    count
}

/// As if bit 2 were not looked at.
fn never_says_15(job: &[u8], answer: &mut [u8]) -> usize {
    let mut job = job.to_vec();
    if let Some(flags @ 4..8) = job.get_mut(5) {
        *flags &= 3;
    }
    stage(&job, answer)
}

fn writes_past_the_answer(job: &[u8], answer: &mut [u8]) -> usize {
    let count = stage(job, answer);
    if accepted(count) {
        answer[count] ^= 1;
    }
    count
}

fn writes_in_a_short_buffer(job: &[u8], answer: &mut [u8]) -> usize {
    if answer.len() == 6 {
        answer.copy_from_slice(&[0, 0, 0, 2, 1, 2]);
        return 0;
    }
    stage(job, answer)
}

fn counts_one_more(job: &[u8], answer: &mut [u8]) -> usize {
    match stage(job, answer) {
        count if accepted(count) => count + 1,
        count => count,
    }
}

/// The byte at `from` moved by `by`, to be read or written outside the slice.
fn beside(from: *const u8, by: isize) -> *mut u8 {
    black_box(from).wrapping_offset(by).cast_mut()
}

fn writes_past_the_buffer(job: &[u8], answer: &mut [u8]) -> usize {
    let past = beside(answer.as_ptr(), answer.len() as isize);
    // SAFETY: none; this is the wrong that has to be caught.
    unsafe { past.write_volatile(past.read_volatile() ^ 1) };
    stage(job, answer)
}

fn writes_before_the_buffer(job: &[u8], answer: &mut [u8]) -> usize {
    let before = beside(answer.as_ptr(), -1);
    // SAFETY: none, as above.
    unsafe { before.write_volatile(before.read_volatile() ^ 1) };
    stage(job, answer)
}

fn reads_past_the_job(job: &[u8], answer: &mut [u8]) -> usize {
    // SAFETY: none, as above.
    unsafe { beside(job.as_ptr(), job.len() as isize).read_volatile() };
    stage(job, answer)
}

fn reads_before_the_job(job: &[u8], answer: &mut [u8]) -> usize {
    // SAFETY: none, as above.
    unsafe { beside(job.as_ptr(), -1).read_volatile() };
    stage(job, answer)
}

fn changes_the_job(job: &[u8], answer: &mut [u8]) -> usize {
    let count = stage(job, answer);
    if accepted(count) {
        let last = beside(job.as_ptr(), job.len() as isize - 1);
        // SAFETY: none, as above.
        unsafe { last.write_volatile(!last.read_volatile()) };
    }
    count
}

fn traps(job: &[u8], answer: &mut [u8]) -> usize {
    let count = stage(job, answer);
    if accepted(count) {
        // SAFETY: it ends the process.
        unsafe { asm!("ud2") };
    }
    count
}

fn divides_by_zero(job: &[u8], answer: &mut [u8]) -> usize {
    let count = stage(job, answer);
    if accepted(count) {
        // SAFETY: it ends the process.
        unsafe {
            asm!("xor edx, edx", "xor ecx, ecx", "div ecx",
                 out("rax") _, out("rcx") _, out("rdx") _)
        };
    }
    count
}

fn runs_on(job: &[u8], answer: &mut [u8]) -> usize {
    let count = stage(job, answer);
    while accepted(black_box(count)) {}
    count
}

const WRONG: [(&str, Stage, &[How]); 15] = [
    ("flips a byte", flips_a_byte, &[How::Differs]),
    ("11 for 14", says_11_for_14, &[How::Differs]),
    ("7 for minus zero", says_7_for_minus_zero, &[How::Differs]),
    ("never 15", never_says_15, &[How::Differs]),
    ("past the answer", writes_past_the_answer, &[How::Differs]),
    (
        "in a short buffer",
        writes_in_a_short_buffer,
        &[How::Differs],
    ),
    ("counts one more", counts_one_more, &[How::Differs]),
    ("changes the job", changes_the_job, &[How::Differs]),
    ("past the buffer", writes_past_the_buffer, &OUTSIDE),
    ("before the buffer", writes_before_the_buffer, &OUTSIDE),
    (
        "reads past the job",
        reads_past_the_job,
        &[How::Signal(SIGSEGV)],
    ),
    (
        "reads before the job",
        reads_before_the_job,
        &[How::Signal(SIGSEGV)],
    ),
    ("traps", traps, &[How::Signal(SIGILL)]),
    ("divides by zero", divides_by_zero, &[How::Signal(SIGFPE)]),
    ("runs on", runs_on, &[How::Signal(SIGALRM)]),
];
/// A byte outside the buffer is either on an unmapped page or beside the buffer on its own.
const OUTSIDE: [How; 2] = [How::Differs, How::Signal(SIGSEGV)];

/// The wrong entries are caught at a job, and again at that job alone.
fn caught(name: &str, wrong: Entries, expected: &[How]) {
    let outcome = run(&settings(), wrong);
    let (index, how) = outcome.failure.expect(name);
    assert!(expected.contains(&how), "{name}: {how:?}");
    let alone = Settings {
        from: index,
        jobs: 1,
        ..settings()
    };
    assert_eq!(run(&alone, wrong).failure, Some((index, how)), "{name}");
    assert_eq!(run(&alone, PROVED).failure, None, "{name}");
    println!("{name}: caught at index {index}: {how}");
}

fn main() {
    for (name, stage, expected) in WRONG {
        caught(name, Entries { stage, ..PROVED }, expected);
    }
    for (name, plan) in WRONG_PLANNERS {
        caught(name, Entries { plan, ..PROVED }, &[How::Differs]);
    }
    for (name, draw, expected) in WRONG_DRAWERS {
        caught(name, Entries { draw, ..PROVED }, expected);
    }
    for (name, sheet) in WRONG_SHEETS.into_iter().chain(WRONG_LISTS) {
        caught(name, Entries { sheet, ..PROVED }, &[How::Differs]);
    }
    let one = run(&settings(), PROVED);
    assert_eq!(one.failure, None);
    assert_eq!(one.counts.total(), settings().jobs);
    let two = run(
        &Settings {
            workers: 2,
            ..settings()
        },
        PROVED,
    );
    assert_eq!(two, one, "two workers do the same jobs as one");
    let Outcome { counts, .. } = run(
        &Settings {
            seconds: 0,
            ..settings()
        },
        PROVED,
    );
    assert_eq!(counts.total(), 0, "no time, no jobs");
    println!("the proved stage passes {} jobs", one.counts.total());
}
