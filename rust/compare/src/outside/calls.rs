//! Calls of the static library's functions: from lent slices, with buffers of exact size on the heap, and
//! on a stack of their own.

use std::arch::asm;

use bundle_stage_sys::c;
use oracle::crossings::ENTRY;
use oracle::outputs::{Lengths, Outputs, WANT_CROSSINGS, WANT_PAGE};
use oracle::page::LINE;

use super::Fenced;
use crate::check::Entries;
use crate::sheets::Lent;

/// The proved stage.
pub fn stage(job: &[u8], answer: &mut [u8]) -> usize {
    // SAFETY: both slices are valid for their lengths and do not overlap, as `job` is lent shared
    // and `answer` alone. The stage has a contract for every such pair (no `requires`): it reads
    // and writes only what it is lent, keeps no pointer and returns.
    unsafe { c::stage(job.as_ptr(), job.len(), answer.as_mut_ptr(), answer.len()) }
}

/// The proved planner.
pub fn stage_plan(job: &[u8], plan: &mut [u8]) -> usize {
    // SAFETY: as in `stage`.
    unsafe { c::stage_plan(job.as_ptr(), job.len(), plan.as_mut_ptr(), plan.len()) }
}

/// The proved drawing from a plan.
pub fn stage_draw(job: &[u8], plan: &[u8], answer: &mut [u8]) -> usize {
    // SAFETY: as in `stage`, of three slices, two of which are lent shared.
    unsafe {
        c::stage_draw(
            job.as_ptr(),
            job.len(),
            plan.as_ptr(),
            plan.len(),
            answer.as_mut_ptr(),
            answer.len(),
        )
    }
}

/// The proved entry that can be given a plan and can give other outputs too.
pub fn stage_sheet(lent: Lent<'_>) -> usize {
    let Lent {
        wants,
        job,
        plan,
        answer,
        page,
        crossings,
    } = lent;
    // SAFETY: as in `stage`, of five slices.
    unsafe {
        c::stage_sheet(
            wants,
            job.as_ptr(),
            job.len(),
            plan.as_ptr(),
            plan.len(),
            answer.as_mut_ptr(),
            answer.len(),
            page.as_mut_ptr(),
            page.len(),
            crossings.as_mut_ptr(),
            crossings.len(),
        )
    }
}

/// The proved entries.
pub const PROVED: Entries = Entries {
    stage,
    plan: stage_plan,
    draw: stage_draw,
    sheet: stage_sheet,
};

/// The answer in a buffer of `length` bytes that nobody has written to before, so that memcheck
/// sees a read of the buffer before it is written, and a byte of the answer that is not written.
pub fn stage_on_heap(job: &[u8], length: usize) -> Vec<u8> {
    let mut answer = Vec::<u8>::with_capacity(length);
    // SAFETY: as in `stage`, but that the buffer's bytes are not written yet. The stage does not
    // read them, and by its contract the first `count` bytes are written, `count` being at most
    // `length`.
    unsafe {
        let count = c::stage(job.as_ptr(), job.len(), answer.as_mut_ptr(), length);
        assert!(count <= length, "{count} bytes in a buffer of {length}");
        answer.set_len(count);
    }
    answer
}

/// The same of `stage_plan`: the plan in a buffer of `length` bytes.
pub fn stage_plan_on_heap(job: &[u8], length: usize) -> Vec<u8> {
    let mut plan = Vec::<u8>::with_capacity(length);
    // SAFETY: as above.
    unsafe {
        let count = c::stage_plan(job.as_ptr(), job.len(), plan.as_mut_ptr(), length);
        assert!(count <= length, "{count} bytes in a buffer of {length}");
        plan.set_len(count);
    }
    plan
}

/// The same of `stage_draw`: the answer in a buffer of `length` bytes.
pub fn stage_draw_on_heap(job: &[u8], plan: &[u8], length: usize) -> Vec<u8> {
    let mut answer = Vec::<u8>::with_capacity(length);
    // SAFETY: as above.
    unsafe {
        let count = c::stage_draw(
            job.as_ptr(),
            job.len(),
            plan.as_ptr(),
            plan.len(),
            answer.as_mut_ptr(),
            length,
        );
        assert!(count <= length, "{count} bytes in a buffer of {length}");
        answer.set_len(count);
    }
    answer
}

/// The same of `stage_sheet`, with what is wanted.
pub fn stage_sheet_on_heap(job: &[u8], plan: &[u8], wants: u32, lengths: Lengths) -> Outputs {
    let mut answer = Vec::<u8>::with_capacity(lengths.answer);
    let mut page = Vec::<u8>::with_capacity(lengths.page);
    let mut crossings = Vec::<u8>::with_capacity(lengths.crossings);
    // SAFETY: as above, of five slices. By the contract the page of an accepted job, if it is wanted,
    // has a line for each bundle, which the answer counts, the list begins with its count, and no other
    // byte of them is written.
    unsafe {
        let count = c::stage_sheet(
            wants,
            job.as_ptr(),
            job.len(),
            plan.as_ptr(),
            plan.len(),
            answer.as_mut_ptr(),
            lengths.answer,
            page.as_mut_ptr(),
            lengths.page,
            crossings.as_mut_ptr(),
            lengths.crossings,
        );
        assert!(count <= lengths.answer, "{count} bytes of {lengths:?}");
        answer.set_len(count);
        if wants & WANT_PAGE != 0
            && let Some(&[high, low]) = answer.get(34..36)
        {
            let written = LINE * usize::from(u16::from_be_bytes([high, low]));
            assert!(written <= lengths.page, "{written} bytes of {lengths:?}");
            page.set_len(written);
        }
        if wants & WANT_CROSSINGS != 0 && answer.len() > 6 {
            crossings.set_len(2);
            let count = usize::from(u16::from_be_bytes([crossings[0], crossings[1]]));
            let written = 2 + ENTRY * count;
            assert!(
                written <= lengths.crossings,
                "{written} bytes of {lengths:?}"
            );
            crossings.set_len(written);
        }
    }
    Outputs {
        answer,
        page,
        crossings,
    }
}

/// The proved stage on a stack of its own, whose top is the end of `stack`.
pub fn stage_on_stack(stack: &mut Fenced, job: &[u8], answer: &mut [u8]) -> usize {
    let top = stack.bytes().as_mut_ptr_range().end;
    let count: usize;
    // SAFETY: as in `stage`. The stack is lent by `&mut`, its top is aligned to a page, and no Rust
    // code runs on it. The stage keeps r12, in which the present stack waits. Where the stage needs
    // more, the page below is unmapped and the process ends.
    unsafe {
        asm!(
            "mov r12, rsp",
            "mov rsp, {top}",
            "call {stage}",
            "mov rsp, r12",
            top = in(reg) top,
            stage = sym c::stage,
            in("rdi") job.as_ptr(),
            in("rsi") job.len(),
            in("rdx") answer.as_mut_ptr(),
            in("rcx") answer.len(),
            out("rax") count,
            out("r12") _,
            clobber_abi("C"),
        );
    }
    count
}

/// The same of `stage_plan`.
pub fn stage_plan_on_stack(stack: &mut Fenced, job: &[u8], plan: &mut [u8]) -> usize {
    let top = stack.bytes().as_mut_ptr_range().end;
    let count: usize;
    // SAFETY: as in `stage_on_stack`.
    unsafe {
        asm!(
            "mov r12, rsp",
            "mov rsp, {top}",
            "call {stage}",
            "mov rsp, r12",
            top = in(reg) top,
            stage = sym c::stage_plan,
            in("rdi") job.as_ptr(),
            in("rsi") job.len(),
            in("rdx") plan.as_mut_ptr(),
            in("rcx") plan.len(),
            out("rax") count,
            out("r12") _,
            clobber_abi("C"),
        );
    }
    count
}

/// The same of `stage_draw`.
pub fn stage_draw_on_stack(
    stack: &mut Fenced,
    job: &[u8],
    plan: &[u8],
    answer: &mut [u8],
) -> usize {
    let top = stack.bytes().as_mut_ptr_range().end;
    let count: usize;
    // SAFETY: as in `stage_on_stack`.
    unsafe {
        asm!(
            "mov r12, rsp",
            "mov rsp, {top}",
            "call {stage}",
            "mov rsp, r12",
            top = in(reg) top,
            stage = sym c::stage_draw,
            in("rdi") job.as_ptr(),
            in("rsi") job.len(),
            in("rdx") plan.as_ptr(),
            in("rcx") plan.len(),
            in("r8") answer.as_mut_ptr(),
            in("r9") answer.len(),
            out("rax") count,
            out("r12") _,
            clobber_abi("C"),
        );
    }
    count
}

/// The same of `stage_sheet`, whose last words stand on the stack, at its top.
pub fn stage_sheet_on_stack(stack: &mut Fenced, lent: Lent<'_>) -> usize {
    let last = [
        lent.answer.len(),
        lent.page.as_ptr().addr(),
        lent.page.len(),
        lent.crossings.as_ptr().addr(),
        lent.crossings.len(),
        0,
    ];
    let bytes = stack.bytes();
    let (_, top) = bytes.split_at_mut(bytes.len() - size_of_val(&last));
    for (place, word) in top.chunks_exact_mut(8).zip(last) {
        place.copy_from_slice(&word.to_ne_bytes());
    }
    let count: usize;
    // SAFETY: as in `stage_on_stack`. What is at the stack's top is what the call takes there: the
    // seventh word and those behind it, and one more, so that the stack is aligned to 16 bytes.
    unsafe {
        asm!(
            "mov r12, rsp",
            "mov rsp, {top}",
            "call {stage}",
            "mov rsp, r12",
            top = in(reg) top.as_mut_ptr(),
            stage = sym c::stage_sheet,
            in("rdi") u64::from(lent.wants),
            in("rsi") lent.job.as_ptr(),
            in("rdx") lent.job.len(),
            in("rcx") lent.plan.as_ptr(),
            in("r8") lent.plan.len(),
            in("r9") lent.answer.as_mut_ptr(),
            out("rax") count,
            out("r12") _,
            clobber_abi("C"),
        );
    }
    count
}
