//! The C functions of the proved bundle stage: the only unsafe code of the binding. Programs use the
//! crate `bundle_stage`.

/// The bytes of an answer's buffer: the least that the stage accepts. No answer is longer.
pub const BUFFER: usize = 65_536;
/// The bytes of a plan's buffer: the least that the stage accepts, and the largest plan.
pub const PLAN: usize = 297;
/// The bytes of a bundle page's buffer: the least that the stage accepts, and the largest page.
pub const PAGE: usize = 2_432;

/// The bytes of a buffer for the list of crossings: the least that the stage accepts, and the longest
/// list.
pub const CROSSINGS: usize = 24_578;

/// The bit of `wants` that says: a plan is given.
pub const PLAN_GIVEN: u32 = 1;
/// The bit of `wants` that says: the bundle page is wanted.
pub const WANT_PAGE: u32 = 1 << 1;
/// The bit of `wants` that says: the list of crossings is wanted.
pub const WANT_CROSSINGS: u32 = 1 << 2;

/// The library's functions as C sees them, for callers with memory of their own.
pub mod c {
    unsafe extern "C" {
        // SAFETY: the declarations are those of the library's `pub extern "C" fn` of the same names
        // (crates/stage_c), where a slice is a pointer and a count, and `usize` has 64 bits on x86-64,
        // for which alone the library is made. It exports no other name.
        /// # Safety
        ///
        /// Job and answer have as many bytes as is said. They must not overlap, not by one byte: what
        /// is proved of the stage is proved of slices that do not.
        pub fn stage(
            job: *const u8,
            job_length: usize,
            answer: *mut u8,
            answer_length: usize,
        ) -> usize;

        /// # Safety
        ///
        /// As `stage`, the plan's buffer being the one that is written to.
        pub fn stage_plan(
            job: *const u8,
            job_length: usize,
            plan: *mut u8,
            plan_length: usize,
        ) -> usize;

        /// # Safety
        ///
        /// As `stage`, of three buffers: no two overlap.
        pub fn stage_draw(
            job: *const u8,
            job_length: usize,
            plan: *const u8,
            plan_length: usize,
            answer: *mut u8,
            answer_length: usize,
        ) -> usize;

        /// # Safety
        ///
        /// As `stage`, of five buffers: no two overlap. A pointer is not null, even where the length
        /// is 0, as it may be for a plan that is not given or an output that is not wanted.
        pub fn stage_sheet(
            wants: u32,
            job: *const u8,
            job_length: usize,
            plan: *const u8,
            plan_length: usize,
            answer: *mut u8,
            answer_length: usize,
            page: *mut u8,
            page_length: usize,
            crossings: *mut u8,
            crossings_length: usize,
        ) -> usize;
    }
}

/// Writes the answer to the job, or the notice of its refusal, to the front of the buffer, and gives
/// how many bytes that are: from 6 to 52,484. Later bytes of the buffer stay as they were.
///
/// ```
/// let mut answer = [0; bundle_stage_sys::BUFFER];
/// let count = bundle_stage_sys::stage(b"no job", &mut answer);
/// assert_eq!(answer[..count], [0, 0, 0, 2, 1, 1]);
/// ```
///
/// A buffer of another size is no buffer:
///
/// ```compile_fail,E0308
/// bundle_stage_sys::stage(b"no job", &mut [0; bundle_stage_sys::BUFFER - 1]);
/// ```
pub fn stage(job: &[u8], answer: &mut [u8; BUFFER]) -> usize {
    // SAFETY: both pointers are those of slices that are valid for the lengths given, for the whole
    // call. They do not overlap, as `job` is lent shared and `answer` alone. The stage is proved to
    // have its contract for every such pair (it has no `requires`): it does not trap, ends, reads
    // and writes only what it is lent, and keeps no pointer. It has no state, so that threads may
    // call it at the same time. Its machine code touches each page of a frame as it makes it, as
    // Rust's does, so that a stack that is too short ends the process at its guard page.
    unsafe { c::stage(job.as_ptr(), job.len(), answer.as_mut_ptr(), answer.len()) }
}

/// Writes the plan of the job, or the notice of its refusal, to the front of the buffer, and gives how
/// many bytes that are: 6, or from 9 to 297. Later bytes of the buffer stay as they were.
///
/// ```
/// let mut plan = [0; bundle_stage_sys::PLAN];
/// let count = bundle_stage_sys::stage_plan(b"no job", &mut plan);
/// assert_eq!(plan[..count], [0, 0, 0, 2, 1, 1]);
/// ```
pub fn stage_plan(job: &[u8], plan: &mut [u8; PLAN]) -> usize {
    // SAFETY: as in `stage`, with the plan in the answer's place.
    unsafe { c::stage_plan(job.as_ptr(), job.len(), plan.as_mut_ptr(), plan.len()) }
}

/// Writes the answer to the job, drawn from the plan, or the notice of its refusal, to the front of the
/// buffer, and gives how many bytes that are.
pub fn stage_draw(job: &[u8], plan: &[u8], answer: &mut [u8; BUFFER]) -> usize {
    // SAFETY: as in `stage`, of three slices, two of which are lent shared.
    unsafe {
        c::stage_draw(
            job.as_ptr(),
            job.len(),
            plan.as_ptr(),
            plan.len(),
            answer.as_mut_ptr(),
            answer.len(),
        )
    }
}

/// The answer to the job as `stage` gives it, or as `stage_draw` does where a plan is given, and the
/// bundle page and the list of crossings where buffers for them are lent. A refusal, 16 of the page and 19
/// of the list among them, leaves these buffers as they were.
///
/// ```
/// use bundle_stage_sys::{BUFFER, PAGE};
///
/// let (mut answer, mut page) = ([0; BUFFER], [7; PAGE]);
/// let count = bundle_stage_sys::stage_sheet(b"no job", None, &mut answer, Some(&mut page), None);
/// assert_eq!(answer[..count], [0, 0, 0, 2, 1, 1]);
/// assert_eq!(page, [7; PAGE]);
/// ```
pub fn stage_sheet(
    job: &[u8],
    plan: Option<&[u8]>,
    answer: &mut [u8; BUFFER],
    page: Option<&mut [u8; PAGE]>,
    crossings: Option<&mut [u8; CROSSINGS]>,
) -> usize {
    let mut wants = 0;
    let plan = match plan {
        Some(plan) => {
            wants |= PLAN_GIVEN;
            plan
        }
        None => &[],
    };
    let page: &mut [u8] = match page {
        Some(page) => {
            wants |= WANT_PAGE;
            page
        }
        None => &mut [],
    };
    let crossings: &mut [u8] = match crossings {
        Some(crossings) => {
            wants |= WANT_CROSSINGS;
            crossings
        }
        None => &mut [],
    };
    // SAFETY: as in `stage`, of five slices, of which the three that are written to overlap no other; an
    // empty one has a pointer that is not null. The contract holds for every `wants` and all lengths.
    unsafe {
        c::stage_sheet(
            wants,
            job.as_ptr(),
            job.len(),
            plan.as_ptr(),
            plan.len(),
            answer.as_mut_ptr(),
            answer.len(),
            page.as_mut_ptr(),
            page.len(),
            crossings.as_mut_ptr(),
            crossings.len(),
        )
    }
}
