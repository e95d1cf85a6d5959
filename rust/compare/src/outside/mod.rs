//! The only module with unsafe code: calls of the static library's functions, pages that have an
//! unmapped page on either side, processes that share memory, the thread's clock and its flag for
//! operations that round. x86-64 Linux alone, as the library is.

mod calls;

use std::arch::asm;
use std::ffi::{c_int, c_uint, c_void};
use std::panic::{AssertUnwindSafe, catch_unwind};
use std::ptr::{self, NonNull};
use std::slice;
use std::sync::atomic::AtomicU64;

pub use calls::*;

const PROT_NONE: c_int = 0;
const PROT_READ: c_int = 1;
const PROT_WRITE: c_int = 2;
const MAP_SHARED: c_int = 1;
const MAP_PRIVATE: c_int = 2;
const MAP_ANONYMOUS: c_int = 0x20;
const CLOCK_THREAD_CPUTIME_ID: c_int = 3;

/// The size of a page on x86-64.
pub const PAGE: usize = 4096;

/// The system's `struct timespec`.
#[repr(C)]
struct Timespec {
    seconds: i64,
    nanoseconds: i64,
}

unsafe extern "C" {
    fn mmap(
        address: *mut c_void,
        length: usize,
        protection: c_int,
        flags: c_int,
        file: c_int,
        offset: i64,
    ) -> *mut c_void;
    fn mprotect(address: *mut c_void, length: usize, protection: c_int) -> c_int;
    fn munmap(address: *mut c_void, length: usize) -> c_int;
    fn clock_gettime(clock: c_int, time: *mut Timespec) -> c_int;
    fn fork() -> c_int;
    fn waitpid(process: c_int, status: *mut c_int, options: c_int) -> c_int;
    fn _exit(status: c_int) -> !;
    fn alarm(seconds: c_uint) -> c_uint;
}

/// The bit of MXCSR that an SSE operation sets where its result is rounded.
const ROUNDED: u32 = 1 << 5;

/// This thread's MXCSR.
fn mxcsr() -> u32 {
    let mut word = 0_u32;
    // SAFETY: it writes the four bytes of `word`.
    unsafe { asm!("stmxcsr [{}]", in(reg) &mut word, options(nostack)) };
    word
}

/// Whether an operation of this thread has rounded since that was set to no.
pub fn has_rounded() -> bool {
    mxcsr() & ROUNDED != 0
}

pub fn set_has_rounded(rounded: bool) {
    let rounded = if rounded { ROUNDED } else { 0 };
    let word = mxcsr() & !ROUNDED | rounded;
    // SAFETY: it changes one of the status flags alone, which no code of Rust's relies on.
    unsafe { asm!("ldmxcsr [{}]", in(reg) &word, options(nostack)) };
}

/// Microseconds that this thread has run: time during which something else ran does not count.
pub fn microseconds() -> f64 {
    let mut time = Timespec {
        seconds: 0,
        nanoseconds: 0,
    };
    // SAFETY: `time` is lent for the call and has the system's layout.
    let done = unsafe { clock_gettime(CLOCK_THREAD_CPUTIME_ID, &mut time) };
    assert_eq!(done, 0, "clock_gettime fails");
    time.seconds as f64 * 1e6 + time.nanoseconds as f64 / 1e3
}

/// Whole pages, an unmapped page right before them and another right behind them.
pub struct Fenced {
    first: NonNull<u8>,
    length: usize,
}

impl Fenced {
    pub fn new(pages: usize) -> Fenced {
        let length = pages * PAGE;
        // SAFETY: new pages at a place that the system chooses; no other memory is touched. The
        // pages within are then made readable and writable, the two outermost stay as they are.
        let first = unsafe {
            let flags = MAP_PRIVATE | MAP_ANONYMOUS;
            let base = mmap(ptr::null_mut(), length + 2 * PAGE, PROT_NONE, flags, -1, 0);
            assert!(base.addr() != usize::MAX, "mmap of {pages} pages fails");
            let first = base.byte_add(PAGE);
            let done = mprotect(first, length, PROT_READ | PROT_WRITE);
            assert_eq!(done, 0, "mprotect of {pages} pages fails");
            first
        };
        let first = NonNull::new(first.cast()).expect("mmap gives no null");
        Fenced { first, length }
    }

    pub fn bytes(&mut self) -> &mut [u8] {
        // SAFETY: the pages are readable, writable and set to 0 by the system; they belong to this
        // value alone, which is borrowed as long as the slice.
        unsafe { slice::from_raw_parts_mut(self.first.as_ptr(), self.length) }
    }
}

impl Drop for Fenced {
    fn drop(&mut self) {
        // SAFETY: the pages that `new` has mapped; no slice of them is left.
        unsafe {
            let base = self.first.as_ptr().byte_sub(PAGE);
            munmap(base.cast(), self.length + 2 * PAGE);
        }
    }
}

/// Words that this process shares with those that it forks; 0 at first. They stay mapped.
pub fn shared_words(count: usize) -> &'static [AtomicU64] {
    let flags = MAP_SHARED | MAP_ANONYMOUS;
    let length = count * size_of::<AtomicU64>();
    // SAFETY: new pages at a place that the system chooses, readable, writable and set to 0, which
    // is a valid AtomicU64; they are aligned to a page and never unmapped.
    unsafe {
        let base = mmap(
            ptr::null_mut(),
            length,
            PROT_READ | PROT_WRITE,
            flags,
            -1,
            0,
        );
        assert!(base.addr() != usize::MAX, "mmap of {count} words fails");
        slice::from_raw_parts(base.cast(), count)
    }
}

/// How a process ended.
#[derive(Clone, Copy, Debug, Eq, PartialEq)]
pub enum End {
    Exit(i32),
    Signal(i32),
}

/// The exit status of a process that panicked.
pub const PANICKED: i32 = 101;

/// Does `work` in a new process, which ends with the status that it gives; the number of the
/// process. Only for a process of one thread.
pub fn forked(work: impl FnOnce() -> i32) -> i32 {
    // SAFETY: there is no other thread that could hold a lock. The new process does its work and
    // ends, without coming back to the caller's code and without running what is left to the
    // caller's end.
    unsafe {
        let process = fork();
        assert!(process >= 0, "fork fails");
        if process == 0 {
            _exit(catch_unwind(AssertUnwindSafe(work)).unwrap_or(PANICKED));
        }
        process
    }
}

/// Waits for the next of the forked processes to end.
pub fn wait_for_any() -> (i32, End) {
    let mut status = 0;
    // SAFETY: `status` is lent for the call.
    let process = unsafe { waitpid(-1, &mut status, 0) };
    assert!(process > 0, "waitpid fails");
    let end = match status & 0x7f {
        0 => End::Exit(status >> 8 & 0xff),
        signal => End::Signal(signal),
    };
    (process, end)
}

/// The process is ended by SIGALRM after that many seconds, unless this is called again before.
pub fn end_after(seconds: u32) {
    // SAFETY: it sets the process's alarm and nothing else.
    unsafe { alarm(seconds) };
}
