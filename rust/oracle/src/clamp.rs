//! The patched plan against the copy without any patch, whose clamp panics.

use std::panic::{AssertUnwindSafe, catch_unwind};

use crate::board::Board;
use crate::{job, unpatched};

/// How the two plans of one job compare.
#[derive(Clone, Copy, Debug, Eq, PartialEq)]
pub enum Compared {
    /// The reader refuses the job.
    NoJob,
    /// Both planned, bit for bit the same.
    Same,
    /// The patched copy noted 13 and the other one panicked.
    Refused,
    Differs,
}

/// Plans the job with the Rust's own 2,000,000 tap visits in both copies. The caller silences the
/// panic message if it wants to.
pub fn compare(bytes: &[u8]) -> Compared {
    let Ok(job) = job::read(bytes) else {
        return Compared::NoJob;
    };
    let board = Board::new(&job);
    let graph = board.graph();
    let mut visits = job::MAX_TAP_VISITS as usize;
    let patched = board
        .prepare(&graph)
        .plan(&board.routes, board.separate, &mut visits);
    let unpatched = catch_unwind(AssertUnwindSafe(|| {
        unpatched::harness::plan(
            &graph,
            &board.nodes,
            &board.routes,
            board.options,
            board.reserve,
            board.separate,
        )
    }));
    match (patched, unpatched) {
        (Some(left), Ok(right)) if bits(&left) == bits(&right) => Compared::Same,
        (None, Err(_)) => Compared::Refused,
        _ => Compared::Differs,
    }
}

fn bits(planned: &[Option<f64>]) -> Vec<Option<u64>> {
    planned.iter().map(|x| x.map(f64::to_bits)).collect()
}
