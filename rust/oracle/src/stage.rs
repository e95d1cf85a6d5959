//! The stage in document 01's order: 2, 1, 3, 4 to 7 and 15, 8, 9, the plan (13), the sheet bundle by
//! bundle (10, 12, 11, 14), normalize_layout, the answer.

use crate::board::Board;
use crate::crossings::{Crossing, crossings, crossings_by_kinds};
use crate::patched::harness::{self, Failed, Prepared, normalize};
use crate::plan::{self, Plan};
use crate::records::Layout;
use crate::{answer, job};

/// Smallest answer buffer that 2 lets through.
pub const BUFFER: usize = 65_536;

/// Writes the answer or the notice to the front of `answer` and says how many bytes that is;
/// 0 and nothing written where the buffer is too short (2).
pub fn stage(job: &[u8], buffer: &mut [u8]) -> usize {
    if buffer.len() < BUFFER {
        return 0;
    }
    let bytes = answer_of(job);
    buffer[..bytes.len()].copy_from_slice(&bytes);
    bytes.len()
}

/// The bytes of the answer or the notice, given a buffer that 2 lets through.
pub fn answer_of(job: &[u8]) -> Vec<u8> {
    answer_in_parts(job, |_| {})
}

/// Whose code runs.
#[derive(Clone, Copy, Debug, Eq, PartialEq)]
pub enum Part {
    /// Ours: the job's reader, the Rust's records made from it, the answer's writer.
    Around,
    /// The Rust's functions that document 01 names, and the maps that their caller makes for them.
    Named,
}

/// As `answer_of`; `enter` is called where another part begins, so that a clock can tell them
/// apart. The first part is `Around`.
pub fn answer_in_parts(job: &[u8], enter: impl FnMut(Part)) -> Vec<u8> {
    sheet(job, normalize, enter).unwrap_or_else(answer::notice)
}

/// As `answer_of`, but with the sheet before its last shift; width and height are 0.
pub fn answer_before_shift(job: &[u8]) -> Vec<u8> {
    sheet(job, |_| {}, |_| {}).unwrap_or_else(answer::notice)
}

/// The number of a refusal by the drawing, and the place of the bundle at whose turn it came.
pub fn refused_at(job: &[u8]) -> Option<(u8, usize)> {
    let board = Board::new(&job::read(job).ok()?);
    let graph = board.graph();
    let prepared = board.prepare(&graph);
    let mut tap_visits = board.tap_visits as usize;
    let planned = prepared.plan(&board.routes, board.separate, &mut tap_visits)?;
    let mut visits = board.geometry_visits as usize;
    let drawn = draw(
        &board,
        &prepared,
        &planned,
        &mut board.layout(),
        &mut visits,
    );
    drawn.err().map(|refused| (refused.number, refused.bundle))
}

/// The bytes of the job's plan, or the notice of a refusal: document 02, F-5. 13 is looked for here, and
/// nothing is drawn.
pub fn plan_of(bytes: &[u8]) -> Vec<u8> {
    let made = job::read(bytes).and_then(|job| planned(&job).ok_or(13));
    made.map_or_else(answer::notice, |plan| plan.encode())
}

/// The Rust's plan of a job; none where the clamp is refused.
pub fn planned(job: &job::Job) -> Option<Plan> {
    let board = Board::new(job);
    let graph = board.graph();
    let prepared = board.prepare(&graph);
    let mut tap_visits = board.tap_visits as usize;
    let entries = prepared.plan(&board.routes, board.separate, &mut tap_visits)?;
    Some(Plan {
        tap_visits: tap_visits as u32,
        entries,
    })
}

/// The answer drawn from a job and a plan, or the notice of a refusal: 1 and 3 to 9, 15, then 17, then 18,
/// then what the sheet meets. The plan's visits left are handed on.
pub fn answer_from(bytes: &[u8], plan: &[u8]) -> Vec<u8> {
    from_plan(bytes, plan, normalize).unwrap_or_else(answer::notice)
}

/// The answer, and the crossings of the sheet before its shift (document 02, F-7), none where the job is
/// refused. A plan may be given.
pub fn answer_and_crossings(bytes: &[u8], plan: Option<&[u8]>) -> (Vec<u8>, Vec<Crossing>) {
    with_crossings(bytes, plan, crossings)
}

/// The crossings by the kinds of request F-6, in whole numbers of any size.
pub fn kinds_of_crossings(bytes: &[u8], plan: Option<&[u8]>) -> Vec<Crossing> {
    with_crossings(bytes, plan, crossings_by_kinds).1
}

fn with_crossings(
    bytes: &[u8],
    plan: Option<&[u8]>,
    of: fn(&Layout) -> Vec<Crossing>,
) -> (Vec<u8>, Vec<Crossing>) {
    let mut list = Vec::new();
    let last = |layout: &mut Layout| {
        list = of(layout);
        normalize(layout);
    };
    let answer = match plan {
        None => sheet(bytes, last, |_| {}),
        Some(plan) => from_plan(bytes, plan, last),
    };
    (answer.unwrap_or_else(answer::notice), list)
}

fn from_plan(bytes: &[u8], plan: &[u8], last: impl FnOnce(&mut Layout)) -> Result<Vec<u8>, u8> {
    let job = job::read(bytes)?;
    let plan = plan::read(plan, &job)?;
    let board = Board::new(&job);
    let graph = board.graph();
    let prepared = board.prepare(&graph);
    let mut visits = board.geometry_visits as usize;
    let mut layout = board.layout();
    let interior = draw(&board, &prepared, &plan.entries, &mut layout, &mut visits)
        .map_err(|refused| refused.number)?;
    last(&mut layout);
    Ok(answer::write(
        &layout,
        &interior,
        plan.tap_visits,
        visits as u32,
    ))
}

/// For this thread, what is called before and after each pitch less the tolerance: the one operation
/// that rounds for a job on the drafting grid (document 02, F-2), so that the CPU's flag for it can
/// be kept out of it.
pub fn set_around_tolerance(before: fn(), after: fn()) {
    harness::set_around_tolerance(before, after);
}

/// The number in an answer or a notice.
pub fn number(answer: &[u8]) -> u8 {
    answer[5]
}

/// Tap and geometry visits left, in an answer.
pub fn visits_left(answer: &[u8]) -> (u32, u32) {
    let word = |at: usize| u32::from_be_bytes(answer[at..at + 4].try_into().expect("four bytes"));
    (word(6), word(10))
}

/// The bytes of the answer, `last` being done at the end, or the number of the refusal.
fn sheet(
    bytes: &[u8],
    last: impl FnOnce(&mut Layout),
    mut enter: impl FnMut(Part),
) -> Result<Vec<u8>, u8> {
    let board = Board::new(&job::read(bytes)?);
    let graph = board.graph();
    enter(Part::Named);
    let prepared = board.prepare(&graph);
    let mut tap_visits = board.tap_visits as usize;
    let planned = prepared
        .plan(&board.routes, board.separate, &mut tap_visits)
        .ok_or(13)?;
    let mut geometry_visits = board.geometry_visits as usize;
    enter(Part::Around);
    let mut layout = board.layout();
    enter(Part::Named);
    let interior = draw(
        &board,
        &prepared,
        &planned,
        &mut layout,
        &mut geometry_visits,
    )
    .map_err(|refused| refused.number)?;
    last(&mut layout);
    enter(Part::Around);
    Ok(answer::write(
        &layout,
        &interior,
        tap_visits as u32,
        geometry_visits as u32,
    ))
}

/// A refusal of the drawing or its grant, with the bundle at whose turn it came.
#[derive(Clone, Copy, Debug, Eq, PartialEq)]
pub(crate) struct Refused {
    pub(crate) number: u8,
    pub(crate) bundle: usize,
}

/// Draws every bundle in job order; `layout` is then the sheet before the shift. The result has
/// the interior mark of each bundle.
pub(crate) fn draw(
    board: &Board,
    prepared: &Prepared<'_, '_>,
    planned: &[Option<f64>],
    layout: &mut Layout,
    visits: &mut usize,
) -> Result<Vec<bool>, Refused> {
    let mut interior = Vec::with_capacity(planned.len());
    for (bundle, &x) in planned.iter().enumerate() {
        let refused = |unsatisfied: u8| {
            move |failed: Failed| Refused {
                number: match failed {
                    Failed::Unsatisfied => unsatisfied,
                    Failed::Spent => 14,
                },
                bundle,
            }
        };
        let geometry = prepared.build(bundle, &layout.edges, x);
        let mark = prepared
            .rewrite(bundle, &geometry, &mut layout.edges)
            .map_err(refused(10))?;
        layout.boundary_bundles.push(geometry);
        prepared
            .verify_interiors(bundle, layout, visits)
            .map_err(refused(12))?;
        prepared
            .verify_contacts(bundle, layout, board.crossings, visits)
            .map_err(refused(11))?;
        interior.push(mark);
    }
    Ok(interior)
}
