//! The bundle at whose turn a drawing is refused, and the members that cannot be led to it.
//!
//! A board is drawn bundle by bundle. So it is drawn again from the plan, the two cut to the first bundles:
//! the last of the fewest that are refused is the one.

use crate::board::{Board, Visits};
use crate::plan::Plan;
use crate::refusal::Refusal;

/// The place of the bundle at whose turn the drawing from a plan is refused with 10, 11 or 12. None of a
/// board that is not.
pub(crate) fn refused_turn(board: &Board, plan: &Plan) -> Option<usize> {
    (0..board.bundles.len()).find(|&turn| {
        let (board, plan) = up_to(board, plan, turn);
        board.draw_from(&plan).is_err()
    })
}

/// The members of the bundle at this turn that cannot be led to it at the rail, or, where all can, to
/// where it is planned, by their places in the bundle: each is tried alone.
pub(super) fn not_led(board: &Board, plan: &Plan, turn: usize) -> Vec<usize> {
    let (board, plan) = up_to(board, plan, turn);
    let members = 0..board.bundles[turn].members.len();
    let at = |x: Option<f64>| {
        let alone = members.clone().filter(|&member| {
            let (mut board, mut plan) = (board.clone(), plan.clone());
            board.bundles[turn].members = vec![board.bundles[turn].members[member]];
            plan.places[turn] = x;
            board.draw_from(&plan) == Err(Refusal::TapUnreachable)
        });
        alone.collect::<Vec<_>>()
    };
    let rail = at(None);
    if rail.is_empty() {
        at(plan.places[turn])
    } else {
        rail
    }
}

/// Board and plan with the bundles up to this one. The grant is not to be what refuses.
fn up_to(board: &Board, plan: &Plan, turn: usize) -> (Board, Plan) {
    let (mut board, mut plan) = (board.clone(), plan.clone());
    board.bundles.truncate(turn + 1);
    board.grants.geometry = Visits::MOST.geometry;
    plan.places.truncate(turn + 1);
    (board, plan)
}
