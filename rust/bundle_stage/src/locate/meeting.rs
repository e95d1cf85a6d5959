//! Where on the board a refused bundle has met what it must not.

use crate::board::Board;
use crate::plan::Plan;
use crate::refusal::Refusal;
use crate::sheet::{DrawnBundle, Route, Segment};

use super::checks::Checks;
use super::turn;

/// The place of the test that fails; with 10 the tap of the first member that cannot be led to it.
pub(crate) fn met(
    board: &Board,
    plan: &Plan,
    refusal: Refusal,
    bundles: &[DrawnBundle],
    routes: &[Route],
) -> Option<Segment> {
    if refusal == Refusal::TapUnreachable {
        let turn = bundles.len().checked_sub(1)?;
        let member = *turn::not_led(board, plan, turn).first()?;
        let edge = board.bundles[turn].members[member].edge;
        let tap = bundles[turn].taps.iter().find(|tap| tap.edge == edge)?;
        let (start, end) = (tap.point, tap.point);
        return Some(Segment { start, end });
    }
    let failed = Checks::of(board, bundles, routes).make().err()?;
    (failed.refusal() == refusal).then(|| failed.at())
}
