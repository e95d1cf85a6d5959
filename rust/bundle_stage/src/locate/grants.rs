//! What a larger grant would give (14, and searches that ran out of tap visits).

use crate::board::{Board, Visits};
use crate::place::{Item, Place, place};
use crate::plan::Plan;
use crate::refusal::Refusal;

/// What the stage would make of a board with the largest grants.
#[derive(Clone, Copy, Debug, Eq, PartialEq)]
#[non_exhaustive]
pub enum Forecast {
    /// It is drawn, and these visits are paid: grants of as many are enough for the same sheet.
    Drawn(Visits),
    /// It is refused, and not for its grants.
    Refused(Refusal),
    /// The largest geometry grant is not enough either.
    NotEnough,
}

impl Board {
    /// Draws the board with the largest grants, [`Visits::MOST`], and says what that takes.
    ///
    /// ```
    /// use bundle_stage::*;
    ///
    /// let board = Board::default();
    /// let nothing = Visits { tap: 0, geometry: 0 };
    /// assert_eq!(board.forecast(), Forecast::Drawn(nothing));
    /// ```
    pub fn forecast(&self) -> Forecast {
        let most = Board {
            grants: Visits::MOST,
            ..self.clone()
        };
        match most.draw() {
            Ok(sheet) => Forecast::Drawn(Visits {
                tap: Visits::MOST.tap - sheet.visits_left.tap,
                geometry: Visits::MOST.geometry - sheet.visits_left.geometry,
            }),
            Err(Refusal::GeometryVisitsSpent) => Forecast::NotEnough,
            Err(refusal) => Forecast::Refused(refusal),
        }
    }
}

/// Of a board that is drawn from a plan, if one is given.
pub(super) fn place(board: &Board, plan: Option<&Plan>) -> Place {
    let [_, name] = Visits::NAMES;
    let setting = Item::Setting { name };
    let granted = board.grants.geometry;
    // The tap grant decides which sheet it is.
    let same_taps = Board {
        grants: Visits {
            geometry: Visits::MOST.geometry,
            ..board.grants
        },
        ..board.clone()
    };
    let drawn = match plan {
        Some(plan) => same_taps.draw_from(plan),
        None => same_taps.draw(),
    };
    let forecast = match drawn {
        Ok(sheet) => {
            let paid = Visits::MOST.geometry - sheet.visits_left.geometry;
            format!("; with {paid} the board is drawn")
        }
        Err(Refusal::GeometryVisitsSpent) => {
            format!(", and {} are not enough", Visits::MOST.geometry)
        }
        Err(refusal) => format!(
            "; with more the board is refused with {}: {}",
            refusal.number(),
            refusal.fault()
        ),
    };
    place!(setting, format!(" is {granted}{forecast}"))
}
