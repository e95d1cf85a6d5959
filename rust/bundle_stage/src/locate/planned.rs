//! What of a plan does not fit a board (17, 18), by the stage's order: `read_plan`,
//! crates/plan_bytes/specs/PlanBytes.antt.

use crate::board::{Board, Visits};
use crate::grid::LIMIT;
use crate::limits;
use crate::place::{Item, Place, place};
use crate::refusal::Refusal;
use crate::wire::next;

use super::nth;

/// The numbers of a plan's entries, each with its first byte's place and its bundle.
type Numbers = Vec<(usize, Item, f64)>;

pub(super) fn places(board: &Board, plan: &[u8], refusal: Refusal) -> Vec<Place> {
    match (read(board, plan), refusal) {
        (Err(place), Refusal::PlanMismatch) => vec![place],
        (Ok(numbers), Refusal::PlannedNumber) => {
            let wrong = numbers.into_iter().filter_map(|(at, bundle, x)| {
                let why = wrong(x, board.flags.on_grid)?;
                let at = format!("byte {at} of the plan: the x of ");
                Some(place!(at, bundle, format!(" is {x:?}; {why}")))
            });
            wrong.collect()
        }
        _ => Vec::new(),
    }
}

/// Why a number cannot be planned: on the grid collectors stand at multiples of 1/128.
fn wrong(x: f64, on_grid: bool) -> Option<&'static str> {
    if !(-limits::COORDINATE..=limits::COORDINATE).contains(&x) {
        return Some("planned numbers are -2^30 to 2^30");
    }
    let off = x.abs() > LIMIT || (x * 128.0).fract() != 0.0;
    let minus_zero = x == 0.0 && x.is_sign_negative();
    (on_grid && (off || minus_zero)).then_some(
        "on the drafting grid planned numbers are multiples of 1/128 up to 2^20, and not minus zero",
    )
}

struct Walk<'a> {
    plan: &'a [u8],
    at: usize,
}

/// The numbers, or the first thing that does not fit.
fn read(board: &Board, plan: &[u8]) -> Result<Numbers, Place> {
    let follow = plan.len().saturating_sub(4);
    let mut from = Walk { plan, at: 0 };
    let said = u32::from_be_bytes(from.take(place!("its length"))?);
    if said as usize != follow {
        return Err(place!(format!(
            "byte 0 of the plan: the length says that {said} bytes follow it, and {follow} do"
        )));
    }
    let [version] = from.take(place!("its version"))?;
    if version != 1 {
        return Err(place!(format!(
            "byte 4 of the plan: the version is {version}"
        )));
    }
    let left = u32::from_be_bytes(from.take(place!("the tap visits left"))?);
    let numbers = from.entries(board)?;
    let (at, rest) = (from.at, plan.len() - from.at);
    if rest != 0 {
        return Err(place!(format!(
            "byte {at} of the plan: the entries of the board's bundles, {} of them, end here, and {rest} \
             bytes follow",
            board.bundles.len()
        )));
    }
    visits(board, left)?;
    Ok(numbers)
}

fn visits(board: &Board, left: u32) -> Result<(), Place> {
    let granted = board.grants.tap;
    if left <= granted {
        return Ok(());
    }
    let [name, _] = Visits::NAMES;
    let said = format!("byte 5 of the plan: {left} tap visits are left, and ");
    Err(place!(
        said,
        Item::Setting { name },
        format!(" is {granted}")
    ))
}

/// The entry of a bundle.
fn of(turn: usize, bundle: Item) -> Place {
    place!(format!("{} entry, that of ", nth(turn)), bundle)
}

impl Walk<'_> {
    fn entries(&mut self, board: &Board) -> Result<Numbers, Place> {
        let mut numbers = Vec::new();
        for (turn, bundle) in board.bundle_items().into_iter().enumerate() {
            let [mark] = self.take(of(turn, bundle))?;
            match mark {
                0 => {}
                1 => {
                    let at = self.at;
                    let x = f64::from_be_bytes(self.take(of(turn, bundle))?);
                    numbers.push((at, bundle, x));
                }
                _ => {
                    let at = format!("byte {} of the plan: the mark of ", self.at - 1);
                    let said = format!(" is {mark}, and marks are 0 and 1");
                    return Err(place!(at, bundle, said));
                }
            }
        }
        Ok(numbers)
    }

    fn take<const N: usize>(&mut self, what: Place) -> Result<[u8; N], Place> {
        next(self.plan, &mut self.at).ok_or_else(|| {
            let said = format!("byte {} of the plan: it ends before the end of ", self.at);
            let mut place = place!(said);
            place.parts.extend(what.parts);
            place
        })
    }
}
