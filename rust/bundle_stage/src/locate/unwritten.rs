//! Why there is no bundle page (16) or no list of crossings (19).

use std::cmp::Reverse;

use crate::board::Board;
use crate::id::Id;
use crate::outputs::Crossing;
use crate::place::{Item, Place, place};
use crate::plan::Plan;

/// Of a board that is not said to be on the drafting grid.
pub(super) fn page(board: &Board) -> Place {
    let off = board.off_grid();
    let setting = Item::Setting { name: "grid" };
    match &off[..] {
        [] => place!(
            setting,
            " is no; all numbers of the board are on the drafting grid"
        ),
        [one] => {
            let said = format!(" is no; one number is off the drafting grid, {}", one.field);
            place!(setting, said, one.item)
        }
        [first, ..] => {
            let count = off.len();
            let said = format!(
                " is no; {count} numbers are off the drafting grid, first {}",
                first.field
            );
            place!(setting, said, first.item)
        }
    }
}

/// How many there are, and which bundle and edge have the most; nothing where they cannot be counted. Of a
/// board that is drawn from a plan's bytes, if they are given.
pub(super) fn crossings(board: &Board, plan: Option<&[u8]>) -> Option<Place> {
    let sheet = match plan {
        Some(plan) => board.draw_from(&Plan::from_bytes(plan).ok()?),
        None => board.draw(),
    };
    let list = board.crossings(&sheet.ok()?, plan)?;
    let most = |items: Vec<Item>, of: fn(&Crossing) -> Id| {
        let counted = items.into_iter().map(|item| {
            let own = |one: &&Crossing| id(item) == Some(of(one));
            (item, list.iter().filter(own).count())
        });
        // Of several with as many, the first.
        counted.min_by_key(|(_, count)| Reverse(*count))
    };
    let (bundle, of_bundle) = most(board.bundle_items(), |one| one.bundle)?;
    let (edge, of_edge) = most(board.edge_items(), |one| one.edge)?;
    let count = list.len();
    Some(place!(
        format!("there are {count} crossings; the most of a bundle, {of_bundle}, are of "),
        bundle,
        format!(", and the most of an edge, {of_edge}, of "),
        edge
    ))
}

fn id(item: Item) -> Option<Id> {
    match item {
        Item::Bundle { id, .. } | Item::Edge { id, .. } => Some(id),
        _ => None,
    }
}
