//! What a drawing fails at (10, 11, 12), in words. The bundle is found in turn.rs, what it meets in
//! checks.rs.

use crate::board::{Board, Point};
use crate::grid::decimals;
use crate::place::{Item, Place, place};
use crate::plan::Plan;
use crate::refusal::Refusal;
use crate::sheet::{DrawnBundle, Segment};

use super::checks::{Checks, Failed, How, Other, Part};
use super::turn;

pub(super) fn places(board: &Board, plan: &Plan, refusal: Refusal) -> Vec<Place> {
    let Some(turn) = turn::refused_turn(board, plan) else {
        return Vec::new();
    };
    let (bundles, routes) = board.unchecked(plan, turn + 1);
    if refusal == Refusal::TapUnreachable {
        let members = turn::not_led(board, plan, turn);
        return not_led(board, turn, &members, &bundles[turn]);
    }
    let failed = Checks::of(board, &bundles, &routes).make().err();
    let told = failed.filter(|failed| failed.refusal() == refusal);
    vec![told.map_or_else(
        || roughly(board, refusal, turn),
        |told| words(board, &told, turn),
    )]
}

/// The bundle alone, where the tests that are made once more do not fail as the stage's do.
fn roughly(board: &Board, refusal: Refusal, turn: usize) -> Place {
    let bundle = board.bundle_items()[turn];
    match refusal {
        Refusal::ForbiddenContact => place!(
            bundle,
            ", or the route of one of its members, would touch what it must not, or come too close \
             to it"
        ),
        _ => place!(
            "the route of a member of ",
            bundle,
            " would run through a node that is none of its ends, or be slanted"
        ),
    }
}

/// 10: a place for each member that cannot be led to its tap.
fn not_led(board: &Board, turn: usize, members: &[usize], drawn: &DrawnBundle) -> Vec<Place> {
    let bundle = board.bundle_items()[turn];
    let edges = members.iter().filter_map(|&member| {
        let id = board.bundles[turn].members[member].edge;
        board.edges.iter().position(|edge| edge.id == id)
    });
    let told = edges.map(|edge| {
        let why = match board.edges[edge].points.len() {
            0 => ": it has no points",
            1 => ": it has one point",
            _ => "",
        };
        let of = board.edge_items()[edge];
        let tap = drawn
            .taps
            .iter()
            .find(|tap| tap.edge == board.edges[edge].id);
        let at = tap.map_or(String::new(), |tap| format!(" at {}", point(tap.point)));
        let led = format!(", cannot be led to its tap{at}{why}");
        place!("the route of ", of, ", a member of ", bundle, led)
    });
    let told = told.collect::<Vec<_>>();
    if told.is_empty() {
        return vec![place!("the members of ", bundle, " cannot be led to it")];
    }
    told
}

/// 11 and 12.
fn words(board: &Board, failed: &Failed, turn: usize) -> Place {
    let at = place_of(failed.at());
    let member = |edge: usize| {
        let (edge, bundle) = (board.edge_items()[edge], board.bundle_items()[turn]);
        place!("the route of ", edge, ", a member of ", bundle, ",")
    };
    match *failed {
        Failed::Slanted { edge, .. } => joined(member(edge), place!(" would be slanted", at)),
        Failed::Inside { edge, node, .. } => {
            let node = board.node_items()[node];
            joined(member(edge), place!(" would run through ", node, at))
        }
        Failed::Contact {
            part, other, how, ..
        } => {
            let met = match how {
                How::Slanted => " would be slanted, or meet a slanted run: ",
                How::LieOn => " would lie on ",
                How::Cross => " would cross ",
                How::Touch => " would touch ",
                How::Near => " would come too close to ",
            };
            // The bundle whose turn it is, or the route of its member, is said first.
            let (one, two) = match other {
                Other::Route(edge) if part.bundle == turn => {
                    let edge = board.edge_items()[edge];
                    (of_part(board, part), place!("the route of ", edge))
                }
                Other::Route(edge) => (member(edge), of_part(board, part)),
                Other::Part(other) => (of_part(board, part), of_part(board, other)),
            };
            let why = why(board, how);
            joined(
                joined(one, place!(met)),
                joined(joined(two, place!(at)), why),
            )
        }
    }
}

/// What of the board forbids it, where that is a setting.
fn why(board: &Board, how: How) -> Place {
    match how {
        How::Cross => place!(", and the board forbids crossings"),
        How::Near => {
            let name = SPACING;
            let said = decimals(board.options.minimum_parallel_wire_spacing);
            place!(", and ", Item::Setting { name }, format!(" is {said}"))
        }
        _ => place!(),
    }
}

/// The setting.
const SPACING: &str = "minimum_parallel_wire_spacing";

fn of_part(board: &Board, part: Part) -> Place {
    let segment = match part.is_spine {
        true => "the spine of ",
        false => "the collector of ",
    };
    place!(segment, board.bundle_items()[part.bundle])
}

fn joined(mut one: Place, two: Place) -> Place {
    one.parts.extend(two.parts);
    one
}

fn place_of(Segment { start, end }: Segment) -> String {
    match start == end {
        true => format!(", at {}", point(start)),
        false => format!(", from {} to {}", point(start), point(end)),
    }
}

/// In the board's coordinates.
fn point(at: Point) -> String {
    format!("({}, {})", decimals(at.x), decimals(at.y))
}
