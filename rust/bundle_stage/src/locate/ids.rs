//! Ids that stand twice or are not there (8, 9), and the components that cannot be split (13).

use crate::board::{Board, Bundle, Endpoint, Role};
use crate::id::Id;
use crate::place::{Item, Place, place};
use crate::refusal::Refusal;

use super::nth;

/// Every record whose id an earlier one has, and every edge that bundles of one role list twice.
pub(super) fn twice(board: &Board) -> Vec<Place> {
    let mut found = Vec::new();
    let tables = [
        (board.node_items(), "nodes"),
        (board.port_items(), "ports"),
        (board.edge_items(), "edges"),
        (board.bundle_items(), "bundles"),
    ];
    for (items, plural) in tables {
        let names = items.iter().map(Item::to_string).collect::<Vec<_>>();
        for (later, item) in items.iter().enumerate() {
            if let Some(earlier) = names[..later].iter().position(|name| *name == names[later]) {
                let said = format!(
                    " have one id: {} and {} of the {plural}",
                    nth(earlier),
                    nth(later)
                );
                found.push(place!(items[earlier], " and ", *item, said));
            }
        }
    }
    found.extend(members_twice(board));
    found
}

fn members_twice(board: &Board) -> Vec<Place> {
    let bundles = board.bundles.iter().zip(board.bundle_items());
    let members = bundles.flat_map(|(bundle, item)| {
        let edges = bundle.members.iter().map(|member| member.edge);
        edges.map(move |edge| (bundle.role, edge, item))
    });
    let members = members.collect::<Vec<_>>();
    let mut found = Vec::new();
    for (turn, &(role, edge, _)) in members.iter().enumerate() {
        let is_same = |of: &&(Role, Id, Item)| (of.0, of.1) == (role, edge);
        // Each edge is told once, however often it stands there.
        if members[..turn].iter().any(|of| is_same(&of)) {
            continue;
        }
        let bundles = members.iter().filter(is_same).map(|of| of.2);
        let bundles = bundles.collect::<Vec<_>>();
        if bundles.len() > 1 {
            found.push(member_of(edge, &bundles));
        }
    }
    found
}

/// An edge with the bundles of one role that list it, each as often as it does.
fn member_of(edge: Id, bundles: &[Item]) -> Place {
    let mut place = place!(format!("edge {edge} is a member of "));
    let mut several = false;
    for (turn, bundle) in bundles.iter().enumerate() {
        if bundles[..turn].contains(bundle) {
            continue;
        }
        let between = if turn == 0 { "" } else { " and of " };
        several |= turn > 0;
        let times = match bundles.iter().filter(|of| *of == bundle).count() {
            1 => String::new(),
            2 => " twice".to_string(),
            times => format!(" ({times} times)"),
        };
        place
            .parts
            .extend([between.into(), (*bundle).into(), times.into()]);
    }
    if several {
        place.parts.push(", which have the same role".into());
    }
    place
}

/// Every node, port and edge that is named and not there.
pub(super) fn unknown(board: &Board) -> Vec<Place> {
    let mut found = Vec::new();
    let mut node = |item: Item, what: &str, id: Id| {
        if board.node(id).is_none() {
            found.push(place!(
                item,
                format!(" names node {id}{what}, and there is no such node")
            ));
        }
    };
    for (port, item) in board.ports.iter().zip(board.port_items()) {
        node(item, "", port.node);
    }
    for (edge, item) in board.edges.iter().zip(board.edge_items()) {
        node(item, " as its source", edge.source.node);
        node(item, " as its target", edge.target.node);
    }
    for (bundle, item) in board.bundles.iter().zip(board.bundle_items()) {
        node(item, "", bundle.endpoint.node);
    }
    for (bundle, item) in board.bundles.iter().zip(board.bundle_items()) {
        found.extend(unknown_port(board, bundle.endpoint, item));
        found.extend(unknown_edges(board, bundle, item));
    }
    found
}

fn unknown_port(board: &Board, at: Endpoint, item: Item) -> Option<Place> {
    let missing = board.node(at.node).is_some() && board.port(at).is_none();
    let Endpoint { node, port } = at;
    missing.then(|| {
        place!(
            item,
            format!(" names port {node}:{port}, and node {node} has no such port")
        )
    })
}

fn unknown_edges(board: &Board, bundle: &Bundle, item: Item) -> Vec<Place> {
    let edges = bundle.members.iter().map(|member| member.edge);
    let missing = edges.filter(|&edge| board.edge(edge).is_none());
    let words = |edge| {
        place!(
            item,
            format!(" has edge {edge} as a member, and there is no such edge")
        )
    };
    missing.map(words).collect()
}

/// The components that are refused with 13 where they stand alone; where none is, all that could be:
/// those with bundles of both roles.
pub(super) fn components_refused(board: &Board) -> Vec<Place> {
    let components = components(board);
    let alone = |component: &&Vec<usize>| {
        let bundles = component.iter().map(|&place| board.bundles[place].clone());
        let part = Board {
            bundles: bundles.collect(),
            ..board.clone()
        };
        part.draw() == Err(Refusal::NoRoomToSplit)
    };
    let refused = components.iter().filter(alone).collect::<Vec<_>>();
    let (which, refused) = match refused.is_empty() {
        false => ("have no room between them", refused),
        true => ("may be those without room", components.iter().collect()),
    };
    let items = board.bundle_items();
    let said = |component: &Vec<usize>| {
        let mut place = place!();
        for (turn, &at) in component.iter().enumerate() {
            let between = match turn {
                0 => "",
                turn if turn + 1 == component.len() => " and ",
                _ => ", ",
            };
            place.parts.extend([between.into(), items[at].into()]);
        }
        place.parts.push(format!(" share edges and {which}").into());
        place
    };
    refused.into_iter().map(said).collect()
}

/// Bundles that share edges, directly or through others, with both roles among them.
fn components(board: &Board) -> Vec<Vec<usize>> {
    let shares = |one: &Bundle, other: &Bundle| {
        let mut edges = one.members.iter().map(|member| member.edge);
        edges.any(|edge| other.members.iter().any(|member| member.edge == edge))
    };
    let mut left = (0..board.bundles.len()).collect::<Vec<_>>();
    let mut components = Vec::new();
    while !left.is_empty() {
        let mut component = vec![left.remove(0)];
        let mut at = 0;
        while at < component.len() {
            let one = &board.bundles[component[at]];
            let (near, far) = left
                .iter()
                .partition(|&&other| shares(one, &board.bundles[other]));
            component.extend::<Vec<usize>>(near);
            left = far;
            at += 1;
        }
        component.sort_unstable();
        components.push(component);
    }
    components.retain(|component| component.len() > 1);
    components
}
