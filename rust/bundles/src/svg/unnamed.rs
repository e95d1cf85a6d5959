//! Names that have no room on the sheet: they stand in the legend.

use std::collections::BTreeSet;

use crate::explain::counted;

use super::head::LINE;
use super::records::Record;
use super::scene::Scene;

/// A thing whose name has no room on the sheet, by its place in the scene.
#[derive(Clone, Copy, Eq, Ord, PartialEq, PartialOrd)]
pub enum Unnamed {
    Node(usize),
    Port(usize),
    Route(usize),
}

/// Nodes, ports and routes that have a name of which none is at these places.
pub fn unnamed(scene: &Scene, [nodes, ports, routes]: &[Vec<usize>; 3]) -> Vec<Unnamed> {
    let of = &scene.records;
    let nodes = without(scene, &of.nodes, nodes).map(Unnamed::Node);
    let ports = without(scene, &of.ports, ports).map(Unnamed::Port);
    let routes = without(scene, &of.routes, routes).map(Unnamed::Route);
    nodes.chain(ports).chain(routes).collect()
}

/// The places of those that have a name, but for these.
fn without(scene: &Scene, all: &[Record], shown: &[usize]) -> impl Iterator<Item = usize> {
    let shown = shown.iter().copied().collect::<BTreeSet<_>>();
    let named = all.iter().enumerate();
    let named = named.filter(|(_, record)| scene.names.of(record.item).is_some());
    named
        .map(|(place, _)| place)
        .filter(move |place| !shown.contains(place))
}

/// How many edges and ports there are among these, in words.
pub fn in_words(all: &[Unnamed]) -> Vec<String> {
    let count = |of: fn(&Unnamed) -> bool| all.iter().filter(|one| of(one)).count();
    let counts = [
        (count(|one| matches!(one, Unnamed::Route(_))), "edge"),
        (count(|one| matches!(one, Unnamed::Port(_))), "port"),
    ];
    let counts = counts.into_iter().filter(|(count, _)| *count > 0);
    counts.map(|(count, what)| counted(count, what)).collect()
}

/// How many lines of the legend names of ports and edges take at most on a page of this height: more would take the
/// sheet's room.
pub fn lines_on(height: f64) -> usize {
    (height * SHARE / LINE).floor().max(0.0) as usize
}

const SHARE: f64 = 1.0 / 6.0;
