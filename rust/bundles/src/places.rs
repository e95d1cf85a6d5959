//! Which records ids name. On a board that is refused two may have one id: then those are meant at which the
//! route ends that names them; where it ends at none of them, it is not known which are.

use std::collections::HashMap;

use bundle_stage::{Board, Endpoint, Id, Point};

use crate::loose::Near;

/// The places of records in their tables by id.
pub struct Places<'a> {
    board: &'a Board,
    nodes: HashMap<Id, Vec<usize>>,
    ports: HashMap<(Id, Id), Vec<usize>>,
    edges: HashMap<Id, Vec<usize>>,
    bundles: HashMap<Id, Vec<usize>>,
    /// Where routes end that name a port.
    ends: HashMap<(Id, Id), Vec<Point>>,
    near: Near,
}

/// Of more records of one id it is not looked which are meant.
const MOST: usize = 16;

/// The nodes and the ports that an end may mean, by their places: one of each, mostly.
#[derive(Clone, Default)]
pub struct Meant {
    pub nodes: Vec<usize>,
    pub ports: Vec<usize>,
}

fn by_id<K: std::hash::Hash + Eq>(ids: impl Iterator<Item = K>) -> HashMap<K, Vec<usize>> {
    let mut all = HashMap::<K, Vec<usize>>::new();
    for (place, id) in ids.enumerate() {
        all.entry(id).or_default().push(place);
    }
    all
}

impl<'a> Places<'a> {
    pub fn of(board: &'a Board) -> Places<'a> {
        let mut ends = HashMap::<(Id, Id), Vec<Point>>::new();
        for edge in &board.edges {
            let both = [
                (edge.source, edge.points.first()),
                (edge.target, edge.points.last()),
            ];
            for (end, at) in both {
                let of = ends.entry((end.node, end.port)).or_default();
                of.extend(at);
            }
        }
        Places {
            ends,
            near: Near::of(board),
            board,
            nodes: by_id(board.nodes.iter().map(|node| node.id)),
            ports: by_id(board.ports.iter().map(|port| (port.node, port.id))),
            edges: by_id(board.edges.iter().map(|edge| edge.id)),
            bundles: by_id(board.bundles.iter().map(|bundle| bundle.id)),
        }
    }

    pub fn nodes(&self, id: Id) -> &[usize] {
        self.nodes.get(&id).map_or(&[], Vec::as_slice)
    }

    pub fn ports(&self, at: Endpoint) -> &[usize] {
        self.ports
            .get(&(at.node, at.port))
            .map_or(&[], Vec::as_slice)
    }

    pub fn edges(&self, id: Id) -> &[usize] {
        self.edges.get(&id).map_or(&[], Vec::as_slice)
    }

    pub fn bundles(&self, id: Id) -> &[usize] {
        self.bundles.get(&id).map_or(&[], Vec::as_slice)
    }

    /// What an end of a route means that is there, if it has points.
    pub fn meant(&self, end: Endpoint, at: Option<&Point>) -> Meant {
        let all = Meant {
            nodes: self.nodes(end.node).to_vec(),
            ports: self.ports(end).to_vec(),
        };
        let several = all.nodes.len() > 1 || all.ports.len() > 1;
        let many = all.nodes.len() > MOST || all.ports.len() > MOST;
        let (Some(at), true, false) = (at, several, many) else {
            return all;
        };
        let stands = |node, port| self.near.one(self.at(node, port), *at);
        let nodes = all.nodes.iter().copied();
        let nodes = nodes.filter(|node| all.ports.iter().any(|port| stands(*node, *port)));
        let ports = all.ports.iter().copied();
        let ports = ports.filter(|port| all.nodes.iter().any(|node| stands(*node, *port)));
        let there = Meant {
            nodes: nodes.collect(),
            ports: ports.collect(),
        };
        if there.ports.is_empty() { all } else { there }
    }
    /// The node that a port stands at, by its place: of several the first at which a route ends there, or the
    /// first of all.
    pub fn home(&self, port: usize) -> Option<usize> {
        let of = self.board.ports[port];
        let nodes = self.nodes(of.node);
        let ends = self.ends.get(&(of.node, of.id));
        let ends = ends.filter(|_| (2..=MOST).contains(&nodes.len()));
        let is_home = |node: &&usize| {
            let mut ends = ends.into_iter().flatten();
            ends.any(|end| self.near.one(self.at(**node, port), *end))
        };
        let home = nodes.iter().find(is_home);
        home.or(nodes.first()).copied()
    }

    fn at(&self, node: usize, port: usize) -> Point {
        self.board.nodes[node].port_point(&self.board.ports[port])
    }
}
