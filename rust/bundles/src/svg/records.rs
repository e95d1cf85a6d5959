//! Which records of the board the parts of a scene are, and their ids in the picture.

use bundle_stage::{Board, Id, Item};

use crate::keys::Keys;
use crate::loose::Loose;

#[derive(Clone)]
pub struct Record {
    pub item: Item,
    /// The id in the picture.
    pub key: String,
}

/// They stand in the order of the scene's parts.
#[derive(Clone, Default)]
pub struct Records {
    pub nodes: Vec<Record>,
    pub ports: Vec<Record>,
    pub routes: Vec<Record>,
    pub trunks: Vec<Record>,
    /// Ends of the board's routes that are not at their ports.
    pub loose: Vec<Loose>,
}

impl Records {
    /// Those of the nodes and ports at these places of the board's tables.
    pub fn of(board: &Board, (nodes, ports): (&[usize], &[usize]), keys: &Keys) -> Records {
        let node = |&place: &usize| Record {
            item: Item::Node {
                place,
                id: board.nodes[place].id,
            },
            key: keys.nodes[place].clone(),
        };
        let port = |&place: &usize| {
            let port = board.ports[place];
            let (node, id) = (port.node, port.id);
            Record {
                item: Item::Port { place, node, id },
                key: keys.ports[place].clone(),
            }
        };
        Records {
            nodes: nodes.iter().map(node).collect(),
            ports: ports.iter().map(port).collect(),
            ..Records::default()
        }
    }

    pub fn add_route(&mut self, place: usize, id: Id, keys: &Keys) {
        self.routes.push(Record {
            item: Item::Edge { place, id },
            key: keys.edges[place].clone(),
        });
    }

    pub fn add_trunk(&mut self, place: usize, id: Id, keys: &Keys) {
        self.trunks.push(Record {
            item: Item::Bundle { place, id },
            key: keys.bundles[place].clone(),
        });
    }

    /// The loose ends of a route that is shown, by the route's place in the scene.
    pub fn loose_of(&self, route: usize) -> impl Iterator<Item = &Loose> {
        let item = self.routes[route].item;
        self.loose.iter().filter(move |one| one.edge == item)
    }
}
