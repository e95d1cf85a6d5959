//! Names of nodes, ports, edges and bundles. A job's bytes have none, so they travel beside it: in the
//! board's text, or in a file that has lines such as `node 5 "timestamp unit"` and nothing else.

use std::collections::BTreeMap;

use bundle_stage::{Board, Id, Item};

use crate::signs::{cleaned, isolated};
use crate::text::{Named, Wrong, named};
use crate::tokens::quote;

/// Names by id, where they are given.
#[derive(Clone, Debug, Default, Eq, PartialEq)]
pub struct Names {
    nodes: BTreeMap<Id, String>,
    ports: BTreeMap<(Id, Id), String>,
    edges: BTreeMap<Id, String>,
    bundles: BTreeMap<Id, String>,
    /// The records of a text whose id another one has too: the names that they have there.
    twice: Vec<(Item, Option<String>)>,
}

impl Names {
    pub fn node(&self, id: Id) -> Option<&str> {
        self.nodes.get(&id).map(String::as_str)
    }

    pub fn port(&self, node: Id, id: Id) -> Option<&str> {
        self.ports.get(&(node, id)).map(String::as_str)
    }

    pub fn edge(&self, id: Id) -> Option<&str> {
        self.edges.get(&id).map(String::as_str)
    }

    pub fn bundle(&self, id: Id) -> Option<&str> {
        self.bundles.get(&id).map(String::as_str)
    }

    pub fn set_node(&mut self, id: Id, name: &str) {
        self.nodes.insert(id, cleaned(name));
    }

    pub fn set_port(&mut self, node: Id, id: Id, name: &str) {
        self.ports.insert((node, id), cleaned(name));
    }

    pub fn set_edge(&mut self, id: Id, name: &str) {
        self.edges.insert(id, cleaned(name));
    }

    pub fn set_bundle(&mut self, id: Id, name: &str) {
        self.bundles.insert(id, cleaned(name));
    }

    pub fn is_empty(&self) -> bool {
        *self == Names::default()
    }

    /// A record by id, and by name where it has one, to stand in a sentence.
    pub fn item(&self, item: Item) -> String {
        match self.said(item) {
            Some(name) => format!("{item} ({name})"),
            None => item.to_string(),
        }
    }

    /// A record's name as it stands in a sentence: one that is read from right to left turns nothing round.
    pub fn said(&self, item: Item) -> Option<String> {
        self.of(item).map(isolated)
    }

    /// A record's name: of records that have one id each has its own.
    pub fn of(&self, item: Item) -> Option<&str> {
        let own = self.twice.iter().find(|(of, _)| *of == item);
        match item {
            _ if own.is_some() => own.and_then(|(_, name)| name.as_deref()),
            Item::Node { id, .. } => self.node(id),
            Item::Port { node, id, .. } => self.port(node, id),
            Item::Edge { id, .. } => self.edge(id),
            Item::Bundle { id, .. } => self.bundle(id),
            _ => None,
        }
    }

    /// Tells records that have one id apart: each has its own name, or none.
    pub(crate) fn tell_apart(&mut self, board: &Board, name: impl Fn(Item) -> Option<String>) {
        let mut by_id = BTreeMap::<String, Vec<Item>>::new();
        for item in records(board) {
            by_id.entry(item.to_string()).or_default().push(item);
        }
        for items in by_id.into_values().filter(|items| items.len() > 1) {
            let named = items.into_iter().map(|item| (item, name(item)));
            self.twice.extend(named);
        }
    }

    /// The file of names.
    pub fn write(&self) -> String {
        let line = |key: &str, id: String, name: &str| format!("{key} {id} {}\n", quote(name));
        let mut text = String::new();
        for (id, name) in &self.nodes {
            text.push_str(&line("node", id.to_string(), name));
        }
        for ((node, id), name) in &self.ports {
            text.push_str(&line("port", format!("{node}:{id}"), name));
        }
        for (id, name) in &self.edges {
            text.push_str(&line("edge", id.to_string(), name));
        }
        for (id, name) in &self.bundles {
            text.push_str(&line("bundle", id.to_string(), name));
        }
        text
    }

    /// The names of a file of names, which has nothing else, or of a board's text.
    pub fn read(text: &[u8]) -> Result<Names, Wrong> {
        let mut names = Names::default();
        for Named { record, name, .. } in named(text)? {
            names.set(record, &name);
        }
        Ok(names)
    }

    /// The same for a board. A name of what the board does not have is refused, as the file may be that of
    /// another.
    pub fn read_for(text: &[u8], board: &Board) -> Result<Names, Wrong> {
        let named = named(text)?;
        if let Some(other) = named.iter().find(|named| !named.is_of(board)) {
            return Err(Wrong {
                line: other.line,
                words: format!("{} has a name, and the board has none such", other.record),
            });
        }
        Names::read(text)
    }

    /// Takes the names of another, where they differ.
    pub fn take(&mut self, other: Names) {
        self.nodes.extend(other.nodes);
        self.ports.extend(other.ports);
        self.edges.extend(other.edges);
        self.bundles.extend(other.bundles);
    }

    fn set(&mut self, record: Item, name: &str) {
        match record {
            Item::Node { id, .. } => self.set_node(id, name),
            Item::Port { node, id, .. } => self.set_port(node, id, name),
            Item::Edge { id, .. } => self.set_edge(id, name),
            Item::Bundle { id, .. } => self.set_bundle(id, name),
            _ => {}
        }
    }
}

fn records(board: &Board) -> Vec<Item> {
    let nodes = board.nodes.iter().map(|of| of.id).enumerate();
    let ports = board.ports.iter().map(|of| (of.node, of.id)).enumerate();
    let edges = board.edges.iter().map(|of| of.id).enumerate();
    let bundles = board.bundles.iter().map(|of| of.id).enumerate();
    let nodes = nodes.map(|(place, id)| Item::Node { place, id });
    let ports = ports.map(|(place, (node, id))| Item::Port { place, node, id });
    let edges = edges.map(|(place, id)| Item::Edge { place, id });
    let bundles = bundles.map(|(place, id)| Item::Bundle { place, id });
    nodes.chain(ports).chain(edges).chain(bundles).collect()
}
