//! What a refusal is about, and where it stands.

use std::error::Error;
use std::fmt;

use crate::id::Id;
use crate::refusal::Refusal;

/// A record of a job, by its place in its table, from 0, and its id; or a setting by its name.
#[derive(Clone, Copy, Debug, Eq, PartialEq)]
#[non_exhaustive]
pub enum Item {
    /// A field of the job's head, by the name that the text form has for it.
    Setting {
        /// The name, as `port_stub`.
        name: &'static str,
    },
    /// A node.
    Node {
        /// Its place among the nodes.
        place: usize,
        /// Its id.
        id: Id,
    },
    /// A port.
    Port {
        /// Its place among the ports.
        place: usize,
        /// Its node's id.
        node: Id,
        /// Its own id.
        id: Id,
    },
    /// An edge.
    Edge {
        /// Its place among the edges.
        place: usize,
        /// Its id.
        id: Id,
    },
    /// A bundle.
    Bundle {
        /// Its place among the bundles.
        place: usize,
        /// Its id.
        id: Id,
    },
}

impl fmt::Display for Item {
    fn fmt(&self, to: &mut fmt::Formatter<'_>) -> fmt::Result {
        match self {
            Item::Setting { name } => to.write_str(name),
            Item::Node { id, .. } => write!(to, "node {id}"),
            Item::Port { node, id, .. } => write!(to, "port {node}:{id}"),
            Item::Edge { id, .. } => write!(to, "edge {id}"),
            Item::Bundle { id, .. } => write!(to, "bundle {id}"),
        }
    }
}

/// A piece of the words about a place.
#[derive(Clone, Debug, Eq, PartialEq)]
#[non_exhaustive]
pub enum Part {
    /// Words.
    Text(String),
    /// A record, which a program that knows its name can write in its own way.
    Item(Item),
}

impl From<&str> for Part {
    fn from(text: &str) -> Part {
        Part::Text(text.to_string())
    }
}

impl From<String> for Part {
    fn from(text: String) -> Part {
        Part::Text(text)
    }
}

impl From<Item> for Part {
    fn from(item: Item) -> Part {
        Part::Item(item)
    }
}

/// What is wrong, and with which records: a clause whose records stand apart from its words.
#[derive(Clone, Debug, Eq, PartialEq)]
#[non_exhaustive]
pub struct Place {
    /// The clause, from left to right.
    pub parts: Vec<Part>,
    /// Records that are concerned too, but that the clause has no word for.
    pub also: Vec<Item>,
}

/// A place of parts that are texts or items.
macro_rules! place {
    ($($part:expr),* $(,)?) => {
        crate::place::Place {
            parts: vec![$(crate::place::Part::from($part)),*],
            also: Vec::new(),
        }
    };
}
pub(crate) use place;

impl Place {
    /// The records that are concerned: those that the clause names, in its order, then the others.
    pub fn items(&self) -> impl Iterator<Item = Item> {
        let named = self.parts.iter().filter_map(|part| match part {
            Part::Item(item) => Some(*item),
            Part::Text(_) => None,
        });
        named.chain(self.also.iter().copied())
    }

    /// The clause, each record written as is said here.
    pub fn words(&self, item: impl Fn(Item) -> String) -> String {
        let parts = self.parts.iter().map(|part| match part {
            Part::Text(text) => text.clone(),
            Part::Item(named) => item(*named),
        });
        parts.collect()
    }
}

impl fmt::Display for Place {
    fn fmt(&self, to: &mut fmt::Formatter<'_>) -> fmt::Result {
        to.write_str(&self.words(|item| item.to_string()))
    }
}

/// A refusal with what it is about: [`Board::draw_detailed`](crate::Board::draw_detailed) and
/// [`locate`](crate::locate) give it.
///
/// The number is the stage's, which is proved. The places are found by this crate: fields, ids and what of a
/// plan does not fit by reading these again; what a drawing failed at by drawing the job again, cut to its
/// first bundles, and making the tests of its checks once more. A place is told only where this gives the
/// stage's own number.
#[derive(Clone, Debug, Eq, PartialEq)]
#[non_exhaustive]
pub struct Refused {
    /// What the stage said.
    pub refusal: Refusal,
    /// Where it has its cause; empty where that is not known.
    pub places: Vec<Place>,
}

/// Where the refusal has its cause. What was said of it is the error's source, which whoever prints an error
/// with its sources prints behind it.
impl fmt::Display for Refused {
    fn fmt(&self, to: &mut fmt::Formatter<'_>) -> fmt::Result {
        let places = self.places.iter().map(Place::to_string);
        match places.collect::<Vec<_>>().join("; ") {
            said if said.is_empty() => write!(to, "no sheet"),
            said => write!(to, "no sheet: {said}"),
        }
    }
}

impl Error for Refused {
    fn source(&self) -> Option<&(dyn Error + 'static)> {
        Some(&self.refusal)
    }
}
