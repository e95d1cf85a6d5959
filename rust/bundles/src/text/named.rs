//! Names by line: those of a file of names, which has nothing else, or of a board's text.

use std::collections::BTreeSet;

use bundle_stage::{Board, Endpoint, Item};

use super::{FLAGS, GRANTS, OPTIONS, Words, Wrong, expected, read_all, utf8};
use crate::signs::checked;
use crate::tokens::{split, unquote};

/// A name, whose it is, and on which line it stands. Of the record the ids count, its place says nothing.
pub(crate) struct Named {
    pub line: usize,
    pub record: Item,
    pub name: String,
}

/// The names of a text, or the first line that is not as it should be. A text that has a setting is a
/// board's.
pub(crate) fn named(text: &[u8]) -> Result<Vec<Named>, Wrong> {
    let lines = utf8(text)?.lines();
    let first = |line: &str| {
        let words = split(line).ok()?;
        words.first().map(|word| word.to_string())
    };
    let is_board = lines.clone().filter_map(first).any(|key| is_setting(&key));
    if is_board {
        read_all(text)?;
    }
    let mut all = Vec::new();
    let mut seen = BTreeSet::new();
    for (line, said) in (1..).zip(lines) {
        let wrong = |words| Wrong { line, words };
        let words = Words::new(said).map_err(wrong)?;
        let Some((record, name)) = words.name_line(is_board).map_err(wrong)? else {
            continue;
        };
        // In a board's text that is for the stage to refuse.
        if !seen.insert(record.to_string()) && !is_board {
            return Err(wrong(format!("{record} has a name already")));
        }
        all.push(Named { line, record, name });
    }
    Ok(all)
}

fn is_setting(key: &str) -> bool {
    let keys = OPTIONS.iter().chain(&GRANTS).chain(&FLAGS);
    keys.into_iter().any(|setting| *setting == key)
}

impl Words<'_> {
    /// A name and whose it is. In a board's text other words may stand behind it, or in its place.
    fn name_line(mut self, in_board: bool) -> Result<Option<(Item, String)>, String> {
        let Some(key) = self.words.next() else {
            return Ok(None);
        };
        if in_board && is_setting(key) {
            return Ok(None);
        }
        let record = self.record(key)?;
        if in_board {
            let name = self.words.next().and_then(unquote);
            return Ok(name.map(|name| (record, name)));
        }
        let name = checked(self.word("a name in quotation marks", unquote)?)?;
        self.end()?;
        Ok(Some((record, name)))
    }

    fn record(&mut self, key: &str) -> Result<Item, String> {
        let place = 0;
        Ok(match key {
            "node" => Item::Node {
                place,
                id: self.whole("the node's id")?,
            },
            "port" => {
                let Endpoint { node, port: id } = self.endpoint("the port as NODE:PORT")?;
                Item::Port { place, node, id }
            }
            "edge" => Item::Edge {
                place,
                id: self.whole("the edge's id")?,
            },
            "bundle" => Item::Bundle {
                place,
                id: self.whole("the bundle's id")?,
            },
            _ => return Err(expected("`node`, `port`, `edge` or `bundle`", Some(key))),
        })
    }
}

impl Named {
    pub fn is_of(&self, board: &Board) -> bool {
        match self.record {
            Item::Node { id, .. } => board.node(id).is_some(),
            Item::Port { node, id: port, .. } => board.port(Endpoint { node, port }).is_some(),
            Item::Edge { id, .. } => board.edge(id).is_some(),
            Item::Bundle { id, .. } => board.bundle(id).is_some(),
            _ => false,
        }
    }
}
