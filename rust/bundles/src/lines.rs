//! The lines of a text on which the records of its board stand.

use std::collections::BTreeMap;

use bundle_stage::{Board, Item, Place};

use crate::text::Wrong;

/// The line of each setting that was said, and of each record of each table.
#[derive(Clone, Debug, Default, Eq, PartialEq)]
pub struct Lines {
    settings: BTreeMap<&'static str, usize>,
    nodes: Vec<usize>,
    ports: Vec<usize>,
    edges: Vec<usize>,
    bundles: Vec<usize>,
}

impl Lines {
    /// Whatever was said new was said on this line.
    pub(crate) fn note(&mut self, line: usize, board: &Board, settings: Vec<&'static str>) {
        for key in settings {
            self.settings.entry(key).or_insert(line);
        }
        self.nodes.resize(board.nodes.len(), line);
        self.ports.resize(board.ports.len(), line);
        self.edges.resize(board.edges.len(), line);
        self.bundles.resize(board.bundles.len(), line);
    }

    /// The line of a record; none for a setting that was not said.
    pub fn of(&self, item: Item) -> Option<usize> {
        match item {
            Item::Setting { name } => self.settings.get(name).copied(),
            Item::Node { place, .. } => self.nodes.get(place).copied(),
            Item::Port { place, .. } => self.ports.get(place).copied(),
            Item::Edge { place, .. } => self.edges.get(place).copied(),
            Item::Bundle { place, .. } => self.bundles.get(place).copied(),
            _ => None,
        }
    }

    /// The lines of a place in words, as `line 3: ` or `lines 3, 8: `, or that the text does not have the line
    /// of a setting; nothing where there is no text.
    pub fn words(&self, place: &Place) -> String {
        let mut lines = place
            .items()
            .filter_map(|item| self.of(item))
            .collect::<Vec<_>>();
        lines.sort_unstable();
        lines.dedup();
        let listed = lines.iter().map(usize::to_string).collect::<Vec<_>>();
        match lines.len() {
            0 => self.unsaid(place).map_or(String::new(), |name| {
                format!("the text has no line `{name}`: ")
            }),
            1 => format!("line {}: ", listed[0]),
            _ => format!("lines {}: ", listed.join(", ")),
        }
    }

    /// A setting of a place that the text does not say. Every text says some.
    fn unsaid(&self, place: &Place) -> Option<&'static str> {
        let is_text = !self.settings.is_empty();
        place.items().find_map(|item| match item {
            Item::Setting { name } if is_text => Some(name),
            _ => None,
        })
    }

    /// The numbers that are off the drafting grid where the board is said to be on it.
    pub fn off_grid(&self, board: &Board) -> Vec<Wrong> {
        if !board.flags.on_grid {
            return Vec::new();
        }
        let off = board.off_grid();
        let off = off.iter().map(|off| Wrong {
            line: self.of(off.item).unwrap_or_default(),
            words: off.place().to_string(),
        });
        off.collect()
    }
}
