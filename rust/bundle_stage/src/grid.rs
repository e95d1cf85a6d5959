//! The drafting grid: multiples of 1/64 with magnitude at most 2^20.

use crate::board::{Board, Edge, Node, Options};
use crate::place::{Item, Place, place};

const UNIT: f64 = 1.0 / 64.0;
pub(crate) const LIMIT: f64 = 1_048_576.0;

/// A number of a board that is off the drafting grid.
#[derive(Clone, Debug, PartialEq)]
#[non_exhaustive]
pub struct OffGrid {
    /// The record that it is of.
    pub item: Item,
    /// The number's name there, as `the x of`; empty for a setting, which is a number itself.
    pub field: String,
    /// The number.
    pub value: f64,
}

impl OffGrid {
    /// The number's whole name, as `the x of node 3`.
    pub fn what(&self) -> String {
        format!("{}{}", self.field, self.item)
    }

    /// What is wrong with it, as a clause.
    pub fn place(&self) -> Place {
        let said = format!(" is {}, off the drafting grid", decimals(self.value));
        let nearest = match self.nearest() {
            Some([low, high]) if low != high => {
                let (low, high) = (decimals(low), decimals(high));
                format!("; nearest to it are {low} and {high}")
            }
            Some([limit, _]) => format!("; nearest to it is {}", decimals(limit)),
            None => String::new(),
        };
        place!(self.field.as_str(), self.item, said + &nearest)
    }

    /// The numbers of the grid beside it, the lower one first; the limit twice where it is beyond that,
    /// and none for a NaN.
    pub fn nearest(&self) -> Option<[f64; 2]> {
        if self.value.is_nan() {
            return None;
        }
        let units = self.value.clamp(-LIMIT, LIMIT) / UNIT;
        // A sum with 0 is no minus zero.
        Some([units.floor(), units.ceil()].map(|units| units * UNIT + 0.0))
    }
}

impl Board {
    /// The numbers that are off the drafting grid, in the job's order: what the stage refuses with
    /// [`Refusal::OffGrid`](crate::Refusal::OffGrid) where the board is said to be on it.
    ///
    /// ```
    /// use bundle_stage::*;
    ///
    /// let board = Board {
    ///     flags: Flags { on_grid: true, ..Flags::default() },
    ///     nodes: vec![Node { id: 3.into(), x: 0.1, y: 0.0, width: 4.0, height: 0.5 }],
    ///     ..Board::default()
    /// };
    /// let [off] = &board.off_grid()[..] else {
    ///     panic!("one number");
    /// };
    /// assert_eq!((off.what().as_str(), off.value), ("the x of node 3", 0.1));
    /// assert_eq!(off.nearest(), Some([0.09375, 0.109375]));
    /// assert_eq!(board.draw(), Err(Refusal::OffGrid));
    /// ```
    pub fn off_grid(&self) -> Vec<OffGrid> {
        let mut off = Vec::new();
        let mut look = |item: Item, numbers: Vec<(String, f64)>| {
            let numbers = numbers.into_iter().filter(|number| !is_on_grid(number.1));
            off.extend(numbers.map(|(field, value)| OffGrid { item, field, value }));
        };
        let options = Options::NAMES.into_iter().zip(self.options.values());
        for (name, number) in options {
            look(Item::Setting { name }, vec![(String::new(), number)]);
        }
        for (node, item) in self.nodes.iter().zip(self.node_items()) {
            look(item, of_node(node));
        }
        for (port, item) in self.ports.iter().zip(self.port_items()) {
            look(item, vec![("the offset of ".to_string(), port.offset)]);
        }
        for (edge, item) in self.edges.iter().zip(self.edge_items()) {
            look(item, of_edge(edge));
        }
        off
    }
}

/// The quotient moves the exponent alone, unless it overflows, far above the limit.
pub(crate) fn is_on_grid(value: f64) -> bool {
    value.abs() <= LIMIT && (value / UNIT).fract() == 0.0
}

/// The shortest decimals that read back to the same number.
pub(crate) fn decimals(value: f64) -> String {
    let word = format!("{value:?}");
    word.strip_suffix(".0").unwrap_or(&word).to_string()
}

fn of_node(node: &Node) -> Vec<(String, f64)> {
    [
        ("the x of ", node.x),
        ("the y of ", node.y),
        ("the width of ", node.width),
        ("the height of ", node.height),
    ]
    .map(|(field, value)| (field.to_string(), value))
    .to_vec()
}

fn of_edge(edge: &Edge) -> Vec<(String, f64)> {
    let points = edge.points.iter().zip(1..);
    points
        .flat_map(|(point, place)| {
            [("x", point.x), ("y", point.y)]
                .map(|(name, value)| (format!("the {name} of point {place} of "), value))
        })
        .collect()
}
