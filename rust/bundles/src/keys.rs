//! The ids in the picture of what a board has. Two records may have one id, which the stage refuses: then
//! the second has its turn behind it, as `route-42-2`.

use std::collections::HashMap;

use bundle_stage::{Board, Sheet};

/// The ids in the picture by the places of the records in their tables.
#[derive(Clone, Debug, Default)]
pub struct Keys {
    pub nodes: Vec<String>,
    pub ports: Vec<String>,
    pub edges: Vec<String>,
    pub bundles: Vec<String>,
    /// Those of the taps of each bundle of the sheet.
    pub taps: Vec<Vec<String>>,
}

impl Keys {
    /// A sheet has its routes and bundles in the order of its board's edges and bundles.
    pub fn of(board: &Board, sheet: Option<&Sheet>) -> Keys {
        let nodes = board.nodes.iter().map(|node| format!("node-{}", node.id));
        let ports = board.ports.iter();
        let ports = ports.map(|port| format!("port-{}-{}", port.node, port.id));
        let route = |id| format!("route-{id}");
        let bundle = |id| format!("bundle-{id}");
        let (edges, bundles) = match sheet {
            None => (
                unique(board.edges.iter().map(|edge| route(edge.id))),
                unique(board.bundles.iter().map(|one| bundle(one.id))),
            ),
            Some(sheet) => (
                unique(sheet.routes.iter().map(|of| route(of.id))),
                unique(sheet.bundles.iter().map(|of| bundle(of.id))),
            ),
        };
        Keys {
            nodes: unique(nodes),
            ports: unique(ports),
            edges,
            bundles,
            taps: sheet.map(taps).unwrap_or_default(),
        }
    }
}

fn taps(sheet: &Sheet) -> Vec<Vec<String>> {
    let names = sheet.bundles.iter().flat_map(|bundle| {
        let taps = bundle.taps.iter();
        taps.map(move |tap| format!("tap-{}-{}", bundle.id, tap.edge))
    });
    let mut all = unique(names).into_iter();
    let each = sheet.bundles.iter();
    each.map(|bundle| all.by_ref().take(bundle.taps.len()).collect())
        .collect()
}

/// The names, those that stand again with their turns behind them. No two names differ by such a turn: those
/// of one kind have the same count of numbers.
fn unique(names: impl Iterator<Item = String>) -> Vec<String> {
    let mut turns = HashMap::<String, usize>::new();
    let key = |name: String| {
        let turn = turns.entry(name.clone()).or_default();
        *turn += 1;
        match *turn {
            1 => name,
            turn => format!("{name}-{turn}"),
        }
    };
    names.map(key).collect()
}
