//! A board's text.

use bundle_stage::{Board, Endpoint, Flags, Item, Visits};

use super::{ANSWERS, FLAGS, GRANTS, OPTIONS, ROLES, SIDES, number};
use crate::names::Names;
use crate::tokens::quote;

/// The board's text. `read` gives the same board back.
pub fn write(board: &Board) -> String {
    write_named(board, &Names::default())
}

/// The same with names. `read_all` gives the same board and the names of its records back.
pub fn write_named(board: &Board, names: &Names) -> String {
    let mut lines = Vec::new();
    head(&mut lines, board);
    table(&mut lines, &board.nodes, |place, node| {
        let id = node.id;
        let name = quoted(names, Item::Node { place, id });
        let (at, size) = (pair(node.x, node.y), pair(node.width, node.height));
        format!("node {id}{name} at {at} size {size}")
    });
    table(&mut lines, &board.ports, |place, port| {
        let (node, id) = (port.node, port.id);
        let called = quoted(names, Item::Port { place, node, id });
        let (side, offset) = (name(&SIDES, port.side), number(port.offset));
        format!("port {node}:{id}{called} {side} {offset}")
    });
    table(&mut lines, &board.edges, |place, edge| {
        let id = edge.id;
        let name = quoted(names, Item::Edge { place, id });
        let (from, to) = (endpoint(edge.source), endpoint(edge.target));
        let points = edge.points.iter().map(|point| pair(point.x, point.y));
        format!("edge {id}{name} from {from} to {to}{}", list("via", points))
    });
    table(&mut lines, &board.bundles, |place, bundle| {
        let (id, width) = (bundle.id, bundle.width);
        let called = quoted(names, Item::Bundle { place, id });
        let (at, role) = (endpoint(bundle.endpoint), name(&ROLES, bundle.role));
        let members = bundle.members.iter();
        let members = members.map(|member| format!("{}@{}", member.edge, member.lane));
        let members = list("members", members);
        format!("bundle {id}{called} at {at} {role} width {width}{members}")
    });
    lines.join("\n") + "\n"
}

/// A record's own name, also where another has its id.
fn quoted(names: &Names, item: Item) -> String {
    let name = names.of(item);
    name.map(|name| format!(" {}", quote(name)))
        .unwrap_or_default()
}

/// The settings.
fn head(lines: &mut Vec<String>, board: &Board) {
    settings(lines, OPTIONS, board.options.values(), number);
    let Visits { tap, geometry } = board.grants;
    settings(lines, GRANTS, [tap, geometry], |visits| visits.to_string());
    let Flags {
        separate_collectors,
        permit_crossings,
        on_grid,
    } = board.flags;
    let flags = [separate_collectors, permit_crossings, on_grid];
    settings(lines, FLAGS, flags, |flag| name(&ANSWERS, flag).to_string());
}

fn settings<T, const N: usize>(
    lines: &mut Vec<String>,
    keys: [&str; N],
    values: [T; N],
    word: impl Fn(T) -> String,
) {
    let said = keys.into_iter().zip(values);
    lines.extend(said.map(|(key, value)| format!("{key} {}", word(value))));
}

/// A line for each row, by its place and itself.
fn table<T>(lines: &mut Vec<String>, rows: &[T], line: impl Fn(usize, &T) -> String) {
    if !rows.is_empty() {
        lines.push(String::new());
        let rows = rows.iter().enumerate();
        lines.extend(rows.map(|(place, row)| line(place, row)));
    }
}

fn pair(x: f64, y: f64) -> String {
    format!("{},{}", number(x), number(y))
}

fn endpoint(at: Endpoint) -> String {
    format!("{}:{}", at.node, at.port)
}

fn list(key: &str, words: impl Iterator<Item = String>) -> String {
    let words = words.collect::<Vec<_>>();
    if words.is_empty() {
        return String::new();
    }
    format!(" {key} {}", words.join(" "))
}

fn name<T: Copy + PartialEq>(names: &[(&'static str, T)], value: T) -> &'static str {
    let found = names.iter().find(|(_, named)| *named == value);
    found.expect("every value has a name").0
}
