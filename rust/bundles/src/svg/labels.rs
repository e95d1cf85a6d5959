//! Ids, where they fit, and names, where there is still room then.

use std::collections::BTreeSet;

use bundle_stage::{Endpoint, Id, Node, Point};

use crate::explain::counted;

use super::field::{Anchor, Field, Label, Rect, Wish, lengthen, moved, placed};
use super::palette::colour;
use super::pens::{HEAVIEST, Pens};
use super::records::Record;
use super::scene::{Scene, Trunk, corners};
use super::stroke::Stroke;
use super::unnamed::{Unnamed, unnamed};
use super::wishes::{End, bundle_wish, edge_wish, is_long, name_wish, node_wish, port_wish};
use super::xml::{BOLD, mm, wide_bold, words};

/// Heights of letters that are tried, in millimetres, one for all labels of a kind. Smaller ones
/// would not be read on paper.
pub const NODES: [f64; 6] = [4.6, 4.0, 3.4, 2.8, 2.2, 1.8];
const BUNDLES: [f64; 4] = [3.4, 3.0, 2.4, 1.8];
const EDGES: [f64; 4] = [3.2, 2.8, 2.3, 1.8];
const PORTS: [f64; 3] = [2.5, 2.2, 1.8];
const NAMES: [f64; 4] = [3.0, 2.6, 2.2, 1.8];

/// All labels as SVG, and what is left out for want of room, in words.
pub struct Labels {
    pub svg: String,
    /// The frames of the bundles' ids.
    pub frames: Vec<Rect>,
    /// Bundles that have none, and of which something is drawn: no picture may have these.
    pub bundles: Vec<Id>,
    pub left_out: Vec<String>,
    /// The routes whose ids are there, by their places.
    pub routes: BTreeSet<usize>,
    pub unnamed: Vec<Unnamed>,
}

/// The labels of a kind, and how many have no room.
struct Kind {
    labels: Vec<Label>,
    missing: usize,
    /// The places of what is labelled with its name.
    named: Vec<usize>,
}

/// The wishes for ids, each with that for id and name where there is one.
struct Wishes {
    ids: Vec<Wish>,
    named: Vec<Option<Wish>>,
    sizes: &'static [f64],
}

impl Wishes {
    fn of(all: impl Iterator<Item = (Wish, Option<Wish>)>, sizes: &'static [f64]) -> Wishes {
        let (ids, named) = all.unzip();
        Wishes { ids, named, sizes }
    }

    fn placed(&self, field: &mut Field) -> Kind {
        let (labels, missing) = placed(field, &self.ids, self.sizes);
        Kind {
            labels,
            missing,
            named: Vec::new(),
        }
    }

    /// Adds names where there is room.
    fn name(&self, field: &mut Field, kind: &mut Kind) {
        kind.named = lengthen(field, &mut kind.labels, &self.named, self.sizes);
    }
}

/// The routes' strokes come first among `strokes`, in the routes' order. No name stands where an id could.
pub fn labels(scene: &Scene, strokes: &[Stroke], pens: &Pens, field: &mut Field) -> Labels {
    let all = [
        bundle_ids(scene, pens),
        second_ids(scene, pens),
        node_ids(scene),
        edge_ids(scene, strokes),
        port_ids(scene, pens),
    ];
    let mut kinds = all.each_ref().map(|wishes| wishes.placed(field));
    let names = node_names(scene, field, &kinds[2].labels);
    // Ports last: their names are the longest, and there are most of them.
    for turn in [2, 0, 3, 4] {
        all[turn].name(field, &mut kinds[turn]);
    }
    let what = ["bundle", "bundle", "node", "edge", "port"];
    let counts = [0, 2, 3, 4].map(|at| (kinds[at].missing, what[at]));
    let counts = counts.into_iter().filter(|(count, _)| *count > 0);
    let shown = [
        named(&names),
        kinds[4].named.clone(),
        kinds[3].named.clone(),
    ];
    Labels {
        frames: frames(&kinds).map(frame).collect(),
        bundles: without(scene, &kinds[0]),
        left_out: counts.map(|(count, what)| counted(count, what)).collect(),
        routes: kinds[3].labels.iter().map(|label| label.place).collect(),
        unnamed: unnamed(scene, &shown),
        svg: drawn(scene, &kinds, &names),
    }
}

fn named(names: &[Label]) -> Vec<usize> {
    names.iter().map(|label| label.place).collect()
}

/// One for each bundle.
fn bundle_ids(scene: &Scene, pens: &Pens) -> Wishes {
    let trunks = scene.trunks.iter().enumerate();
    let wishes = trunks.map(|(place, trunk)| {
        let id = format!("B{}", trunk.id);
        let name = scene.names.said(scene.records.trunks[place].item);
        let wish = |text: &str| bundle_wish(place, trunk, End::Collector, pens, text);
        let named = name.map(|name| wish(&format!("{id} {name}")));
        (wish(&id), named)
    });
    Wishes::of(wishes, &BUNDLES)
}

/// A second one at the port where the spine is long, if there is room.
fn second_ids(scene: &Scene, pens: &Pens) -> Wishes {
    let trunks = scene.trunks.iter().enumerate();
    let long = trunks.filter(|(_, trunk)| is_long(trunk));
    let wishes = long.map(|(place, trunk)| {
        let id = format!("B{}", trunk.id);
        (bundle_wish(place, trunk, End::Port, pens, &id), None)
    });
    Wishes::of(wishes, &BUNDLES)
}

/// The bundles of which no label stands on the page, though something of them is drawn.
fn without(scene: &Scene, ids: &Kind) -> Vec<Id> {
    let trunks = scene.trunks.iter().enumerate();
    let shown = |place: usize| ids.labels.iter().any(|label| label.place == place);
    let without = trunks.filter(|(place, trunk)| !shown(*place) && is_seen(trunk));
    without.map(|(_, trunk)| trunk.id).collect()
}

fn is_seen(trunk: &Trunk) -> bool {
    let mut parts = trunk.parts().into_iter();
    !trunk.taps.is_empty() || parts.any(|(start, end)| start != end)
}

fn node_ids(scene: &Scene) -> Wishes {
    let nodes = scene.nodes.iter().enumerate();
    let wishes = nodes.map(|(place, node)| (node_wish(place, node, node.id.to_string()), None));
    Wishes::of(wishes, &NODES)
}

fn edge_ids(scene: &Scene, strokes: &[Stroke]) -> Wishes {
    let routes = scene.routes.iter().zip(strokes).enumerate();
    let wishes = routes.map(|(place, (route, stroke))| {
        let wish = |text: String| edge_wish(place, route, stroke, text);
        let name = scene.names.said(scene.records.routes[place].item);
        let named = name.map(|name| wish(format!("{} {name}", route.id)));
        (wish(route.id.to_string()), named)
    });
    Wishes::of(wishes, &EDGES)
}

fn port_ids(scene: &Scene, pens: &Pens) -> Wishes {
    let ports = scene.ports.iter().enumerate();
    let wishes = ports.filter_map(|(place, port)| {
        let Endpoint { node, port: id } = port.name;
        let name = scene.names.said(scene.records.ports[place].item);
        // Of nodes that have one id the port is at that which it stands at.
        let at = Rect::of(port.at, port.at, 0.0);
        let of_id = scene.nodes.iter().enumerate();
        let of_id = of_id.filter(|(_, of)| of.id == node);
        let is_at = |(_, of): &(usize, &Node)| {
            let [low, high] = corners(of);
            at.within(&Rect::of(low, high, 0.1))
        };
        let node = of_id.clone().find(is_at).or(of_id.clone().next())?;
        let wish = |text: String| port_wish(place, port, node, pens, text);
        let named = name.map(|name| wish(format!("{id} {name}")));
        Some((wish(id.to_string()), named))
    });
    Wishes::of(wishes, &PORTS)
}

/// The names of nodes, where there is room.
fn node_names(scene: &Scene, field: &mut Field, ids: &[Label]) -> Vec<Label> {
    let wishes = ids.iter().filter_map(|id| {
        let node = &scene.nodes[id.place];
        let name = scene.names.said(scene.records.nodes[id.place].item)?;
        Some(name_wish(id.place, node, id.spot, &name))
    });
    let wishes = wishes.collect::<Vec<_>>();
    placed(field, &wishes, &NAMES).0
}

/// All labels as SVG.
fn drawn(scene: &Scene, kinds: &[Kind; 5], names: &[Label]) -> String {
    let [_, _, nodes, edges, ports] = kinds;
    let mut svg = String::new();
    let of =
        |records: &[Record], label: &Label| format!("data-of=\"{}\"", records[label.place].key);
    let records = &scene.records;
    for label in &ports.labels {
        let of = of(&records.ports, label);
        let more = format!("class=\"port-id\" {of} fill=\"#666666\"");
        svg.push_str(&text(label, &more));
    }
    for (labels, class) in [(&nodes.labels[..], "node-id"), (names, "node-name")] {
        for label in labels {
            let of = of(&records.nodes, label);
            let bold = if class == "node-id" { BOLD } else { "" };
            let more = format!("class=\"{class}\" {of} {bold}");
            let more = more.trim_end();
            svg.push_str(&text(label, more));
        }
    }
    for label in &edges.labels {
        let more = format!("class=\"edge-id\" {}", of(&records.routes, label));
        svg.push_str(&text(label, &more));
    }
    for label in frames(kinds) {
        let of = of(&records.trunks, label);
        let pill = pill(&label.text, frame(label), label.place, label.spot.size);
        svg.push_str(&format!("<g {of}>\n{pill}</g>\n"));
    }
    svg
}

/// The labels of bundles.
fn frames(kinds: &[Kind; 5]) -> impl Iterator<Item = &Label> {
    kinds[0].labels.iter().chain(&kinds[1].labels)
}

fn frame(label: &Label) -> Rect {
    let Rect { low, high } = label.spot.rect;
    Rect::of(low, high, -AROUND)
}

fn text(label: &Label, more: &str) -> String {
    let middle = label.spot.rect.middle();
    let turned = if label.spot.turned {
        format!(
            " transform=\"rotate(-90 {} {})\"",
            mm(middle.x),
            mm(middle.y)
        )
    } else {
        String::new()
    };
    let Rect { low, high } = label.spot.rect;
    let (x, anchor) = match label.spot.anchor {
        Anchor::Left => (low.x, " text-anchor=\"start\""),
        Anchor::Middle => (middle.x, ""),
        Anchor::Right => (high.x, " text-anchor=\"end\""),
    };
    let at = Point {
        x,
        y: middle.y + 0.35 * label.spot.size,
    };
    let more = format!("{more}{anchor}{turned}");
    words(at, label.spot.size, &more, &label.text)
}

/// A frame around a bundle's id.
pub fn pill_size(text: &str, size: f64) -> (f64, f64) {
    (wide_bold(text, size) + 1.2, 1.3 * size)
}

/// How much of a spine the smallest frame needs, with what is left free around it.
pub fn on_trunk(text: &str) -> f64 {
    let least = BUNDLES[BUNDLES.len() - 1];
    pill_size(text, least).0 + 2.0 * AROUND + 3.0 * HEAVIEST
}

/// What is left free around a frame.
pub const AROUND: f64 = 0.5;

/// A bundle's id in a frame of its colour.
fn pill(text: &str, rect: Rect, place: usize, size: f64) -> String {
    let middle = moved(rect.middle(), 0.0, 0.35 * size);
    let frame = format!(
        "<rect x=\"{}\" y=\"{}\" width=\"{}\" height=\"{}\" rx=\"0.8\" fill=\"white\" \
         stroke=\"{}\" stroke-width=\"0.45\"/>\n",
        mm(rect.low.x),
        mm(rect.low.y),
        mm(rect.high.x - rect.low.x),
        mm(rect.high.y - rect.low.y),
        colour(place)
    );
    let more = format!("class=\"bundle-id\" {BOLD} text-anchor=\"middle\"");
    frame + &words(middle, size, &more, text)
}

/// The same in the legend, from its left side on.
pub fn pill_at(text: &str, left: Point, place: usize, size: f64) -> String {
    let (width, height) = pill_size(text, size);
    let rect = Rect::around(moved(left, width / 2.0, 0.0), width, height);
    pill(text, rect, place, size)
}
