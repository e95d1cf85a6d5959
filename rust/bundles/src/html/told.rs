//! The way of a route in words.

use bundle_stage::{Endpoint, Item, Role};

use super::ways::Told;
use crate::loose::{End, Why};
use crate::places::Meant;

const ARROW: &str = " \u{2192} ";
/// Between what is not joined.
const CROSS: &str = " \u{d7} ";

impl Told<'_> {
    /// The way of a route: node, port, spine, collector, tap, edge, and so on to the other node. Where it is
    /// not joined there is a cross.
    pub fn told(&self, place: usize) -> String {
        let edge = &self.board.edges[place];
        let [source, target] = &self.ends[place];
        let from = [
            self.node(edge.source, source),
            self.port(edge.source, source),
        ];
        let mut middle = Vec::new();
        for bundle in self.bundles_at(place, Role::Input) {
            middle.extend(self.other_port(place, bundle, End::Source));
            middle.push(format!("spine and collector of {}", self.bundle(bundle)));
            middle.push("tap".to_string());
        }
        middle.push(self.edge_words(place));
        for bundle in self.bundles_at(place, Role::Output) {
            middle.push("tap".to_string());
            middle.push(format!("collector and spine of {}", self.bundle(bundle)));
            middle.extend(self.other_port(place, bundle, End::Target));
        }
        let to = [
            self.port(edge.target, target),
            self.node(edge.target, target),
        ];
        let joint = |end: End| match self.is_loose(place, end) {
            true => CROSS,
            false => ARROW,
        };
        let [first, second] = [End::Source, End::Target].map(joint);
        let [from, middle, to] = [from.join(ARROW), middle.join(ARROW), to.join(ARROW)];
        format!("{from}{first}{middle}{second}{to}")
    }

    /// The port of a bundle that is not that of its member.
    fn other_port(&self, edge: usize, bundle: usize, end: End) -> Option<String> {
        let other = self.loose[edge].iter().find(|one| one.end == end)?;
        let is_so = matches!(other.why, Why::OtherPort { .. });
        let at = self.board.bundles[bundle].endpoint;
        is_so.then(|| self.port(at, &self.places.meant(at, None)))
    }

    fn is_loose(&self, place: usize, end: End) -> bool {
        self.loose[place].iter().any(|one| one.opens(end))
    }

    /// The bundles of a role through which the way of a route is drawn.
    fn bundles_at(&self, place: usize, role: Role) -> Vec<usize> {
        let bundles = self.bundles[place].iter().filter(|_| self.drawn);
        let bundles = bundles.map(|of| of.bundle);
        let of_role = bundles.filter(|bundle| self.board.bundles[*bundle].role == role);
        of_role.collect()
    }

    /// An edge; with the bundles that it was to be in, where none is drawn.
    fn edge_words(&self, place: usize) -> String {
        let edge = self.called(self.edge_item(place));
        let bundles = self.bundles[place].iter().filter(|_| !self.drawn);
        let bundles = bundles.map(|of| self.bundle(of.bundle));
        let bundles = bundles.collect::<Vec<_>>();
        if bundles.is_empty() {
            return edge;
        }
        format!("{edge} (of {}, not drawn)", bundles.join(" and "))
    }

    /// What is not as it seems on the way of a route.
    pub fn notes(&self, place: usize) -> Vec<String> {
        let loose = self.loose[place].iter();
        let loose = loose.map(|one| format!("\u{d7} {}.", one.words(self.names)));
        let edge = &self.board.edges[place];
        let ends = [edge.source, edge.target]
            .into_iter()
            .zip(&self.ends[place]);
        let unknown = ends.filter(|(_, meant)| meant.nodes.len() > 1 || meant.ports.len() > 1);
        let unknown = unknown.map(|(at, _)| {
            let edge = self.called(self.edge_item(place));
            let Endpoint { node, port } = at;
            format!(
                "{edge} names port {node}:{port}, and several records have that id: all are shown."
            )
        });
        loose.chain(unknown).collect()
    }

    fn node(&self, at: Endpoint, meant: &Meant) -> String {
        match meant.nodes[..] {
            [place] => self.called(self.node_item(place)),
            _ => format!("node {}", at.node),
        }
    }

    pub fn port(&self, at: Endpoint, meant: &Meant) -> String {
        match meant.ports[..] {
            [place] => self.called(self.port_item(place)),
            _ => format!("port {}:{}", at.node, at.port),
        }
    }

    fn bundle(&self, place: usize) -> String {
        self.called(self.bundle_item(place))
    }

    /// A record by id and name; of several that have one id, which it is.
    pub fn called(&self, item: Item) -> String {
        let name = self.names.said(item);
        let named = name.map_or(item.to_string(), |name| format!("{item} {name}"));
        let (place, all) = match item {
            Item::Node { place, id } => (place, self.places.nodes(id)),
            Item::Port { place, node, id } => {
                let port = id;
                (place, self.places.ports(Endpoint { node, port }))
            }
            Item::Edge { place, id } => (place, self.places.edges(id)),
            Item::Bundle { place, id } => (place, self.places.bundles(id)),
            _ => return named,
        };
        let turn = all.iter().position(|other| *other == place);
        match (turn, all.len()) {
            (Some(turn), count @ 2..) => format!("{named}, {} of {count} with this id", turn + 1),
            _ => named,
        }
    }

    // ---- records

    pub fn node_item(&self, place: usize) -> Item {
        let id = self.board.nodes[place].id;
        Item::Node { place, id }
    }

    pub fn port_item(&self, place: usize) -> Item {
        let port = self.board.ports[place];
        let (node, id) = (port.node, port.id);
        Item::Port { place, node, id }
    }

    pub fn edge_item(&self, place: usize) -> Item {
        let id = self.board.edges[place].id;
        Item::Edge { place, id }
    }

    pub fn bundle_item(&self, place: usize) -> Item {
        let id = self.board.bundles[place].id;
        Item::Bundle { place, id }
    }
}
