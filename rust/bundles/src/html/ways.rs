//! What is lifted with each thing of a sheet, and how its way is told.

use std::collections::BTreeSet;

use bundle_stage::{Board, Item, Role, Sheet};

use crate::keys::Keys;
use crate::loose::{self, Loose};
use crate::names::Names;
use crate::places::{Meant, Places};

/// A thing that can be chosen.
pub struct Way {
    /// Its id in the picture, which no other has.
    pub key: String,
    pub name: String,
    /// What a reader calls it: whoever looks for one of these wants it before all that only has such a word
    /// in its name.
    pub terms: Vec<String>,
    /// Its way from unit to port, a line for each route.
    pub words: Vec<String>,
    /// Where these routes are not joined to what they are said to lead to, and what else is not as it seems.
    pub notes: Vec<String>,
    /// The ids in the picture of all that is lifted with it, whole.
    pub lifted: Vec<String>,
    /// Those of the bundles of which only the stretch between the port and the lifted taps is lifted.
    pub stretches: Vec<String>,
    /// What is said of these.
    pub parts: Vec<String>,
}

/// A board with what was drawn of it.
pub struct Told<'a> {
    pub board: &'a Board,
    pub drawn: bool,
    pub names: &'a Names,
    keys: Keys,
    pub places: Places<'a>,
    /// What each edge means by its source and its target.
    pub ends: Vec<[Meant; 2]>,
    /// The bundles that each edge is in.
    pub bundles: Vec<Vec<Joined>>,
    /// The loose ends of each edge.
    pub loose: Vec<Vec<Loose>>,
}

/// A bundle that an edge is in, by its place, and the id of its tap in the picture.
#[derive(Clone)]
pub struct Joined {
    pub bundle: usize,
    tap: Option<String>,
}

/// All things of a sheet: bundles, nodes, ports, routes. Without a sheet the bundles are those of the board,
/// which are not drawn.
pub fn ways(board: &Board, sheet: Option<&Sheet>, names: &Names) -> Vec<Way> {
    let told = Told::of(board, sheet, names);
    let bundles = (0..board.bundles.len()).map(|place| told.bundle_way(place));
    let nodes = (0..board.nodes.len()).map(|place| told.node_way(place));
    let ports = (0..board.ports.len()).map(|place| told.port_way(place));
    let routes = (0..board.edges.len()).map(|place| told.route_way(place));
    bundles.chain(nodes).chain(ports).chain(routes).collect()
}

impl<'a> Told<'a> {
    fn of(board: &'a Board, sheet: Option<&Sheet>, names: &'a Names) -> Told<'a> {
        let (keys, places) = (Keys::of(board, sheet), Places::of(board));
        let ends = board.edges.iter().map(|edge| {
            [
                places.meant(edge.source, edge.points.first()),
                places.meant(edge.target, edge.points.last()),
            ]
        });
        let ends = ends.collect();
        let bundles = match sheet {
            Some(sheet) => tapped(board, sheet, &keys, &places),
            None => members(board, &places),
        };
        let mut by_edge = vec![Vec::new(); board.edges.len()];
        let found = match sheet {
            Some(sheet) => loose::on_sheet(board, sheet),
            None => loose::on_board(board),
        };
        for one in found {
            by_edge[one.place].push(one);
        }
        Told {
            board,
            drawn: sheet.is_some(),
            names,
            keys,
            places,
            ends,
            bundles,
            loose: by_edge,
        }
    }

    fn bundle_way(&self, place: usize) -> Way {
        let bundle = &self.board.bundles[place];
        let is_in = |edge: &usize| self.bundles[*edge].iter().any(|of| of.bundle == place);
        let members = (0..self.board.edges.len()).filter(is_in);
        // A member may be in a bundle at its other end too: the way goes through that as well.
        let (mut way, routes) = self.way(self.bundle_item(place), members);
        let meant = self.places.meant(bundle.endpoint, None);
        if meant.nodes.len() < 2 && meant.ports.len() < 2 {
            way.lifted.extend(self.end_keys(&meant));
        }
        let at = self.port(bundle.endpoint, &meant);
        if routes.is_empty() {
            let words = format!("No members: no wire is led to {at} by it.");
            way.notes.insert(0, words);
        }
        if !self.drawn {
            way.notes.insert(0, format!("Not drawn: a bundle at {at}."));
        }
        let label = format!("B{}", bundle.id);
        let name = self.names.of(self.bundle_item(place));
        let labelled = name.map(|name| format!("{label} {name}"));
        way.terms.extend([label].into_iter().chain(labelled));
        self.finished(way, &self.keys.bundles[place], routes)
    }

    fn node_way(&self, place: usize) -> Way {
        let id = self.board.nodes[place].id;
        let at = |meant: &Meant| meant.nodes.contains(&place);
        let (mut way, routes) = self.way(self.node_item(place), self.routes(at));
        let ports = (0..self.board.ports.len()).filter(|port| self.board.ports[*port].node == id);
        let ports = ports.filter(|port| self.places.home(*port) == Some(place));
        way.lifted
            .extend(ports.map(|port| self.keys.ports[port].clone()));
        self.finished(way, &self.keys.nodes[place], routes)
    }

    fn port_way(&self, place: usize) -> Way {
        let at = |meant: &Meant| meant.ports.contains(&place);
        let (mut way, routes) = self.way(self.port_item(place), self.routes(at));
        let home = self.places.home(place);
        way.lifted
            .extend(home.map(|node| self.keys.nodes[node].clone()));
        self.finished(way, &self.keys.ports[place], routes)
    }

    fn route_way(&self, place: usize) -> Way {
        let (way, routes) = self.way(self.edge_item(place), [place].into_iter());
        self.finished(way, &self.keys.edges[place], routes)
    }

    /// The routes with an end for which this holds.
    fn routes(&self, at: impl Fn(&Meant) -> bool) -> impl Iterator<Item = usize> {
        let ends = self.ends.iter().enumerate();
        let with = ends.filter(move |(_, ends)| ends.iter().any(&at));
        with.map(|(place, _)| place)
    }

    /// The way of a record that has these routes on it, without its own id in the picture.
    fn way(&self, item: Item, routes: impl Iterator<Item = usize>) -> (Draft, Vec<usize>) {
        let routes = routes.collect::<Vec<_>>();
        let said = item.to_string();
        let id = said.split(' ').nth(1).map(str::to_string);
        let mut draft = Draft {
            name: self.called(item),
            terms: [said].into_iter().chain(id).collect(),
            ..Draft::default()
        };
        let mut on_way = BTreeSet::new();
        let lifted = &mut draft.lifted;
        for route in &routes {
            lifted.insert(self.keys.edges[*route].clone());
            lifted.extend(self.ends[*route].iter().flat_map(|end| self.end_keys(end)));
            for Joined { bundle, tap } in &self.bundles[*route] {
                on_way.insert(*bundle);
                lifted.extend(tap.clone());
                lifted.extend(self.other_end(*route, *bundle));
            }
        }
        for bundle in on_way {
            self.lift(&mut draft, item, bundle);
        }
        (draft, routes)
    }

    /// Lifts a bundle that is on the way of a record: its own whole, of another what leads to the lifted taps.
    /// One that is not drawn may have been tried: that is the way of its members, and of no other bundle.
    fn lift(&self, draft: &mut Draft, item: Item, bundle: usize) {
        let key = self.keys.bundles[bundle].clone();
        let own = item == self.bundle_item(bundle);
        let all = match self.drawn {
            true => self.keys.taps[bundle]
                .iter()
                .all(|tap| draft.lifted.contains(tap)),
            false => !matches!(item, Item::Bundle { .. }),
        };
        if own || all {
            draft.lifted.insert(key);
        } else if self.drawn {
            draft.stretches.push(key);
            let at = self.board.bundles[bundle].endpoint;
            let port = self.port(at, &self.places.meant(at, None));
            let bundle = self.called(self.bundle_item(bundle));
            draft.parts.push(format!(
                "Of {bundle} only the stretch between {port} and the taps on this way is lifted."
            ));
        }
    }

    fn finished(&self, draft: Draft, key: &str, routes: Vec<usize>) -> Way {
        let Draft {
            name,
            terms,
            mut notes,
            mut lifted,
            stretches,
            parts,
        } = draft;
        lifted.insert(key.to_string());
        notes.extend(routes.iter().flat_map(|route| self.notes(*route)));
        Way {
            key: key.to_string(),
            name,
            terms,
            words: routes.iter().map(|route| self.told(*route)).collect(),
            notes,
            lifted: lifted.into_iter().collect(),
            stretches,
            parts,
        }
    }

    /// The ends of a bundle that is drawn to another port than its member names: the wire leads there.
    fn other_end(&self, route: usize, bundle: usize) -> Vec<String> {
        let of = &self.board.bundles[bundle];
        let edge = &self.board.edges[route];
        let own = match of.role {
            Role::Input => edge.source,
            Role::Output => edge.target,
        };
        if !self.drawn || own == of.endpoint {
            return Vec::new();
        }
        self.end_keys(&self.places.meant(of.endpoint, None))
    }

    fn end_keys(&self, meant: &Meant) -> Vec<String> {
        let nodes = meant.nodes.iter().map(|place| &self.keys.nodes[*place]);
        let ports = meant.ports.iter().map(|place| &self.keys.ports[*place]);
        nodes.chain(ports).cloned().collect()
    }
}

/// A way that is not yet told.
#[derive(Default)]
struct Draft {
    name: String,
    terms: Vec<String>,
    notes: Vec<String>,
    lifted: BTreeSet<String>,
    stretches: Vec<String>,
    parts: Vec<String>,
}

/// By the sheet: the bundles on which each edge has a tap.
fn tapped(board: &Board, sheet: &Sheet, keys: &Keys, places: &Places<'_>) -> Vec<Vec<Joined>> {
    let mut bundles = vec![Vec::new(); board.edges.len()];
    for (bundle, (drawn, keys)) in sheet.bundles.iter().zip(&keys.taps).enumerate() {
        for (tap, key) in drawn.taps.iter().zip(keys) {
            for edge in places.edges(tap.edge) {
                let tap = Some(key.clone());
                bundles[*edge].push(Joined { bundle, tap });
            }
        }
    }
    bundles
}

/// By the board: the bundles of which each edge is a member.
fn members(board: &Board, places: &Places<'_>) -> Vec<Vec<Joined>> {
    let mut bundles: Vec<Vec<Joined>> = vec![Vec::new(); board.edges.len()];
    for (bundle, given) in board.bundles.iter().enumerate() {
        for member in &given.members {
            for edge in places.edges(member.edge) {
                let of = &mut bundles[*edge];
                // A member may be named twice.
                if !of.iter().any(|other| other.bundle == bundle) {
                    of.push(Joined { bundle, tap: None });
                }
            }
        }
    }
    bundles
}
