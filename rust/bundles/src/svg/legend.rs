//! The legend and what it explains.

use std::collections::BTreeSet;

use bundle_stage::{Endpoint, Point, Role};

use super::head::{LINE, TEXT, broken};
use super::labels::{pill_at, pill_size};
use super::loose::cross;
use super::palette::{BLACK, WARNING, colour};
use super::records::Record;
use super::samples::{BOX, OPEN_DOT, SAMPLE, SQUARE, crossing, halves, heavy, joint, sample, thin};
use super::scene::{Mark, Route, Scene, Trunk};
use super::shapes::ring;
use super::tried::dashed;
use super::unnamed::Unnamed;
use super::xml::{BOLD, mm, wide, words};
use crate::loose::End;

/// For the bundles, where there are many.
const SMALL: f64 = 2.2;
/// For what stands below the legend.
const NOTE: f64 = 0.85 * TEXT;
const MANY: usize = 12;
const GAP: f64 = 2.0;

/// A sample and what it means.
struct Sign {
    /// It is drawn from 0 to 10 mm across, 0 being its middle height.
    sample: String,
    /// Where the words start.
    start: f64,
    text: String,
    /// The height of letters.
    size: f64,
}

/// The legend: the signs of this sheet, a line for each bundle, what is said of the sheet, and a line
/// for notes.
pub struct Legend {
    signs: Vec<Sign>,
    /// The first of these that is a name of a port or an edge.
    names: usize,
    bundles: Vec<Sign>,
    said: Option<String>,
    /// The things whose names stand here.
    listed: BTreeSet<Unnamed>,
}

/// What the names of ports and edges have of the legend.
#[derive(Clone, Copy, Default)]
pub struct Room {
    pub width: f64,
    pub lines: usize,
}

impl Legend {
    /// `named` are the things whose names have no room on the sheet. Those of nodes all stand here, of ports and
    /// edges those that go into so many lines.
    pub fn of(
        scene: &Scene,
        (named, room): (&BTreeSet<Unnamed>, Room),
        said: Option<String>,
    ) -> Legend {
        let size = if scene.trunks.len() > MANY {
            SMALL
        } else {
            TEXT
        };
        let bundles = scene.trunks.iter().enumerate();
        let bundles = bundles.map(|(place, trunk)| bundle(scene, place, trunk, size));
        let (mut signs, mut listed) = (signs(scene), BTreeSet::new());
        // Nodes come first.
        let mut nodes = signs.len();
        for one in named {
            let Some(sign) = name(scene, *one) else {
                continue;
            };
            signs.push(sign);
            let is_node = matches!(one, Unnamed::Node(_));
            nodes += usize::from(is_node);
            if !is_node && taken(&signs, nodes, room.width) > room.lines {
                signs.pop();
                break;
            }
            listed.insert(*one);
        }
        Legend {
            signs,
            names: nodes,
            bundles: bundles.collect(),
            said,
            listed,
        }
    }

    /// In how many lines of a legend of this width names of ports and edges stand.
    pub fn lines_of_names(&self, width: f64) -> usize {
        taken(&self.signs, self.names, width)
    }

    /// Of these things those whose names do not stand here.
    pub fn unlisted(&self, named: &[Unnamed]) -> Vec<Unnamed> {
        let without = named.iter().filter(|one| !self.listed.contains(one));
        without.copied().collect()
    }

    pub fn height(&self, width: f64) -> f64 {
        let rows = flow(&self.signs, width).1 + columns(&self.bundles, width).1;
        // The note may be longer: the margin has room for two lines more.
        LINE * (rows + self.said(width).len()) as f64 + LINE + 2.0
    }

    fn said(&self, width: f64) -> Vec<String> {
        let said = self.said.iter();
        said.flat_map(|line| broken(line, NOTE, width, wide))
            .collect()
    }

    pub fn draw(&self, at: Point, width: f64, note: &str) -> String {
        let mut svg = String::from("<g class=\"legend\">\n");
        let (bundles, rows) = columns(&self.bundles, width);
        let (signs, more) = flow(&self.signs, width);
        let all = [(&self.bundles, bundles, 0), (&self.signs, signs, rows)];
        for (list, places, below) in all {
            for (sign, (x, row)) in list.iter().zip(places) {
                let y = at.y + LINE * ((row + below) as f64 + 0.5);
                svg.push_str(&sign.draw((at.x + x, y), width));
            }
        }
        let mut y = at.y + LINE * ((rows + more) as f64 + 0.5) + 0.35 * TEXT;
        let said = self.said(width).into_iter();
        let said = said.map(|line| ("class=\"joints\"", line));
        let note = broken(note, NOTE, width, wide).into_iter();
        for (more, line) in said.chain(note.map(|line| ("class=\"note\"", line))) {
            svg.push_str(&words(Point { x: at.x, y }, NOTE, more, &line));
            y += LINE;
        }
        svg + "</g>\n"
    }
}

impl Sign {
    fn width(&self) -> f64 {
        self.start + wide(&self.text, self.size) + 2.0 * GAP
    }

    /// Its words, in several lines where they are wider than the page.
    fn lines(&self, width: f64) -> Vec<String> {
        broken(&self.text, self.size, width - self.start, wide)
    }

    fn draw(&self, (x, y): (f64, f64), width: f64) -> String {
        let lines = self.lines(width).into_iter().enumerate();
        let lines = lines.map(|(turn, line)| {
            let text = Point {
                x: self.start,
                y: 0.35 * self.size + LINE * turn as f64,
            };
            words(text, self.size, "", &line)
        });
        format!(
            "<g transform=\"translate({} {})\">\n{}{}</g>\n",
            mm(x),
            mm(y),
            self.sample,
            lines.collect::<String>()
        )
    }
}

/// Where each sign of a list stands, one behind the other, and how many rows there are.
fn flow(signs: &[Sign], width: f64) -> (Vec<(f64, usize)>, usize) {
    let (mut x, mut row) = (0.0, 0);
    let mut places = Vec::new();
    for sign in signs {
        if x > 0.0 && x + sign.width() > width {
            (x, row) = (0.0, row + 1);
        }
        places.push((x, row));
        x += sign.width();
        row += sign.lines(width).len().max(1) - 1;
    }
    (places, if signs.is_empty() { 0 } else { row + 1 })
}

/// In how many lines those from the one with this place on stand.
fn taken(signs: &[Sign], first: usize, width: f64) -> usize {
    let (places, lines) = flow(signs, width);
    places.get(first).map_or(0, |(_, line)| lines - line)
}

/// The same in columns, from above downwards.
fn columns(signs: &[Sign], width: f64) -> (Vec<(f64, usize)>, usize) {
    let widest = signs.iter().map(Sign::width).fold(1.0, f64::max);
    let most = ((width + 2.0 * GAP) / widest).floor().max(1.0) as usize;
    if most == 1 {
        return one_below_the_other(signs, width);
    }
    let rows = signs.len().div_ceil(most);
    let places = 0..signs.len();
    let places = places.map(|place| ((place / rows.max(1)) as f64 * widest, place % rows.max(1)));
    (places.collect(), rows)
}

/// The same in one column.
fn one_below_the_other(signs: &[Sign], width: f64) -> (Vec<(f64, usize)>, usize) {
    let mut row = 0;
    let places = signs.iter().map(|sign| {
        let at = row;
        row += sign.lines(width).len();
        (0.0, at)
    });
    (places.collect(), row)
}

fn bundle(scene: &Scene, place: usize, trunk: &Trunk, size: f64) -> Sign {
    let name = format!("B{}", trunk.id);
    let role = match trunk.role {
        Role::Input => "input",
        Role::Output => "output",
    };
    let inside = if trunk.interior { "interior" } else { "rail" };
    let called = scene.names.said(scene.records.trunks[place].item);
    let called = called.map(|name| format!("{name}: ")).unwrap_or_default();
    let way = way(scene, place, trunk);
    let line = heavy([(0.0, 0.0), (SAMPLE, 0.0)], place);
    let at = Point {
        x: SAMPLE + GAP,
        y: 0.0,
    };
    Sign {
        sample: line + &pill_at(&name, at, place, size),
        start: at.x + pill_size(&name, size).0 + 1.0,
        size,
        text: format!("{called}{way}; {role}, {inside}, width {}", trunk.width),
    }
}

/// A thing's id, and its name beside it.
fn name(scene: &Scene, of: Unnamed) -> Option<Sign> {
    let of_record = |record: &Record, sample: String| {
        let name = scene.names.said(record.item)?;
        Some(Sign {
            sample,
            start: SAMPLE + GAP,
            size: TEXT,
            text: format!("{} {name}", record.item),
        })
    };
    match of {
        Unnamed::Node(place) => node(scene, place),
        Unnamed::Port(place) => of_record(&scene.records.ports[place], SQUARE.to_string()),
        Unnamed::Route(place) => {
            let route = &scene.routes[place];
            of_record(&scene.records.routes[place], sample(route))
        }
    }
}

/// A node's id, and its name beside it.
fn node(scene: &Scene, place: usize) -> Option<Sign> {
    let id = scene.nodes[place].id;
    let name = scene.names.said(scene.records.nodes[place].item)?;
    let middle = Point {
        x: SAMPLE / 2.0,
        y: 0.35 * TEXT,
    };
    let more = format!("{BOLD} text-anchor=\"middle\"");
    let id = words(middle, TEXT, &more, &id.to_string());
    Some(Sign {
        sample: BOX.to_string() + &id,
        start: SAMPLE + GAP,
        size: TEXT,
        text: name,
    })
}

/// No more ports are named of one bundle.
const MOST_PORTS: usize = 8;

/// From which ports a bundle leads to which. One that a member's line does not reach has a cross behind it.
fn way(scene: &Scene, place: usize, trunk: &Trunk) -> String {
    let members = scene.routes.iter().enumerate();
    let members = members.filter(|(_, route)| route.member_of(place));
    let name = |at: Endpoint| format!("{}:{}", at.node, at.port);
    let ports = members.map(|(turn, route)| {
        let (at, end) = match trunk.role {
            Role::Input => (route.target, End::Target),
            Role::Output => (route.source, End::Source),
        };
        let open = scene.records.loose_of(turn).any(|one| one.opens(end));
        format!("{}{}", name(at), if open { " \u{d7}" } else { "" })
    });
    let mut seen = BTreeSet::new();
    // Members may share one.
    let ports = ports.filter(|port| seen.insert(port.clone()));
    let ports = ports.collect::<Vec<_>>();
    let end = name(trunk.endpoint);
    if ports.is_empty() {
        return format!("{end}, no members");
    }
    // One more takes no more room than saying so.
    let more = ports.len().saturating_sub(MOST_PORTS);
    let more = if more == 1 { 0 } else { more };
    let mut named = ports[..ports.len() - more].join(", ");
    if more > 0 {
        named.push_str(&format!(" and {more} more"));
    }
    match trunk.role {
        Role::Input => format!("{end} \u{2192} {named}"),
        Role::Output => format!("{named} \u{2192} {end}"),
    }
}

/// A sign, whether a sheet has it, and what it means.
type Known<'a> = (bool, String, &'a str);

/// Those that the sheet has.
fn signs(scene: &Scene) -> Vec<Sign> {
    let marks = [
        (
            !scene.marks.is_empty(),
            ring(5.0, 0.0, 1.4),
            scene.marks.first().map_or("", Mark::means),
        ),
        (
            scene.records.loose.iter().any(|one| one.at().is_some()),
            thin("M0 0H5", BLACK) + &cross(Point { x: 5.0, y: 0.0 }, 1.3),
            "end of a line that is not at its port: no joint",
        ),
        (!scene.ports.is_empty(), SQUARE.to_string(), "port"),
        (
            scene.tried.is_some(),
            dashed("M0 0H10", 0.7, WARNING),
            "refused bundle as it was tried, on no sheet",
        ),
    ];
    let all = line_signs(scene).into_iter().chain(marks);
    let there = all.filter(|(there, ..)| *there);
    let signs = there.map(|(_, sample, text)| Sign {
        sample,
        start: SAMPLE + GAP,
        size: TEXT,
        text: text.to_string(),
    });
    signs.collect()
}

/// The signs of lines and what joins them.
fn line_signs(scene: &Scene) -> [Known<'static>; 5] {
    let bundled = !scene.trunks.is_empty();
    let any = |test: fn(&Route) -> bool| bundled && scene.routes.iter().any(test);
    let mut taps = scene.trunks.iter().flat_map(|trunk| &trunk.taps);
    [
        (bundled, joint(), "joint: a tap on its collector"),
        (true, crossing(), "crossing: no joint"),
        (
            taps.any(|tap| !tap.held),
            OPEN_DOT.to_string(),
            "tap off its collector",
        ),
        (
            any(|route| route.input.is_none() && route.output.is_none()),
            thin("M0 0H10", BLACK),
            "edge in no bundle",
        ),
        (
            any(|route| route.input.is_some() && route.output.is_some()),
            halves(colour(0), colour(1)),
            "edge in two bundles",
        ),
    ]
}
