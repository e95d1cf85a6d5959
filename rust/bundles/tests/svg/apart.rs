//! What a reader could take for a joint, looked for in a picture that is read back.

use bundle_stage::{Board, DrawnBundle, Id, Segment, Sheet};

use super::labels::{frames, ids};
use super::lengths::lengths;
use super::marks::marks;
use super::nodes::beside_nodes;
use super::ports::{Square, joined, ports, squares};
use super::read::{Element, Line, beside, lines, nearest};
use super::rings::rings;
use super::{checked, of_class};

/// A route or a bundle as it is drawn.
pub struct Drawn {
    /// Each line as five beside each other, from edge to edge.
    pub lines: Vec<Line>,
    /// Its paths one after the other, as they are written.
    pub paths: Vec<String>,
    /// Those of the white mark on it.
    pub white: Vec<String>,
    /// Its taps by middle and radius, in the bundle's order.
    pub taps: Vec<Dot>,
    /// Half the width of its lines.
    pub half: f64,
}

/// The middle of a tap's dot, and its radius.
pub type Dot = ((f64, f64), f64);

impl Drawn {
    /// Paths alone, one millimetre wide, with these marks and dots.
    pub fn of(paths: &[&str], white: &[&str], taps: &[Dot]) -> Drawn {
        let owned = |of: &[&str]| of.iter().map(|path| path.to_string()).collect();
        Drawn {
            lines: Vec::new(),
            paths: owned(paths),
            white: owned(white),
            taps: taps.to_vec(),
            half: 0.5,
        }
    }
}

/// All of a class, in order. A white path is the mark on a trunk, and lies on a line that is there.
pub fn drawn(elements: &[Element], class: &str) -> Vec<Drawn> {
    let number = |element: &Element, name: &str| element.value(name).parse().expect("a number");
    let group = |(place, group): (usize, &Element)| {
        let inside = elements[place + 1..].iter();
        let inside = inside
            .take_while(|element| element.depth > group.depth)
            .collect::<Vec<_>>();
        let paths = inside.iter().filter(|element| element.name == "path");
        let (white, paths) =
            paths.partition::<Vec<_>, _>(|element| element.value("stroke") == "white");
        let paths = paths.into_iter();
        let ways = |of: &[&&Element]| of.iter().map(|path| path.value("d").to_string()).collect();
        let mut widths = paths
            .clone()
            .map(|path: &&Element| path.value("stroke-width"));
        let all = of_class(elements, "routes")[0].value("stroke-width");
        let width = widths.next().filter(|width| !width.is_empty());
        let taps = inside.iter().filter(|element| element.name == "circle");
        let half = width.unwrap_or(all).parse::<f64>().expect("a width") / 2.0;
        Drawn {
            half,
            white: ways(&white),
            paths: paths
                .clone()
                .map(|path| path.value("d").to_string())
                .collect(),
            lines: paths
                .flat_map(|path| lines(path.value("d")))
                .flat_map(|line| [-1.0, -0.5, 0.0, 0.5, 1.0].map(|part| beside(line, part * half)))
                .collect(),
            taps: taps
                .map(|tap| ((number(tap, "cx"), number(tap, "cy")), number(tap, "r")))
                .collect(),
        }
    };
    let groups = elements.iter().enumerate();
    let groups = groups.filter(|(_, element)| element.value("class") == class);
    groups.map(group).collect()
}

/// What is white between two lines must be wider, in millimetres.
pub const SEEN: f64 = 0.2;

/// How many times as wide as its trunk a dot is.
const WIDER: f64 = 1.5;

/// Dots that are nearer to each other, middle from middle, stand for one place of the sheet.
const SAME: f64 = 0.06;
/// A picture that is read back, and the sheet that it shows.
pub struct Shown<'a> {
    pub sheet: &'a Sheet,
    pub routes: Vec<Drawn>,
    pub bundles: Vec<Drawn>,
    pub ports: Vec<Square>,
    /// The frames of the bundles' ids.
    pub frames: Vec<Line>,
}

impl Shown<'_> {
    /// The dot of an edge on a bundle, by the bundle's place.
    fn tap_of(&self, edge: Id, bundle: usize) -> Option<Dot> {
        let taps = self.sheet.bundles.get(bundle)?.taps.iter();
        let mut taps = taps.zip(&self.bundles[bundle].taps);
        taps.find(|(tap, _)| tap.edge == edge).map(|(_, dot)| *dot)
    }

    /// Whether two routes may touch here: at a port at which both end, or a bundle that both are in.
    fn common(&self, routes: [usize; 2], at: (f64, f64)) -> bool {
        let [one, two] = routes.map(|place| self.sheet.routes[place].id);
        let mut ports = self.ports.iter();
        ports.any(|port| port.near(at, 0.5) && port.is_of(one) && port.is_of(two))
            || (0..self.bundles.len()).any(|bundle| {
                let both = self.tap_of(one, bundle).zip(self.tap_of(two, bundle));
                both.is_some_and(|(a, b)| within(at, a, 0.3) || within(at, b, 0.3))
            })
    }
}

fn within(at: (f64, f64), (middle, radius): Dot, more: f64) -> bool {
    (at.0 - middle.0).hypot(at.1 - middle.1) <= radius + more
}

/// Fails where two are too near to each other.
pub fn apart(what: &str, (distance, at): (f64, (f64, f64)), least: f64) -> Result<(), String> {
    if distance <= least {
        return Err(format!("{what}: {distance} at {at:?}"));
    }
    Ok(())
}

/// What a reader could take for a joint: lines of two routes that touch, but where both end at one
/// port or one bundle; a route that touches a bundle elsewhere than at its tap, or another one's dot;
/// two bundles that touch, or look like one; a line at a port where it does not end. And what is not
/// seen as a joint that is one, or as one line.
pub fn false_joint(picture: &str, board: &Board, sheet: &Sheet) -> Result<(), String> {
    let elements = checked(picture);
    let shown = Shown {
        sheet,
        routes: drawn(&elements, "route"),
        bundles: drawn(&elements, "bundle"),
        ports: squares(&elements, board),
        frames: frames(&elements),
    };
    for place in 0..shown.routes.len() {
        routes(&shown, place)?;
        bundles_of(&shown, place)?;
    }
    for place in 0..shown.bundles.len() {
        dots(&shown, place)?;
        bundles(&shown, place)?;
    }
    ports(&shown)?;
    joined(&shown, board)?;
    beside_nodes(&elements, &shown, board)?;
    ids(&elements, sheet)?;
    lengths(&shown)?;
    marks(&shown)?;
    rings(&shown)
}

/// A route beside those after it.
fn routes(shown: &Shown<'_>, place: usize) -> Result<(), String> {
    for (other, with) in shown.routes.iter().enumerate().skip(place + 1) {
        let common = |at| shown.common([place, other], at);
        let near = nearest(&shown.routes[place].lines, &with.lines, common);
        apart("routes", near, SEEN)?;
    }
    Ok(())
}

/// A route beside all bundles and their dots.
fn bundles_of(shown: &Shown<'_>, route: usize) -> Result<(), String> {
    let id = shown.sheet.routes[route].id;
    let lines = &shown.routes[route].lines;
    for (place, bundle) in shown.bundles.iter().enumerate() {
        let tap = shown.tap_of(id, place);
        let own = |at| tap.is_some_and(|tap| within(at, tap, 0.5));
        let near = nearest(lines, &bundle.lines, own);
        apart("a route on a bundle", near, SEEN)?;
        let same = |at| tap.is_some_and(|tap| within(at, (tap.0, 0.05), 0.0));
        let others = bundle.taps.iter().filter(|(middle, _)| !same(*middle));
        for (middle, radius) in others {
            let near = nearest(lines, &[[*middle; 2]], |_| false);
            apart("a route on a dot", near, SEEN + radius)?;
        }
    }
    Ok(())
}

/// Every dot is seen beside its trunk.
fn dots(shown: &Shown<'_>, place: usize) -> Result<(), String> {
    let bundle = &shown.bundles[place];
    for (turn, (middle, radius)) in bundle.taps.iter().enumerate() {
        let held = sheet_held(&shown.sheet.bundles[place], turn);
        let most = if held { bundle.half } else { 0.0 };
        if *radius < (most + 0.1).max(WIDER * most - 0.01) {
            return Err(format!("no dot to be seen at {middle:?}"));
        }
        for (at, wide) in &bundle.taps[turn + 1..] {
            let far = (middle.0 - at.0).hypot(middle.1 - at.1);
            if far > SAME && far - radius - wide < SEEN {
                return Err(format!("dots at {middle:?} and {at:?} are as one"));
            }
        }
    }
    Ok(())
}

/// A bundle beside the others and their dots.
fn bundles(shown: &Shown<'_>, place: usize) -> Result<(), String> {
    let bundle = &shown.bundles[place];
    let others = shown.bundles.iter().enumerate();
    for (_, other) in others.filter(|(other, _)| *other != place) {
        let near = nearest(&bundle.lines, &other.lines, |_| false);
        apart("bundles", near, SEEN)?;
        for (middle, radius) in &bundle.taps {
            let near = nearest(&other.lines, &[[*middle; 2]], |_| false);
            apart("a bundle on a dot", near, SEEN + radius)?;
        }
    }
    Ok(())
}

/// Whether a tap lies on its collector.
fn sheet_held(bundle: &DrawnBundle, turn: usize) -> bool {
    let at = bundle.taps[turn].point;
    let Segment { start, end } = bundle.collector;
    at.x == start.x && start.y.min(end.y) <= at.y && at.y <= start.y.max(end.y)
}
