//! Whether everything that does not join is drawn apart, measured on the lines as they are drawn.

use bundle_stage::{Id, Point};

use super::field::Rect;
use super::frames::framed;
use super::lanes::NO_STEP;
use super::marking;
use super::paths::{flat, gaps};
use super::pens::Pens;
use super::ports::{ends, touched};
use super::scene::{MARK, Port, Route, Scene, Tap, Trunk};
use super::spans::Way;
use super::stroke::{Gap, Piece, Stroke, apart};

/// The white between two lines that do not join is never less, in millimetres: 0.2, and what the
/// rounding of the file's numbers may take.
pub const WHITE: f64 = 0.23;
/// What lines may be nearer than what they are drawn for, by the rounding of sums.
pub const NEARLY: f64 = 0.005;
/// Between the trunks of two bundles on one line, which would otherwise look like one.
const IN_LINE: f64 = 1.0;
/// What is left of a line between two gaps is at least so many times as long as each of them: it reads as one
/// line, and not as dashes.
pub const LEFT: f64 = 1.5;
/// No line goes unseen under others for longer.
const TUNNEL: f64 = 4.0;
/// How far a dot is seen on each side of its trunk and its route, and how many times as wide as these it is.
const SEEN: f64 = 0.12;
const WIDER: f64 = 1.5;
/// Around a dot or a port its own lines may be near to each other.
const AROUND: f64 = 0.28;

/// What a piece of ink belongs to, by places in the scene.
#[derive(Clone, Copy, PartialEq)]
enum Owner {
    Route(usize),
    Trunk(usize),
    Dot(usize, usize),
}

struct Ink {
    owner: Owner,
    piece: Piece,
    half: f64,
    rect: Rect,
}

impl Ink {
    /// Its lines, from edge to edge: a line ends square, so that it is no wider at its ends. A dot is
    /// its middle.
    fn lines(&self) -> Vec<Piece> {
        if let Owner::Dot(..) = self.owner {
            return vec![self.piece];
        }
        let length = self.piece.length();
        let beside = [-1.0, 0.0, 1.0].map(|part| Piece {
            start: self.piece.at(0.0, part * self.half),
            end: self.piece.at(length, part * self.half),
        });
        beside.to_vec()
    }

    /// What is white between two, and where.
    fn white(&self, other: &Ink) -> (f64, Point) {
        let radius = |ink: &Ink| match ink.owner {
            Owner::Dot(..) => ink.half,
            _ => 0.0,
        };
        let mut least = (f64::INFINITY, self.piece.start);
        for (a, b) in pairs(&self.lines(), &other.lines()) {
            let (distance, at) = a.to(&b);
            if distance < least.0 {
                least = (distance, at);
            }
        }
        (least.0 - radius(self) - radius(other), least.1)
    }
}

fn pairs(one: &[Piece], two: &[Piece]) -> Vec<(Piece, Piece)> {
    let pairs = one.iter().flat_map(|a| two.iter().map(|b| (*a, *b)));
    pairs.collect()
}

/// What a reader could take for a joint that is none, or not see as one that is, in words; none
/// where everything is clear.
pub fn unclear(scene: &Scene, strokes: &[Stroke], pens: &Pens) -> Option<String> {
    dots(scene, pens)
        .or_else(|| kept(scene, strokes))
        .or_else(|| in_line(scene, strokes))
        .or_else(|| touching(scene, strokes))
        .or_else(|| touched(scene, strokes))
        .or_else(|| framed(scene, strokes, pens))
}

/// The radius from which on a dot is seen on a line of this width.
fn least_dot(width: f64) -> f64 {
    (width / 2.0 + SEEN).max(WIDER * width / 2.0)
}

/// The width up to which a dot of this radius is seen on a line.
pub fn most_under(radius: f64) -> f64 {
    (2.0 * (radius - SEEN)).min(2.0 * radius / WIDER)
}

/// A tap whose dot is lost in its trunk or its route.
fn dots(scene: &Scene, pens: &Pens) -> Option<String> {
    let taps = scene.trunks.iter().flat_map(|trunk| {
        let taps = trunk.taps.iter();
        taps.map(move |tap| (trunk, tap))
    });
    let lost = |(trunk, tap): &(&Trunk, &Tap)| {
        let most = if tap.held { trunk.weight } else { 0.0 };
        tap.radius < least_dot(most.max(pens.route)) - 1e-9
    };
    let (trunk, tap) = taps.into_iter().find(lost)?;
    let (edge, bundle) = (tap.edge, trunk.id);
    Some(format!(
        "the dot of edge {edge} on bundle {bundle} would not show"
    ))
}

/// A line of which too little is left between two that go over it.
fn kept(scene: &Scene, strokes: &[Stroke]) -> Option<String> {
    let place = strokes.iter().position(in_dashes)?;
    let name = name_of_line(scene, place);
    Some(format!("{name} would fall into dashes under others"))
}

fn in_dashes(stroke: &Stroke) -> bool {
    // The last gap so far, and what is left behind it.
    let mut before: Option<(Gap, f64)> = None;
    (0..stroke.arches.len()).any(|turn| {
        let gaps = gaps(stroke, turn);
        // A bend is shorter than its corner.
        let around = before.zip(gaps.first());
        let corner = around.is_some_and(|((last, left), gap)| {
            left + gap.from < 1.3 * marking::kept(stroke, [&last, gap])
        });
        let length = stroke.piece(turn).length();
        let last = gaps.last().map(|gap| (*gap, length - gap.to));
        before = last.or(before.map(|(gap, left)| (gap, left + length)));
        let between = |two: &[Gap]| {
            let least = marking::kept(stroke, [&two[0], &two[1]]);
            two[1].from - two[0].to < least - 1e-9
        };
        corner || gaps.windows(2).any(between) || gaps.iter().any(|gap| gap.length() > TUNNEL)
    })
}

/// Trunks of two bundles that lie on one line and nearly meet.
fn in_line(scene: &Scene, strokes: &[Stroke]) -> Option<String> {
    let trunks = &strokes[scene.routes.len()..];
    let parts = trunks.iter().flat_map(|stroke| {
        let pieces = stroke.pieces();
        pieces.map(move |piece| (stroke, piece))
    });
    let parts = parts.collect::<Vec<_>>();
    for (place, (one, a)) in parts.iter().enumerate() {
        for (two, b) in &parts[..place] {
            let near = Way::BOTH.iter().any(|way| {
                let spans = way.span(a.start, a.end).zip(way.span(b.start, b.end));
                spans.is_some_and(|(a, b)| {
                    (a.at - b.at).abs() < (one.width + two.width) / 2.0 && a.beside(&b, IN_LINE)
                })
            });
            if near && one.bundle != two.bundle {
                let ids = [one.bundle, two.bundle].map(|place| name_of(scene, place));
                return Some(format!("{} and {} would look like one", ids[0], ids[1]));
            }
        }
    }
    None
}

/// Two that touch, or nearly.
fn touching(scene: &Scene, strokes: &[Stroke]) -> Option<String> {
    let mut inks = inks(scene, strokes);
    inks.sort_by(|a, b| a.rect.low.x.total_cmp(&b.rect.low.x));
    for (place, a) in inks.iter().enumerate() {
        let beside = inks[place + 1..].iter();
        let beside = beside.take_while(|b| b.rect.low.x < a.rect.high.x);
        for b in beside.filter(|b| b.owner != a.owner && b.rect.meets(&a.rect)) {
            let (distance, at) = a.white(b);
            if distance < WHITE - NEARLY && !joined(scene, a.owner, b.owner, at) {
                let names = [a.owner, b.owner].map(|owner| name(scene, owner));
                return Some(format!("{} would touch {}", names[0], names[1]));
            }
        }
    }
    None
}

fn inks(scene: &Scene, strokes: &[Stroke]) -> Vec<Ink> {
    let routes = scene.routes.len();
    let ink = |owner: Owner, piece: Piece, half: f64| Ink {
        owner,
        piece,
        half,
        rect: Rect::of(piece.start, piece.end, half + WHITE / 2.0),
    };
    let lines = strokes.iter().enumerate().flat_map(|(place, stroke)| {
        let owner = stroke.bundle.map_or(Owner::Route(place), Owner::Trunk);
        let pieces = flat(stroke).into_iter();
        pieces.map(move |piece| ink(owner, piece, stroke.width / 2.0))
    });
    debug_assert!(
        strokes[..routes]
            .iter()
            .all(|stroke| stroke.bundle.is_none())
    );
    let dots = scene.trunks.iter().enumerate();
    let dots = dots.flat_map(|(place, trunk)| {
        let taps = trunk.taps.iter().enumerate();
        taps.map(move |(turn, tap)| {
            let point = Piece {
                start: tap.at,
                end: tap.at,
            };
            ink(Owner::Dot(place, turn), point, tap.radius)
        })
    });
    lines.chain(dots).collect()
}

/// Whether two may touch here.
fn joined(scene: &Scene, a: Owner, b: Owner, at: Point) -> bool {
    // A false joint of the sheet itself is shown, with a ring around it.
    if scene.marks.iter().any(|mark| apart(mark.at, at) < MARK) {
        return true;
    }
    let near = |tap: &Tap, more: f64| apart(tap.at, at) < tap.radius + more;
    match (a, b) {
        (Owner::Route(i), Owner::Route(j)) => {
            let mut trunks = scene.trunks.iter();
            let tapped = trunks.any(|trunk| {
                let taps = tap(trunk, scene.routes[i].id).zip(tap(trunk, scene.routes[j].id));
                taps.is_some_and(|(a, b)| near(a, AROUND) || near(b, AROUND))
            });
            let mut ports = scene.ports.iter();
            let both = |port: &Port| [i, j].map(|of| ends(scene, &scene.routes[of], port.name));
            tapped || ports.any(|port| within(port, at, 0.5) && both(port) == [true, true])
        }
        (Owner::Route(i), Owner::Trunk(place)) | (Owner::Trunk(place), Owner::Route(i)) => {
            let own = tap(&scene.trunks[place], scene.routes[i].id);
            own.is_some_and(|tap| near(tap, 0.5))
        }
        (Owner::Route(i), Owner::Dot(place, turn)) | (Owner::Dot(place, turn), Owner::Route(i)) => {
            own_dot(scene, &scene.routes[i], place, turn)
        }
        (Owner::Trunk(i), Owner::Dot(place, _)) | (Owner::Dot(place, _), Owner::Trunk(i)) => {
            i == place
        }
        (Owner::Dot(i, one), Owner::Dot(j, two)) => {
            let taps = &scene.trunks[i].taps;
            i == j && apart(taps[one].at, taps[two].at) < NO_STEP
        }
        (Owner::Trunk(_), Owner::Trunk(_)) => false,
    }
}

fn tap(trunk: &Trunk, edge: Id) -> Option<&Tap> {
    trunk.taps.iter().find(|tap| tap.edge == edge)
}

/// Whether a dot is a route's own, or in the same place.
fn own_dot(scene: &Scene, route: &Route, place: usize, turn: usize) -> bool {
    let trunk = &scene.trunks[place];
    let own = tap(trunk, route.id);
    own.is_some_and(|own| apart(own.at, trunk.taps[turn].at) < NO_STEP)
}

fn within(port: &Port, at: Point, more: f64) -> bool {
    let point = Rect::of(at, at, 0.0);
    point.within(&Rect::of(port.low, port.high, more))
}

// ---- words

fn name(scene: &Scene, owner: Owner) -> String {
    match owner {
        Owner::Route(place) => name_of_line(scene, place),
        Owner::Trunk(place) => name_of(scene, Some(place)),
        Owner::Dot(place, turn) => {
            let tap = &scene.trunks[place].taps[turn];
            format!(
                "the tap of edge {} on {}",
                tap.edge,
                name_of(scene, Some(place))
            )
        }
    }
}

/// A stroke by its place.
pub fn name_of_line(scene: &Scene, place: usize) -> String {
    match scene.routes.get(place) {
        Some(route) => format!("edge {}", route.id),
        None => name_of(scene, Some((place - scene.routes.len()) / 2)),
    }
}

fn name_of(scene: &Scene, place: Option<usize>) -> String {
    let trunk = place.and_then(|place| scene.trunks.get(place));
    trunk.map_or(String::new(), |trunk| format!("bundle {}", trunk.id))
}

#[cfg(test)]
mod tests {
    use super::*;

    /// A line 10 to the right, `down` and to the right again, with gaps in each part.
    fn under(down: f64, gaps: [&[(f64, f64)]; 3]) -> bool {
        let corners = [(0.0, 0.0), (10.0, 0.0), (10.0, down), (20.0, down)];
        let corners = corners.map(|(x, y)| Point { x, y });
        let mut stroke = Stroke::new(corners.to_vec(), 0.35, None);
        for (turn, gaps) in gaps.into_iter().enumerate() {
            stroke.gaps[turn] = gaps.iter().map(|&(from, to)| Gap { from, to }).collect();
        }
        in_dashes(&stroke)
    }

    #[test]
    fn what_is_left_between_gaps() {
        assert!(!under(5.0, [&[(1.0, 2.0), (3.5, 4.5)], &[], &[]]));
        assert!(under(5.0, [&[(1.0, 2.0), (3.4, 4.4)], &[], &[]]));
        assert!(
            under(5.0, [&[(1.0, 2.0), (3.5, 4.6)], &[], &[]]),
            "the longer gap"
        );
        assert!(under(5.0, [&[(1.0, 5.5)], &[], &[]]), "unseen for too long");
        // Around one corner, and around two.
        assert!(!under(5.0, [&[(8.0, 9.0)], &[(1.0, 2.0)], &[]]));
        assert!(under(5.0, [&[(8.0, 9.0)], &[(0.9, 1.9)], &[]]));
        assert!(!under(1.0, [&[(8.5, 9.5)], &[], &[(0.5, 1.5)]]));
        assert!(under(0.9, [&[(8.5, 9.5)], &[], &[(0.5, 1.5)]]));
    }
}
