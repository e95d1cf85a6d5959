//! Arches of lines beside each other, which rise to one side: those that rise away from each other over a
//! bundle would look like a ring around it, and a ring is the mark of a false joint.

use super::crossings::Placed;
use super::spans::{Span, Way};
use super::stroke::{Arch, Stroke};
use super::white::WHITE;

/// Lines that are further from each other make no ring, in millimetres.
const RING: f64 = 5.0;
/// Arches that start and end as near to each other as this are alike.
const ALIKE: f64 = 0.05;

/// An arch of a level or upright piece, on the page.
#[derive(Clone, Copy)]
struct Lying {
    way: Way,
    /// Where its line lies, and from where to where it goes.
    span: Span,
    /// How far it rises across, to larger numbers or below 0.
    rise: f64,
    /// The same, as the piece has it.
    sign: f64,
    width: f64,
    /// The places of its piece and of itself there.
    at: (usize, usize),
}

impl Lying {
    fn of(
        (piece, of): (usize, &Placed),
        (place, arch): (usize, &Arch),
        width: f64,
    ) -> Option<Lying> {
        let way = Way::of(of.piece.start, of.piece.end)?;
        let ends = [arch.from, arch.to].map(|at| of.piece.at(at, 0.0));
        let left = of.piece.at(arch.from, 1.0);
        let sign = (way.across(left) - way.across(ends[0])).signum();
        Some(Lying {
            way,
            span: way.span(ends[0], ends[1])?,
            rise: sign * arch.rise,
            sign,
            width,
            at: (piece, place),
        })
    }

    /// Whether the two are side by side over the same place.
    fn beside(&self, other: &Lying) -> bool {
        let far = (self.span.at - other.span.at).abs();
        self.way == other.way && 0.0 < far && far < RING && self.span.beside(&other.span, 0.0)
    }

    fn alike(&self, other: &Lying) -> bool {
        let near = |a: f64, b: f64| (a - b).abs() < ALIKE;
        self.width == other.width
            && near(self.span.low, other.span.low)
            && near(self.span.high, other.span.high)
    }
}

/// Lets arches beside each other that rise away from each other rise to one side, as high as there is
/// room; where there is none, they are none.
pub fn unring(
    pieces: &[Placed],
    arches: &mut [Vec<Arch>],
    spans: &[(Way, Vec<Span>); 2],
    strokes: &[Stroke],
    over_trunk: impl Fn(usize, &Arch) -> bool,
) {
    let all = pieces.iter().enumerate().flat_map(|(turn, of)| {
        let arches = arches[turn].iter().enumerate();
        let arches = arches.filter(|(_, arch)| over_trunk(turn, arch));
        let arches = arches.collect::<Vec<_>>().into_iter();
        let width = strokes[of.stroke].width;
        arches.filter_map(move |arch| Lying::of((turn, of), arch, width))
    });
    let mut all = all.collect::<Vec<_>>();
    all.sort_by(|a, b| a.span.at.total_cmp(&b.span.at));
    for place in 0..all.len() {
        let group = ring(&all, place);
        let members = group.iter().map(|two| all[*two]).collect::<Vec<_>>();
        let rise = common(&members, spans);
        for member in group {
            all[member].rise = rise;
        }
    }
    for of in all {
        arches[of.at.0][of.at.1].rise = of.sign * of.rise;
    }
}

/// The arches beside one, up to the last that rises away from it, if one does. They are in order across.
fn ring(all: &[Lying], place: usize) -> Vec<usize> {
    let one = all[place];
    let after = all[place + 1..].iter().enumerate();
    let near = after.take_while(|(_, two)| two.span.at < one.span.at + RING);
    let beside = near.filter(|(_, two)| one.beside(two));
    let beside = beside.map(|(far, _)| place + 1 + far).collect::<Vec<_>>();
    let away = |two: &usize| one.rise < 0.0 && all[*two].rise > 0.0;
    match beside.iter().rposition(away) {
        Some(last) => [&[place], &beside[..=last]].concat(),
        None => Vec::new(),
    }
}

/// The rise of arches beside each other that have one: that of the last, or of the first on the other side,
/// 0 where that has no room.
fn common(members: &[Lying], spans: &[(Way, Vec<Span>); 2]) -> f64 {
    let (Some(first), Some(last)) = (members.first(), members.last()) else {
        return 0.0;
    };
    if !members.iter().all(|member| member.alike(first)) {
        return 0.0;
    }
    let fits = |rise: f64| {
        members
            .iter()
            .all(|member| fits(member, rise, members, spans))
    };
    let mut rises = [last.rise, first.rise].into_iter();
    rises.find(|rise| fits(*rise)).unwrap_or(0.0)
}

/// Whether a line rises past no other line but those that rise with it.
fn fits(member: &Lying, rise: f64, members: &[Lying], spans: &[(Way, Vec<Span>); 2]) -> bool {
    let room = rise.abs() + member.width + WHITE;
    let with = |at: f64| members.iter().any(|other| other.span.at == at);
    let others = spans.iter().filter(|(way, _)| *way == member.way);
    let mut others = others.flat_map(|(_, spans)| spans);
    !others.any(|other| {
        let far = (other.at - member.span.at) * rise.signum();
        0.0 < far && far < room && !with(other.at) && other.beside(&member.span, 0.0)
    })
}
