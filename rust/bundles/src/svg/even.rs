//! Arches beside each other over one line, made as high as each other where their gaps would leave too little
//! of it.

use std::collections::BTreeMap;

use super::crossings::{Over, Placed, gap};
use super::marking::kept;
use super::stroke::{Arch, Stroke};

/// Where a piece with an arch goes over a line.
struct Crossing<'a> {
    over: &'a Over,
    /// The places of the piece and of its arch.
    piece: usize,
    arch: usize,
}

/// A gap moves with its arch. Where too little of a line would be left between two gaps, the higher arch is made
/// as high as the other one.
pub fn even(strokes: &[Stroke], pieces: &[Placed], over: &[Vec<Over>], arches: &mut [Vec<Arch>]) {
    let under = under(over, arches);
    let mut changed = true;
    while changed {
        changed = false;
        for two in under.values().flat_map(|crossings| crossings.windows(2)) {
            let rises = [&two[0], &two[1]].map(|of| arches[of.piece][of.arch].rise);
            let to = evened(strokes, pieces, (&two[0], &two[1]), rises);
            for (of, rise) in two.iter().zip(to) {
                changed |= arches[of.piece][of.arch].rise != rise;
                arches[of.piece][of.arch].rise = rise;
            }
        }
    }
}

/// Where arches go over each piece, in order along it.
fn under<'a>(over: &'a [Vec<Over>], arches: &[Vec<Arch>]) -> BTreeMap<usize, Vec<Crossing<'a>>> {
    let mut under: BTreeMap<usize, Vec<Crossing<'_>>> = BTreeMap::new();
    for (piece, all) in over.iter().enumerate() {
        for over in all {
            let mut arches = arches[piece].iter();
            if let Some(arch) = arches.position(|arch| arch.holds(over.at)) {
                let crossing = Crossing { over, piece, arch };
                under.entry(over.under).or_default().push(crossing);
            }
        }
    }
    for crossings in under.values_mut() {
        crossings.sort_by(|a, b| a.over.there.total_cmp(&b.over.there));
    }
    under
}

/// The rises of two arches over one line, the first before the second, as far as they leave enough of it.
fn evened(
    strokes: &[Stroke],
    pieces: &[Placed],
    two: (&Crossing<'_>, &Crossing<'_>),
    rises: [f64; 2],
) -> [f64; 2] {
    let gap = |of: &Crossing<'_>, rise: f64| {
        let [over, under] = [of.piece, of.over.under].map(|piece| &pieces[piece]);
        let widths = [over, under].map(|of| strokes[of.stroke].width);
        gap(
            &over.piece,
            rise,
            widths.into(),
            &under.piece,
            of.over.there,
        )
    };
    // How an arch moves its gap: 1 where a rise above 0 does so onwards.
    let ahead = |of: &Crossing<'_>| {
        let middles = [0.0, 1.0]
            .map(|rise| gap(of, rise))
            .map(|gap| gap.from + gap.to);
        (middles[1] - middles[0]).signum()
    };
    let gaps = [gap(two.0, rises[0]), gap(two.1, rises[1])];
    let ahead = [ahead(two.0), ahead(two.1)];
    let (first, second) = (rises[0] * ahead[0], rises[1] * ahead[1]);
    let stroke = &strokes[pieces[two.0.over.under].stroke];
    let left = gaps[1].from - gaps[0].to;
    if first <= second || left >= kept(stroke, [&gaps[0], &gaps[1]]) {
        return rises;
    }
    let to = [first.min(second.max(0.0)), second.max(first.min(0.0))];
    [to[0] * ahead[0], to[1] * ahead[1]]
}
