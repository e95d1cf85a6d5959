//! The pages that are tried, one after the other.

use std::cell::OnceCell;
use std::ops::Range;

use super::head::Head;
use super::legend::Legend;
use super::page::{A0, LARGEST, PAPERS, Page};
use super::scene::Scene;
use super::spans::Way;
use super::stretch::{Needs, is_straight};

/// How many times the room that lines need is tried: an arch may take more.
const WIDE: [f64; 4] = [1.0, 1.15, 1.35, 1.6];

/// A page that is tried, by the place of its paper.
#[derive(Clone, Copy)]
pub enum Try {
    /// With `true` a line may go under several others in one gap.
    ToScale(usize, bool),
    /// Stretched, lines being so many times as far apart as they need.
    Stretched(usize, f64),
}

impl Try {
    pub fn paper(self) -> usize {
        match self {
            Try::ToScale(paper, _) | Try::Stretched(paper, _) => paper,
        }
    }

    /// Whether a line may go under several others in one gap.
    pub fn tunnels(self) -> bool {
        matches!(self, Try::ToScale(_, true))
    }
}

fn stretched(papers: Range<usize>) -> impl Iterator<Item = Try> {
    papers.flat_map(|paper| WIDE.map(|wide| Try::Stretched(paper, wide)))
}

/// Those that are tried, in order: to scale up to A0, then stretched up to 4A0; then, to scale on larger
/// ones, those on which a line may go under several others in one gap, of 4 mm at most; at last stretched on
/// those larger ones.
pub fn tries() -> impl Iterator<Item = Try> {
    let first = (0..=A0).map(|paper| Try::ToScale(paper, false));
    let tunnels = (A0..PAPERS.len()).map(|paper| Try::ToScale(paper, true));
    let first = first.chain(stretched(0..LARGEST + 1));
    let last = stretched(LARGEST + 1..PAPERS.len());
    first.chain(tunnels).chain(last)
}

/// Those that have more room than a paper, the smaller ones first: each to scale, then stretched.
pub fn larger(paper: usize) -> impl Iterator<Item = Try> {
    let papers = paper..LARGEST + 1;
    papers.flat_map(|paper| {
        let to_scale = (paper <= A0).then_some(Try::ToScale(paper, false));
        to_scale.into_iter().chain(stretched(paper..paper + 1))
    })
}

/// The pages of a sheet, with what stands above it.
pub struct Pages<'a> {
    pub scene: &'a Scene,
    pub head: &'a Head,
    /// Worked out where the first pages do not do.
    needs: OnceCell<Option<[Needs; 2]>>,
}

impl<'a> Pages<'a> {
    pub fn of(scene: &'a Scene, head: &'a Head) -> Pages<'a> {
        let needs = OnceCell::new();
        Pages { scene, head, needs }
    }

    /// A page with this legend, if the sheet can lie on it so.
    pub fn page(&self, of: Try, legend: &Legend) -> Option<Page> {
        let above = |width: f64| self.head.height(width);
        let below = |width: f64| legend.height(width);
        match of {
            Try::ToScale(paper, _) => Some(Page::of(self.scene, paper, above, below)),
            Try::Stretched(paper, wide) => {
                let needs = self.needs.get_or_init(|| {
                    let ways = [Way::Upright, Way::Level];
                    is_straight(self.scene).then(|| ways.map(|way| Needs::of(self.scene, way)))
                });
                Page::stretched(needs.as_ref()?, wide, paper, above, below)
            }
        }
    }
}
