//! How the sheet lies on the page.

use bundle_stage::Point;

use super::scene::Scene;
use super::spans::{Way, low, room};
use super::stretch::{Needs, Stretch};

/// Around the page.
pub const MARGIN: f64 = 10.0;
/// Around the sheet, for ids that stand outside.
const RIM: f64 = 5.0;
/// Papers from A4 on, each with twice the area of the one before, by their longer and shorter sides.
pub const PAPERS: [(f64, f64); 9] = [
    (297.0, 210.0),
    (420.0, 297.0),
    (594.0, 420.0),
    (841.0, 594.0),
    (1189.0, 841.0),
    (1682.0, 1189.0),
    (2378.0, 1682.0),
    (3364.0, 2378.0),
    (4756.0, 3364.0),
];
/// The place of A0.
pub const A0: usize = 4;
/// The place of 4A0, the largest that is named.
pub const LARGEST: usize = 6;
/// Lines should lie so far from each other: level ones so that an id fits between them.
const WANTED: [f64; 2] = [3.6, 1.8];

/// No scale is larger: a sheet may have no width or height, or hardly any.
const MOST: f64 = 1e250;

/// A page, all in millimetres: the sheet from `top` to `bottom`, words above and below.
pub struct Page {
    pub width: f64,
    pub height: f64,
    pub top: f64,
    pub bottom: f64,
    /// Millimetres for a length 1 of the sheet, across and down.
    pub scale: [f64; 2],
    /// The sheet's upper left corner, on the sheet and on the page. What lies far out on the sheet
    /// is measured from it, so that no digits are lost.
    low: Point,
    corner: Point,
    /// Where the sheet is stretched, and not to scale.
    stretched: Option<[Stretch; 2]>,
}

struct Extent {
    low: Point,
    high: Point,
}

impl Page {
    /// The paper that it is for, across and down.
    pub fn paper(&self) -> [f64; 2] {
        let both = PAPERS
            .into_iter()
            .flat_map(|(long, short)| [[long, short], [short, long]]);
        let mut fit = both.filter(|[across, down]| *across == self.width && self.height <= *down);
        fit.next().unwrap_or([self.width, self.height])
    }

    /// A page of the paper with this place, lying or standing, whichever has the sheet larger; no
    /// higher than it has to be. `head` and `foot` say how high the words above and below are on a
    /// page of some width.
    pub fn of(
        scene: &Scene,
        paper: usize,
        head: impl Fn(f64) -> f64,
        foot: impl Fn(f64) -> f64,
    ) -> Page {
        let extent = extent(scene);
        let size = [extent.high.x - extent.low.x, extent.high.y - extent.low.y];
        let wanted = wanted(scene, paper, size);
        let (long, short) = PAPERS[paper];
        let [lying, standing] = [(long, short), (short, long)].map(|(width, height)| {
            let inner = width - 2.0 * MARGIN;
            let used = 2.0 * MARGIN + 2.0 * RIM + head(inner) + foot(inner);
            let room = [inner - 2.0 * RIM, (height - used).max(40.0)];
            let (even, scale) = scales(size, room, wanted);
            (width, even, scale)
        });
        let (width, _, scale) = if standing.1 > lying.1 {
            standing
        } else {
            lying
        };
        let inner = width - 2.0 * MARGIN;
        let top = MARGIN + head(inner) + RIM;
        let bottom = top + size[1] * scale[1] + RIM;
        let spare = inner - size[0] * scale[0];
        Page {
            width,
            height: bottom + foot(inner) + MARGIN,
            top,
            bottom,
            scale,
            low: extent.low,
            corner: Point {
                x: MARGIN + spare / 2.0,
                y: top,
            },
            stretched: None,
        }
    }

    /// The same with the sheet stretched where its lines need it, if they have room on the paper.
    pub fn stretched(
        needs: &[Needs; 2],
        wide: f64,
        paper: usize,
        head: impl Fn(f64) -> f64,
        foot: impl Fn(f64) -> f64,
    ) -> Option<Page> {
        let (long, short) = PAPERS[paper];
        [(long, short), (short, long)]
            .into_iter()
            .find_map(|(width, height)| {
                let inner = width - 2.0 * MARGIN;
                let used = 2.0 * MARGIN + 2.0 * RIM + head(inner) + foot(inner);
                let across = needs[0].stretch(wide, inner - 2.0 * RIM)?;
                let down = needs[1].stretch(wide, height - used)?;
                let top = MARGIN + head(inner) + RIM;
                let bottom = top + down.length() + RIM;
                let spare = inner - across.length();
                Some(Page {
                    width,
                    height: bottom + foot(inner) + MARGIN,
                    top,
                    bottom,
                    scale: [1.0; 2],
                    low: Point { x: 0.0, y: 0.0 },
                    corner: Point {
                        x: MARGIN + spare / 2.0,
                        y: top,
                    },
                    stretched: Some([across, down]),
                })
            })
    }

    pub fn is_to_scale(&self) -> bool {
        self.stretched.is_none()
    }

    /// Where a point of the sheet is on the page.
    pub fn at(&self, point: Point) -> Point {
        if let Some([across, down]) = &self.stretched {
            return Point {
                x: self.corner.x + across.at(point.x),
                y: self.corner.y + down.at(point.y),
            };
        }
        Point {
            x: self.corner.x + (point.x - self.low.x) * self.scale[0],
            y: self.corner.y + (point.y - self.low.y) * self.scale[1],
        }
    }
}

/// The scale that has all of the sheet in the room; and those across and down, which may be larger: one direction
/// is stretched against the other, to get to what is wanted.
fn scales(size: [f64; 2], room: [f64; 2], wanted: [f64; 2]) -> (f64, [f64; 2]) {
    let parts = [0, 1].map(|way| (room[way] / size[way]).min(MOST));
    let even = parts[0].min(parts[1]);
    let even = if even < MOST { even } else { 1.0 };
    let scale = [0, 1].map(|way| wanted[way].min(parts[way]).max(even));
    (even, scale)
}

/// What the scale would have to be across and down so that lines are as far apart as wanted: most of
/// them on the first paper, all of them on the others.
fn wanted(scene: &Scene, paper: usize, size: [f64; 2]) -> [f64; 2] {
    let lines = scene.lines();
    let parts = if paper == 0 { 10 } else { usize::MAX };
    // Level lines are spread by the scale down, upright ones by the scale across.
    [(Way::Upright, 1), (Way::Level, 0)].map(|(way, wanted)| {
        let near = 1e-9 * size[1 - wanted];
        let spans = way.spans(&lines);
        let rooms = spans.iter().map(|span| room(span, &spans, near));
        let least = low(rooms.filter(|room| room.is_finite()).collect(), parts);
        least.map_or(0.0, |least| WANTED[wanted] / least)
    })
}

fn extent(scene: &Scene) -> Extent {
    let mut points = scene.points();
    let first = points.next().unwrap_or(Point { x: 0.0, y: 0.0 });
    let start = Extent {
        low: first,
        high: first,
    };
    points.fold(start, |Extent { low, high }, at| Extent {
        low: Point {
            x: low.x.min(at.x),
            y: low.y.min(at.y),
        },
        high: Point {
            x: high.x.max(at.x),
            y: high.y.max(at.y),
        },
    })
}
