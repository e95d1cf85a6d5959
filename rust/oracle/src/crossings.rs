//! The list of crossings: document 02, F-7. Every pair of a bundle's segment and a route's run is looked
//! at with the Rust's own contact test; the order is that of the request's words.

use std::cmp::Ordering;

use crate::kinds::kind;
use crate::patched::harness::leaf;
use crate::records::{BoundaryBundleGeometry, BoundaryBundleSegment, EdgeGeometry, Layout, Point};
use crate::wire::Writer;

/// The most crossings that a list can have: more are refused with 19.
pub const MOST: usize = 1_024;
/// The bytes of an entry, and the smallest buffer of a list that 2 lets through.
pub const ENTRY: usize = 24;
pub const CROSSINGS_BUFFER: usize = 2 + MOST * ENTRY;

/// A strict crossing of a bundle's segment and a route's run, with its places in the job.
#[derive(Clone, Copy, Debug, PartialEq)]
pub struct Crossing {
    pub x: f64,
    pub y: f64,
    pub bundle: u32,
    pub edge: u32,
    /// Positions of bundle and edge, 0 for the collector and 1 for the spine, position of the run.
    pub place: [usize; 4],
}

/// Where a bundle's segment and a route's run cross strictly, if they do; the tap is the route's on the
/// bundle.
type Test = fn(BoundaryBundleSegment, Point, Point, Option<Point>) -> Option<Point>;

/// All strict crossings of a sheet, in the request's order.
pub(crate) fn crossings(layout: &Layout) -> Vec<Crossing> {
    listed(layout, strict)
}

/// The same by F-6's kinds in whole numbers, which looks at each point that it gives.
pub(crate) fn crossings_by_kinds(layout: &Layout) -> Vec<Crossing> {
    listed(layout, |bus, start, end, tap| {
        kind(bus, start, end, tap).expect("finite numbers").1
    })
}

fn listed(layout: &Layout, test: Test) -> Vec<Crossing> {
    let mut all = Vec::new();
    for (bundle_place, bundle) in layout.boundary_bundles.iter().enumerate() {
        for (edge_place, route) in layout.edges.iter().enumerate() {
            let tap = tap(bundle, route);
            for (segment_place, segment) in [bundle.collector, bundle.spine].into_iter().enumerate()
            {
                for (run_place, run) in route.points.windows(2).enumerate() {
                    let Some(Point { x, y }) = test(segment, run[0], run[1], tap) else {
                        continue;
                    };
                    all.push(Crossing {
                        x,
                        y,
                        bundle: bundle.id,
                        edge: route.id,
                        place: [bundle_place, edge_place, segment_place, run_place],
                    });
                }
            }
        }
    }
    all.sort_by(order);
    all
}

/// By y, then x, as numbers, so that the two zeros are equal; then by the positions.
fn order(left: &Crossing, right: &Crossing) -> Ordering {
    let number = |left: f64, right: f64| left.partial_cmp(&right).expect("a finite number");
    number(left.y, right.y)
        .then(number(left.x, right.x))
        .then(left.place.cmp(&right.place))
}

/// The route's tap on the bundle, if it has one.
fn tap(bundle: &BoundaryBundleGeometry, route: &EdgeGeometry) -> Option<Point> {
    let mut members = bundle.members.iter();
    let member = members.find(|member| member.edge == route.id);
    member.map(|member| member.tap)
}

/// Contact only where crossings are forbidden; a run of no length has none (F-6).
fn strict(
    bus: BoundaryBundleSegment,
    start: Point,
    end: Point,
    tap: Option<Point>,
) -> Option<Point> {
    let is_strict = (start.x != end.x || start.y != end.y)
        && leaf::contact(bus, start, end, tap, false)
        && !leaf::contact(bus, start, end, tap, true);
    is_strict.then(|| meet(bus, start, end))
}

/// Where two segments that cross strictly meet: the x of the upright one and the y of the level one.
fn meet(bus: BoundaryBundleSegment, start: Point, end: Point) -> Point {
    match bus.start.y == bus.end.y && start.x == end.x {
        true => Point {
            x: start.x,
            y: bus.start.y,
        },
        false => {
            assert!(
                bus.start.x == bus.end.x && start.y == end.y,
                "a strict crossing of axes"
            );
            Point {
                x: bus.start.x,
                y: start.y,
            }
        }
    }
}

/// The bytes of a list that is not too long.
pub fn encode(list: &[Crossing]) -> Vec<u8> {
    let mut out = Writer::new();
    out.count(list.len());
    for one in list {
        out.f64(one.x);
        out.f64(one.y);
        out.u32(one.bundle);
        out.u32(one.edge);
    }
    out.bytes
}
