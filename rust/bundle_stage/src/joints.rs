//! Demand 3 of a sheet as it stands in the answer: what meets a bundle and should not.
//!
//! Runs and the segments of bundles lie along the axes, so that comparisons of coordinates tell which
//! points two of them share: nothing is rounded. "In the same place" is document 01's term: the exact
//! difference, rounded once, which is what a subtraction gives.

use crate::board::{Board, Node, Point};
use crate::id::Id;
use crate::sheet::{DrawnBundle, Route, Segment, Sheet};

/// What meets and should not, and where.
#[derive(Clone, Copy, Debug, PartialEq)]
pub struct FalseJoint {
    /// What meets.
    pub meeting: Meeting,
    /// From the first point that both have to the last: often the same. Of what is slanted, its ends.
    pub shared: Segment,
}

/// What meets.
#[derive(Clone, Copy, Debug, Eq, PartialEq)]
#[non_exhaustive]
pub enum Meeting {
    /// A run of a route and a segment of a bundle, elsewhere than at the route's tap on that bundle,
    /// inside the run, or in more than one point.
    Route {
        /// The id of the route's edge.
        route: Id,
        /// The bundle's id.
        bundle: Id,
    },
    /// Segments of two bundles, the earlier one's having length.
    Bundles {
        /// The id of the one drawn first.
        earlier: Id,
        /// The id of the other one.
        later: Id,
    },
    /// The route of a bundle's member, and the inside of a node that is not one of its ends.
    Node {
        /// The id of the route's edge.
        route: Id,
        /// The node's id.
        node: Id,
    },
    /// A run that is neither level nor upright, or has a number that is no place. It counts as one
    /// that meets everything, as in the Rust.
    SlantedRoute {
        /// The id of the route's edge.
        route: Id,
    },
    /// The same of a segment of a bundle.
    SlantedBundle {
        /// The bundle's id.
        bundle: Id,
    },
}

impl Sheet {
    /// The false joints of the sheet as it stands: where it breaks one of the first three sentences
    /// of demand 3. `board` is the one that it is the answer to. None where crossings are permitted,
    /// as the sentences are about sheets on which they are not.
    ///
    /// The stage is proved to draw none, before its last shift. That shift subtracts the least
    /// coordinates from all, and rounds each difference once, so that a gap may close: see
    /// [`Sheet::last_shift`]. So in the stage's own answer a false joint is the work of that rounding.
    ///
    /// ```
    /// # use bundle_stage::*;
    /// let board = Board::default();
    /// let sheet = board.draw()?;
    /// assert_eq!(sheet.false_joints(&board), Some(Vec::new()));
    /// # Ok::<(), Refusal>(())
    /// ```
    pub fn false_joints(&self, board: &Board) -> Option<Vec<FalseJoint>> {
        if board.flags.permit_crossings {
            return None;
        }
        let mut found = Vec::new();
        if !self.bundles.is_empty() {
            found.extend(self.slanted());
        }
        let runs = self.routes.iter().flat_map(runs).collect::<Vec<_>>();
        for (place, bundle) in self.bundles.iter().enumerate() {
            found.extend(with_routes(bundle, &runs));
            found.extend(with_bundles(bundle, &self.bundles[place + 1..]));
        }
        found.extend(self.in_nodes(board, &runs));
        Some(found)
    }

    fn slanted(&self) -> Vec<FalseJoint> {
        let parts = self.bundles.iter().flat_map(|bundle| {
            let meeting = Meeting::SlantedBundle { bundle: bundle.id };
            parts(bundle).map(|shared| FalseJoint { meeting, shared })
        });
        let runs = self.routes.iter().flat_map(|route| {
            let meeting = Meeting::SlantedRoute { route: route.id };
            segments(route).map(move |shared| FalseJoint { meeting, shared })
        });
        let slanted = parts
            .chain(runs)
            .filter(|joint| Line::of(joint.shared).is_none());
        slanted.collect()
    }

    /// The third sentence: no member route enters a foreign node.
    fn in_nodes(&self, board: &Board, runs: &[Run]) -> Vec<FalseJoint> {
        let mut found = Vec::new();
        let nodes = self.nodes.iter().filter_map(|placed| {
            let (x, y) = (placed.x, placed.y);
            board.node(placed.id).map(|node| Node { x, y, ..*node })
        });
        let nodes = nodes.collect::<Vec<_>>();
        let member = |edge: Id| {
            let mut members = board.bundles.iter().flat_map(|bundle| &bundle.members);
            members.any(|member| member.edge == edge)
        };
        for edge in board.edges.iter().filter(|edge| member(edge.id)) {
            let ends = [edge.source.node, edge.target.node];
            for run in runs.iter().filter(|run| run.route == edge.id) {
                for node in nodes.iter().filter(|node| !ends.contains(&node.id)) {
                    let meeting = Meeting::Node {
                        route: edge.id,
                        node: node.id,
                    };
                    let inside = run.line.inside(node);
                    found.extend(inside.map(|shared| FalseJoint { meeting, shared }));
                }
            }
        }
        found
    }
}

/// The first sentence: a segment of the bundle and a run of some length share no point, or exactly
/// one, which is that route's tap on the bundle and an end of the run.
fn with_routes(bundle: &DrawnBundle, runs: &[Run]) -> Vec<FalseJoint> {
    let mut found = Vec::new();
    let parts = parts(bundle).map(Line::of);
    for run in runs.iter().filter(|run| run.line.has_length()) {
        let meeting = Meeting::Route {
            route: run.route,
            bundle: bundle.id,
        };
        let shared = parts
            .iter()
            .flatten()
            .filter_map(|part| part.shared(&run.line));
        let shared = shared.filter(|shared| !run.is_tapped(bundle, shared));
        found.extend(shared.map(|shared| FalseJoint { meeting, shared }));
    }
    // Collector and spine have a point in common, and so have two runs.
    found.dedup();
    found
}

/// The second sentence: segments of two bundles share no point if the earlier one's has length.
fn with_bundles(earlier: &DrawnBundle, later: &[DrawnBundle]) -> Vec<FalseJoint> {
    let mut found = Vec::new();
    let lines = |bundle| parts(bundle).into_iter().filter_map(Line::of);
    for part in lines(earlier).filter(Line::has_length) {
        for bundle in later {
            let meeting = Meeting::Bundles {
                earlier: earlier.id,
                later: bundle.id,
            };
            let shared = lines(bundle).filter_map(|line| part.shared(&line));
            found.extend(shared.map(|shared| FalseJoint { meeting, shared }));
        }
    }
    found
}

fn parts(bundle: &DrawnBundle) -> [Segment; 2] {
    [bundle.collector, bundle.spine]
}

pub(crate) fn segments(route: &Route) -> impl Iterator<Item = Segment> {
    let pairs = route.points.windows(2);
    pairs.map(|pair| Segment {
        start: pair[0],
        end: pair[1],
    })
}

/// The runs of a route but the slanted ones.
fn runs(route: &Route) -> impl Iterator<Item = Run> {
    let (route, segments) = (route.id, segments(route));
    segments.filter_map(move |ends| Line::of(ends).map(|line| Run { route, ends, line }))
}

struct Run {
    route: Id,
    ends: Segment,
    line: Line,
}

impl Run {
    /// The one point shared is the route's tap on the bundle, and an end of the run.
    fn is_tapped(&self, bundle: &DrawnBundle, shared: &Segment) -> bool {
        let at = shared.start;
        let mut taps = bundle.taps.iter().filter(|tap| tap.edge == self.route);
        shared.start == shared.end
            && taps.any(|tap| same_place(tap.point, at))
            && (same_place(self.ends.start, at) || same_place(self.ends.end, at))
    }
}

/// The Rust's preserved_point_matches.
pub(crate) fn same_place(a: Point, b: Point) -> bool {
    let near = |a: f64, b: f64| (a - b).abs() <= 1e-7;
    near(a.x, b.x) && near(a.y, b.y)
}

/// A level or upright piece, by the coordinate that stays, and the lowest and highest of the other. A
/// piece of no length is level.
#[derive(Clone, Copy, Debug)]
pub(crate) struct Line {
    pub(crate) level: bool,
    fixed: f64,
    low: f64,
    high: f64,
}

impl Line {
    /// None of a slanted one, or of one with a number that is no place.
    pub(crate) fn of(Segment { start, end }: Segment) -> Option<Line> {
        let numbers = [start.x, start.y, end.x, end.y];
        let level = start.y == end.y;
        if !numbers.iter().all(|number| number.is_finite()) || !(level || start.x == end.x) {
            return None;
        }
        let (fixed, a, b) = if level {
            (start.y, start.x, end.x)
        } else {
            (start.x, start.y, end.y)
        };
        let (low, high) = (a.min(b), a.max(b));
        Some(Line {
            level,
            fixed,
            low,
            high,
        })
    }

    fn has_length(&self) -> bool {
        self.low < self.high
    }

    /// The piece from one value of the other coordinate to another, if it is one.
    fn piece(&self, low: f64, high: f64) -> Option<Segment> {
        let at = |moving| {
            let (x, y) = if self.level {
                (moving, self.fixed)
            } else {
                (self.fixed, moving)
            };
            Point { x, y }
        };
        let (start, end) = (at(low), at(high));
        (low <= high).then_some(Segment { start, end })
    }

    /// All points that both have.
    pub(crate) fn shared(&self, other: &Line) -> Option<Segment> {
        if self.level == other.level {
            let same = self.fixed == other.fixed;
            let (low, high) = (self.low.max(other.low), self.high.min(other.high));
            return same.then(|| self.piece(low, high)).flatten();
        }
        let on = |line: &Line, at: f64| line.low <= at && at <= line.high;
        let both = on(self, other.fixed) && on(other, self.fixed);
        both.then(|| self.piece(other.fixed, other.fixed)).flatten()
    }

    /// The part of it inside a node, whose far sides are the rounded sums of corner and size: lying
    /// along a side does not count (verify_member_route_node_interiors).
    pub(crate) fn inside(&self, node: &Node) -> Option<Segment> {
        let across = (node.x, node.x + node.width);
        let down = (node.y, node.y + node.height);
        let (beside, along) = if self.level {
            (down, across)
        } else {
            (across, down)
        };
        let enters = beside.0 < self.fixed
            && self.fixed < beside.1
            && self.low < along.1
            && along.0 < self.high;
        let (low, high) = (self.low.max(along.0), self.high.min(along.1));
        enters.then(|| self.piece(low, high)).flatten()
    }
}
