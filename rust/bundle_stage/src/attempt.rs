//! What a drawing had come to at the bundle that was refused.
//!
//! With a refusal the stage gives a number alone. So the bundles up to that one are drawn here once
//! more, where the stage's plan has them and without its checks, as build_geometry and
//! rewrite_member_routes of the Rust draw them. Tests hold this to the stage: of every accepted board
//! it gives the stage's own bundles and routes, bit for bit.

mod leading;
#[cfg(test)]
mod tests;

use crate::board::{Board, Bundle, Member, Point, Role};
use crate::id::Id;
use crate::locate::{met, refused_turn};
use crate::plan::Plan;
use crate::refusal::Refusal;
use crate::sheet::{DrawnBundle, Route, Segment, Tap};

use leading::{shared_trunk, to_rail, to_trunk};

/// How far the drawing of a refused board came: what was tried, and is on no sheet.
///
/// All places are in the board's coordinates, as nothing was shifted.
#[derive(Clone, Debug, PartialEq)]
#[non_exhaustive]
pub struct Attempt {
    /// The bundles drawn before the one that was refused, in the board's order.
    pub earlier: Vec<DrawnBundle>,
    /// The bundle that was refused, as it was to be drawn.
    pub refused: DrawnBundle,
    /// The routes, one for each edge of the board: those of members led to their bundles, where they
    /// can be.
    pub routes: Vec<Route>,
    /// Where the refusal has its cause, by two corners, often the same: what a segment and a route, or
    /// two bundles, share, or what is between them; the part of a route inside a node; the tap that a
    /// route cannot be led to. None where that is not known.
    pub at: Option<Segment>,
}

impl Board {
    /// What was tried where the drawing is refused: with [`Refusal::TapUnreachable`],
    /// [`Refusal::ForbiddenContact`] or [`Refusal::RouteThroughNode`]. None of all other boards.
    ///
    /// ```
    /// use bundle_stage::*;
    ///
    /// // A bundle of one wire from node 1 to node 2, and a wire across its spine.
    /// let at = |x, y| Point { x, y };
    /// let node = |id: u32, x| Node { id: id.into(), x, y: 0.0, width: 40.0, height: 40.0 };
    /// let port = |node: u32, side| Port { node: node.into(), id: 1.into(), side, offset: 20.0 };
    /// let end = |node: u32| Endpoint { node: node.into(), port: 1.into() };
    /// let wire = |id: u32, points| Edge { id: id.into(), source: end(1), target: end(2), points };
    /// let board = Board {
    ///     options: Options { port_stub: 10.0, route_lane_gap: 10.0, ..Options::default() },
    ///     nodes: vec![node(1, 0.0), node(2, 200.0)],
    ///     ports: vec![port(1, Side::East), port(2, Side::West)],
    ///     edges: vec![
    ///         wire(5, vec![at(40.0, 20.0), at(200.0, 20.0)]),
    ///         wire(6, vec![at(50.0, 0.0), at(50.0, 90.0)]),
    ///     ],
    ///     bundles: vec![Bundle {
    ///         id: 7.into(),
    ///         endpoint: end(1),
    ///         role: Role::Input,
    ///         width: 1,
    ///         members: vec![Member { edge: 5.into(), lane: 0 }],
    ///     }],
    ///     ..Board::default()
    /// };
    /// assert_eq!(board.draw(), Err(Refusal::ForbiddenContact));
    /// let attempt = board.attempt().expect("refused by the drawing");
    /// assert_eq!(attempt.refused.id, Id::from(7));
    /// assert!(attempt.earlier.is_empty());
    /// assert_eq!(attempt.at.map(|at| at.start), Some(at(50.0, 20.0)));
    /// ```
    pub fn attempt(&self) -> Option<Attempt> {
        self.attempted(self.draw().err()?, &self.plan().ok()?)
    }

    /// What was tried where the drawing from a plan is refused, as [`Board::attempt`] says it.
    pub fn attempt_from(&self, plan: &Plan) -> Option<Attempt> {
        self.attempted(self.draw_from(plan).err()?, plan)
    }

    fn attempted(&self, refusal: Refusal, plan: &Plan) -> Option<Attempt> {
        let by_drawing = [
            Refusal::TapUnreachable,
            Refusal::ForbiddenContact,
            Refusal::RouteThroughNode,
        ];
        if !by_drawing.contains(&refusal) {
            return None;
        }
        let turn = refused_turn(self, plan)?;
        let (mut bundles, routes) = self.unchecked(plan, turn + 1);
        let at = met(self, plan, refusal, &bundles, &routes);
        let refused = bundles.pop()?;
        Some(Attempt {
            earlier: bundles,
            refused,
            routes,
            at,
        })
    }

    /// The first bundles and all routes before the last shift, drawn without the checks. A route that
    /// cannot be led to its tap stays as it is.
    pub(crate) fn unchecked(&self, plan: &Plan, count: usize) -> (Vec<DrawnBundle>, Vec<Route>) {
        let routes = self.edges.iter().map(|edge| Route {
            id: edge.id,
            points: edge.points.iter().map(|point| plus_zero(*point)).collect(),
        });
        let mut drawing = Drawing {
            board: self,
            routes: routes.collect(),
        };
        let offsets = drawing.offsets();
        let turns = self.bundles.iter().zip(&plan.places).zip(offsets);
        let bundles = turns.take(count).map(|((bundle, x), offset)| {
            let drawn = drawing.build(bundle, *x);
            drawing.rewrite(bundle, &drawn, offset);
            drawn
        });
        let bundles = bundles.collect();
        (bundles, drawing.routes)
    }
}

/// The stage takes minus zero as plus zero: a sum with 0 is no minus zero.
fn plus_zero(at: Point) -> Point {
    Point {
        x: at.x + 0.0,
        y: at.y + 0.0,
    }
}

/// The places of members are by edge ids, which are all different.
struct Drawing<'a> {
    board: &'a Board,
    routes: Vec<Route>,
}

impl Drawing<'_> {
    /// From lane to lane.
    fn pitch(&self) -> f64 {
        let options = &self.board.options;
        options
            .route_lane_gap
            .max(options.minimum_parallel_wire_spacing)
            + 0.0
    }

    /// boundary_bundle_rail_depth.
    fn rail_depth(&self) -> f64 {
        let options = &self.board.options;
        if options.edge_node_clearance > 0.0 {
            options.edge_node_clearance
        } else {
            options.port_stub + options.route_lane_gap
        }
    }

    /// corridor_depth_offsets: how far the corridors of a bundle are moved by those before it.
    fn offsets(&self) -> Vec<f64> {
        let (pitch, rail_depth) = (self.pitch(), self.rail_depth());
        let mut furthest: [Option<f64>; 2] = [None; 2];
        let offset = |bundle: &Bundle| {
            let width = self.board.node(bundle.endpoint.node);
            let depth = width.map_or(0.0, |node| node.width) + rail_depth;
            let furthest = &mut furthest[usize::from(bundle.role == Role::Output)];
            let nominal = depth + pitch;
            let offset = furthest.map_or(0.0, |used| (used + pitch - nominal).max(0.0));
            let last = depth + offset + f64::from(lanes(bundle)) * pitch;
            *furthest = Some(furthest.map_or(last, |used| used.max(last)));
            offset
        };
        self.board.bundles.iter().map(offset).collect()
    }

    fn points(&self, edge: Id) -> &[Point] {
        let route = self.routes.iter().find(|route| route.id == edge);
        route.map_or(&[], |route| &route.points)
    }

    /// build_geometry.
    fn build(&self, bundle: &Bundle, planned: Option<f64>) -> DrawnBundle {
        let node = self.board.node(bundle.endpoint.node);
        let port = node.zip(self.board.port(bundle.endpoint));
        let endpoint = port.map_or(Point { x: 0.0, y: 0.0 }, |(node, port)| {
            plus_zero(node.port_point(port))
        });
        let taps = planned.and_then(|x| self.interior_taps(bundle, x));
        let (x, taps, ends) = match planned.zip(taps) {
            Some((x, taps)) => {
                let ys = taps.iter().map(|tap| tap.point.y);
                let low = ys.clone().fold(endpoint.y, f64::min);
                let high = ys.fold(endpoint.y, f64::max);
                (x, taps, (low, high))
            }
            None => self.at_rail(bundle, endpoint),
        };
        let collector = Segment {
            start: Point { x, y: ends.0 },
            end: Point { x, y: ends.1 },
        };
        let spine = Segment {
            start: endpoint,
            end: Point { x, y: endpoint.y },
        };
        let interior = (x - endpoint.x).abs() >= self.rail_depth() + self.pitch()
            && taps.iter().all(|tap| tap.point.x == x);
        DrawnBundle {
            id: bundle.id,
            interior,
            collector,
            spine,
            taps,
        }
    }

    /// build_interior_geometry: the taps, if every member has a stretch at this x.
    fn interior_taps(&self, bundle: &Bundle, x: f64) -> Option<Vec<Tap>> {
        let taps = bundle.members.iter().map(|member| {
            let points = self.points(member.edge);
            let (_, point) = shared_trunk(points, x, bundle.role, self.pitch())?;
            let edge = member.edge;
            Some(Tap { edge, point })
        });
        taps.collect()
    }

    /// The x of the collector at the rail, its taps by their lanes, and from where to where it goes.
    fn at_rail(&self, bundle: &Bundle, endpoint: Point) -> (f64, Vec<Tap>, (f64, f64)) {
        let direction = match bundle.role {
            Role::Input => 1.0,
            Role::Output => -1.0,
        };
        let x = endpoint.x + direction * self.rail_depth();
        let middle = f64::from(lanes(bundle).saturating_sub(1)) / 2.0;
        let tap = |member: &Member| Tap {
            edge: member.edge,
            point: Point {
                x,
                y: endpoint.y + (f64::from(member.lane) - middle) * self.pitch(),
            },
        };
        let taps = bundle.members.iter().map(tap).collect::<Vec<_>>();
        let y = |tap: Option<&Tap>| tap.map_or(endpoint.y, |tap| tap.point.y);
        let low = y(taps.first()).min(endpoint.y);
        let high = y(taps.last()).max(endpoint.y);
        (x, taps, (low, high))
    }

    /// rewrite_member_routes.
    fn rewrite(&mut self, bundle: &Bundle, drawn: &DrawnBundle, offset: f64) {
        let pitch = self.pitch();
        for (member, tap) in bundle.members.iter().zip(&drawn.taps) {
            let points = self.points(member.edge);
            let led = if drawn.interior {
                to_trunk(points, tap.point, bundle.role, pitch)
            } else {
                let depth = offset + f64::from(u32::from(member.lane) + 1) * pitch;
                to_rail(points, tap.point, bundle.role, depth)
            };
            let route = self.routes.iter_mut().find(|route| route.id == member.edge);
            if let Some((route, led)) = route.zip(led) {
                route.points = led;
            }
        }
    }
}

/// One more than the last member's lane.
fn lanes(bundle: &Bundle) -> u32 {
    let last = bundle.members.last();
    last.map_or(0, |member| u32::from(member.lane) + 1)
}
