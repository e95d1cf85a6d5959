//! The two checks of a bundle that was drawn: which of their tests fails first, and where.
//!
//! The stage says a number only. So its tests are made once more, on what was tried (attempt.rs), in the
//! order in which it makes and pays for them (`interior_tests` and `contact_tests`,
//! crates/drawing/specs/Check.antt). Tests hold this to the stage: it finds a failing test exactly where
//! the stage refuses, and the tests up to it are as many as the geometry visits that the stage is paid.

use crate::board::{Board, Point};
use crate::id::Id;
use crate::joints::{Line, same_place, segments};
use crate::refusal::Refusal;
use crate::sheet::{DrawnBundle, Route, Segment};

/// A segment of a bundle.
#[derive(Clone, Copy, Debug, PartialEq)]
pub(crate) struct Part {
    /// The bundle's place on the board.
    pub(crate) bundle: usize,
    pub(crate) is_spine: bool,
}

/// What a segment of a bundle is held against.
#[derive(Clone, Copy, Debug, PartialEq)]
pub(crate) enum Other {
    /// The route of the edge at this place.
    Route(usize),
    Part(Part),
}

/// How two pieces meet that must not.
#[derive(Clone, Copy, Debug, PartialEq)]
pub(crate) enum How {
    Slanted,
    LieOn,
    Cross,
    Touch,
    Near,
}

/// A test that failed. Edges and nodes are by their places on the board.
#[derive(Clone, Copy, Debug, PartialEq)]
pub(crate) enum Failed {
    Slanted {
        edge: usize,
        run: Segment,
    },
    Inside {
        edge: usize,
        node: usize,
        inside: Segment,
    },
    Contact {
        part: Part,
        other: Other,
        how: How,
        at: Segment,
    },
}

impl Failed {
    /// What the stage refuses with where it fails.
    pub(crate) fn refusal(&self) -> Refusal {
        match self {
            Failed::Slanted { .. } | Failed::Inside { .. } => Refusal::RouteThroughNode,
            Failed::Contact { .. } => Refusal::ForbiddenContact,
        }
    }

    pub(crate) fn at(&self) -> Segment {
        match *self {
            Failed::Slanted { run: at, .. }
            | Failed::Inside { inside: at, .. }
            | Failed::Contact { at, .. } => at,
        }
    }
}

/// The turn of the last of these bundles.
pub(crate) struct Checks<'a> {
    board: &'a Board,
    bundles: &'a [DrawnBundle],
    /// One for each edge of the board, the last bundle's members led to it.
    routes: &'a [Route],
    /// Tests that were paid for.
    pub(crate) visits: u32,
}

type Step = Result<(), Failed>;

impl<'a> Checks<'a> {
    pub(crate) fn of(board: &'a Board, bundles: &'a [DrawnBundle], routes: &'a [Route]) -> Self {
        Checks {
            board,
            bundles,
            routes,
            visits: 0,
        }
    }

    /// Both checks, up to the first test that fails.
    pub(crate) fn make(&mut self) -> Step {
        if self.bundles.is_empty() {
            return Ok(());
        }
        self.interiors()?;
        self.contacts()
    }

    fn is_member(&self, edge: Id) -> bool {
        let members = &self.board.bundles[self.bundles.len() - 1].members;
        members.iter().any(|member| member.edge == edge)
    }

    /// verify_one_bundle_route_node_interiors.
    fn interiors(&mut self) -> Step {
        let board = self.board;
        for (edge, (of, route)) in board.edges.iter().zip(self.routes).enumerate() {
            if !self.is_member(of.id) {
                continue;
            }
            let ends = [of.source.node, of.target.node];
            for run in segments(route) {
                // It fails before any visit.
                let line = Line::of(run).ok_or(Failed::Slanted { edge, run })?;
                for (node, of) in board.nodes.iter().enumerate() {
                    if ends.contains(&of.id) {
                        continue;
                    }
                    self.visits += 1;
                    if let Some(inside) = line.inside(of) {
                        return Err(Failed::Inside { edge, node, inside });
                    }
                }
            }
        }
        Ok(())
    }

    /// verify_new_bundle_route_contacts.
    fn contacts(&mut self) -> Step {
        let new = self.bundles.len() - 1;
        self.with_routes(new, true)?;
        for earlier in 0..new {
            self.with_routes(earlier, false)?;
            for part in parts_of(new) {
                for other in parts_of(earlier) {
                    let against = self.segment(other);
                    self.look(part, None, against, Other::Part(other))?;
                }
            }
        }
        Ok(())
    }

    /// A bundle's collector, then its spine, with all routes or those that were led at this turn.
    fn with_routes(&mut self, bundle: usize, all: bool) -> Step {
        let (drawn, routes) = (&self.bundles[bundle], self.routes);
        for part in parts_of(bundle) {
            for (edge, route) in routes.iter().enumerate() {
                if !all && !self.is_member(route.id) {
                    continue;
                }
                let tap = drawn.taps.iter().find(|tap| tap.edge == route.id);
                let tap = tap.map(|tap| tap.point);
                for run in segments(route) {
                    self.look(part, tap, run, Other::Route(edge))?;
                }
            }
        }
        Ok(())
    }

    fn segment(&self, part: Part) -> Segment {
        let drawn = &self.bundles[part.bundle];
        match part.is_spine {
            true => drawn.spine,
            false => drawn.collector,
        }
    }

    fn look(&mut self, part: Part, tap: Option<Point>, run: Segment, other: Other) -> Step {
        self.visits += 1;
        let (bus, options) = (self.segment(part), &self.board.options);
        let met = meeting(bus, tap, run, self.board.flags.permit_crossings);
        let near = || too_close(bus, run, options.minimum_parallel_wire_spacing);
        let met = met.or_else(|| near().then(|| (How::Near, between(bus, run))));
        match met {
            None => Ok(()),
            Some((how, at)) => Err(Failed::Contact {
                part,
                other,
                how,
                at,
            }),
        }
    }
}

fn parts_of(bundle: usize) -> [Part; 2] {
    [false, true].map(|is_spine| Part { bundle, is_spine })
}

/// segments_have_disallowed_contact: how and where a bundle's segment and a run meet that must not.
fn meeting(
    bus: Segment,
    tap: Option<Point>,
    run: Segment,
    permitted: bool,
) -> Option<(How, Segment)> {
    if run.start == run.end {
        return None;
    }
    let Some((of_bus, of_run)) = Line::of(bus).zip(Line::of(run)) else {
        return Some((How::Slanted, between(bus, run)));
    };
    let shared = of_bus.shared(&of_run)?;
    if shared.start != shared.end {
        return Some((How::LieOn, shared));
    }
    let is_end = |of: Segment| [of.start, of.end].map(|end| same_place(end, shared.start));
    let (of_the_bus, of_the_run) = (is_end(bus).contains(&true), is_end(run).contains(&true));
    if of_bus.level != of_run.level && !of_the_bus && !of_the_run {
        return (!permitted).then_some((How::Cross, shared));
    }
    let tapped = tap.is_some_and(|tap| same_place(tap, shared.start)) && of_the_run;
    (!tapped).then_some((How::Touch, shared))
}

/// parallel_segments_are_too_close.
fn too_close(a: Segment, b: Segment, spacing: f64) -> bool {
    let level = |of: Segment| of.start.y == of.end.y;
    if spacing <= 0.0 || level(a) != level(b) {
        return false;
    }
    let place = |at: Point| if level(a) { (at.x, at.y) } else { (at.y, at.x) };
    let span = |of: Segment| {
        let (from, to) = (place(of.start).0, place(of.end).0);
        (from.min(to), from.max(to))
    };
    let ((low_a, high_a), (low_b, high_b)) = (span(a), span(b));
    let apart = place(a.start).1 - place(b.start).1;
    low_a < high_b && low_b < high_a && apart.abs() < spacing
}

/// What two level or upright pieces share, or else what is between them.
fn between(a: Segment, b: Segment) -> Segment {
    let along = |of: fn(Point) -> f64| {
        let ends = [a, b].map(|piece| [of(piece.start), of(piece.end)]);
        let [low_a, low_b] = ends.map(|[from, to]| from.min(to));
        let [high_a, high_b] = ends.map(|[from, to]| from.max(to));
        let (low, high) = (low_a.max(low_b), high_a.min(high_b));
        (low.min(high), low.max(high))
    };
    let (x, y) = (along(|at| at.x), along(|at| at.y));
    Segment {
        start: Point { x: x.0, y: y.0 },
        end: Point { x: x.1, y: y.1 },
    }
}
