// Child module of the patched copy of boundary_bundles.rs: calls its private functions.
// Included by the copy, so `super` is the copy.

use std::cell::Cell;
use std::hint::black_box;

use super::*;
use crate::validation::IndexedBoundaryBundleMember;
use crate::{Edge, Endpoint};

thread_local! {
    static INTERIOR: Cell<bool> = const { Cell::new(false) };
    static SEARCHES: Cell<u64> = const { Cell::new(0) };
    static SEARCH_COST: Cell<u64> = const { Cell::new(0) };
    static SECOND_SPENT: Cell<bool> = const { Cell::new(false) };
    static EVENTS: Cell<[u32; 5]> = const { Cell::new([0; 5]) };
    static AROUND: Cell<Around> = const { Cell::new(Around { before: || {}, after: || {} }) };
}

/// What is called before and after the pitch less the tolerance is worked out.
#[derive(Clone, Copy)]
struct Around {
    before: fn(),
    after: fn(),
}

pub(crate) fn set_around_tolerance(before: fn(), after: fn()) {
    AROUND.set(Around { before, after });
}

/// Called by the copy for the one operation of a job on the drafting grid that rounds. What goes in
/// and what comes out is held between the two calls.
pub(super) fn less_tolerance(pitch: f64) -> f64 {
    let Around { before, after } = AROUND.get();
    before();
    let less = black_box(black_box(pitch) - PRESERVED_GEOMETRY_EPSILON);
    after();
    less
}

/// What happens in a plan; the copy notes each as it comes to it.
#[derive(Clone, Copy, Debug, Eq, PartialEq)]
pub(super) enum Event {
    Chain,
    GivenUp,
    Split,
    Limit,
    Separation,
}

pub(super) fn note(event: Event) {
    let mut counts = EVENTS.get();
    counts[event as usize] += 1;
    EVENTS.set(counts);
}

/// Called by the copy with the outcome of the interior test of rewrite_member_routes.
pub(super) fn note_interior(interior: bool) {
    INTERIOR.set(interior);
}

/// Called by the copy at the start of each search: adds n * (n + 2) for its n runs.
pub(super) fn note_search(
    context: &BundleGeometryContext<'_, '_>,
    bundle: &IndexedBoundaryBundle,
    routes: &[EdgeGeometry],
) {
    let runs = bundle
        .members
        .iter()
        .map(|member| {
            let route = &routes[context.route_index[&member.edge]];
            route.points.len().saturating_sub(1) as u64
        })
        .sum::<u64>();
    SEARCHES.set(SEARCHES.get() + 1);
    SEARCH_COST.set(SEARCH_COST.get() + runs * (runs + 2));
}

/// Called by the copy with what the second search of promotion_collector_candidates gives: None is
/// spent.
pub(super) fn note_second(list: Option<Vec<f64>>) -> Option<Vec<f64>> {
    SECOND_SPENT.set(list.is_none());
    list
}

/// What the verifiers and the rewriting answer when they do not pass.
#[derive(Clone, Copy, Debug, Eq, PartialEq)]
pub(crate) enum Failed {
    Unsatisfied,
    Spent,
}

fn failed(error: LayoutError) -> Failed {
    match error {
        LayoutError::BoundaryBundleGeometryUnsatisfied => Failed::Unsatisfied,
        LayoutError::BoundaryBundleGeometryWorkLimitExceeded { .. } => Failed::Spent,
        other => panic!("not an error of the stage: {other:?}"),
    }
}

/// Bounds of a collector with the x wanted.
#[derive(Clone, Copy, Debug, PartialEq)]
pub(crate) struct Bounds {
    pub(crate) minimum: f64,
    pub(crate) desired: f64,
    pub(crate) maximum: f64,
}

impl From<InteriorCollectorRange> for Bounds {
    fn from(range: InteriorCollectorRange) -> Self {
        Bounds {
            minimum: range.minimum_x,
            desired: range.desired_x,
            maximum: range.maximum_x,
        }
    }
}

/// Outcome of interior_collector_range_bounded, its causes of None told apart.
#[derive(Clone, Copy, Debug, PartialEq)]
pub(crate) enum Ranged {
    Absent,
    Found(Bounds),
    Nothing,
    Spent,
}

/// Outcome of promotion_collector_candidates, the causes of its empty list told apart.
#[derive(Clone, Debug, PartialEq)]
pub(crate) enum Promoted {
    Absent,
    Spent,
    /// The list is the first search's, and may be empty.
    SecondSpent(Vec<f64>),
    Nothing,
    Kept(Vec<f64>),
}

/// The searches of a plan whose visits never run out.
#[derive(Clone, Copy, Debug, Eq, PartialEq)]
pub(crate) struct Sufficient {
    pub(crate) searches: u64,
    pub(crate) sum: u64,
    pub(crate) visits: u64,
}

/// The maps and numbers that apply_bundle_geometry makes before it plans.
pub(crate) struct Prepared<'board, 'graph> {
    graph: &'board IndexedGraph<'graph>,
    nodes: &'board [NodeGeometry],
    options: LayoutOptions,
    reserve: f64,
    node_geometry: HashMap<u32, usize>,
    route_index: HashMap<u32, usize>,
    offsets: Vec<f64>,
    inputs: HashMap<u32, f64>,
    outputs: HashMap<u32, f64>,
    pitch: f64,
    rail_depth: f64,
}

impl<'board, 'graph> Prepared<'board, 'graph> {
    pub(crate) fn new(
        graph: &'board IndexedGraph<'graph>,
        nodes: &'board [NodeGeometry],
        routes: &[EdgeGeometry],
        options: LayoutOptions,
        reserve: f64,
    ) -> Self {
        let node_geometry = nodes
            .iter()
            .enumerate()
            .map(|(index, node)| (node.id, index))
            .collect::<HashMap<_, _>>();
        let route_index = routes
            .iter()
            .enumerate()
            .map(|(index, route)| (route.id, index))
            .collect::<HashMap<_, _>>();
        let pitch = pitch(options);
        let rail_depth = crate::boundary_bundle_rail_depth(options);
        let offsets = corridor_depth_offsets(graph, options);
        let (inputs, outputs) = fallback_corridors_by_edge(
            graph,
            nodes,
            &node_geometry,
            &offsets,
            pitch,
            rail_depth,
        );
        Prepared {
            graph,
            nodes,
            options,
            reserve,
            node_geometry,
            route_index,
            offsets,
            inputs,
            outputs,
            pitch,
            rail_depth,
        }
    }

    fn context(&self) -> BundleGeometryContext<'_, 'graph> {
        BundleGeometryContext {
            graph: self.graph,
            nodes: self.nodes,
            node_geometry: &self.node_geometry,
            route_index: &self.route_index,
            input_fallback_corridors: &self.inputs,
            output_fallback_corridors: &self.outputs,
            pitch: self.pitch,
            rail_depth: self.rail_depth,
            member_endpoint_reserve: self.reserve,
        }
    }

    fn bundle(&self, index: usize) -> &'board IndexedBoundaryBundle {
        &self.graph.boundary_bundles[index]
    }

    pub(crate) fn offsets(&self) -> &[f64] {
        &self.offsets
    }

    /// The corridors of a bundle's members, in member order, for the bundle's own role.
    pub(crate) fn corridors(&self, index: usize) -> Vec<f64> {
        let bundle = self.bundle(index);
        let corridors = match bundle.role {
            BoundaryBundleRole::Input => &self.inputs,
            BoundaryBundleRole::Output => &self.outputs,
        };
        bundle
            .members
            .iter()
            .map(|member| corridors[&member.edge])
            .collect()
    }

    pub(crate) fn bounds(
        &self,
        index: usize,
        routes: &[EdgeGeometry],
        lower: f64,
        upper: f64,
    ) -> Option<Bounds> {
        interior_collector_bounds(&self.context(), self.bundle(index), routes, lower, upper)
            .map(Bounds::from)
    }

    pub(crate) fn range(
        &self,
        index: usize,
        routes: &[EdgeGeometry],
        lower: f64,
        upper: f64,
        visits: &mut usize,
    ) -> Ranged {
        let context = self.context();
        let bundle = self.bundle(index);
        let Some(bounds) = interior_collector_bounds(&context, bundle, routes, lower, upper) else {
            return Ranged::Absent;
        };
        let before = *visits;
        if let Some(range) =
            interior_collector_range_bounded(&context, bundle, routes, lower, upper, visits)
        {
            return Ranged::Found(Bounds::from(range));
        }
        // None is either nothing common or spent: the search alone tells which.
        let mut again = before;
        let list = common_horizontal_collector_xs(
            &context,
            bundle,
            routes,
            bounds.minimum_x,
            bounds.desired_x,
            bounds.maximum_x,
            &mut again,
        );
        assert_eq!(again, *visits);
        match list {
            Some(list) => {
                assert!(list.is_empty());
                Ranged::Nothing
            }
            None => Ranged::Spent,
        }
    }

    /// None where the clamp of the input split is refused.
    pub(crate) fn plan(
        &self,
        routes: &[EdgeGeometry],
        separate: bool,
        visits: &mut usize,
    ) -> Option<Vec<Option<f64>>> {
        let mut clamp_refused = false;
        let planned = plan_interior_collectors(
            &self.context(),
            routes,
            separate,
            visits,
            &mut clamp_refused,
        );
        (!clamp_refused).then_some(planned)
    }

    /// Chains, given up, splits, input limits and separations of the plan from this grant.
    pub(crate) fn events(
        &self,
        routes: &[EdgeGeometry],
        separate: bool,
        mut visits: usize,
    ) -> Option<[u32; 5]> {
        EVENTS.set([0; 5]);
        self.plan(routes, separate, &mut visits)?;
        Some(EVENTS.get())
    }

    /// The sum of n * (n + 2) over the searches of a plan whose visits never run out, and the
    /// visits that these pay. None where the clamp is refused.
    pub(crate) fn sufficient(&self, routes: &[EdgeGeometry], separate: bool) -> Option<Sufficient> {
        SEARCHES.set(0);
        SEARCH_COST.set(0);
        let mut visits = usize::MAX;
        self.plan(routes, separate, &mut visits)?;
        Some(Sufficient {
            searches: SEARCHES.get(),
            sum: SEARCH_COST.get(),
            visits: (usize::MAX - visits) as u64,
        })
    }

    pub(crate) fn promotion(
        &self,
        index: usize,
        routes: &[EdgeGeometry],
        visits: &mut usize,
    ) -> Promoted {
        let context = self.context();
        let bundle = self.bundle(index);
        let bounds = interior_collector_bounds(
            &context,
            bundle,
            routes,
            f64::NEG_INFINITY,
            f64::INFINITY,
        );
        let mut again = *visits;
        let promoted = promoted(&context, bundle, routes, bounds, visits);
        let kept = promotion_collector_candidates(&context, bundle, routes, &mut again);
        assert_eq!(again, *visits);
        match &promoted {
            Promoted::Kept(list) | Promoted::SecondSpent(list) => {
                assert_eq!(bits(list), bits(&kept));
            }
            _ => assert!(kept.is_empty()),
        }
        promoted
    }

    pub(crate) fn divergence(
        &self,
        index: usize,
        routes: &[EdgeGeometry],
        collector_x: f64,
    ) -> Option<f64> {
        input_shared_trunk_divergence_x(&self.context(), self.bundle(index), routes, collector_x)
    }

    /// required_output_collector_x; None stands for its minus infinity.
    pub(crate) fn required(
        &self,
        routes: &[EdgeGeometry],
        inputs: &[usize],
        planned: &[Option<f64>],
    ) -> Option<f64> {
        let x = required_output_collector_x(&self.context(), routes, inputs, planned);
        (x != f64::NEG_INFINITY).then_some(x)
    }

    pub(crate) fn build(
        &self,
        index: usize,
        routes: &[EdgeGeometry],
        planned: Option<f64>,
    ) -> BoundaryBundleGeometry {
        build_geometry(&self.context(), self.bundle(index), routes, planned)
    }

    /// rewrite_member_routes; the outcome of its interior test.
    pub(crate) fn rewrite(
        &self,
        index: usize,
        geometry: &BoundaryBundleGeometry,
        routes: &mut [EdgeGeometry],
    ) -> Result<bool, Failed> {
        rewrite_member_routes(
            self.bundle(index),
            geometry,
            &self.route_index,
            routes,
            self.pitch,
            self.rail_depth,
            self.offsets[index],
        )
        .map_err(failed)?;
        Ok(INTERIOR.get())
    }

    pub(crate) fn verify_interiors(
        &self,
        index: usize,
        layout: &Layout,
        visits: &mut usize,
    ) -> Result<(), Failed> {
        verify_one_bundle_route_node_interiors(self.graph, layout, index, visits).map_err(failed)
    }

    pub(crate) fn verify_contacts(
        &self,
        index: usize,
        layout: &Layout,
        crossings: bool,
        visits: &mut usize,
    ) -> Result<(), Failed> {
        let changed = self
            .bundle(index)
            .members
            .iter()
            .map(|member| member.edge)
            .collect::<BTreeSet<_>>();
        verify_new_bundle_route_contacts(
            layout,
            index,
            changed,
            self.options.minimum_parallel_wire_spacing,
            visits,
            crossings,
        )
        .map_err(failed)
    }
}

fn bits(list: &[f64]) -> Vec<u64> {
    list.iter().map(|x| x.to_bits()).collect()
}

fn promoted(
    context: &BundleGeometryContext<'_, '_>,
    bundle: &IndexedBoundaryBundle,
    routes: &[EdgeGeometry],
    bounds: Option<InteriorCollectorRange>,
    visits: &mut usize,
) -> Promoted {
    let before = *visits;
    SECOND_SPENT.set(false);
    let kept = promotion_collector_candidates_in(context, bundle, routes, bounds, visits);
    let Some(range) = bounds else {
        assert!(kept.is_empty() && *visits == before);
        return Promoted::Absent;
    };
    if SECOND_SPENT.get() {
        assert_eq!(*visits, 0);
        return Promoted::SecondSpent(kept);
    }
    if !kept.is_empty() {
        return Promoted::Kept(kept);
    }
    let mut again = before;
    match common_horizontal_collector_xs(
        context,
        bundle,
        routes,
        range.minimum_x,
        range.desired_x,
        range.maximum_x,
        &mut again,
    ) {
        Some(_) => Promoted::Nothing,
        None => Promoted::Spent,
    }
}

/// The pitch, as apply_bundle_geometry and corridor_depth_offsets have it.
pub(crate) fn pitch(options: LayoutOptions) -> f64 {
    options
        .route_lane_gap
        .max(options.minimum_parallel_wire_spacing)
}

pub(crate) fn normalize(layout: &mut Layout) {
    normalize_layout(layout);
}

/// A search that stands alone: member i has route i.
pub(crate) struct Lone {
    pub(crate) role: BoundaryBundleRole,
    pub(crate) pitch: f64,
    pub(crate) routes: Vec<Vec<Point>>,
}

impl Lone {
    fn with<T>(
        &self,
        call: impl FnOnce(&BundleGeometryContext<'_, '_>, &IndexedBoundaryBundle, &[EdgeGeometry]) -> T,
    ) -> T {
        let graph = no_graph();
        let routes = self
            .routes
            .iter()
            .enumerate()
            .map(|(index, points)| EdgeGeometry {
                id: index as u32,
                points: points.clone(),
            })
            .collect::<Vec<_>>();
        let route_index = (0..routes.len())
            .map(|index| (index as u32, index))
            .collect::<HashMap<_, _>>();
        let bundle = IndexedBoundaryBundle {
            id: 0,
            endpoint: Endpoint { node: 0, port: 0 },
            role: self.role,
            width: routes.len() as u32,
            members: (0..routes.len())
                .map(|index| IndexedBoundaryBundleMember {
                    edge: index as u32,
                    net: 0,
                    slots: Vec::new(),
                    tap_lane: 0,
                })
                .collect(),
        };
        let context = BundleGeometryContext {
            graph: &graph,
            nodes: &[],
            node_geometry: &HashMap::new(),
            route_index: &route_index,
            input_fallback_corridors: &HashMap::new(),
            output_fallback_corridors: &HashMap::new(),
            pitch: self.pitch,
            rail_depth: 0.0,
            member_endpoint_reserve: 0.0,
        };
        call(&context, &bundle, &routes)
    }

    /// common_horizontal_collector_xs; None is spent.
    pub(crate) fn common(&self, bounds: Bounds, visits: &mut usize) -> Option<Vec<f64>> {
        self.with(|context, bundle, routes| {
            let before = *visits;
            let list = common_horizontal_collector_xs(
                context,
                bundle,
                routes,
                bounds.minimum,
                bounds.desired,
                bounds.maximum,
                visits,
            );
            let mut again = before;
            let first = common_horizontal_collector_x(
                context,
                bundle,
                routes,
                bounds.minimum,
                bounds.desired,
                bounds.maximum,
                &mut again,
            );
            assert_eq!(again, *visits);
            assert_eq!(
                first.map(f64::to_bits),
                list.as_ref()
                    .and_then(|list| list.first())
                    .map(|x| x.to_bits())
            );
            list
        })
    }

    pub(crate) fn promotion(&self, bounds: Option<Bounds>, visits: &mut usize) -> Promoted {
        let range = bounds.map(|bounds| InteriorCollectorRange {
            role: self.role,
            minimum_x: bounds.minimum,
            desired_x: bounds.desired,
            maximum_x: bounds.maximum,
        });
        self.with(|context, bundle, routes| promoted(context, bundle, routes, range, visits))
    }
}

fn no_graph() -> IndexedGraph<'static> {
    IndexedGraph {
        nodes: Vec::new(),
        edges: Vec::new(),
        rank_edges: Vec::new(),
        node_index: HashMap::new(),
        ports: Vec::new(),
        outgoing: Vec::new(),
        incoming: Vec::new(),
        boundary_inputs: Vec::new(),
        boundary_outputs: Vec::new(),
        boundary_bundles: Vec::new(),
    }
}

/// What verify_member_route_node_interiors says of one run and one node foreign to it.
#[derive(Clone, Copy, Debug, Eq, PartialEq)]
pub(crate) enum Entered {
    No,
    Yes,
    Slanted,
}

pub(crate) fn enters(node: NodeGeometry, start: Point, end: Point) -> Entered {
    let foreign = Endpoint {
        node: node.id.wrapping_add(1),
        port: 0,
    };
    let edge = Edge {
        id: 0,
        source: foreign,
        target: foreign,
        net: 0,
        participates_in_ranking: true,
    };
    let mut graph = no_graph();
    graph.edges = vec![&edge];
    let layout = Layout {
        nodes: vec![node],
        edges: vec![EdgeGeometry {
            id: 0,
            points: vec![start, end],
        }],
        boundary_bundles: Vec::new(),
        width: 0.0,
        height: 0.0,
    };
    let mut visits = 1;
    match verify_member_route_node_interiors(&graph, &layout, &BTreeSet::from([0]), &mut visits) {
        Ok(()) => Entered::No,
        Err(_) if visits == 1 => Entered::Slanted,
        Err(_) => Entered::Yes,
    }
}

/// The leaf functions as they stand.
pub(crate) mod leaf {
    use super::super as rust;
    use super::{
        BoundaryBundleRole as Role, BoundaryBundleSegment as Segment, NodeGeometry, Point, Port,
    };

    pub(crate) fn stretch(start: Point, end: Point, role: Role, length: f64) -> Option<(f64, f64)> {
        rust::shared_trunk_horizontal_range(start, end, role, length)
    }

    pub(crate) fn contact(
        bus: Segment,
        start: Point,
        end: Point,
        tap: Option<Point>,
        crossings: bool,
    ) -> bool {
        rust::segments_have_disallowed_contact(bus, start, end, tap, crossings)
    }

    pub(crate) fn too_close(left: Segment, right: Segment, spacing: f64) -> bool {
        rust::parallel_segments_are_too_close(left, right, spacing)
    }

    pub(crate) fn overlap(left_a: f64, left_b: f64, right_a: f64, right_b: f64) -> bool {
        rust::intervals_overlap_positive(left_a, left_b, right_a, right_b)
    }

    pub(crate) fn port_point(node: &NodeGeometry, port: &Port) -> Point {
        rust::port_point(node, port)
    }

    pub(crate) fn vertical_line(
        start: Point,
        end: Point,
        x: f64,
        prefer_end: bool,
    ) -> Option<Point> {
        rust::segment_vertical_line_intersection(start, end, x, prefer_end)
    }

    pub(crate) fn trunk(
        start: Point,
        end: Point,
        x: f64,
        role: Role,
        length: f64,
    ) -> Option<Point> {
        rust::shared_trunk_horizontal_intersection(start, end, x, role, length)
    }

    pub(crate) fn same_place(left: Point, right: Point) -> bool {
        rust::preserved_point_matches(left, right)
    }

    pub(crate) fn separated(candidate: f64, used: &[f64], pitch: f64) -> bool {
        rust::collector_has_lane_separation(candidate, used, pitch)
    }

    pub(crate) fn push_point(points: &mut Vec<Point>, point: Point) {
        rust::push_point(points, point)
    }

    pub(crate) fn first_vertical_line(points: &[Point], x: f64) -> Option<(usize, Point)> {
        rust::first_vertical_line_intersection(points, x)
    }

    pub(crate) fn last_vertical_line(points: &[Point], x: f64) -> Option<(usize, Point)> {
        rust::last_vertical_line_intersection(points, x)
    }

    pub(crate) fn first_trunk(
        points: &[Point],
        x: f64,
        role: Role,
        length: f64,
    ) -> Option<(usize, Point)> {
        rust::first_shared_trunk_intersection(points, x, role, length)
    }

    pub(crate) fn last_trunk(
        points: &[Point],
        x: f64,
        role: Role,
        length: f64,
    ) -> Option<(usize, Point)> {
        rust::last_shared_trunk_intersection(points, x, role, length)
    }

    pub(crate) fn rewrite_input_shared_trunk(
        points: &[Point],
        tap: Point,
        length: f64,
    ) -> Option<Vec<Point>> {
        rust::rewrite_input_shared_trunk(points, tap, length)
    }

    pub(crate) fn rewrite_output_shared_trunk(
        points: &[Point],
        tap: Point,
        length: f64,
    ) -> Option<Vec<Point>> {
        rust::rewrite_output_shared_trunk(points, tap, length)
    }

    pub(crate) fn rewrite_input_route(
        points: &[Point],
        tap: Point,
        depth: f64,
    ) -> Option<Vec<Point>> {
        rust::rewrite_input_route(points, tap, depth)
    }

    pub(crate) fn rewrite_output_route(
        points: &[Point],
        tap: Point,
        depth: f64,
    ) -> Option<Vec<Point>> {
        rust::rewrite_output_route(points, tap, depth)
    }
}
