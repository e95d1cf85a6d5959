// Child module of the copy without any patch: its plan, whose clamp panics.

use super::*;

/// plan_interior_collectors as it stands, with its own 2,000,000 tap visits.
pub(crate) fn plan(
    graph: &IndexedGraph<'_>,
    nodes: &[NodeGeometry],
    routes: &[EdgeGeometry],
    options: LayoutOptions,
    reserve: f64,
    separate: bool,
) -> Vec<Option<f64>> {
    let node_geometry = nodes
        .iter()
        .enumerate()
        .map(|(index, node)| (node.id, index))
        .collect::<HashMap<_, _>>();
    let route_index = routes
        .iter()
        .enumerate()
        .map(|(index, route)| (route.id, index))
        .collect::<HashMap<_, _>>();
    let pitch = options
        .route_lane_gap
        .max(options.minimum_parallel_wire_spacing);
    let rail_depth = crate::boundary_bundle_rail_depth(options);
    let offsets = corridor_depth_offsets(graph, options);
    let (inputs, outputs) =
        fallback_corridors_by_edge(graph, nodes, &node_geometry, &offsets, pitch, rail_depth);
    let context = BundleGeometryContext {
        graph,
        nodes,
        node_geometry: &node_geometry,
        route_index: &route_index,
        input_fallback_corridors: &inputs,
        output_fallback_corridors: &outputs,
        pitch,
        rail_depth,
        member_endpoint_reserve: reserve,
    };
    plan_interior_collectors(&context, routes, separate)
}
