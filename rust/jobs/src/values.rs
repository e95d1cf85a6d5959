//! The numbers of a job, to be changed.

use oracle::job::Job;

#[derive(Clone, Copy)]
pub enum Axis {
    X,
    Y,
}

/// The coordinates of one axis, nodes' before points'.
pub fn coordinates(job: &mut Job, axis: Axis) -> Vec<&mut f64> {
    let nodes = job.nodes.iter_mut().map(|node| match axis {
        Axis::X => &mut node.x,
        Axis::Y => &mut node.y,
    });
    let points = job.edges.iter_mut().flat_map(|edge| &mut edge.points);
    let points = points.map(|point| match axis {
        Axis::X => &mut point.0,
        Axis::Y => &mut point.1,
    });
    nodes.chain(points).collect()
}

/// Every number of the job: options, nodes, offsets, points.
pub fn all_numbers(job: &mut Job) -> Vec<&mut f64> {
    let options = [
        &mut job.port_stub,
        &mut job.route_lane_gap,
        &mut job.edge_node_clearance,
        &mut job.minimum_parallel_wire_spacing,
        &mut job.member_endpoint_reserve,
    ];
    let nodes = job.nodes.iter_mut();
    let nodes =
        nodes.flat_map(|node| [&mut node.x, &mut node.y, &mut node.width, &mut node.height]);
    let offsets = job.ports.iter_mut().map(|port| &mut port.offset);
    let points = job.edges.iter_mut().flat_map(|edge| &mut edge.points);
    let points = points.flat_map(|(x, y)| [x, y]);
    options
        .into_iter()
        .chain(nodes)
        .chain(offsets)
        .chain(points)
        .collect()
}
