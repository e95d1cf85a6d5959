//! The judge of the bundle stage: the Rust's boundary_bundles.rs, copied and patched at build time,
//! under the job, the order and the answer of document 01.

#![forbid(unsafe_code)]

pub mod answer;
pub mod calls;
pub mod clamp;
pub mod crossings;
pub mod digest;
pub mod job;
pub mod outputs;
pub mod page;
pub mod plan;
pub mod stage;
pub mod wire;

mod board;
mod kinds;
mod left_out;
mod records;
mod show;
mod validation;
mod whole;

#[allow(dead_code, clippy::all)]
mod patched {
    include!(concat!(env!("OUT_DIR"), "/patched.rs"));
}

#[allow(dead_code, clippy::all)]
mod unpatched {
    include!(concat!(env!("OUT_DIR"), "/unpatched.rs"));
}

// boundary_bundles.rs takes these from the crate's root.
pub(crate) use left_out::{
    EdgeNodeClearanceError, EdgeNodeSegment, NetNodeRelation, measure_edge_node_clearance_bounded,
    outward_obstacle_clearance_stub, routing,
};
pub(crate) use records::{
    BoundaryBundleGeometry, BoundaryBundleMemberGeometry, BoundaryBundleRole,
    BoundaryBundleSegment, Edge, EdgeGeometry, Endpoint, Layout, LayoutError, LayoutOptions,
    NodeGeometry, Point, Port, PortSide,
};

const MAX_LAYOUT_ROUTE_CONTACT_SEGMENTS: usize = 100_000;

// boundary_bundle_rail_depth, as it stands in the Rust's lib.rs.
include!(concat!(env!("OUT_DIR"), "/rail_depth.rs"));

pub use show::show;
pub use stage::{answer_of, number, stage, visits_left};
