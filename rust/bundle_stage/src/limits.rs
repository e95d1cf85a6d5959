//! The stage's limits (document 01, "Limits"), for programs that want to keep them.

/// The most nodes of a board.
pub const NODES: usize = 128;
/// The most ports of a board.
pub const PORTS: usize = 256;
/// The most edges of a board.
pub const EDGES: usize = 256;
/// The most points of a route.
pub const ROUTE_POINTS: usize = 64;
/// The most points of all routes.
pub const POINTS: usize = 2_048;
/// The most bundles of a board.
pub const BUNDLES: usize = 32;
/// The most members of a bundle.
pub const BUNDLE_MEMBERS: usize = 64;
/// The most members of all bundles.
pub const MEMBERS: usize = 256;
/// The most crossings of a list.
pub const CROSSINGS: usize = 1_024;
/// The highest lane.
pub const LANE: u16 = 255;
/// The largest magnitude of a coordinate or an offset, and the largest size: 2^30.
pub const COORDINATE: f64 = 1_073_741_824.0;
/// The largest option: 2^20.
pub const OPTION: f64 = 1_048_576.0;
