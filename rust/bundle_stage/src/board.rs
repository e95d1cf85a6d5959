//! The board: what a job says.

use crate::id::Id;
use crate::wire::{Malformed, Reader, TooMany, Wire, Writer, choice, listed, record};

/// The version of the job's and the answer's format.
pub(crate) const VERSION: u8 = 1;

/// A placed and routed board whose bundles are to be drawn.
///
/// Its numbers are as they are: what the stage refuses (see [`Refusal`](crate::Refusal)) can be
/// written here too, and the stage says so. The stage takes minus zero as plus zero.
#[derive(Clone, Debug, Default, PartialEq)]
pub struct Board {
    /// What the sheet permits and asks for.
    pub flags: Flags,
    /// Lengths that hold for the whole sheet.
    pub options: Options,
    /// The visits that may be paid.
    pub grants: Visits,
    /// At most 128.
    pub nodes: Vec<Node>,
    /// At most 256.
    pub ports: Vec<Port>,
    /// At most 256.
    pub edges: Vec<Edge>,
    /// They are drawn in this order.
    pub bundles: Vec<Bundle>,
}

/// What the whole sheet permits and asks for.
#[derive(Clone, Copy, Debug, Default, Eq, PartialEq)]
pub struct Flags {
    /// Collectors of one role keep a pitch from each other.
    pub separate_collectors: bool,
    /// A bundle and a foreign route may cross where neither ends.
    pub permit_crossings: bool,
    /// All numbers of the board are on the drafting grid: multiples of 1/64 with magnitude at most
    /// 2^20. Then nothing is rounded on the way to the sheet but, where collectors are separated,
    /// the pitch less the tolerance.
    pub on_grid: bool,
}

/// Lengths that hold for the whole sheet, each from 0 to 2^20.
///
/// The *pitch*, from lane to lane, is the larger of `route_lane_gap` and
/// `minimum_parallel_wire_spacing`. A bundle at the *rail* has its collector at the rail depth from
/// its port: `edge_node_clearance` if that is above 0, else `port_stub` plus `route_lane_gap`.
#[derive(Clone, Copy, Debug, Default, PartialEq)]
pub struct Options {
    /// The straight piece at a port.
    pub port_stub: f64,
    /// From lane to lane.
    pub route_lane_gap: f64,
    /// From a port to a collector at the rail, if above 0.
    pub edge_node_clearance: f64,
    /// How far bundles keep from wires beside them.
    pub minimum_parallel_wire_spacing: f64,
    /// What an interior collector leaves free at the far end of its members.
    pub member_endpoint_reserve: f64,
}

/// Visits, granted by a job or left in an answer: the stage pays one for each look.
#[derive(Clone, Copy, Debug, Eq, PartialEq)]
pub struct Visits {
    /// For the search for places. Where none is left, it finds none, and bundles go to the rail.
    pub tap: u32,
    /// For the two checks. Where one is due and none is left, the job is refused.
    pub geometry: u32,
}

impl Visits {
    /// The largest grants that a job may have.
    pub const MOST: Visits = Visits {
        tap: 2_000_000,
        geometry: 20_000_000,
    };

    /// The names of the two grants, in the job's order.
    pub const NAMES: [&'static str; 2] = ["tap_visits", "geometry_visits"];
}

/// The largest grants: [`Visits::MOST`].
impl Default for Visits {
    fn default() -> Visits {
        Visits::MOST
    }
}

/// A node by its upper left corner and its size.
#[derive(Clone, Copy, Debug, PartialEq)]
pub struct Node {
    /// Nodes have different ids.
    pub id: Id,
    /// The left side, of magnitude at most 2^30.
    pub x: f64,
    /// The upper side, of magnitude at most 2^30.
    pub y: f64,
    /// From 0 to 2^30.
    pub width: f64,
    /// From 0 to 2^30.
    pub height: f64,
}

impl Node {
    /// Where a port of this node stands: the Rust's port_point.
    pub fn port_point(&self, port: &Port) -> Point {
        let (x, y) = match port.side {
            Side::North => (self.x + port.offset, self.y),
            Side::East => (self.x + self.width, self.y + port.offset),
            Side::South => (self.x + port.offset, self.y + self.height),
            Side::West => (self.x, self.y + port.offset),
        };
        Point { x, y }
    }
}

/// A port on a side of a node.
#[derive(Clone, Copy, Debug, PartialEq)]
pub struct Port {
    /// Its node's id.
    pub node: Id,
    /// One node's ports have different ids.
    pub id: Id,
    /// The side of the node that it is on.
    pub side: Side,
    /// From the side's left end (north, south) or upper end (east, west).
    pub offset: f64,
}

/// A side of a node: north is the upper one.
#[derive(Clone, Copy, Debug, Eq, Hash, PartialEq)]
pub enum Side {
    /// The upper one.
    North,
    /// The right one.
    East,
    /// The lower one.
    South,
    /// The left one.
    West,
}

/// A port by its node's id and its own.
#[derive(Clone, Copy, Debug, Eq, Hash, PartialEq)]
pub struct Endpoint {
    /// The id of the node.
    pub node: Id,
    /// The id of the port among those of the node.
    pub port: Id,
}

/// An edge with its route, from source to target.
#[derive(Clone, Debug, PartialEq)]
pub struct Edge {
    /// Edges have different ids.
    pub id: Id,
    /// Where the wire comes from. The port is not looked up.
    pub source: Endpoint,
    /// Where the wire leads to. The port is not looked up.
    pub target: Endpoint,
    /// The route, at most 64 points; it may have none.
    pub points: Vec<Point>,
}

/// A place on the sheet: x grows to the right, y downwards.
#[derive(Clone, Copy, Debug, PartialEq)]
pub struct Point {
    /// Of magnitude at most 2^30.
    pub x: f64,
    /// Of magnitude at most 2^30.
    pub y: f64,
}

/// Edges that are drawn as one trunk at a port.
#[derive(Clone, Debug, PartialEq)]
pub struct Bundle {
    /// Bundles have different ids.
    pub id: Id,
    /// The port at which it is drawn.
    pub endpoint: Endpoint,
    /// Which way its wires go.
    pub role: Role,
    /// How many wires it stands for. Of width 0 or 1 it is drawn at the rail.
    pub width: u32,
    /// At most 64; an edge is in one bundle of each role at most.
    pub members: Vec<Member>,
}

/// Which way a bundle's wires go.
#[derive(Clone, Copy, Debug, Eq, Hash, PartialEq)]
pub enum Role {
    /// Into the sheet: from the bundle's port to the right, fanning out to their targets.
    Input,
    /// Out of the sheet: from their sources to the right, to the bundle's port.
    Output,
}

/// An edge in a bundle, and its lane on the collector at the rail.
#[derive(Clone, Copy, Debug, Eq, PartialEq)]
pub struct Member {
    /// The edge's id.
    pub edge: Id,
    /// At most 255.
    pub lane: u16,
}

record!(Visits {
    tap: "tap visits",
    geometry: "geometry visits"
});
record!(Node {
    id: "a node's id",
    x: "a node's x",
    y: "a node's y",
    width: "a node's width",
    height: "a node's height",
});
record!(Port {
    node: "a port's node",
    id: "a port's id",
    side: "a port's side (0 to 3)",
    offset: "a port's offset",
});
record!(Endpoint {
    node: "a node",
    port: "a port"
});
record!(Edge {
    id: "an edge's id",
    source: "an edge's source",
    target: "an edge's target",
    points: "an edge's points",
});
record!(Point {
    x: "a point's x",
    y: "a point's y"
});
record!(Bundle {
    id: "a bundle's id",
    endpoint: "a bundle's endpoint",
    role: "a bundle's role (0 or 1)",
    width: "a bundle's width",
    members: "a bundle's members",
});
record!(Member {
    edge: "a member's edge",
    lane: "a member's lane"
});
choice!(Side {
    0 => Side::North,
    1 => Side::East,
    2 => Side::South,
    3 => Side::West,
});
choice!(Role {
    0 => Role::Input,
    1 => Role::Output,
});
listed!(Point "points");
listed!(Member "members");

/// A bit for each.
impl Wire for Flags {
    fn put(&self, to: &mut Writer) -> Result<(), TooMany> {
        let bits = [
            self.separate_collectors,
            self.permit_crossings,
            self.on_grid,
        ];
        let byte = bits
            .into_iter()
            .rev()
            .fold(0, |byte, bit| 2 * byte + u8::from(bit));
        byte.put(to)
    }

    fn take(from: &mut Reader<'_>, field: &'static str) -> Result<Flags, Malformed> {
        from.listed(field, |byte: u8| {
            (byte < 8).then_some(Flags {
                separate_collectors: byte & 1 != 0,
                permit_crossings: byte & 2 != 0,
                on_grid: byte & 4 != 0,
            })
        })
    }
}

/// The options by name, in the job's order.
macro_rules! options {
    ($($name:ident),*) => {
        record!(Options { $($name: stringify!($name)),* });

        impl Options {
            /// The names of the five options, in the job's order.
            pub const NAMES: [&'static str; 5] = [$(stringify!($name)),*];

            /// The five options, in the job's order.
            pub fn values(&self) -> [f64; 5] {
                [$(self.$name),*]
            }

            /// The options with these values.
            pub fn of_values([$($name),*]: [f64; 5]) -> Options {
                Options { $($name),* }
            }
        }
    };
}

#[rustfmt::skip]
options!(port_stub, route_lane_gap, edge_node_clearance, minimum_parallel_wire_spacing, member_endpoint_reserve);

impl Board {
    /// The job's bytes. They fail only where a count is too large for the format; limits of the
    /// stage are not looked at.
    ///
    /// # Errors
    ///
    /// What there are too many of.
    ///
    /// ```
    /// use bundle_stage::*;
    ///
    /// let job = Board::default().to_bytes()?;
    /// assert_eq!(job[..6], [0, 0, 0, 58, 1, 0], "58 bytes follow: version 1, no flags, ..");
    /// let node = Node { id: 7.into(), x: 0.0, y: 0.0, width: 1.0, height: 1.0 };
    /// let long = Board { nodes: vec![node; 65_536], ..Board::default() };
    /// let error = long.to_bytes().expect_err("a count has 16 bits");
    /// assert_eq!(error.to_string(), "65536 nodes are too many to write down: at most 65535");
    /// # Ok::<(), TooMany>(())
    /// ```
    pub fn to_bytes(&self) -> Result<Vec<u8>, TooMany> {
        let mut to = Writer::new();
        VERSION.put(&mut to)?;
        self.flags.put(&mut to)?;
        self.options.put(&mut to)?;
        self.grants.put(&mut to)?;
        to.count("nodes", self.nodes.len())?;
        to.count("ports", self.ports.len())?;
        to.count("edges", self.edges.len())?;
        to.count("bundles", self.bundles.len())?;
        to.rows(&self.nodes)?;
        to.rows(&self.ports)?;
        to.rows(&self.edges)?;
        to.rows(&self.bundles)?;
        to.finish()
    }

    /// The board that a job's bytes say, if they are a whole job: the length is right, the version
    /// is 1, flags, sides and roles are listed, no field is missing and no byte is left over.
    /// Whether the stage accepts its numbers is not looked at. `to_bytes` gives the same bytes back.
    ///
    /// # Errors
    ///
    /// The first byte that does not fit, and what was expected there.
    ///
    /// ```
    /// use bundle_stage::*;
    ///
    /// let mut job = Board::default().to_bytes().expect("small");
    /// assert_eq!(Board::from_bytes(&job), Ok(Board::default()));
    /// job[5] = 8;
    /// let error = Board::from_bytes(&job).expect_err("three flags");
    /// assert_eq!(error.to_string(), "byte 5: expected the flags (0 to 7), found 8");
    /// ```
    pub fn from_bytes(bytes: &[u8]) -> Result<Board, Malformed> {
        let mut from = Reader::new(bytes);
        from.length()?;
        version(&mut from)?;
        let flags = from.field("the flags (0 to 7)")?;
        let options = from.field("the options")?;
        let grants = from.field("the grants")?;
        let nodes = from.field("the count of nodes")?;
        let ports = from.field("the count of ports")?;
        let edges = from.field("the count of edges")?;
        let bundles = from.field("the count of bundles")?;
        let board = Board {
            flags,
            options,
            grants,
            nodes: from.rows(nodes, "a node")?,
            ports: from.rows(ports, "a port")?,
            edges: from.rows(edges, "an edge")?,
            bundles: from.rows(bundles, "a bundle")?,
        };
        from.end()?;
        Ok(board)
    }
}

pub(crate) fn version(from: &mut Reader<'_>) -> Result<(), Malformed> {
    from.listed("version 1", |version: u8| {
        (version == VERSION).then_some(())
    })
}
