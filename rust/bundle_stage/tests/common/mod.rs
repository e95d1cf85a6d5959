//! What the tests share: points, nodes, a board of one bundle and others, the stored records. No test uses
//! all of it.

#![allow(dead_code)]

use bundle_stage::*;

pub fn at(x: f64, y: f64) -> Point {
    Point { x, y }
}

pub fn node(id: u32, x: f64, y: f64, width: f64, height: f64) -> Node {
    Node {
        id: id.into(),
        x,
        y,
        width,
        height,
    }
}

pub fn end(node: u32, port: u32) -> Endpoint {
    Endpoint {
        node: node.into(),
        port: port.into(),
    }
}

pub fn member(edge: u32, lane: u16) -> Member {
    let edge = edge.into();
    Member { edge, lane }
}

/// Two wires from a port of node 1 to node 2, one bundle.
pub fn board() -> Board {
    let source = end(1, 1);
    let wire = |id: u32, y| Edge {
        id: id.into(),
        source,
        target: end(2, id),
        points: vec![at(40.0, 50.0), at(60.0, 50.0), at(60.0, y), at(200.0, y)],
    };
    let port = |node: u32, id: u32, side, offset| Port {
        node: node.into(),
        id: id.into(),
        side,
        offset,
    };
    Board {
        options: Options {
            port_stub: 10.0,
            route_lane_gap: 10.0,
            member_endpoint_reserve: 20.0,
            ..Options::default()
        },
        nodes: vec![
            node(1, 0.0, 30.0, 40.0, 40.0),
            node(2, 200.0, 0.0, 40.0, 100.0),
        ],
        ports: vec![
            port(1, 1, Side::East, 20.0),
            port(2, 1, Side::West, 40.0),
            port(2, 2, Side::West, 60.0),
        ],
        edges: vec![wire(1, 40.0), wire(2, 60.0)],
        bundles: vec![Bundle {
            id: Id::from(1),
            endpoint: source,
            role: Role::Input,
            width: 2,
            members: vec![member(1, 0), member(2, 1)],
        }],
        ..Board::default()
    }
}

/// A wire of another edge, the second of the table.
pub fn wire(board: &mut Board, id: u32, points: &[(f64, f64)]) {
    let mut wire = board.edges[0].clone();
    wire.id = Id::from(id);
    wire.points = points.iter().map(|&(x, y)| at(x, y)).collect();
    board.edges.insert(1, wire);
}

/// The reading of document 01 for 13: the largest input minimum is 2^-33, pitch and smallest output
/// maximum are 2^20.
pub fn split_board() -> Board {
    let pitch = 2_f64.powi(20);
    let mut board = board();
    board.options = Options {
        route_lane_gap: pitch,
        edge_node_clearance: 2_f64.powi(-33),
        ..Options::default()
    };
    board.nodes = vec![
        node(1, -pitch, 0.0, 0.0, 0.0),
        node(2, 2.0 * pitch, 0.0, 0.0, 0.0),
    ];
    board.ports.iter_mut().for_each(|port| port.offset = 0.0);
    for (y, edge) in [0.0, 1.0].into_iter().zip(&mut board.edges) {
        edge.points = vec![at(-pitch, y), at(2.0 * pitch, y)];
    }
    let lanes = board.bundles[0].members.iter_mut();
    lanes.for_each(|member| member.lane = 0);
    let members = board.bundles[0].members.clone();
    board.bundles.push(Bundle {
        id: Id::from(2),
        endpoint: end(2, 1),
        role: Role::Output,
        width: 2,
        members,
    });
    board
}

/// The records of a file in `stored/`: jobs and answers by turns.
pub fn stored(name: &str) -> Vec<Vec<u8>> {
    let path = format!("{}/../../stored/{name}", env!("CARGO_MANIFEST_DIR"));
    let bytes = std::fs::read(path).expect("a stored file");
    let mut rest = &bytes[..];
    let mut records = Vec::new();
    while let Some((length, tail)) = rest.split_first_chunk() {
        let (record, tail) = tail.split_at(u32::from_be_bytes(*length) as usize);
        records.push(record.to_vec());
        rest = tail;
    }
    records
}

/// The length of a job whose bytes were changed.
pub fn set_length(job: &mut [u8]) {
    let length = job.len() as u32 - 4;
    job[..4].copy_from_slice(&length.to_be_bytes());
}
