//! Lines at ports where they do not end: drawn apart, or no picture.

use bundle_stage::{
    Board, Edge, Endpoint, Id, Node, PlacedNode, Point, Port, Refusal, Sheet, Side,
};
use bundles::names::Names;

use super::apart::false_joint;
use super::{checked, example, of_class, svg};

fn end(node: u32, port: u32) -> Endpoint {
    Endpoint {
        node: node.into(),
        port: port.into(),
    }
}

fn edge(id: u32, ends: [Endpoint; 2], points: &[(f64, f64)]) -> Edge {
    let [source, target] = ends;
    Edge {
        id: id.into(),
        source,
        target,
        points: points.iter().map(|&(x, y)| Point { x, y }).collect(),
    }
}

/// Node 1 has port 1 on its right side, at 100,50, from which edge 1 leads to node 2; nodes 3 and 4 have
/// edge 2, which goes this way.
fn board(way: &[(f64, f64)]) -> Board {
    let node = |id: u32, x, y| Node {
        id: id.into(),
        x,
        y,
        width: 100.0,
        height: 100.0,
    };
    let port = |node: u32, side| Port {
        node: node.into(),
        id: 1.into(),
        side,
        offset: 50.0,
    };
    Board {
        nodes: vec![
            node(1, 0.0, 0.0),
            node(2, 200.0, 0.0),
            node(3, 50.0, -140.0),
            node(4, 50.0, 160.0),
        ],
        ports: vec![
            port(1, Side::East),
            port(2, Side::West),
            port(3, Side::South),
            port(4, Side::North),
        ],
        edges: vec![
            edge(1, [end(1, 1), end(2, 1)], &[(100.0, 50.0), (200.0, 50.0)]),
            edge(2, [end(3, 1), end(4, 1)], way),
        ],
        ..Board::default()
    }
}

fn drawn(board: &Board) -> Sheet {
    board.draw().expect("no bundle, so nothing to refuse")
}

/// Why a sheet has no picture.
fn refused(board: &Board, sheet: &Sheet, names: &Names) -> String {
    let picture = bundles::svg::svg(board, sheet, names, "at a port");
    picture.expect_err("no picture").to_string()
}

#[test]
fn a_line_through_a_port_of_others() {
    let through = board(&[(100.0, -40.0), (100.0, 160.0)]);
    let sheet = drawn(&through);
    let words = |edge: &str, port: &str, node: &str| {
        format!(
            "no picture, as it would mislead: edge {edge} lies on the place of port {port} of node \
             {node} and does not end there"
        )
    };
    assert_eq!(
        refused(&through, &sheet, &Names::default()),
        words("2", "1", "1")
    );
    let mut names = Names::default();
    names.set_node(1.into(), "clock");
    names.set_port(1.into(), 1.into(), "out");
    names.set_edge(2.into(), "spare");
    assert_eq!(
        refused(&through, &sheet, &names),
        words("2 (spare)", "1 (out)", "1 (clock)")
    );
    // It ends there by place, and not by name.
    let ends = board(&[(100.0, -40.0), (100.0, 50.0)]);
    assert_eq!(
        refused(&ends, &drawn(&ends), &Names::default()),
        words("2", "1", "1")
    );
    // A slanted one.
    let slanted = board(&[(50.0, 0.0), (150.0, 100.0)]);
    assert_eq!(
        refused(&slanted, &drawn(&slanted), &Names::default()),
        words("2", "1", "1")
    );
}

/// The port's own lines may.
#[test]
fn a_line_through_its_own_port() {
    let mut own = board(&[(100.0, -20.0), (100.0, 160.0)]);
    own.edges[1].source = end(1, 1);
    let sheet = drawn(&own);
    assert_eq!(false_joint(&svg(&own, &sheet, "own"), &own, &sheet), Ok(()));
}

/// A line that is near to a port is drawn apart from it, however near that is on the sheet.
#[test]
fn a_line_near_a_port_of_others() {
    let ways: [&[(f64, f64)]; 5] = [
        &[(100.01, -40.0), (100.01, 160.0)],
        &[(99.999, -40.0), (99.999, 160.0)],
        &[(100.0, -40.0), (100.0, 49.99)],
        &[(100.01, 50.01), (160.0, 50.01), (160.0, 160.0)],
        &[(60.0, 50.3), (140.0, 50.3)],
    ];
    for way in ways {
        for unwired in [false, true] {
            let mut near = board(way);
            if unwired {
                near.edges.remove(0);
            }
            let sheet = drawn(&near);
            let picture = svg(&near, &sheet, "near");
            assert_eq!(false_joint(&picture, &near, &sheet), Ok(()), "{way:?}");
        }
    }
}

#[test]
fn two_ports_in_one_place() {
    let mut two = board(&[(160.0, -40.0), (160.0, 160.0)]);
    for id in [2, 3] {
        two.ports.push(Port {
            id: id.into(),
            side: Side::West,
            ..two.ports[0]
        });
    }
    // Nothing is drawn to them.
    let sheet = drawn(&two);
    let picture = svg(&two, &sheet, "two");
    assert_eq!(false_joint(&picture, &two, &sheet), Ok(()));
    let way = &[(0.0, 50.0), (-60.0, 50.0), (-60.0, 160.0)];
    two.edges[1] = edge(2, [end(1, 2), end(4, 1)], way);
    let words = refused(&two, &drawn(&two), &Names::default());
    let due = "edge 2 lies on the place of port 3 of node 1 and does not end there";
    assert!(words.ends_with(due), "{words}");
}

/// A bundle of the clock board that runs through a port beside its collector.
#[test]
fn a_bundle_through_a_port_of_others() {
    let (mut board, mut sheet) = example("clock-board");
    let id = Id::from(99);
    let at = sheet.bundles[0].collector.start;
    let node = Node {
        id,
        x: at.x - 5.0,
        y: at.y,
        width: 5.0,
        height: 5.0,
    };
    board.nodes.push(node);
    sheet.nodes.push(PlacedNode {
        id,
        x: node.x,
        y: node.y,
    });
    board.ports.push(Port {
        node: id,
        id: 1.into(),
        side: Side::East,
        offset: 2.5,
    });
    let words = refused(&board, &sheet, &Names::default());
    assert!(
        words.ends_with("bundle 1 lies on the place of port 1 of node 99 and does not end there"),
        "{words}"
    );
}

/// A board that was refused is shown all the same, with a ring at the port.
#[test]
fn of_a_refused_board() {
    let through = board(&[(100.0, -40.0), (100.0, 160.0)]);
    let refusal = Refusal::ForbiddenContact;
    let picture = bundles::svg::svg_refused(&through, refusal, &Names::default(), "refused");
    let elements = checked(&picture);
    assert_eq!(of_class(&elements, "route").len(), 2);
    assert_eq!(of_class(&elements, "false-joint").len(), 1);
    for words in [
        ">Edge 2 lies on the place of port 1 of node 1 and does not end there.</text>",
        ">no joint: a line at a port where it does not end</text>",
    ] {
        assert!(picture.contains(words), "{words}");
    }
}

/// Reading back sees a line at a port of others, and squares that touch.
#[test]
fn what_reading_back_sees() {
    let (board, sheet) = example("clock-board");
    let picture = svg(&board, &sheet, "clock-board");
    let elements = checked(&picture);
    let place = |at: usize| {
        let port = of_class(&elements, "port")[at];
        let [x, y] = ["x", "y"].map(|name| format!("{name}=\"{}\"", port.value(name)));
        format!("{x} {y} width")
    };
    let moved = picture.replacen(&place(0), &place(1), 1);
    let found = false_joint(&moved, &board, &sheet).expect_err("a port on another");
    assert!(found.contains(" at port-"), "{found}");
}
