//! Where refusals have their cause: every number, and the stored jobs.

#![forbid(unsafe_code)]

use bundle_stage::*;

mod common;
use common::*;

/// What is said of the board with a change: the number, and the places.
fn said(change: impl FnOnce(&mut Board)) -> (u8, Vec<String>) {
    let mut board = board();
    change(&mut board);
    let refused = board.draw_detailed().expect_err("refused");
    let job = board.to_bytes().expect("small");
    assert_eq!(locate(&job), Some(refused.clone()));
    let places = refused.places.iter().map(Place::to_string);
    (refused.refusal.number(), places.collect())
}

fn one(number: u8, words: &str) -> (u8, Vec<String>) {
    (number, vec![words.to_string()])
}

fn said_of_bytes(change: impl FnOnce(&mut Vec<u8>)) -> (u8, Vec<String>) {
    let mut job = board().to_bytes().expect("small");
    change(&mut job);
    let refused = locate(&job).expect("refused");
    let places = refused.places.iter().map(Place::to_string);
    (refused.refusal.number(), places.collect())
}

fn cut(job: &mut Vec<u8>, length: usize) {
    job.truncate(length);
    job[..4].copy_from_slice(&(length as u32 - 4).to_be_bytes());
}

#[test]
fn bytes() {
    assert_eq!(
        said_of_bytes(Vec::clear),
        one(1, "there are 0 bytes in all")
    );
    assert_eq!(
        said_of_bytes(|job| job.truncate(100)),
        one(
            1,
            "byte 0: the length says that 384 bytes follow it, and 96 do"
        )
    );
    assert_eq!(
        said_of_bytes(|job| job[4] = 9),
        one(3, "byte 4: the version is 9")
    );
    assert_eq!(
        said_of_bytes(|job| cut(job, 80)),
        one(4, "byte 74: the job ends before the end of the y of node 1")
    );
    assert_eq!(
        said_of_bytes(|job| {
            job.push(0);
            cut(job, 389);
        }),
        one(4, "byte 388: the records end here, and 1 bytes follow")
    );
    assert_eq!(
        said_of_bytes(|job| job[5] = 8),
        one(6, "byte 5: the flags are 8, and 0 to 7 are listed")
    );
}

#[test]
fn fields() {
    assert_eq!(
        said(|board| board.bundles[0].members[1].lane = 256),
        one(
            5,
            "byte 386: the lane of edge 2 in bundle 1 is 256, and at most 255 is allowed"
        )
    );
    assert_eq!(
        said(|board| board.grants.tap += 1),
        one(
            5,
            "byte 46: tap_visits is 2000001, and at most 2000000 is allowed"
        )
    );
    assert_eq!(
        said(|board| board.edges[1].points = vec![at(0.0, 0.0); 65]),
        one(
            5,
            "byte 291: the count of points of edge 2 is 65, and at most 64 is allowed"
        )
    );
    assert_eq!(
        said(|board| board.nodes[1].width = -1.0),
        one(
            7,
            "byte 118: the width of node 2 is -1.0; sizes are 0 to 2^30"
        )
    );
    assert_eq!(
        said(|board| board.edges[0].points[2].y = f64::NAN),
        one(
            7,
            "byte 247: the y of point 3 of edge 1 is NaN; coordinates and offsets are -2^30 to 2^30"
        )
    );
    assert_eq!(
        said(|board| board.options.port_stub = f64::INFINITY),
        one(7, "byte 6: port_stub is inf; options are 0 to 2^20")
    );
    assert_eq!(
        said(|board| {
            board.flags.on_grid = true;
            board.nodes[1].y = 0.1;
        }),
        one(
            15,
            "the y of node 2 is 0.1, off the drafting grid; nearest to it are 0.09375 and 0.109375"
        )
    );
}

#[test]
fn ids() {
    assert_eq!(
        said(|board| board.edges[1].id = Id::from(1)),
        one(
            8,
            "edge 1 and edge 1 have one id: the first and the second of the edges"
        )
    );
    assert_eq!(
        said(|board| {
            let mut again = board.bundles[0].clone();
            again.id = Id::from(2);
            again.members.pop();
            board.bundles.push(again);
        }),
        one(
            8,
            "edge 1 is a member of bundle 1 and of bundle 2, which have the same role"
        )
    );
    assert_eq!(
        said(|board| board.bundles[0].endpoint.port = Id::from(9)),
        one(9, "bundle 1 names port 1:9, and node 1 has no such port")
    );
    assert_eq!(
        said(|board| {
            board.edges[0].target.node = Id::from(7);
            board.bundles[0].members[0].edge = Id::from(8);
        }),
        (
            9,
            vec![
                "edge 1 names node 7 as its target, and there is no such node".to_string(),
                "bundle 1 has edge 8 as a member, and there is no such edge".to_string()
            ]
        )
    );
}

/// An edge is told once, however often bundles of one role list it.
#[test]
fn members_twice() {
    assert_eq!(
        said(|board| board.bundles[0].members.push(member(1, 2))),
        one(8, "edge 1 is a member of bundle 1 twice")
    );
    let said = said(|board| {
        let mut again = board.bundles[0].clone();
        again.id = Id::from(2);
        again.members = vec![member(1, 0); 3];
        board.bundles[0].members.push(member(1, 2));
        board.bundles.push(again);
    });
    let words =
        "edge 1 is a member of bundle 1 twice and of bundle 2 (3 times), which have the same role";
    assert_eq!(said, one(8, words));
}

#[test]
fn drawings() {
    assert_eq!(
        said(|board| board.edges[0].points.truncate(1)),
        one(
            10,
            "the route of edge 1, a member of bundle 1, cannot be led to its tap at (60, 45): it has \
             one point"
        )
    );
    for extra in [None, Some(3), Some(2)] {
        let far = |board: &mut Board| {
            if let Some(id) = extra {
                wire(board, id + 7, &[(0.0, 500.0), (9.0, 500.0)]);
            }
        };
        assert_eq!(
            said(|board| {
                far(board);
                wire(board, 3, &[(100.0, 0.0), (100.0, 100.0)]);
            }),
            one(
                11,
                "the spine of bundle 1 would cross the route of edge 3, at (100, 50), and the board forbids crossings"
            )
        );
        assert_eq!(
            said(|board| {
                wire(board, 4, &[(180.0, 55.0), (199.0, 55.0)]);
                far(board);
            }),
            one(
                11,
                "the collector of bundle 1 would touch the route of edge 4, at (180, 55)"
            )
        );
    }
    for place in 0..3 {
        let between = node(3, 185.0, 35.0, 10.0, 10.0);
        assert_eq!(
            said(|board| board.nodes.insert(place, between)),
            one(
                12,
                "the route of edge 1, a member of bundle 1, would run through node 3, from (185, 40) to \
                 (195, 40)"
            )
        );
    }
}

/// Whether two touch, come too close or lie on one another is told apart, and a slanted run is shown.
#[test]
fn how_they_meet() {
    let near = |board: &mut Board| {
        board.options.minimum_parallel_wire_spacing = 5.0;
        wire(board, 4, &[(183.0, 44.0), (183.0, 48.0)]);
    };
    let words = "the collector of bundle 1 would come too close to the route of edge 4, from \
                 (180, 44) to (183, 48), and minimum_parallel_wire_spacing is 5";
    assert_eq!(said(near), one(11, words));
    // Nothing is said of crossings, whether they are permitted or not.
    for permitted in [false, true] {
        let along = |board: &mut Board| {
            board.flags.permit_crossings = permitted;
            wire(board, 4, &[(180.0, 45.0), (180.0, 52.0)]);
        };
        let words = "the collector of bundle 1 would lie on the route of edge 4, from (180, 45) to \
                     (180, 52)";
        assert_eq!(said(along), one(11, words));
    }
    // Behind the collector, so that no search looks at it.
    let slanted = |board: &mut Board| {
        let points = &mut board.edges[1].points;
        points.pop();
        points.extend([at(190.0, 60.0), at(200.0, 61.0)]);
    };
    let words =
        "the route of edge 2, a member of bundle 1, would be slanted, from (190, 60) to (200, 61)";
    assert_eq!(said(slanted), one(12, words));
}

/// Every member that cannot be led to its tap, and no other one.
#[test]
fn members_that_cannot_be_led() {
    let (number, places) = said(|board| {
        // Neither has a run where the corridor of the rail is, and no x is common to all three.
        wire(board, 3, &[(40.0, 80.0), (41.0, 80.0), (41.0, 90.0)]);
        wire(board, 4, &[]);
        let members = [(1, 0), (4, 1), (2, 2), (3, 3)];
        board.bundles[0].members = members.map(|(edge, lane)| member(edge, lane)).to_vec();
    });
    let led = |edge: u8, why: &str| {
        format!("the route of edge {edge}, a member of bundle 1, cannot be led to its tap at {why}")
    };
    assert_eq!(
        (number, places),
        (
            10,
            vec![led(4, "(60, 45): it has no points"), led(3, "(60, 65)")]
        )
    );
}

/// 13: the bundles that have no room, and not those of a chain that has.
#[test]
fn chains_without_room() {
    let nodes = [(0, -32.0), (1, 64.0), (2, -512.0), (3, 512.0)];
    let port = |node: u32, side| Port {
        node: node.into(),
        id: node.into(),
        side,
        offset: 0.0,
    };
    let edge = |id: u32, from: u32, to: u32, y| Edge {
        id: id.into(),
        source: end(from, from),
        target: end(to, to),
        points: [nodes[from as usize], nodes[to as usize]]
            .map(|(_, x)| at(x, y))
            .to_vec(),
    };
    let bundle = |id: u32, node: u32, role, first: u32| Bundle {
        id: id.into(),
        endpoint: end(node, node),
        role,
        width: 3,
        members: (first..first + 3).map(|edge| member(edge, 0)).collect(),
    };
    let narrow = |first: u32, from: u32, to: u32, y: f64| {
        (0..3).map(move |turn| edge(first + turn, from, to, y + f64::from(turn)))
    };
    let sides = [Side::East, Side::West, Side::East, Side::West];
    let mut board = Board {
        options: Options {
            route_lane_gap: 32.0,
            edge_node_clearance: 3.552_713_678_800_501e-15,
            ..Options::default()
        },
        nodes: nodes.map(|(id, x)| node(id, x, 0.0, 0.0, 0.0)).to_vec(),
        ports: (0..4).zip(sides).map(|(id, side)| port(id, side)).collect(),
        edges: narrow(0, 0, 1, 0.0).chain(narrow(3, 2, 3, 100.0)).collect(),
        bundles: vec![
            bundle(8, 2, Role::Input, 3),
            bundle(5, 1, Role::Output, 0),
            bundle(9, 3, Role::Output, 3),
            bundle(6, 0, Role::Input, 0),
        ],
        ..Board::default()
    };
    board.flags.permit_crossings = true;
    let refused = board.draw_detailed().expect_err("no room");
    assert_eq!(refused.refusal, Refusal::NoRoomToSplit);
    let places = refused
        .places
        .iter()
        .map(Place::to_string)
        .collect::<Vec<_>>();
    assert_eq!(
        places,
        ["bundle 5 and bundle 6 share edges and have no room between them"]
    );
    assert_eq!(board.attempt(), None);
    // The other chain alone has room.
    let wide = |bundle: &Bundle| [Id::from(8), Id::from(9)].contains(&bundle.id);
    board.bundles.retain(wide);
    assert!(board.plan().is_ok());
}

#[test]
fn grants() {
    let (number, places) = said(|board| board.grants.geometry = 3);
    assert_eq!((number, places.len()), (14, 1));
    let enough = places[0]
        .strip_prefix("geometry_visits is 3; with ")
        .expect("words");
    let enough = enough.strip_suffix(" the board is drawn").expect("words");
    let enough = enough.parse::<u32>().expect("a number");
    let with = |geometry| {
        let mut board = board();
        board.grants.geometry = geometry;
        board.draw()
    };
    assert!(with(enough).is_ok());
    assert_eq!(with(enough - 1), Err(Refusal::GeometryVisitsSpent));
    let Forecast::Drawn(paid) = board().forecast() else {
        panic!("drawn");
    };
    assert_eq!(paid.geometry, enough);
}
