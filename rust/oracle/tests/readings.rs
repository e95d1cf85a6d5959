//! Every reading of document 01, starred or not, and the settled points that a single call or a
//! small job shows.

use oracle::calls::{call, op};
use oracle::clamp::{Compared, compare};
use oracle::job::{Job, JobBundle, JobEdge, JobMember, JobNode, JobPort};
use oracle::wire::{Reader, Writer};
use oracle::{answer_of, number, stage};

type At = (f64, f64);

const INPUT: u8 = 0;
const OUTPUT: u8 = 1;
const BUS: (At, At) = ((0.0, 0.0), (10.0, 0.0));

fn put(out: &mut Writer, values: &[f64]) {
    for &value in values {
        out.f64(value);
    }
}

fn put_run(out: &mut Writer, (start, end): (At, At)) {
    put(out, &[start.0, start.1, end.0, end.1]);
}

fn put_points(out: &mut Writer, points: &[At]) {
    out.count(points.len());
    for &(x, y) in points {
        put(out, &[x, y]);
    }
}

fn made(operation: u8, fill: impl FnOnce(&mut Writer)) -> Vec<u8> {
    let mut out = Writer::new();
    out.u8(operation);
    fill(&mut out);
    call(&out.bytes).expect("a well-formed call")
}

fn f64s(bytes: &[u8]) -> Vec<f64> {
    let mut from = Reader::new(bytes);
    let mut list = Vec::new();
    while from.left() > 0 {
        list.push(from.f64().expect("whole numbers"));
    }
    list
}

fn stretch(role: u8, start: At, end: At) -> Option<(f64, f64)> {
    let result = made(op::STRETCH, |out| {
        out.u8(role);
        put_run(out, (start, end));
        out.f64(4.0);
    });
    (result[0] == 1).then(|| {
        let ends = f64s(&result[1..]);
        (ends[0], ends[1])
    })
}

#[test]
fn stretches_at_pitch_4() {
    assert_eq!(stretch(INPUT, (0.0, 0.0), (10.0, 0.0)), Some((0.0, 6.0)));
    assert_eq!(stretch(OUTPUT, (0.0, 0.0), (10.0, 0.0)), Some((4.0, 10.0)));
    assert_eq!(stretch(INPUT, (0.0, 0.0), (4.0, 0.0)), Some((0.0, 0.0)));
    for end in [(3.0, 0.0), (0.0, 5.0)] {
        assert_eq!(stretch(INPUT, (0.0, 0.0), end), None);
        assert_eq!(stretch(OUTPUT, (0.0, 0.0), end), None);
    }
    assert_eq!(stretch(INPUT, (10.0, 0.0), (0.0, 0.0)), None);
    assert_eq!(stretch(OUTPUT, (10.0, 0.0), (0.0, 0.0)), None);
}

#[derive(Debug, PartialEq)]
enum Found {
    Nothing,
    At(f64),
    Spent,
}

fn search(role: u8, bounds: [f64; 3], grant: u32, routes: &[&[At]]) -> (Found, u32) {
    let result = made(op::SEARCH, |out| {
        out.u8(role);
        out.f64(4.0);
        put(out, &bounds);
        out.u32(grant);
        out.count(routes.len());
        for route in routes {
            put_points(out, route);
        }
    });
    let left = u32::from_be_bytes(result[1..5].try_into().expect("visits left"));
    let found = match result[0] {
        0 => Found::Nothing,
        1 => Found::At(f64s(&result[5..])[0]),
        _ => Found::Spent,
    };
    (found, left)
}

const LONG: &[At] = &[(0.0, 0.0), (20.0, 0.0)];
const SHORT: &[At] = &[(5.0, 8.0), (16.0, 8.0)];

#[test]
fn search_finds_12_after_7_visits() {
    let bounds = [2.0, 18.0, 18.0];
    let routes = [LONG, SHORT];
    assert_eq!(search(INPUT, bounds, 100, &routes), (Found::At(12.0), 93));
    assert_eq!(search(INPUT, bounds, 7, &routes), (Found::At(12.0), 0));
    assert_eq!(search(INPUT, bounds, 6, &routes), (Found::Spent, 0));
    assert_eq!(search(INPUT, bounds, 0, &routes), (Found::Spent, 0));
}

#[test]
fn output_search_finds_9() {
    let (found, _) = search(OUTPUT, [2.0, 2.0, 18.0], 100, &[LONG, SHORT]);
    assert_eq!(found, Found::At(9.0));
}

#[test]
fn nothing_common() {
    let other: &[At] = &[(13.0, 8.0), (16.0, 8.0)];
    let (found, _) = search(INPUT, [2.0, 18.0, 18.0], 100, &[LONG, other]);
    assert_eq!(found, Found::Nothing);
}

#[test]
fn the_rest_are_still_tried_and_paid_for() {
    let route: &[At] = &[(0.0, 0.0), (10.0, 0.0), (10.0, 5.0), (30.0, 5.0)];
    let bounds = [0.0, 26.0, 26.0];
    assert_eq!(
        search(INPUT, bounds, 100, &[route]),
        (Found::At(26.0), 100 - 7)
    );
    assert_eq!(search(INPUT, bounds, 6, &[route]), (Found::Spent, 0));
}

#[test]
fn desired_is_tried_whatever_the_bounds_say() {
    let route: &[At] = &[(0.0, 0.0), (10.0, 0.0)];
    assert_eq!(
        search(INPUT, [20.0, 5.0, 5.0], 10, &[route]).0,
        Found::At(5.0)
    );
    assert_eq!(search(INPUT, [1.0, 3.0, 4.0], 0, &[]), (Found::At(3.0), 0));
}

/// The tag, the visits left and the numbers of promotion_collector_candidates, Input at pitch 4.
fn promotion(bounds: [f64; 3], grant: u32, routes: &[&[At]]) -> (u8, u32, Vec<f64>) {
    let result = made(op::PROMOTION, |out| {
        out.u8(INPUT);
        out.f64(4.0);
        out.u8(1);
        put(out, &bounds);
        out.u32(grant);
        out.count(routes.len());
        for route in routes {
            put_points(out, route);
        }
    });
    let left = u32::from_be_bytes(result[1..5].try_into().expect("visits left"));
    (
        result[0],
        left,
        result.get(7..).map(f64s).unwrap_or_default(),
    )
}

#[test]
fn a_second_search_that_is_spent_leaves_the_first_list() {
    let routes: [&[At]; 2] = [&[(0.0, 0.0), (30.0, 0.0)], &[(0.0, 8.0), (30.0, 8.0)]];
    let bounds = [2.0, 18.0, 18.0];
    assert_eq!(promotion(bounds, 3, &routes), (2, 0, vec![]));
    for grant in 4..8 {
        assert_eq!(promotion(bounds, grant, &routes), (4, 0, vec![18.0]));
    }
    assert_eq!(promotion(bounds, 8, &routes), (1, 0, vec![18.0, 14.0]));
    assert_eq!(promotion(bounds, 100, &routes), (1, 92, vec![18.0, 14.0]));
}

fn contact(run: (At, At), tap: Option<At>, crossings: bool) -> bool {
    let result = made(op::CONTACT, |out| {
        put_run(out, BUS);
        put_run(out, run);
        out.u8(u8::from(tap.is_some()));
        let (x, y) = tap.unwrap_or((0.0, 0.0));
        put(out, &[x, y]);
        out.u8(u8::from(crossings));
    });
    result == [1]
}

#[test]
fn contacts_with_a_bus() {
    let crossing = ((5.0, -5.0), (5.0, 5.0));
    assert!(contact(crossing, None, false));
    assert!(!contact(crossing, None, true));
    let touching = ((5.0, 0.0), (5.0, 5.0));
    for crossings in [false, true] {
        assert!(!contact(touching, Some((5.0, 0.0)), crossings));
        assert!(contact(touching, None, crossings));
    }
    assert!(!contact(((5.0, 0.0), (5.0, 0.0)), None, false));
}

fn too_close(run: (At, At), spacing: f64) -> bool {
    let result = made(op::SPACING, |out| {
        put_run(out, BUS);
        put_run(out, run);
        out.f64(spacing);
    });
    result == [1]
}

#[test]
fn spacing_4() {
    assert!(too_close(((9.0, 3.0), (20.0, 3.0)), 4.0));
    assert!(!too_close(((10.0, 3.0), (20.0, 3.0)), 4.0));
    assert!(!too_close(((9.0, 4.0), (20.0, 4.0)), 4.0));
    assert!(too_close(((5.0, 0.0), (5.0, 0.0)), 4.0));
    assert!(!too_close(((5.0, 0.0), (5.0, 0.0)), 0.0));
}

fn enters(node: [f64; 4], run: (At, At)) -> u8 {
    made(op::INTERIOR, |out| {
        put(out, &node);
        put_run(out, run);
    })[0]
}

#[test]
fn node_interiors() {
    let node = [10.0, 10.0, 10.0, 10.0];
    assert_eq!(enters(node, ((0.0, 15.0), (30.0, 15.0))), 1);
    assert_eq!(enters(node, ((0.0, 10.0), (30.0, 10.0))), 0);
    assert_eq!(enters(node, ((0.0, 15.0), (10.0, 15.0))), 0);
    assert_eq!(enters(node, ((0.0, 15.0), (30.0, 16.0))), 2);
    // A node of no width is entered by a run that crosses it.
    assert_eq!(
        enters([10.0, 10.0, 0.0, 10.0], ((0.0, 15.0), (30.0, 15.0))),
        1
    );
}

#[test]
fn push_point_drops_the_middle_of_a_line() {
    let result = made(op::PUSH_POINT, |out| {
        put(out, &[9.0, 0.0]);
        put_points(out, &[(0.0, 0.0), (5.0, 0.0)]);
    });
    assert_eq!(result[..2], [0, 2]);
    assert_eq!(f64s(&result[2..]), [0.0, 0.0, 9.0, 0.0]);
}

#[test]
fn first_point_of_an_input_need_not_be_the_tap() {
    let result = made(op::REWRITE_INPUT_ROUTE, |out| {
        put(out, &[0.0, 0.0, 5e-8]);
        put_points(out, &[(-1.0, 0.0), (10.0, 0.0)]);
    });
    assert_eq!(result[..3], [1, 0, 2]);
    assert_eq!(f64s(&result[3..]), [5e-8, 0.0, 10.0, 0.0]);
}

/// A job with one node of 20 by 20 at (-20, -10) and an east port in its middle, at (0, 0).
fn board() -> Job {
    Job {
        separate: false,
        crossings: false,
        on_grid: false,
        port_stub: 10.0,
        route_lane_gap: 4.0,
        edge_node_clearance: 0.0,
        minimum_parallel_wire_spacing: 0.0,
        member_endpoint_reserve: 0.0,
        tap_visits: 1000,
        geometry_visits: 1000,
        nodes: vec![node(0, -20.0, -10.0, 20.0)],
        ports: vec![port(0, 0, 1)],
        edges: Vec::new(),
        bundles: Vec::new(),
    }
}

fn node(id: u32, x: f64, y: f64, size: f64) -> JobNode {
    JobNode {
        id,
        x,
        y,
        width: size,
        height: size,
    }
}

fn port(node: u32, id: u32, side: u8) -> JobPort {
    JobPort {
        node,
        id,
        side,
        offset: 10.0,
    }
}

fn edge(id: u32, points: &[At]) -> JobEdge {
    JobEdge {
        id,
        source_node: 0,
        source_port: 0,
        target_node: 0,
        target_port: 0,
        points: points.to_vec(),
    }
}

fn bundle(id: u32, role: u8, members: &[(u32, u16)]) -> JobBundle {
    JobBundle {
        id,
        node: 0,
        port: 0,
        role,
        width: members.len() as u32,
        members: members
            .iter()
            .map(|&(edge, lane)| JobMember { edge, lane })
            .collect(),
    }
}

fn on_job(operation: u8, job: &Job) -> Vec<u8> {
    made(operation, |out| out.raw(&job.encode()))
}

#[test]
fn offsets_0_and_12() {
    let mut job = board();
    let run: &[At] = &[(0.0, 0.0), (50.0, 0.0)];
    job.edges = (0..2).map(|id| edge(id, run)).collect();
    job.bundles = vec![bundle(0, INPUT, &[(0, 2)]), bundle(1, INPUT, &[(1, 2)])];
    let result = on_job(op::DEPTH_OFFSETS, &job);
    assert_eq!(result[..3], [0, 0, 2]);
    assert_eq!(f64s(&result[3..]), [0.0, 12.0]);
}

/// Largest input minimum 2^-33, pitch and smallest output maximum 2^20.
fn clamped() -> Job {
    let pitch = 1_048_576.0;
    let mut job = board();
    job.port_stub = 0.0;
    job.route_lane_gap = pitch;
    job.edge_node_clearance = 1.0 / 8_589_934_592.0;
    job.nodes = vec![node(0, -pitch, 0.0, 0.0), node(1, 2.0 * pitch, 0.0, 0.0)];
    job.ports = vec![port(0, 0, 1), port(1, 0, 3)];
    job.edges = (0..2)
        .map(|id| {
            let y = f64::from(id);
            JobEdge {
                target_node: 1,
                ..edge(id, &[(-pitch, y), (2.0 * pitch, y)])
            }
        })
        .collect();
    job.bundles = vec![
        bundle(0, INPUT, &[(0, 0), (1, 0)]),
        JobBundle {
            node: 1,
            ..bundle(1, OUTPUT, &[(0, 0), (1, 0)])
        },
    ];
    job
}

#[test]
fn clamp_of_the_input_split_gives_13() {
    let job = clamped();
    let bounds = made(op::BOUNDS, |out| {
        out.raw(&[0; 18]);
        out.raw(&job.encode());
    });
    assert_eq!(bounds[..4], [0, 0, 2, 1]);
    let input = f64s(&bounds[4..28]);
    let output = f64s(&bounds[29..]);
    assert_eq!(input[0], 1.0 / 8_589_934_592.0);
    assert_eq!(output[2], 1_048_576.0);
    assert_eq!(answer_of(&job.encode()), [0, 0, 0, 2, 1, 13]);
    assert_eq!(compare(&job.encode()), Compared::Refused);
    // The plan comes before the sheet: with no geometry visits it is 13 still.
    let mut spent = clamped();
    spent.geometry_visits = 0;
    assert_eq!(number(&answer_of(&spent.encode())), 13);
}

fn empty_job() -> Vec<u8> {
    let mut job = vec![0, 0, 0, 0x3a, 1, 0];
    job.extend([0; 56]);
    job
}

#[test]
fn the_empty_job_and_its_answer() {
    let mut answer = vec![0, 0, 0, 0x20, 1, 0];
    answer.extend([0; 30]);
    assert_eq!(answer_of(&empty_job()), answer);
}

#[test]
fn stage_writes_the_front_of_the_buffer_only() {
    for (length, written) in [(65_535, 0), (65_536, 36), (65_537, 36)] {
        let mut buffer = vec![0xa5; length];
        assert_eq!(stage(&empty_job(), &mut buffer), written);
        assert!(buffer[written..].iter().all(|&byte| byte == 0xa5));
        let mut buffer = vec![0xa5; length];
        let notice = if written == 0 { 0 } else { 6 };
        assert_eq!(stage(&[], &mut buffer), notice);
        assert!(buffer[notice..].iter().all(|&byte| byte == 0xa5));
    }
}

#[test]
fn slanted_runs() {
    // Of a member: 12 before any visit.
    let mut job = board();
    job.geometry_visits = 0;
    job.edges = vec![edge(0, &[(0.0, 0.0), (60.0, 0.0), (70.0, 5.0)])];
    job.bundles = vec![bundle(0, INPUT, &[(0, 0)])];
    assert_eq!(number(&answer_of(&job.encode())), 12);
    // Elsewhere: 11 after its visit.
    job.edges = vec![edge(0, &[(60.0, 50.0), (70.0, 55.0)])];
    job.bundles = vec![bundle(0, INPUT, &[])];
    assert_eq!(number(&answer_of(&job.encode())), 14);
    job.geometry_visits = 1;
    assert_eq!(number(&answer_of(&job.encode())), 11);
}

#[test]
fn pitch_0_makes_rails_count_as_interior() {
    let mut job = board();
    job.route_lane_gap = 0.0;
    job.edges = vec![edge(0, &[(0.0, 0.0), (60.0, 0.0)])];
    job.bundles = vec![bundle(0, INPUT, &[(0, 0)])];
    let answer = answer_of(&job.encode());
    assert_eq!(number(&answer), 0);
    // Header, node, route of two points, the bundle's id; then its mark.
    assert_eq!(answer[36 + 20 + 6 + 32 + 4], 1);
}

/// Document 02, F-1 and F-2, in the first option of a job: minus zero is plus zero; 15 after 7 at the
/// same number, by place among 4 to 7.
#[test]
fn minus_zero_and_the_drafting_grid() {
    let of = |flags: u8, option: f64, grant: u32| {
        let mut job = empty_job();
        job[5] = flags;
        job[6..14].copy_from_slice(&option.to_be_bytes());
        job[46..50].copy_from_slice(&grant.to_be_bytes());
        number(&answer_of(&job))
    };
    let limit = 1_048_576.0;
    for flags in [0, 4] {
        assert_eq!(of(flags, -0.0, 0), 0);
        assert_eq!(of(flags, limit, 0), 0);
        assert_eq!(of(flags, 3.0 / 64.0, 0), 0);
        // Above an option's limit, below 0, no number.
        for wrong in [limit + 1.0 / 64.0, -1.0 / 128.0, f64::NAN, f64::INFINITY] {
            assert_eq!(of(flags, wrong, u32::MAX), 7);
        }
        let off = if flags == 4 { 15 } else { 0 };
        for value in [1.0 / 128.0, 5e-324, 0.1, limit - 1.0 / 128.0] {
            assert_eq!(of(flags, value, 0), off);
            assert_eq!(of(flags, value, u32::MAX), if off == 0 { 5 } else { 15 });
        }
    }
}

#[test]
fn order_of_refusals() {
    let of = |bytes: &[u8]| number(&answer_of(bytes));
    assert_eq!(of(&[0, 0, 0, 1]), 1);
    assert_eq!(of(&[0, 0, 0, 1, 1, 0]), 1);
    assert_eq!(of(&[0, 0, 0, 1, 2]), 3);
    assert_eq!(of(&[0, 0, 0, 1, 1]), 4);
    // 4 to 7 by place.
    assert_eq!(of(&[0, 0, 0, 2, 1, 8]), 6);
    assert_eq!(of(&[0, 0, 0, 2, 1, 7]), 4);
    let mut job = empty_job();
    job[6..14].copy_from_slice(&f64::NAN.to_bits().to_be_bytes());
    job[46..50].copy_from_slice(&u32::MAX.to_be_bytes());
    assert_eq!(of(&job), 7);
    let mut job = empty_job();
    job[46..50].copy_from_slice(&u32::MAX.to_be_bytes());
    job[54..56].copy_from_slice(&1_u16.to_be_bytes());
    assert_eq!(of(&job), 5);
    // A count at its limit with nothing after it is 4, one more is 5.
    for (at, limit) in [(54, 128_u16), (56, 256), (58, 256), (60, 32)] {
        let mut job = empty_job();
        job[at..at + 2].copy_from_slice(&limit.to_be_bytes());
        assert_eq!(of(&job), 4);
        job[at..at + 2].copy_from_slice(&(limit + 1).to_be_bytes());
        assert_eq!(of(&job), 5);
    }
    // 8 before 9, ports by node and id even if the node is unknown.
    let mut job = board();
    job.ports = vec![port(7, 1, 0)];
    assert_eq!(of(&job.encode()), 9);
    job.ports.push(port(7, 1, 2));
    assert_eq!(of(&job.encode()), 8);
    // Members by role and edge even if the edge is unknown.
    let mut job = board();
    job.bundles = vec![bundle(0, INPUT, &[(5, 0)])];
    assert_eq!(of(&job.encode()), 9);
    job.bundles = vec![bundle(0, INPUT, &[(5, 0), (5, 1)])];
    assert_eq!(of(&job.encode()), 8);
    job.bundles = vec![bundle(0, INPUT, &[(5, 0)]), bundle(1, OUTPUT, &[(5, 0)])];
    assert_eq!(of(&job.encode()), 9);
    // An edge's own ports are not looked up.
    let mut job = board();
    job.edges = vec![JobEdge {
        source_port: 99,
        target_port: 98,
        ..edge(0, &[])
    }];
    assert_eq!(of(&job.encode()), 0);
}

/// min and max keep the first operand where the two are equal.
#[test]
fn equal_zeros() {
    for (left, right) in [(0.0_f64, -0.0_f64), (-0.0, 0.0)] {
        let result = made(op::NUMBERS, |out| put(out, &[left, right]));
        assert_eq!(result[..8], left.to_bits().to_be_bytes());
        assert_eq!(result[8..16], left.to_bits().to_be_bytes());
    }
}
