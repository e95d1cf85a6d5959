//! Inner results: one record in, one record out. README.md has the table of operations.

use crate::answer;
use crate::board::{self, Board};
use crate::job::{self, Job};
use crate::kinds;
use crate::patched::harness::{self, Bounds, Entered, Lone, Promoted, Ranged, leaf};
use crate::records::{
    BoundaryBundleGeometry, BoundaryBundleRole, BoundaryBundleSegment, LayoutOptions, NodeGeometry,
    Point, Port,
};
use crate::stage;
use crate::wire::{Reader, Short, Writer};

/// The operations, by the first byte of a record.
pub mod op {
    pub const STRETCH: u8 = 0x01;
    pub const CONTACT: u8 = 0x02;
    pub const SPACING: u8 = 0x03;
    pub const INTERIOR: u8 = 0x04;
    pub const PORT_POINT: u8 = 0x05;
    pub const VERTICAL_LINE: u8 = 0x06;
    pub const TRUNK: u8 = 0x07;
    pub const SAME_PLACE: u8 = 0x08;
    pub const PITCH_AND_RAIL: u8 = 0x09;
    pub const SEPARATED: u8 = 0x0a;
    pub const OVERLAP: u8 = 0x0b;
    pub const NUMBERS: u8 = 0x0c;
    pub const KIND: u8 = 0x0d;

    pub const PUSH_POINT: u8 = 0x10;
    pub const FIRST_VERTICAL_LINE: u8 = 0x11;
    pub const LAST_VERTICAL_LINE: u8 = 0x12;
    pub const FIRST_TRUNK: u8 = 0x13;
    pub const LAST_TRUNK: u8 = 0x14;
    pub const REWRITE_INPUT_SHARED_TRUNK: u8 = 0x15;
    pub const REWRITE_OUTPUT_SHARED_TRUNK: u8 = 0x16;
    pub const REWRITE_INPUT_ROUTE: u8 = 0x17;
    pub const REWRITE_OUTPUT_ROUTE: u8 = 0x18;
    pub const PUSH_ALL: u8 = 0x19;

    pub const SEARCH: u8 = 0x20;
    pub const COMMON: u8 = 0x21;
    pub const PROMOTION: u8 = 0x22;

    pub const READ: u8 = 0x30;
    pub const DEPTH_OFFSETS: u8 = 0x31;
    pub const CORRIDORS: u8 = 0x32;
    pub const BOUNDS: u8 = 0x33;
    pub const RANGES: u8 = 0x34;
    pub const PLAN: u8 = 0x35;
    pub const BOARD_PROMOTION: u8 = 0x36;
    pub const REQUIRED: u8 = 0x37;
    pub const BUILD: u8 = 0x38;
    pub const SHEET: u8 = 0x39;
    pub const SUFFICIENT: u8 = 0x3a;
    pub const PLANNING: u8 = 0x3b;
    pub const EVENTS: u8 = 0x3c;

    pub const STAGE: u8 = 0x40;
}

/// Why a record is none.
#[derive(Clone, Copy, Debug, Eq, PartialEq)]
pub enum Malformed {
    Short,
    Left(usize),
    Operation(u8),
    Value(u8),
}

impl From<Short> for Malformed {
    fn from(_: Short) -> Self {
        Malformed::Short
    }
}

type Made = Result<(), Malformed>;

/// The result of one record.
pub fn call(record: &[u8]) -> Result<Vec<u8>, Malformed> {
    let mut from = Reader::new(record);
    let mut out = Writer::new();
    let operation = from.u8()?;
    match operation {
        0x00..=0x0f => geometry(operation, &mut from, &mut out)?,
        0x10..=0x1f => route(operation, &mut from, &mut out)?,
        0x20..=0x2f => search(operation, &mut from, &mut out)?,
        _ => on_job(operation, &mut from, &mut out)?,
    }
    match from.left() {
        0 => Ok(out.bytes),
        left => Err(Malformed::Left(left)),
    }
}

fn geometry(operation: u8, from: &mut Reader<'_>, out: &mut Writer) -> Made {
    match operation {
        op::STRETCH => {
            let role = role(from)?;
            let (start, end) = run(from)?;
            match leaf::stretch(start, end, role, from.f64()?) {
                Some((low, high)) => {
                    out.u8(1);
                    out.f64(low);
                    out.f64(high);
                }
                None => out.u8(0),
            }
        }
        op::CONTACT => {
            let bus = segment(from)?;
            let (start, end) = run(from)?;
            let has_tap = mark(from)?;
            let tap = point(from)?;
            let crossings = mark(from)?;
            let contact = leaf::contact(bus, start, end, has_tap.then_some(tap), crossings);
            out.u8(u8::from(contact));
        }
        op::SPACING => {
            let left = segment(from)?;
            let right = segment(from)?;
            out.u8(u8::from(leaf::too_close(left, right, from.f64()?)));
        }
        op::INTERIOR => {
            let node = node(from)?;
            let (start, end) = run(from)?;
            out.u8(match harness::enters(node, start, end) {
                Entered::No => 0,
                Entered::Yes => 1,
                Entered::Slanted => 2,
            });
        }
        op::PORT_POINT => {
            let node = node(from)?;
            let side = from.u8()?;
            if side > 3 {
                return Err(Malformed::Value(side));
            }
            let port = Port {
                id: 0,
                side: board::side(side),
                offset: from.f64()?,
            };
            answer::point(out, leaf::port_point(&node, &port));
        }
        op::VERTICAL_LINE => {
            let (start, end) = run(from)?;
            let x = from.f64()?;
            let prefer_end = mark(from)?;
            maybe_point(out, leaf::vertical_line(start, end, x, prefer_end));
        }
        op::TRUNK => {
            let role = role(from)?;
            let (start, end) = run(from)?;
            let x = from.f64()?;
            let length = from.f64()?;
            maybe_point(out, leaf::trunk(start, end, x, role, length));
        }
        op::SAME_PLACE => {
            let (left, right) = run(from)?;
            out.u8(u8::from(leaf::same_place(left, right)));
        }
        op::PITCH_AND_RAIL => {
            let options = LayoutOptions {
                layer_gap: 0.0,
                node_gap: 0.0,
                port_stub: from.f64()?,
                route_lane_gap: from.f64()?,
                edge_node_clearance: from.f64()?,
                minimum_parallel_wire_spacing: from.f64()?,
                max_quality_area_factor: 0.0,
                max_quality_route_length_factor: 0.0,
                ordering_sweeps: 0,
            };
            out.f64(harness::pitch(options));
            out.f64(crate::boundary_bundle_rail_depth(options));
        }
        op::SEPARATED => {
            let candidate = from.f64()?;
            let pitch = from.f64()?;
            let count = from.u16()?;
            let used = (0..count)
                .map(|_| from.f64())
                .collect::<Result<Vec<_>, _>>()?;
            out.u8(u8::from(leaf::separated(candidate, &used, pitch)));
        }
        op::OVERLAP => {
            let (left, right) = run(from)?;
            out.u8(u8::from(leaf::overlap(left.x, left.y, right.x, right.y)));
        }
        op::NUMBERS => {
            let (left, right) = (from.f64()?, from.f64()?);
            out.f64(left.min(right));
            out.f64(left.max(right));
            out.f64(left.abs());
            out.f64(left + right);
            out.f64(left - right);
            out.f64(left * right);
            out.f64(left / 2.0);
            out.u8(match left.total_cmp(&right) {
                std::cmp::Ordering::Less => 0,
                std::cmp::Ordering::Equal => 1,
                std::cmp::Ordering::Greater => 2,
            });
        }
        op::KIND => {
            let bus = segment(from)?;
            let (start, end) = run(from)?;
            let has_tap = mark(from)?;
            let tap = point(from)?;
            let (number, place) = kinds::kind(bus, start, end, has_tap.then_some(tap))
                .ok_or(Malformed::Value(operation))?;
            out.u8(number);
            if let Some(place) = place {
                answer::point(out, place);
            }
        }
        other => return Err(Malformed::Operation(other)),
    }
    Ok(())
}

fn route(operation: u8, from: &mut Reader<'_>, out: &mut Writer) -> Made {
    match operation {
        op::PUSH_POINT => {
            let pushed = point(from)?;
            let mut points = points(from)?;
            leaf::push_point(&mut points, pushed);
            write_points(out, &points);
        }
        op::PUSH_ALL => {
            let mut made = Vec::new();
            for pushed in points(from)? {
                leaf::push_point(&mut made, pushed);
            }
            write_points(out, &made);
        }
        op::FIRST_VERTICAL_LINE | op::LAST_VERTICAL_LINE => {
            let x = from.f64()?;
            let points = points(from)?;
            let found = match operation {
                op::FIRST_VERTICAL_LINE => leaf::first_vertical_line(&points, x),
                _ => leaf::last_vertical_line(&points, x),
            };
            maybe_segment(out, found);
        }
        op::FIRST_TRUNK | op::LAST_TRUNK => {
            let role = role(from)?;
            let x = from.f64()?;
            let length = from.f64()?;
            let points = points(from)?;
            let found = match operation {
                op::FIRST_TRUNK => leaf::first_trunk(&points, x, role, length),
                _ => leaf::last_trunk(&points, x, role, length),
            };
            maybe_segment(out, found);
        }
        op::REWRITE_INPUT_SHARED_TRUNK
        | op::REWRITE_OUTPUT_SHARED_TRUNK
        | op::REWRITE_INPUT_ROUTE
        | op::REWRITE_OUTPUT_ROUTE => {
            let tap = point(from)?;
            let length = from.f64()?;
            let points = points(from)?;
            let made = match operation {
                op::REWRITE_INPUT_SHARED_TRUNK => {
                    leaf::rewrite_input_shared_trunk(&points, tap, length)
                }
                op::REWRITE_OUTPUT_SHARED_TRUNK => {
                    leaf::rewrite_output_shared_trunk(&points, tap, length)
                }
                op::REWRITE_INPUT_ROUTE => leaf::rewrite_input_route(&points, tap, length),
                _ => leaf::rewrite_output_route(&points, tap, length),
            };
            match made {
                Some(points) => {
                    out.u8(1);
                    write_points(out, &points);
                }
                None => out.u8(0),
            }
        }
        other => return Err(Malformed::Operation(other)),
    }
    Ok(())
}

/// The numbers lent to a public entry: minus zero is taken as plus zero (document 02, F-1).
fn search(operation: u8, from: &mut Reader<'_>, out: &mut Writer) -> Made {
    let role = role(from)?;
    let pitch = lent(from)?;
    let present = match operation {
        op::PROMOTION => mark(from)?,
        _ => true,
    };
    let bounds = Bounds {
        minimum: lent(from)?,
        desired: lent(from)?,
        maximum: lent(from)?,
    };
    let mut visits = from.u32()? as usize;
    let members = from.u16()?;
    let routes = (0..members)
        .map(|_| lent_points(from))
        .collect::<Result<Vec<_>, _>>()?;
    let lone = Lone {
        role,
        pitch,
        routes,
    };
    match operation {
        op::SEARCH | op::COMMON => {
            let list = lone.common(bounds, &mut visits);
            out.u8(match &list {
                None => 2,
                Some(list) if list.is_empty() => 0,
                Some(_) => 1,
            });
            out.u32(visits as u32);
            if let Some(list) = list {
                if operation == op::COMMON {
                    write_numbers(out, &list);
                } else if let Some(&x) = list.first() {
                    out.f64(x);
                }
            }
        }
        op::PROMOTION => {
            let promoted = lone.promotion(present.then_some(bounds), &mut visits);
            write_promoted_tag(out, &promoted);
            out.u32(visits as u32);
            write_promoted_list(out, &promoted);
        }
        other => return Err(Malformed::Operation(other)),
    }
    Ok(())
}

/// Operations on a job. A job that the reader refuses gives its number alone.
fn on_job(operation: u8, from: &mut Reader<'_>, out: &mut Writer) -> Made {
    let limits = match operation {
        op::BOUNDS | op::RANGES => Some(limits(from)?),
        _ => None,
    };
    let bytes = match operation {
        // The plan stands after the job, so the job's own length says where it ends.
        op::REQUIRED | op::BUILD | op::SHEET => own_length(from)?,
        _ => from.rest(),
    };
    if operation == op::STAGE {
        out.raw(&stage::answer_of(bytes));
        return Ok(());
    }
    let job = match job::read(bytes) {
        Ok(job) => job,
        Err(number) => {
            from.rest();
            out.u8(number);
            return Ok(());
        }
    };
    let board = Board::new(&job);
    match operation {
        op::READ => {
            out.u8(0);
            write_board(out, &job);
        }
        op::DEPTH_OFFSETS => {
            out.u8(0);
            write_offsets(out, &board);
        }
        op::CORRIDORS => {
            out.u8(0);
            write_corridors(out, &board);
        }
        op::BOUNDS => {
            let (lower, upper) = limits.expect("read above");
            out.u8(0);
            write_bounds(out, &board, lower, upper);
        }
        op::RANGES => {
            let (lower, upper) = limits.expect("read above");
            out.u8(0);
            write_ranges(out, &board, lower, upper);
        }
        op::PLAN => write_plan(out, &board),
        op::BOARD_PROMOTION => {
            out.u8(0);
            write_board_promotion(out, &board);
        }
        op::REQUIRED => {
            let planned = planned(from, board.bundle_count())?;
            out.u8(0);
            write_required(out, &board, &planned);
        }
        op::BUILD => {
            let planned = planned(from, board.bundle_count())?;
            out.u8(0);
            write_built(out, &board, &planned);
        }
        op::SHEET => {
            let planned = planned(from, board.bundle_count())?;
            write_sheet(out, &board, &planned);
        }
        op::SUFFICIENT => write_sufficient(out, &board),
        op::EVENTS => write_events(out, &board),
        op::PLANNING => {
            out.u8(0);
            write_offsets(out, &board);
            write_corridors(out, &board);
            write_bounds(out, &board, f64::NEG_INFINITY, f64::INFINITY);
            write_plan(out, &board);
        }
        other => return Err(Malformed::Operation(other)),
    }
    Ok(())
}

fn own_length<'a>(from: &mut Reader<'a>) -> Result<&'a [u8], Malformed> {
    let whole = from.rest();
    let length = Reader::new(whole).u32()? as usize;
    let end = length.checked_add(4).ok_or(Malformed::Short)?;
    let job = whole.get(..end).ok_or(Malformed::Short)?;
    *from = Reader::new(&whole[end..]);
    Ok(job)
}

/// No bound is the Rust's infinity.
fn limits(from: &mut Reader<'_>) -> Result<(f64, f64), Malformed> {
    let lower = (mark(from)?, from.f64()?);
    let upper = (mark(from)?, from.f64()?);
    Ok((
        if lower.0 { lower.1 } else { f64::NEG_INFINITY },
        if upper.0 { upper.1 } else { f64::INFINITY },
    ))
}

fn planned(from: &mut Reader<'_>, bundles: usize) -> Result<Vec<Option<f64>>, Malformed> {
    (0..bundles)
        .map(|_| {
            let present = mark(from)?;
            let x = from.f64()?;
            Ok(present.then_some(x))
        })
        .collect()
}

fn write_offsets(out: &mut Writer, board: &Board) {
    let graph = board.graph();
    write_numbers(out, board.prepare(&graph).offsets());
}

fn write_corridors(out: &mut Writer, board: &Board) {
    let graph = board.graph();
    let prepared = board.prepare(&graph);
    out.count(board.bundle_count());
    for bundle in 0..board.bundle_count() {
        write_numbers(out, &prepared.corridors(bundle));
    }
}

fn write_bounds(out: &mut Writer, board: &Board, lower: f64, upper: f64) {
    let graph = board.graph();
    let prepared = board.prepare(&graph);
    out.count(board.bundle_count());
    for bundle in 0..board.bundle_count() {
        match prepared.bounds(bundle, &board.routes, lower, upper) {
            Some(bounds) => {
                out.u8(1);
                write_three(out, bounds);
            }
            None => out.u8(0),
        }
    }
}

fn write_three(out: &mut Writer, bounds: Bounds) {
    out.f64(bounds.minimum);
    out.f64(bounds.desired);
    out.f64(bounds.maximum);
}

fn write_ranges(out: &mut Writer, board: &Board, lower: f64, upper: f64) {
    let graph = board.graph();
    let prepared = board.prepare(&graph);
    let mut visits = board.tap_visits as usize;
    out.count(board.bundle_count());
    for bundle in 0..board.bundle_count() {
        match prepared.range(bundle, &board.routes, lower, upper, &mut visits) {
            Ranged::Nothing => out.u8(0),
            Ranged::Found(bounds) => {
                out.u8(1);
                write_three(out, bounds);
            }
            Ranged::Spent => out.u8(2),
            Ranged::Absent => out.u8(3),
        }
    }
    out.u32(visits as u32);
}

fn write_plan(out: &mut Writer, board: &Board) {
    let graph = board.graph();
    let prepared = board.prepare(&graph);
    let mut visits = board.tap_visits as usize;
    let Some(planned) = prepared.plan(&board.routes, board.separate, &mut visits) else {
        out.u8(13);
        return;
    };
    out.u8(0);
    out.count(planned.len());
    for x in planned {
        maybe_number(out, x);
    }
    out.u32(visits as u32);
}

fn write_sufficient(out: &mut Writer, board: &Board) {
    let graph = board.graph();
    let prepared = board.prepare(&graph);
    match prepared.sufficient(&board.routes, board.separate) {
        Some(sufficient) => {
            out.u8(0);
            out.u32(sufficient.searches as u32);
            out.u64(sufficient.sum);
            out.u64(sufficient.visits);
        }
        None => out.u8(13),
    }
}

fn write_events(out: &mut Writer, board: &Board) {
    let graph = board.graph();
    let visits = board.tap_visits as usize;
    match board
        .prepare(&graph)
        .events(&board.routes, board.separate, visits)
    {
        Some(counts) => {
            out.u8(0);
            for count in counts {
                out.u16(count as u16);
            }
        }
        None => out.u8(13),
    }
}

fn write_board_promotion(out: &mut Writer, board: &Board) {
    let graph = board.graph();
    let prepared = board.prepare(&graph);
    let mut visits = board.tap_visits as usize;
    out.count(board.bundle_count());
    for bundle in 0..board.bundle_count() {
        let promoted = prepared.promotion(bundle, &board.routes, &mut visits);
        write_promoted_tag(out, &promoted);
        write_promoted_list(out, &promoted);
    }
    out.u32(visits as u32);
}

fn write_promoted_tag(out: &mut Writer, promoted: &Promoted) {
    out.u8(match promoted {
        Promoted::Nothing => 0,
        Promoted::Kept(_) => 1,
        Promoted::Spent => 2,
        Promoted::Absent => 3,
        Promoted::SecondSpent(_) => 4,
    });
}

fn write_promoted_list(out: &mut Writer, promoted: &Promoted) {
    if let Promoted::Kept(list) | Promoted::SecondSpent(list) = promoted {
        write_numbers(out, list);
    }
}

fn write_required(out: &mut Writer, board: &Board, planned: &[Option<f64>]) {
    let graph = board.graph();
    let prepared = board.prepare(&graph);
    out.count(planned.len());
    for (bundle, x) in planned.iter().enumerate() {
        maybe_number(
            out,
            x.and_then(|x| prepared.divergence(bundle, &board.routes, x)),
        );
    }
    let inputs = (0..planned.len())
        .filter(|&bundle| board.is_input(bundle))
        .collect::<Vec<_>>();
    maybe_number(out, prepared.required(&board.routes, &inputs, planned));
}

fn write_built(out: &mut Writer, board: &Board, planned: &[Option<f64>]) {
    let graph = board.graph();
    let prepared = board.prepare(&graph);
    out.count(planned.len());
    for (bundle, &x) in planned.iter().enumerate() {
        write_drawn(out, &prepared.build(bundle, &board.routes, x));
    }
}

fn write_drawn(out: &mut Writer, geometry: &BoundaryBundleGeometry) {
    for at in [
        geometry.collector.start,
        geometry.collector.end,
        geometry.spine.start,
        geometry.spine.end,
    ] {
        answer::point(out, at);
    }
    out.count(geometry.members.len());
    for member in &geometry.members {
        answer::point(out, member.tap);
    }
}

fn write_sheet(out: &mut Writer, board: &Board, planned: &[Option<f64>]) {
    let graph = board.graph();
    let prepared = board.prepare(&graph);
    let mut visits = board.geometry_visits as usize;
    let mut layout = board.layout();
    match stage::draw(board, &prepared, planned, &mut layout, &mut visits) {
        Ok(interior) => {
            out.u8(0);
            out.count(planned.len());
            out.u32(visits as u32);
            out.raw(&answer::write(
                &layout,
                &interior,
                board.tap_visits,
                visits as u32,
            ));
            harness::normalize(&mut layout);
            out.raw(&answer::write(
                &layout,
                &interior,
                board.tap_visits,
                visits as u32,
            ));
        }
        Err(refused) => {
            out.u8(refused.number);
            out.count(refused.bundle);
            out.u32(visits as u32);
        }
    }
}

/// The read job with every id that is looked up as a place in its table.
fn write_board(out: &mut Writer, job: &Job) {
    let node = |id: u32| place(job.nodes.iter().position(|row| row.id == id));
    let port = |of: u32, id: u32| {
        place(
            job.ports
                .iter()
                .position(|row| row.node == of && row.id == id),
        )
    };
    let edge = |id: u32| place(job.edges.iter().position(|row| row.id == id));
    out.u8(job.flags());
    for option in job.options() {
        out.f64(option);
    }
    out.u32(job.tap_visits);
    out.u32(job.geometry_visits);
    out.count(job.nodes.len());
    out.count(job.ports.len());
    out.count(job.edges.len());
    out.count(job.bundles.len());
    for row in &job.nodes {
        out.u32(row.id);
        for value in [row.x, row.y, row.width, row.height] {
            out.f64(value);
        }
    }
    for row in &job.ports {
        out.u16(node(row.node));
        out.u8(row.side);
        out.f64(row.offset);
    }
    for row in &job.edges {
        out.u32(row.id);
        out.u16(node(row.source_node));
        out.u16(node(row.target_node));
        out.count(row.points.len());
        for &(x, y) in &row.points {
            out.f64(x);
            out.f64(y);
        }
    }
    for row in &job.bundles {
        out.u32(row.id);
        out.u16(node(row.node));
        out.u16(port(row.node, row.port));
        out.u8(row.role);
        out.u32(row.width);
        out.count(row.members.len());
        for member in &row.members {
            out.u16(edge(member.edge));
            out.u16(member.lane);
        }
    }
}

fn place(position: Option<usize>) -> u16 {
    position.expect("the reader has looked every id up") as u16
}

fn role(from: &mut Reader<'_>) -> Result<BoundaryBundleRole, Malformed> {
    match from.u8()? {
        value @ (0 | 1) => Ok(board::role(value)),
        other => Err(Malformed::Value(other)),
    }
}

fn mark(from: &mut Reader<'_>) -> Result<bool, Malformed> {
    match from.u8()? {
        0 => Ok(false),
        1 => Ok(true),
        other => Err(Malformed::Value(other)),
    }
}

fn point(from: &mut Reader<'_>) -> Result<Point, Malformed> {
    Ok(Point {
        x: from.f64()?,
        y: from.f64()?,
    })
}

fn run(from: &mut Reader<'_>) -> Result<(Point, Point), Malformed> {
    Ok((point(from)?, point(from)?))
}

fn segment(from: &mut Reader<'_>) -> Result<BoundaryBundleSegment, Malformed> {
    let (start, end) = run(from)?;
    Ok(BoundaryBundleSegment { start, end })
}

fn node(from: &mut Reader<'_>) -> Result<NodeGeometry, Malformed> {
    Ok(NodeGeometry {
        id: 0,
        x: from.f64()?,
        y: from.f64()?,
        width: from.f64()?,
        height: from.f64()?,
    })
}

fn points(from: &mut Reader<'_>) -> Result<Vec<Point>, Malformed> {
    let count = from.u16()?;
    (0..count).map(|_| point(from)).collect()
}

fn lent(from: &mut Reader<'_>) -> Result<f64, Malformed> {
    Ok(job::plus(from.f64()?))
}

fn lent_points(from: &mut Reader<'_>) -> Result<Vec<Point>, Malformed> {
    let mut points = points(from)?;
    for at in &mut points {
        *at = Point {
            x: job::plus(at.x),
            y: job::plus(at.y),
        };
    }
    Ok(points)
}

fn write_points(out: &mut Writer, points: &[Point]) {
    out.count(points.len());
    for &at in points {
        answer::point(out, at);
    }
}

fn write_numbers(out: &mut Writer, numbers: &[f64]) {
    out.count(numbers.len());
    for &number in numbers {
        out.f64(number);
    }
}

fn maybe_number(out: &mut Writer, number: Option<f64>) {
    match number {
        Some(number) => {
            out.u8(1);
            out.f64(number);
        }
        None => out.u8(0),
    }
}

fn maybe_point(out: &mut Writer, at: Option<Point>) {
    match at {
        Some(at) => {
            out.u8(1);
            answer::point(out, at);
        }
        None => out.u8(0),
    }
}

fn maybe_segment(out: &mut Writer, found: Option<(usize, Point)>) {
    match found {
        Some((segment, at)) => {
            out.u8(1);
            out.count(segment);
            answer::point(out, at);
        }
        None => out.u8(0),
    }
}
