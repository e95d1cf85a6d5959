//! A job and its answer as text, for reading.

use std::fmt::Write;

use crate::job::{self, Job};
use crate::stage::{answer_of, number};
use crate::wire::{Reader, Short};

/// The job's tables and its answer, one row a line.
pub fn show(bytes: &[u8]) -> String {
    let mut text = String::new();
    match job::read(bytes) {
        Ok(job) => show_job(&mut text, &job),
        Err(number) => writeln!(text, "job of {} bytes: {number}", bytes.len()).expect("text"),
    }
    let answer = answer_of(bytes);
    match number(&answer) {
        0 => show_answer(&mut text, &answer).expect("the answer is whole"),
        number => writeln!(text, "number {number}").expect("text"),
    }
    text
}

fn show_job(text: &mut String, job: &Job) {
    let mut line = |words: String| {
        text.push_str(&words);
        text.push('\n');
    };
    line(format!(
        "job separate {} crossings {} grid {} stub {} gap {} clearance {} spacing {} reserve {} grants {} {}",
        job.separate,
        job.crossings,
        job.on_grid,
        job.port_stub,
        job.route_lane_gap,
        job.edge_node_clearance,
        job.minimum_parallel_wire_spacing,
        job.member_endpoint_reserve,
        job.tap_visits,
        job.geometry_visits
    ));
    for row in &job.nodes {
        line(format!(
            "node {} at {} {} size {} {}",
            row.id, row.x, row.y, row.width, row.height
        ));
    }
    for row in &job.ports {
        let side = ["north", "east", "south", "west"][usize::from(row.side)];
        line(format!(
            "port {}:{} {side} {}",
            row.node, row.id, row.offset
        ));
    }
    for row in &job.edges {
        let points = points(row.points.iter().copied());
        line(format!(
            "edge {} {}:{} {}:{}{points}",
            row.id, row.source_node, row.source_port, row.target_node, row.target_port
        ));
    }
    for row in &job.bundles {
        let role = ["input", "output"][usize::from(row.role)];
        let members = row
            .members
            .iter()
            .map(|member| format!(" {}@{}", member.edge, member.lane))
            .collect::<String>();
        line(format!(
            "bundle {} {}:{} {role} width {}{members}",
            row.id, row.node, row.port, row.width
        ));
    }
}

fn points(list: impl Iterator<Item = (f64, f64)>) -> String {
    list.map(|(x, y)| format!(" ({x},{y})")).collect()
}

fn show_answer(text: &mut String, answer: &[u8]) -> Result<(), Short> {
    let mut from = Reader::new(answer);
    from.take(6)?;
    let (tap, geometry) = (from.u32()?, from.u32()?);
    let (width, height) = (from.f64()?, from.f64()?);
    let (nodes, routes, bundles) = (from.u16()?, from.u16()?, from.u16()?);
    let mut line = |words: String| {
        text.push_str(&words);
        text.push('\n');
    };
    line(format!(
        "answer visits left {tap} {geometry} size {width} {height}"
    ));
    for _ in 0..nodes {
        line(format!(
            "node {} at {} {}",
            from.u32()?,
            from.f64()?,
            from.f64()?
        ));
    }
    for _ in 0..routes {
        let id = from.u32()?;
        let count = from.u16()?;
        let list = (0..count)
            .map(|_| Ok((from.f64()?, from.f64()?)))
            .collect::<Result<Vec<_>, _>>()?;
        line(format!("route {id}{}", points(list.into_iter())));
    }
    for _ in 0..bundles {
        let id = from.u32()?;
        let mark = if from.u8()? == 1 { "interior" } else { "rail" };
        let ends = (0..4)
            .map(|_| Ok((from.f64()?, from.f64()?)))
            .collect::<Result<Vec<_>, Short>>()?;
        let count = from.u16()?;
        let taps = (0..count)
            .map(|_| {
                Ok(format!(
                    " {}@({},{})",
                    from.u32()?,
                    from.f64()?,
                    from.f64()?
                ))
            })
            .collect::<Result<String, Short>>()?;
        line(format!(
            "bundle {id} {mark} collector{} spine{} taps{taps}",
            points(ends[..2].iter().copied()),
            points(ends[2..].iter().copied())
        ));
    }
    Ok(())
}
