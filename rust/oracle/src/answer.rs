//! The answer's writer: document 01, section "The answer", and the notice of a refusal.

use crate::records::{Layout, Point};
use crate::wire::Writer;

/// 00 00 00 02 01 and the number.
pub fn notice(number: u8) -> Vec<u8> {
    vec![0, 0, 0, 2, 1, number]
}

/// The bytes of a sheet; `interior` has the mark of each bundle.
pub(crate) fn write(
    layout: &Layout,
    interior: &[bool],
    tap_visits: u32,
    geometry_visits: u32,
) -> Vec<u8> {
    let mut out = Writer::new();
    out.u32(0);
    out.u8(1);
    out.u8(0);
    out.u32(tap_visits);
    out.u32(geometry_visits);
    out.f64(layout.width);
    out.f64(layout.height);
    out.count(layout.nodes.len());
    out.count(layout.edges.len());
    out.count(layout.boundary_bundles.len());
    for node in &layout.nodes {
        out.u32(node.id);
        out.f64(node.x);
        out.f64(node.y);
    }
    for route in &layout.edges {
        out.u32(route.id);
        out.count(route.points.len());
        for &at in &route.points {
            point(&mut out, at);
        }
    }
    for (bundle, &interior) in layout.boundary_bundles.iter().zip(interior) {
        out.u32(bundle.id);
        out.u8(u8::from(interior));
        for at in [
            bundle.collector.start,
            bundle.collector.end,
            bundle.spine.start,
            bundle.spine.end,
        ] {
            point(&mut out, at);
        }
        out.count(bundle.members.len());
        for member in &bundle.members {
            out.u32(member.edge);
            point(&mut out, member.tap);
        }
    }
    out.set_length();
    out.bytes
}

pub(crate) fn point(out: &mut Writer, at: Point) {
    out.f64(at.x);
    out.f64(at.y);
}
