//! How thick lines are.

use super::scene::Scene;
use super::spans::{Way, low, room};

/// Widths of lines, and the sizes of dots and ports, in millimetres.
pub struct Pens {
    pub route: f64,
    pub trunk: f64,
    /// The radius of a tap's dot.
    pub dot: f64,
    /// The side of a port's square.
    pub port: f64,
    /// The frame of a node.
    pub node: f64,
}

/// No trunk is thicker, in millimetres.
pub const HEAVIEST: f64 = 1.1;

impl Pens {
    /// As wide as the lines and taps that are near each other allow.
    pub fn of(scene: &Scene) -> Pens {
        let lines = scene.lines();
        let all = Way::BOTH.map(|way| (way, way.spans(&lines)));
        let near = 0.05;
        let rooms = all.iter().flat_map(|(_, spans)| {
            let rooms = spans.iter().map(|span| room(span, spans, near));
            rooms.collect::<Vec<_>>()
        });
        let route = 0.3 * low(rooms.collect(), 4).unwrap_or(f64::INFINITY);
        let beside = scene.trunks.iter().flat_map(|trunk| {
            let spans = all.iter().flat_map(|(way, spans)| {
                let parts = [trunk.spine, trunk.collector];
                let parts = parts.map(|part| way.span(part.start, part.end));
                parts
                    .into_iter()
                    .flatten()
                    .map(|span| room(&span, spans, near))
            });
            spans.collect::<Vec<_>>()
        });
        let trunk = 0.45 * low(beside.collect(), 10).unwrap_or(f64::INFINITY);
        let between = scene.trunks.iter().flat_map(|trunk| {
            let mut taps = trunk.taps.iter().map(|tap| tap.at.y).collect::<Vec<_>>();
            taps.sort_by(f64::total_cmp);
            let between = taps.windows(2).map(|pair| pair[1] - pair[0]);
            between.filter(|gap| *gap > near).collect::<Vec<_>>()
        });
        let dot = 0.42 * low(between.collect(), 10).unwrap_or(f64::INFINITY);
        let sides = scene.nodes.iter().map(|node| node.width.min(node.height));
        let side = low(sides.collect(), 4).unwrap_or(0.0);
        let route = route.clamp(0.12, 0.35);
        let trunk = trunk.clamp(2.5 * route, HEAVIEST);
        Pens {
            route,
            trunk,
            dot: dot.clamp(0.75 * trunk, 0.95 * trunk),
            port: (0.8 * side).clamp(0.6, 3.6 * route.max(0.17)),
            node: (0.2 * side).clamp(0.15, 0.4),
        }
    }
}
