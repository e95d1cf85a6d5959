//! What lies how on the sheet itself, in its own numbers. A page is held to it.

use std::collections::{BTreeSet, HashMap, HashSet};

use bundle_stage::{Id, Point};

use super::field::Rect;
use super::lanes::push;
use super::ports::{ends, on};
use super::scene::{Scene, corners};
use super::spans::{Span, Way};

/// Two routes by their places, the lower one first.
pub type Two = (usize, usize);

#[derive(Clone, Default)]
pub struct Facts {
    /// How often two routes cross that meet in no other way.
    pub crossed: HashMap<Two, usize>,
    /// The routes that meet otherwise: one lies or ends on the other, or turns there.
    pub met: HashSet<Two>,
    /// For each route, whether its start and its end lie on another one.
    pub ends_on: Vec<(bool, bool)>,
    /// What lies on the side of a node at which it does not end: the place of the route, or behind the routes
    /// that of the bundle, and the place of the node.
    pub on_sides: BTreeSet<(usize, usize)>,
}

impl Facts {
    pub fn of(scene: &Scene) -> Facts {
        let routes = scene.routes.iter();
        let lines = routes.map(|route| straight(&route.points));
        let lines = lines.collect::<Vec<_>>();
        let boxes = lines.iter().map(|line| around(line)).collect::<Vec<_>>();
        let mut facts = Facts {
            on_sides: on_sides(scene),
            ends_on: vec![(false, false); lines.len()],
            ..Facts::default()
        };
        for (i, one) in lines.iter().enumerate() {
            for (j, two) in lines.iter().enumerate() {
                let apart = boxes[i].zip(boxes[j]).map(|(a, b)| a.apart(&b));
                if i == j || apart != Some(0.0) {
                    continue;
                }
                let ends = [one.first(), one.last()];
                let ends = ends.map(|end| end.is_some_and(|end| on(two, *end)));
                facts.ends_on[i].0 |= ends[0];
                facts.ends_on[i].1 |= ends[1];
                if i < j {
                    facts.take((i, j), one, two);
                }
            }
        }
        facts
    }

    fn take(&mut self, pair: Two, one: &[Point], two: &[Point]) {
        match crossings(one, two) {
            Some(0) => {}
            Some(count) => {
                self.crossed.insert(pair, count);
            }
            None => {
                self.met.insert(pair);
            }
        }
    }

    /// How often two routes are to cross on the page, if that is known.
    pub fn due(&self, pair: Two) -> Option<usize> {
        let known = !self.met.contains(&pair);
        known.then(|| self.crossed.get(&pair).copied().unwrap_or_default())
    }
}

/// A route by its corners alone: no point twice in a row, none at which it goes straight on.
fn straight(points: &[Point]) -> Vec<Point> {
    let mut line: Vec<Point> = Vec::new();
    for point in points {
        push(&mut line, *point);
    }
    line
}

/// How often two lines cross, none where they also meet otherwise, or one has a slanted run: what rounding makes
/// of such a crossing is not known.
fn crossings(one: &[Point], two: &[Point]) -> Option<usize> {
    let mut count = 0;
    for a in one.windows(2) {
        for b in two.windows(2) {
            let spans = [a, b].map(|run| {
                let way = Way::of(run[0], run[1])?;
                Some((way, way.span(run[0], run[1])?))
            });
            let [Some((way, a)), Some((other, b))] = spans else {
                return None;
            };
            let (apart, crossed) = if way == other {
                let apart = a.at != b.at || a.high < b.low || b.high < a.low;
                (apart, false)
            } else {
                (!reaches(&a, &b) || !reaches(&b, &a), a.crosses(&b))
            };
            count += usize::from(crossed);
            if !apart && !crossed {
                return None;
            }
        }
    }
    Some(count)
}

/// Whether a line goes up to where one of the other way lies.
fn reaches(one: &Span, other: &Span) -> bool {
    one.low <= other.at && other.at <= one.high
}

fn on_sides(scene: &Scene) -> BTreeSet<(usize, usize)> {
    let mut all = BTreeSet::new();
    for (line, runs) in lines(scene) {
        let nodes = scene.nodes.iter().enumerate();
        let lies = nodes.filter(|(_, node)| {
            let mut runs = runs.iter();
            runs.any(|run| is_beside(*run, corners(node), 0.0))
        });
        let foreign = lies.filter(|(_, node)| !is_of(scene, line, node.id));
        all.extend(foreign.map(|(node, _)| (line, node)));
    }
    all
}

/// Whether a line goes along a side of a box, and no further from it than this.
pub fn is_beside((a, b): (Point, Point), [low, high]: [Point; 2], near: f64) -> bool {
    let Some(way) = Way::of(a, b) else {
        return false;
    };
    let Some(span) = way.span(a, b) else {
        return false;
    };
    let along = span.low < way.along(high) && way.along(low) < span.high;
    let sides = [low, high].map(|side| (way.across(side) - span.at).abs());
    along && sides.iter().any(|far| *far <= near)
}

/// The runs of each route, then the segments of each bundle.
fn lines(scene: &Scene) -> Vec<(usize, Vec<(Point, Point)>)> {
    let routes = scene.routes.iter().map(|route| {
        let runs = route.points.windows(2);
        runs.map(|run| (run[0], run[1])).collect::<Vec<_>>()
    });
    let trunks = scene.trunks.iter().map(|trunk| trunk.parts().to_vec());
    routes.chain(trunks).enumerate().collect()
}

/// Whether a route, or behind the routes a bundle, ends at a port of a node.
pub fn is_of(scene: &Scene, line: usize, node: Id) -> bool {
    match scene.routes.get(line) {
        Some(route) => {
            let mut ports = scene.ports.iter().filter(|port| port.name.node == node);
            ports.any(|port| ends(scene, route, port.name))
        }
        None => scene.trunks[line - scene.routes.len()].endpoint.node == node,
    }
}

fn around(line: &[Point]) -> Option<Rect> {
    let boxes = line.iter().map(|at| Rect::of(*at, *at, 0.0));
    boxes.reduce(|one, two| {
        let Point { x, y } = one.low;
        let low = Point {
            x: x.min(two.low.x),
            y: y.min(two.low.y),
        };
        let Point { x, y } = one.high;
        let high = Point {
            x: x.max(two.high.x),
            y: y.max(two.high.y),
        };
        Rect { low, high }
    })
}

/// The place of a stroke's route, or behind the routes that of its bundle, which has two strokes.
pub fn line_of(scene: &Scene, stroke: usize) -> usize {
    let routes = scene.routes.len();
    match stroke.checked_sub(routes) {
        Some(behind) => routes + behind / 2,
        None => stroke,
    }
}

#[cfg(test)]
mod tests {
    use super::{Point, crossings, straight};

    fn line(points: &[(f64, f64)]) -> Vec<Point> {
        let points = points.iter().map(|&(x, y)| Point { x, y });
        straight(&points.collect::<Vec<_>>())
    }

    #[test]
    fn how_two_lines_meet() {
        let upright = line(&[(5.0, 0.0), (5.0, 4.0), (5.0, 4.0), (5.0, 10.0)]);
        assert_eq!(upright.len(), 2);
        for (other, due) in [
            (&[(0.0, 4.0), (10.0, 4.0)][..], Some(1)),
            (
                &[(0.0, 4.0), (5.0 + 1e-12, 4.0), (5.0 + 1e-12, 20.0)],
                Some(1),
            ),
            (
                &[(0.0, 4.0), (5.0 - 1e-12, 4.0), (5.0 - 1e-12, 20.0)],
                Some(0),
            ),
            (&[(0.0, 4.0), (5.0, 4.0), (5.0, 20.0)], None),
            (&[(0.0, 4.0), (5.0, 4.0)], None),
            (&[(0.0, 10.0), (10.0, 10.0)], None),
            (&[(0.0, 0.0), (10.0, 10.0)], None),
            (&[(0.0, 2.0), (9.0, 2.0), (9.0, 7.0), (1.0, 7.0)], Some(2)),
        ] {
            assert_eq!(crossings(&upright, &line(other)), due, "{other:?}");
            assert_eq!(crossings(&line(other), &upright), due, "{other:?}");
        }
    }
}
