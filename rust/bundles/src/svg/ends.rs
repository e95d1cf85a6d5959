//! Ends of routes on other routes: each is cut, so that it does not look like a joint.

use bundle_stage::{Endpoint, Point};

use super::lanes::NO_STEP;
use super::scene::Scene;
use super::stroke::{NO_END, Piece, apart};

/// For each route, whether its start and its end stay where they are: at its tap or at its port they are joined.
pub fn held(scene: &Scene) -> Vec<(bool, bool)> {
    let at = |end: Option<&Point>, name: Endpoint| {
        let mut ports = scene.ports.iter().filter(|port| port.name == name);
        end.is_some_and(|end| ports.any(|port| apart(port.at, *end) < NO_STEP))
    };
    let held = scene.routes.iter().map(|route| {
        let start = route.input.is_some() || at(route.points.first(), route.source);
        let end = route.output.is_some() || at(route.points.last(), route.target);
        (start, end)
    });
    held.collect()
}

/// Cuts a piece off the end of a route that lies on another route. `free` says of the start and the end of each
/// whether it does so on the sheet, and joins nothing there.
pub fn part(routes: &mut [Vec<Point>], free: &[(bool, bool)], gap: f64) {
    for place in 0..routes.len() {
        for (backwards, free) in [(false, free[place].0), (true, free[place].1)] {
            let route = &routes[place];
            let ends = if backwards {
                route.last().zip(route.iter().nth_back(1))
            } else {
                route.first().zip(route.get(1))
            };
            let Some((end, next)) = ends.map(|(end, next)| (*end, *next)) else {
                continue;
            };
            let mut others = routes.iter().enumerate();
            if !free
                || apart(end, next) < 2.0 * gap
                || !others.any(|(other, route)| other != place && lies_on(end, route, gap))
            {
                continue;
            }
            let piece = Piece {
                start: end,
                end: next,
            };
            let last = if backwards { route.len() - 1 } else { 0 };
            routes[place][last] = piece.at(gap, 0.0);
        }
    }
}

/// Whether a point lies on a route. Where two routes end together they end at one port.
fn lies_on(at: Point, route: &[Point], gap: f64) -> bool {
    let ends = [route.first(), route.last()];
    let mut runs = route.windows(2);
    !ends.into_iter().flatten().any(|end| apart(at, *end) < gap)
        && runs.any(|run| {
            let [start, end] = [run[0], run[1]];
            Piece { start, end }.from(at) < NO_END
        })
}

#[cfg(test)]
mod tests {
    use super::{Point, part};

    #[test]
    fn an_end_is_cut_on_another_route_and_not_beside_it() {
        let at = |x, y| Point { x, y };
        for (x, free, cut) in [
            (539.0, true, false),
            (540.0, true, true),
            (540.0, false, false),
        ] {
            let wire = vec![at(0.0, 50.0), at(540.0, 50.0)];
            let mut routes = vec![wire, vec![at(x, -200.0), at(x, 300.0)]];
            part(&mut routes, &[(false, free), (true, true)], 0.3);
            assert_eq!(routes[0][1].x < 540.0, cut, "{x}");
        }
    }
}
