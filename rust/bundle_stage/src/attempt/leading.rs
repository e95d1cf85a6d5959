//! Routes led to their taps.

use crate::board::{Point, Role};
use crate::joints::same_place;

/// The runs of a route in the order in which a role looks at them: an Output from the end.
fn runs(points: &[Point], role: Role) -> impl Iterator<Item = (usize, Point, Point)> {
    let count = points.len().saturating_sub(1);
    (0..count).map(move |turn| {
        let run = match role {
            Role::Input => turn,
            Role::Output => count - 1 - turn,
        };
        (run, points[run], points[run + 1])
    })
}

/// first_shared_trunk_intersection and last_shared_trunk_intersection.
pub fn shared_trunk(points: &[Point], x: f64, role: Role, pitch: f64) -> Option<(usize, Point)> {
    runs(points, role).find_map(|(run, start, end)| {
        let (low, high) = match role {
            Role::Input => (start.x, end.x - pitch),
            Role::Output => (start.x + pitch, end.x),
        };
        let usable = start.y == end.y && start.x < end.x;
        let on = usable && low <= x && x <= high;
        on.then_some((run, Point { x, y: start.y }))
    })
}

/// first_vertical_line_intersection and last_vertical_line_intersection.
fn upright_line(points: &[Point], x: f64, role: Role) -> Option<(usize, Point)> {
    runs(points, role).find_map(|(run, start, end)| {
        if start.y == end.y && start.x.min(end.x) <= x && x <= start.x.max(end.x) {
            return Some((run, Point { x, y: start.y }));
        }
        let near = match role {
            Role::Input => start,
            Role::Output => end,
        };
        (start.x == x && end.x == x).then_some((run, near))
    })
}

/// rewrite_input_shared_trunk and rewrite_output_shared_trunk.
pub fn to_trunk(points: &[Point], tap: Point, role: Role, pitch: f64) -> Option<Vec<Point>> {
    let (run, at) = shared_trunk(points, tap.x, role, pitch)?;
    let led = match role {
        Role::Input => [&[tap], &points[run + 1..]].concat(),
        Role::Output => [&points[..=run], &[tap]].concat(),
    };
    if same_place(at, tap) {
        pushed(&led)
    } else {
        None
    }
}

/// rewrite_input_route and rewrite_output_route: through the corridor at this depth.
pub fn to_rail(points: &[Point], tap: Point, role: Role, depth: f64) -> Option<Vec<Point>> {
    let x = match role {
        Role::Input => tap.x + depth,
        Role::Output => tap.x - depth,
    };
    let (run, at) = upright_line(points, x, role)?;
    let corner = Point { x, y: tap.y };
    let led = match role {
        Role::Input => [&[tap, corner, at], &points[run + 1..]].concat(),
        Role::Output => [&points[..=run], &[at, corner, tap]].concat(),
    };
    pushed(&led)
}

/// push_point of each in turn: no point twice in a row, none that goes straight on. None where fewer
/// than two are left.
fn pushed(points: &[Point]) -> Option<Vec<Point>> {
    let mut to: Vec<Point> = Vec::new();
    for point in points {
        let straight = match to[..] {
            [.., last] if same_place(last, *point) => true,
            [.., before, last] => {
                (before.x == last.x && last.x == point.x)
                    || (before.y == last.y && last.y == point.y)
            }
            _ => false,
        };
        if straight {
            to.pop();
        }
        to.push(*point);
    }
    (to.len() >= 2).then_some(to)
}
