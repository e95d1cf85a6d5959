//! The kind of contact in the words of request F-6, in exact geometry: no code of the stage and no
//! tolerance is used but the Rust's own yes or no, with crossings forbidden and with crossings
//! permitted.

use std::cmp::Ordering;

use crate::patched::harness::leaf;
use crate::records::{BoundaryBundleSegment, Point};
use crate::whole::{Whole, multiples};

type At = (Whole, Whole);

/// What two segments share: x and y of one point are to be divided by `over`, which is not 0.
enum Shared {
    Nothing,
    One { x: Whole, y: Whole, over: Whole },
    More,
}

fn one((x, y): &At) -> Shared {
    Shared::One {
        x: x.clone(),
        y: y.clone(),
        over: Whole::of(1, 0),
    }
}

fn way(from: &At, to: &At) -> At {
    (to.0.minus(&from.0), to.1.minus(&from.1))
}

/// The cross product.
fn cross(left: &At, right: &At) -> Whole {
    left.0.times(&right.1).minus(&left.1.times(&right.0))
}

fn is_between(value: &Whole, a: &Whole, b: &Whole) -> bool {
    a.min(b) <= value && value <= a.max(b)
}

fn is_on(p: &At, a: &At, b: &At) -> bool {
    cross(&way(a, b), &way(a, p)).sign() == Ordering::Equal
        && is_between(&p.0, &a.0, &b.0)
        && is_between(&p.1, &a.1, &b.1)
}

/// What the segments from a to b and from c to d share.
fn shared(a: &At, b: &At, c: &At, d: &At) -> Shared {
    let (first, second) = (way(a, b), way(c, d));
    let over = cross(&first, &second);
    if over.sign() == Ordering::Equal {
        return in_line(a, b, c, d);
    }
    // The point a + (t / over) (b - a), which is c + (u / over) (d - c).
    let between = way(a, c);
    let nought = Whole::of(0, 0);
    let (t, u) = (cross(&between, &second), cross(&between, &first));
    if !is_between(&t, &nought, &over) || !is_between(&u, &nought, &over) {
        return Shared::Nothing;
    }
    Shared::One {
        x: a.0.times(&over).plus(&t.times(&first.0)),
        y: a.1.times(&over).plus(&t.times(&first.1)),
        over,
    }
}

/// The same where they are parallel, or one has no length: an end of one is on the other.
fn in_line(a: &At, b: &At, c: &At, d: &At) -> Shared {
    let mut ends = Vec::<&At>::new();
    for (end, from, to) in [(a, c, d), (b, c, d), (c, a, b), (d, a, b)] {
        if is_on(end, from, to) && !ends.contains(&end) {
            ends.push(end);
        }
    }
    match ends[..] {
        [] => Shared::Nothing,
        [end] => one(end),
        _ => Shared::More,
    }
}

/// A bus from a to b and a run from c to d.
struct Pair {
    a: At,
    b: At,
    c: At,
    d: At,
}

/// None if a number is not finite.
fn pair(bus: BoundaryBundleSegment, start: Point, end: Point) -> Option<Pair> {
    let numbers = [bus.start, bus.end, start, end].map(|p| [p.x, p.y]);
    let numbers: [f64; 8] = numbers.concat().try_into().expect("eight numbers");
    if !numbers.iter().all(|number| number.is_finite()) {
        return None;
    }
    let [ax, ay, bx, by, cx, cy, dx, dy] = multiples(numbers);
    Some(Pair {
        a: (ax, ay),
        b: (bx, by),
        c: (cx, cy),
        d: (dx, dy),
    })
}

fn slants(from: &At, to: &At) -> bool {
    from.0 != to.0 && from.1 != to.1
}

/// Where a strict crossing is: the x of the upright segment's start and the y of the level one's.
/// That it is the one point found, and an end of neither, is looked at.
fn crossing(pair: &Pair, bus: BoundaryBundleSegment, start: Point, found: &Shared) -> Point {
    let Shared::One { x, y, over } = found else {
        panic!("a strict crossing shares not just one point");
    };
    let is = |px: &Whole, py: &Whole| px.times(over) == *x && py.times(over) == *y;
    for end in [&pair.a, &pair.b, &pair.c, &pair.d] {
        assert!(!is(&end.0, &end.1), "a strict crossing at an end");
    }
    let (place, told) = match pair.a.1 == pair.b.1 {
        true => ((&pair.c.0, &pair.a.1), (start.x, bus.start.y)),
        false => ((&pair.a.0, &pair.c.1), (bus.start.x, start.y)),
    };
    assert!(is(place.0, place.1), "a strict crossing elsewhere");
    Point {
        x: told.0,
        y: told.1,
    }
}

/// The kind's number (0 apart, 1 touch at the tap, 2 strict crossing, 3 touch elsewhere, 4 overlap,
/// 5 slanted), and the point of a strict crossing. None if a number is not finite.
pub(crate) fn kind(
    bus: BoundaryBundleSegment,
    start: Point,
    end: Point,
    tap: Option<Point>,
) -> Option<(u8, Option<Point>)> {
    let pair = pair(bus, start, end)?;
    // A run of no length is answered apart.
    if pair.c == pair.d {
        return Some((0, None));
    }
    let forbidden = leaf::contact(bus, start, end, tap, false);
    let permitted = leaf::contact(bus, start, end, tap, true);
    let found = shared(&pair.a, &pair.b, &pair.c, &pair.d);
    let number = match (forbidden, permitted, &found) {
        (false, true, _) => panic!("contact only when crossings are permitted"),
        // No contact even with crossings forbidden: apart if no point is shared, else touch at the
        // tap, which shares one.
        (false, false, Shared::Nothing) => 0,
        (false, false, Shared::One { .. }) => 1,
        (false, false, Shared::More) => panic!("a touch at the tap shares more than one point"),
        // Contact only when they are forbidden: a strict crossing.
        (true, false, _) => return Some((2, Some(crossing(&pair, bus, start, &found)))),
        // Any other contact: slanted if a segment is neither level nor upright, else overlap if
        // more than one point is shared, else touch elsewhere.
        _ if slants(&pair.a, &pair.b) || slants(&pair.c, &pair.d) => 5,
        (true, true, Shared::More) => 4,
        (true, true, Shared::One { .. }) => 3,
        (true, true, Shared::Nothing) => panic!("a contact that shares no point"),
    };
    Some((number, None))
}
