//! Two routes on one line, walked until one leaves it: which of them keeps to the left.

use bundle_stage::Point;

use super::lanes::ONE_LINE;
use super::spans::Way;

/// A route being walked: the corner reached, and which way its corners are taken.
#[derive(Clone, Copy)]
pub struct Walk<'a> {
    pub corners: &'a [Point],
    pub at: usize,
    pub forward: bool,
}

impl Walk<'_> {
    fn corner(&self, steps: usize) -> Option<Point> {
        let at = if self.forward {
            self.at.checked_add(steps)
        } else {
            self.at.checked_sub(steps)
        };
        self.corners.get(at?).copied()
    }

    fn here(&self) -> Point {
        self.corners[self.at]
    }

    fn behind(&self) -> Point {
        let at = if self.forward {
            self.at - 1
        } else {
            self.at + 1
        };
        self.corners[at]
    }

    fn step(&mut self) {
        self.at = if self.forward {
            self.at + 1
        } else {
            self.at - 1
        };
    }

    /// −1 where it turns left here, seen in the direction of the walk, 1 where it turns right.
    fn turn(&self, toward: Point) -> i32 {
        let Some(next) = self.corner(1) else {
            return 0;
        };
        let (x, y) = (next.x - self.here().x, next.y - self.here().y);
        let right = toward.x * y - toward.y * x;
        i32::from(right > 0.0) - i32::from(right < 0.0)
    }
}

/// −1 where the first of two walks along one line leaves it to the left of the second, 1 to the
/// right, 0 where they end together.
pub fn side<'a>(way: Way, mut a: Walk<'a>, mut b: Walk<'a>) -> i32 {
    let sign = |walk: &Walk<'_>, way: Way, from: Point| {
        (way.along(walk.here()) - way.along(from)).signum()
    };
    let mut toward = unit(way, sign(&a, way, a.behind()));
    loop {
        let ahead = |walk: &Walk<'_>| walk.here().x * toward.x + walk.here().y * toward.y;
        let gap = ahead(&a) - ahead(&b);
        let (left, right) = (a.turn(toward), b.turn(toward));
        if gap < -ONE_LINE {
            return left;
        }
        if gap > ONE_LINE {
            return -right;
        }
        if left != right || left == 0 {
            return (left - right).signum();
        }
        let from = a.here();
        let (Some(next), Some(other)) = (a.corner(1), b.corner(1)) else {
            return 0;
        };
        let Some(way) = Way::of(from, next).filter(|way| Way::of(b.here(), other) == Some(*way))
        else {
            return 0;
        };
        a.step();
        b.step();
        toward = unit(way, sign(&a, way, from));
    }
}

fn unit(way: Way, sign: f64) -> Point {
    match way {
        Way::Level => Point { x: sign, y: 0.0 },
        Way::Upright => Point { x: 0.0, y: sign },
    }
}
