//! The last shift (normalize_layout): what it subtracted, and whether it rounded, as far as a job and
//! its answer tell.
//!
//! An answer does not have the sheet before the shift. Known of it are the nodes, and the routes that
//! are in no bundle: those are the job's.

use crate::board::{Board, Node, Point};
use crate::id::Id;
use crate::sheet::Sheet;

/// What is known of the last shift, across (x) and down (y).
#[derive(Clone, Copy, Debug, Eq, PartialEq)]
pub struct LastShift {
    /// Across.
    pub x: Shift,
    /// Down.
    pub y: Shift,
}

/// What is known of the last shift along one axis.
#[derive(Clone, Copy, Debug, Eq, PartialEq)]
#[non_exhaustive]
pub enum Shift {
    /// Nothing was subtracted: the least coordinate is 0.
    Nothing,
    /// Something may have been subtracted, and no difference was rounded: all numbers of the job are
    /// on the drafting grid. The sheet's numbers are then multiples of a small power of two, as
    /// `compare joints` tests, and of such a sheet it is proved.
    Exact,
    /// A difference was rounded: a node or a route in no bundle is not exactly where it was, less
    /// what was subtracted; or a far side is not, summed anew.
    Rounded,
    /// A difference may have been rounded. Each coordinate is within 2^-20 of the exact one.
    NotKnown,
}

impl Shift {
    /// Nothing was rounded, for certain.
    pub fn is_exact(self) -> bool {
        matches!(self, Shift::Nothing | Shift::Exact)
    }
}

impl LastShift {
    /// Nothing was rounded. Of such a sheet it is proved that the answer has no false joint where
    /// crossings are forbidden.
    pub fn is_exact(self) -> bool {
        self.x.is_exact() && self.y.is_exact()
    }
}

impl Sheet {
    /// Whether the last shift rounded, as far as it can be told. `board` is the one that the sheet is
    /// the answer to.
    ///
    /// ```
    /// use bundle_stage::*;
    ///
    /// let node = |id: u32, x| Node { id: id.into(), x, y: 0.0, width: 0.0, height: 0.0 };
    /// let board = |x| Board { nodes: vec![node(1, -0.1), node(2, x)], ..Board::default() };
    /// // All is moved by 0.1 to the right: 0.2 to 0.2 + 0.1, which is no number of the format.
    /// let shift = board(0.2).draw()?.last_shift(&board(0.2));
    /// assert_eq!((shift.x, shift.y), (Shift::Rounded, Shift::Nothing));
    /// assert!(!shift.is_exact());
    /// // What is at no negative place is not moved.
    /// let still = Board { nodes: vec![node(2, 0.2)], ..Board::default() };
    /// assert!(still.draw()?.last_shift(&still).is_exact());
    /// # Ok::<(), Refusal>(())
    /// ```
    pub fn last_shift(&self, board: &Board) -> LastShift {
        let grid = board.off_grid().is_empty();
        let along = |axis| match self.subtracted(board, axis) {
            Some(0.0) => Shift::Nothing,
            _ if grid => Shift::Exact,
            Some(least) if self.rounded(board, axis, least) => Shift::Rounded,
            _ => Shift::NotKnown,
        };
        LastShift {
            x: along(X),
            y: along(Y),
        }
    }

    /// What was subtracted along an axis, if that can be told: 0, or the least coordinate if that is
    /// below 0.
    fn subtracted(&self, board: &Board, axis: Axis) -> Option<f64> {
        // What is below 0 and the least before the shift is 0 after it, as the difference of equal
        // numbers, and only that is: where nothing is 0, nothing was below.
        if !self.coordinates(axis).any(|after| after == 0.0) {
            return Some(0.0);
        }
        let mut known = self.known(board, axis).into_iter();
        known.find_map(|(before, after)| {
            if after == 0.0 {
                // A difference is 0 only of equal numbers.
                Some(before)
            } else if before == 0.0 {
                // And that from 0 is never rounded.
                Some(-after)
            } else {
                None
            }
        })
    }

    /// A number that is known before and after the shift is not the exact difference.
    fn rounded(&self, board: &Board, axis: Axis, least: f64) -> bool {
        let moved = |(before, after)| exact_difference(before, least) != Some(after);
        let mut known = self.known(board, axis).into_iter();
        let mut far = self.far_sides(board, axis);
        known.any(moved) || far.any(moved)
    }

    /// All coordinates of the answer.
    fn coordinates(&self, axis: Axis) -> impl Iterator<Item = f64> {
        let nodes = self.nodes.iter().map(|node| Point {
            x: node.x,
            y: node.y,
        });
        let routes = self.routes.iter().flat_map(|route| route.points.iter());
        let bundles = self.bundles.iter().flat_map(|bundle| {
            let ends = [bundle.collector, bundle.spine].map(|part| [part.start, part.end]);
            let taps = bundle.taps.iter().map(|tap| tap.point);
            ends.into_iter().flatten().chain(taps)
        });
        let points = nodes.chain(routes.copied()).chain(bundles);
        points.map(move |point| (axis.of)(point))
    }

    /// The coordinates that are known before and after the shift.
    fn known(&self, board: &Board, axis: Axis) -> Vec<(f64, f64)> {
        let member = |edge: Id| {
            let mut members = board.bundles.iter().flat_map(|bundle| &bundle.members);
            members.any(|member| member.edge == edge)
        };
        let corners = self.both(board);
        let corners = corners.map(|(before, after)| (corner(&before), corner(&after)));
        let routes = self.routes.iter().filter(|route| !member(route.id));
        let routes = routes.filter_map(|route| Some((board.edge(route.id)?, route)));
        let points = routes.flat_map(|(edge, route)| {
            let before = edge.points.iter().copied();
            before.zip(route.points.iter().copied())
        });
        let points = corners.chain(points);
        points
            .map(|(before, after)| ((axis.of)(before), (axis.of)(after)))
            .collect()
    }

    /// The far sides of the nodes before and after the shift, each the rounded sum of corner and size.
    fn far_sides(&self, board: &Board, axis: Axis) -> impl Iterator<Item = (f64, f64)> {
        let far = move |node: Node| (axis.of)(corner(&node)) + (axis.size)(&node);
        self.both(board)
            .map(move |(before, after)| (far(before), far(after)))
    }

    /// The nodes before and after the shift.
    fn both(&self, board: &Board) -> impl Iterator<Item = (Node, Node)> {
        self.nodes.iter().filter_map(|placed| {
            let before = *board.node(placed.id)?;
            let (x, y) = (placed.x, placed.y);
            Some((before, Node { x, y, ..before }))
        })
    }
}

/// An axis: a point's coordinate and a node's size along it.
#[derive(Clone, Copy)]
struct Axis {
    of: fn(Point) -> f64,
    size: fn(&Node) -> f64,
}

const X: Axis = Axis {
    of: |point| point.x,
    size: |node| node.width,
};
const Y: Axis = Axis {
    of: |point| point.y,
    size: |node| node.height,
};

fn corner(node: &Node) -> Point {
    let (x, y) = (node.x, node.y);
    Point { x, y }
}

/// The difference, if it is not rounded: what the rounding lost is a number of the format again, and
/// Knuth's TwoSum gives it, whatever the two are, as long as nothing overflows.
fn exact_difference(a: f64, b: f64) -> Option<f64> {
    let difference = a - b;
    let of_b = a - difference;
    let of_a = difference + of_b;
    let lost = (a - of_a) + (of_b - b);
    (lost == 0.0).then_some(difference)
}

#[cfg(test)]
mod tests {
    use super::exact_difference;

    /// Against whole numbers: a mantissa of 20 bits by 2^-30 to 2^30 is exact in 128 bits.
    #[test]
    fn exact_differences() {
        let mut state = 1_u64;
        let mut number = || {
            state = state
                .wrapping_mul(6_364_136_223_846_793_005)
                .wrapping_add(1);
            let mantissa = i128::from(state >> 44) - (1 << 19);
            let power = (state >> 30) % 61;
            let whole = mantissa << power;
            (whole, mantissa as f64 * 2_f64.powi(power as i32 - 30))
        };
        let mut rounded = 0;
        for _ in 0..100_000 {
            let ((a, x), (b, y)) = (number(), number());
            let bits = (a - b).unsigned_abs();
            let exact = bits == 0 || 128 - bits.leading_zeros() - bits.trailing_zeros() <= 53;
            assert_eq!(exact_difference(x, y).is_some(), exact, "{x} - {y}");
            rounded += u32::from(!exact);
        }
        assert!(rounded > 10_000, "{rounded}");
    }

    #[test]
    fn differences_at_the_ends_of_the_format() {
        let (least, large) = (f64::from_bits(1), 2_f64.powi(33));
        assert_eq!(exact_difference(least, -least), Some(2.0 * least));
        assert_eq!(exact_difference(large, large), Some(0.0));
        assert_eq!(exact_difference(large, least), None);
        assert_eq!(exact_difference(-least, large), None);
        assert_eq!(exact_difference(0.0, -least), Some(least));
    }
}
