//! The sheet: what an answer says.

use crate::board::{Point, Role, VERSION, Visits, version};
use crate::id::Id;
use crate::refusal::Refusal;
use crate::wire::{Malformed, Reader, TooMany, Wire, Writer, choice, listed, record};

/// An answer: a sheet, or why there is none.
#[derive(Clone, Debug, PartialEq)]
pub enum Answer {
    /// The sheet.
    Drawn(Sheet),
    /// Why there is none.
    Refused(Refusal),
}

/// The finished sheet. It is shifted so that no coordinate is below 0.
#[derive(Clone, Debug, PartialEq)]
pub struct Sheet {
    /// What is left of the grants.
    pub visits_left: Visits,
    /// From 0 to the right end of all that is drawn.
    pub width: f64,
    /// From 0 to the lower end of all that is drawn.
    pub height: f64,
    /// One for each node of the board, in its order.
    pub nodes: Vec<PlacedNode>,
    /// One for each edge of the board, in its order.
    pub routes: Vec<Route>,
    /// One for each bundle of the board, in its order.
    pub bundles: Vec<DrawnBundle>,
}

/// A node's upper left corner on the sheet. Its size is the board's.
#[derive(Clone, Copy, Debug, PartialEq)]
pub struct PlacedNode {
    /// The node's id.
    pub id: Id,
    /// The left side.
    pub x: f64,
    /// The upper side.
    pub y: f64,
}

/// An edge's route on the sheet.
#[derive(Clone, Debug, PartialEq)]
pub struct Route {
    /// The edge's id.
    pub id: Id,
    /// From source to target; a member's starts or ends at its tap.
    pub points: Vec<Point>,
}

/// A bundle as drawn: two segments and a tap for each member.
#[derive(Clone, Debug, PartialEq)]
pub struct DrawnBundle {
    /// The bundle's id.
    pub id: Id,
    /// It stands inside the sheet, where its members have a place in common; else at the rail.
    pub interior: bool,
    /// The upright segment with the taps on it.
    pub collector: Segment,
    /// The level segment from the bundle's port to the collector.
    pub spine: Segment,
    /// One for each member, in the bundle's order.
    pub taps: Vec<Tap>,
}

/// A straight piece from a point to another.
#[derive(Clone, Copy, Debug, PartialEq)]
pub struct Segment {
    /// The one end.
    pub start: Point,
    /// The other end.
    pub end: Point,
}

/// Where a member's route meets its bundle.
#[derive(Clone, Copy, Debug, PartialEq)]
pub struct Tap {
    /// The member's edge.
    pub edge: Id,
    /// A point of the collector.
    pub point: Point,
}

record!(PlacedNode {
    id: "a node's id",
    x: "a node's x",
    y: "a node's y"
});
record!(Route {
    id: "a route's id",
    points: "a route's points"
});
record!(DrawnBundle {
    id: "a bundle's id",
    interior: "a bundle's interior mark (0 or 1)",
    collector: "a bundle's collector",
    spine: "a bundle's spine",
    taps: "a bundle's taps",
});
record!(Segment {
    start: "a segment's start",
    end: "a segment's end"
});
record!(Tap {
    edge: "a tap's edge",
    point: "a tap's point"
});
listed!(Tap "taps");
choice!(bool {
    0 => false,
    1 => true,
});

impl DrawnBundle {
    /// The role, as the spine shows it: an Input's leads to the right, an Output's to the left.
    /// None where the spine has no length.
    pub fn role(&self) -> Option<Role> {
        let Segment { start, end } = self.spine;
        if start.x < end.x {
            Some(Role::Input)
        } else if start.x > end.x {
            Some(Role::Output)
        } else {
            None
        }
    }
}

impl Answer {
    /// The answer that bytes say, if they are a whole answer or notice. `to_bytes` gives the same
    /// bytes back.
    ///
    /// # Errors
    ///
    /// The first byte that does not fit, and what was expected there.
    ///
    /// ```
    /// use bundle_stage::*;
    ///
    /// let job = Board::default().to_bytes().expect("small");
    /// let bytes = answer(&job);
    /// let Answer::Drawn(sheet) = Answer::from_bytes(&bytes)? else {
    ///     panic!("a board without bundles is drawn");
    /// };
    /// assert!(sheet.bundles.is_empty());
    /// let notice = Answer::from_bytes(&[0, 0, 0, 2, 1, 3])?;
    /// assert_eq!(notice, Answer::Refused(Refusal::UnknownVersion));
    /// # Ok::<(), Malformed>(())
    /// ```
    pub fn from_bytes(bytes: &[u8]) -> Result<Answer, Malformed> {
        let mut from = Reader::new(bytes);
        from.length()?;
        version(&mut from)?;
        let refused = from.listed("the number (0 to 19)", |number: u8| match number {
            0 => Some(None),
            _ => Refusal::of_number(number).map(Some),
        })?;
        let answer = match refused {
            Some(refusal) => Answer::Refused(refusal),
            None => Answer::Drawn(Sheet::take(&mut from)?),
        };
        from.end()?;
        Ok(answer)
    }

    /// The answer's bytes. They fail only where a count is too large for the format.
    ///
    /// # Errors
    ///
    /// What there are too many of.
    ///
    /// ```
    /// use bundle_stage::*;
    ///
    /// let notice = Answer::Refused(Refusal::LengthMismatch);
    /// assert_eq!(notice.to_bytes()?, answer(b"no job"));
    /// # Ok::<(), TooMany>(())
    /// ```
    pub fn to_bytes(&self) -> Result<Vec<u8>, TooMany> {
        let mut to = Writer::new();
        VERSION.put(&mut to)?;
        match self {
            Answer::Refused(refusal) => refusal.number().put(&mut to)?,
            Answer::Drawn(sheet) => {
                0_u8.put(&mut to)?;
                sheet.put(&mut to)?;
            }
        }
        to.finish()
    }

    /// The sheet, or the refusal as an error.
    ///
    /// # Errors
    ///
    /// The refusal.
    pub fn into_result(self) -> Result<Sheet, Refusal> {
        match self {
            Answer::Drawn(sheet) => Ok(sheet),
            Answer::Refused(refusal) => Err(refusal),
        }
    }
}

impl Sheet {
    /// The first node with this id.
    pub fn node(&self, id: Id) -> Option<&PlacedNode> {
        self.nodes.iter().find(|node| node.id == id)
    }

    fn put(&self, to: &mut Writer) -> Result<(), TooMany> {
        self.visits_left.put(to)?;
        self.width.put(to)?;
        self.height.put(to)?;
        to.count("nodes", self.nodes.len())?;
        to.count("routes", self.routes.len())?;
        to.count("bundles", self.bundles.len())?;
        to.rows(&self.nodes)?;
        to.rows(&self.routes)?;
        to.rows(&self.bundles)
    }

    fn take(from: &mut Reader<'_>) -> Result<Sheet, Malformed> {
        let visits_left = from.field("the visits left")?;
        let width = from.field("the sheet's width")?;
        let height = from.field("the sheet's height")?;
        let nodes = from.field("the count of nodes")?;
        let routes = from.field("the count of routes")?;
        let bundles = from.field("the count of bundles")?;
        Ok(Sheet {
            visits_left,
            width,
            height,
            nodes: from.rows(nodes, "a node")?,
            routes: from.rows(routes, "a route")?,
            bundles: from.rows(bundles, "a bundle")?,
        })
    }
}
