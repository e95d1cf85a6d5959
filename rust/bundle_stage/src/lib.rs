//! The bundle stage for Rust programs: a placed and routed [`Board`] in, a [`Sheet`] with its bundles
//! drawn out, or a [`Refusal`].
//!
//! The stage itself is proved, and linked as a static library for x86-64 Linux: it does not trap, and
//! ends, whatever the board (README of the repository). Buffers are this crate's business.
//!
//! That there is no false joint is proved of the sheet before its last shift, which rounds, and of
//! the sheet in the answer where that shift is exact: [`Sheet::false_joints`] looks for them in the
//! sheet as it stands, and [`Sheet::last_shift`] says what is known of the shift.
//!
//! ```
//! use bundle_stage::*;
//!
//! // Two wires lead from a port of node 1 to node 2, to be drawn as one bundle.
//! let [first, second] = [1, 2].map(Id::from);
//! let source = Endpoint { node: first, port: first };
//! let wire = |id, y| Edge {
//!     id,
//!     source,
//!     target: Endpoint { node: second, port: id },
//!     points: vec![
//!         Point { x: 40.0, y: 50.0 },
//!         Point { x: 60.0, y: 50.0 },
//!         Point { x: 60.0, y },
//!         Point { x: 200.0, y },
//!     ],
//! };
//! let board = Board {
//!     options: Options {
//!         port_stub: 10.0,
//!         route_lane_gap: 10.0,
//!         member_endpoint_reserve: 20.0,
//!         ..Options::default()
//!     },
//!     nodes: vec![
//!         Node { id: first, x: 0.0, y: 30.0, width: 40.0, height: 40.0 },
//!         Node { id: second, x: 200.0, y: 0.0, width: 40.0, height: 100.0 },
//!     ],
//!     ports: vec![
//!         Port { node: first, id: first, side: Side::East, offset: 20.0 },
//!         Port { node: second, id: first, side: Side::West, offset: 40.0 },
//!         Port { node: second, id: second, side: Side::West, offset: 60.0 },
//!     ],
//!     edges: vec![wire(first, 40.0), wire(second, 60.0)],
//!     bundles: vec![Bundle {
//!         id: Id::from(1),
//!         endpoint: source,
//!         role: Role::Input,
//!         width: 2,
//!         members: vec![Member { edge: first, lane: 0 }, Member { edge: second, lane: 1 }],
//!     }],
//!     ..Board::default()
//! };
//!
//! let sheet = board.draw()?;
//! let bundle = &sheet.bundles[0];
//! assert!(bundle.interior);
//! assert_eq!(bundle.collector.start, Point { x: 180.0, y: 40.0 });
//! assert_eq!(bundle.collector.end, Point { x: 180.0, y: 60.0 });
//! assert_eq!(sheet.routes[0].points[0], bundle.taps[0].point);
//! # Ok::<(), Refusal>(())
//! ```
//!
//! # Stack
//!
//! A call needs less than 1 MiB of stack, whatever the board (the README of the repository has the
//! figure), and asks for no other memory than its 65,536 bytes of buffer and the typed values. Rust's
//! threads have 2 MiB unless a program says otherwise. On a stack that is too short the process ends
//! at the guard page.

#![forbid(unsafe_code)]
#![warn(missing_docs)]

mod attempt;
mod board;
mod grid;
mod id;
mod joints;
pub mod limits;
mod listed;
mod locate;
mod lookup;
mod outputs;
mod place;
mod plan;
mod refusal;
mod sheet;
mod shift;
mod wire;

use bundle_stage_sys::BUFFER;

pub use attempt::Attempt;
pub use board::{
    Board, Bundle, Edge, Endpoint, Flags, Member, Node, Options, Point, Port, Role, Side, Visits,
};
pub use grid::OffGrid;
pub use id::Id;
pub use joints::{FalseJoint, Meeting};
pub use locate::{Forecast, locate, locate_planned, locate_with};
pub use outputs::{
    Buffers, CROSSING_SIZE, CROSSINGS_SIZE, Crossing, Drawn, PAGE_LINE_SIZE, PAGE_SIZE, Wanted,
    Written,
};
pub use place::{Item, Part, Place, Refused};
pub use plan::{PLAN_SIZE, Plan, answer_from, plan};
pub use refusal::{Cause, Refusal};
pub use sheet::{Answer, DrawnBundle, PlacedNode, Route, Segment, Sheet, Tap};
pub use shift::{LastShift, Shift};
pub use wire::{Fault, Malformed, TooMany};

/// The bytes of a buffer that holds every answer.
pub const BUFFER_SIZE: usize = BUFFER;

/// The answer to a job's bytes, whatever they are: the bytes that the program `sheet` writes.
///
/// ```
/// assert_eq!(bundle_stage::answer(b"no job"), [0, 0, 0, 2, 1, 1]);
/// ```
pub fn answer(job: &[u8]) -> Vec<u8> {
    let mut buffer = Box::new([0; BUFFER]);
    answer_into(job, &mut buffer).to_vec()
}

/// The same in a buffer that can be used again. Bytes of the buffer behind the answer stay as they were.
///
/// ```
/// let mut buffer = Box::new([0; bundle_stage::BUFFER_SIZE]);
/// for job in [&b"no job"[..], b""] {
///     let answer = bundle_stage::answer_into(job, &mut buffer);
///     assert_eq!(answer, [0, 0, 0, 2, 1, 1]);
/// }
/// ```
pub fn answer_into<'a>(job: &[u8], buffer: &'a mut [u8; BUFFER_SIZE]) -> &'a [u8] {
    let count = bundle_stage_sys::stage(job, buffer);
    &buffer[..count]
}

impl Board {
    /// Draws the bundles.
    ///
    /// # Errors
    ///
    /// The stage's refusal; [`Board::draw_detailed`] also says what it is about. A table that is too long for the format's 16-bit count is refused as [`Refusal::LimitExceeded`]: it
    /// is above its limit, and cannot even be written down.
    ///
    /// # Panics
    ///
    /// Never: the stage is proved to write whole answers.
    pub fn draw(&self) -> Result<Sheet, Refusal> {
        let job = self.to_bytes().map_err(|_| Refusal::LimitExceeded)?;
        Answer::from_bytes(&answer(&job))
            .expect("the stage is proved to write whole answers")
            .into_result()
    }
}
