//! Why a job is refused.

mod words;

use std::error::Error;
use std::fmt;

use words::{WORDS, Words};

/// Why there is no sheet: one case for each number of document 01, and of requests F-2,
/// F-4, F-5 and F-7 of document 02.
///
/// [`Refused`](crate::Refused) adds what a refusal is about.
#[derive(Clone, Copy, Debug, Eq, Hash, PartialEq)]
#[non_exhaustive]
pub enum Refusal {
    /// 1: the job has under 5 bytes, or its length is not that of the bytes that follow.
    LengthMismatch,
    /// 2: the answer's buffer has under 65,536 bytes, or that of another output its largest size. This
    /// crate's buffers are never too short, so that no call of it gives this one.
    BufferTooShort,
    /// 3: the job's version is not 1.
    UnknownVersion,
    /// 4: a field runs past the end, or bytes remain behind the last one.
    FieldsMismatch,
    /// 5: a count, a lane or a grant is above its limit.
    LimitExceeded,
    /// 6: a flag, a side or a role is none of those listed.
    ValueNotListed,
    /// 7: a number is not finite, or out of its range.
    NumberOutOfRange,
    /// 8: an id stands twice, or an edge is twice in bundles of one role.
    DuplicateId,
    /// 9: a node, a port or an edge is named that is not there.
    UnknownId,
    /// 10: the route of a bundle's member cannot be led to its tap.
    TapUnreachable,
    /// 11: a bundle would touch a route or another bundle where it must not, or come too close.
    ForbiddenContact,
    /// 12: the route of a bundle's member would run through a foreign node, or is slanted.
    RouteThroughNode,
    /// 13: bundles that share edges have no room for their collectors.
    NoRoomToSplit,
    /// 14: the checks need more geometry visits than the job grants.
    GeometryVisitsSpent,
    /// 15: the job is said to be on the drafting grid, and a number is off it.
    OffGrid,
    /// 16: the bundle page is wanted, and the job is not said to be on the drafting grid.
    PageOffGrid,
    /// 17: a plan's length, version, marks or count of entries do not fit the board's bundles, or its
    /// visits left are more than the board grants.
    PlanMismatch,
    /// 18: a planned number is no coordinate, or is off the grid of a board that is said to be on it.
    PlannedNumber,
    /// 19: the list of crossings is wanted, and there are more than 1,024.
    TooManyCrossings,
}

/// Who can cause a refusal.
#[derive(Clone, Copy, Debug, Eq, Hash, PartialEq)]
#[non_exhaustive]
pub enum Cause {
    /// The program that calls the stage.
    Caller,
    /// Whoever wrote the job.
    Writer,
    /// The drawing: the board is as it should be, but its bundles cannot be drawn on it.
    Drawing,
    /// The visits that the job grants.
    Grant,
    /// Whoever made or kept the plan that is given.
    Plan,
}

impl Refusal {
    /// All of them, by number. There will be more where the stage gets more.
    pub const ALL: &[Refusal] = &[
        Refusal::LengthMismatch,
        Refusal::BufferTooShort,
        Refusal::UnknownVersion,
        Refusal::FieldsMismatch,
        Refusal::LimitExceeded,
        Refusal::ValueNotListed,
        Refusal::NumberOutOfRange,
        Refusal::DuplicateId,
        Refusal::UnknownId,
        Refusal::TapUnreachable,
        Refusal::ForbiddenContact,
        Refusal::RouteThroughNode,
        Refusal::NoRoomToSplit,
        Refusal::GeometryVisitsSpent,
        Refusal::OffGrid,
        Refusal::PageOffGrid,
        Refusal::PlanMismatch,
        Refusal::PlannedNumber,
        Refusal::TooManyCrossings,
    ];

    /// The number in the notice.
    pub fn number(self) -> u8 {
        // The cases stand by number, from 1.
        self as u8 + 1
    }

    /// The refusal with this number, if there is one.
    pub fn of_number(number: u8) -> Option<Refusal> {
        let place = usize::from(number).checked_sub(1)?;
        Refusal::ALL.get(place).copied()
    }

    /// Who can cause it.
    pub fn caused_by(self) -> Cause {
        match self.number() {
            1 | 2 | 16 => Cause::Caller,
            3..=9 | 15 => Cause::Writer,
            10..=13 | 19 => Cause::Drawing,
            17 | 18 => Cause::Plan,
            _ => Cause::Grant,
        }
    }

    /// What is wrong, as a clause.
    pub fn fault(self) -> &'static str {
        self.words().fault
    }

    /// What to look at, as a sentence.
    pub fn advice(self) -> &'static str {
        self.words().advice
    }

    fn words(self) -> &'static Words {
        &WORDS[self as usize]
    }
}

impl fmt::Display for Cause {
    fn fmt(&self, to: &mut fmt::Formatter<'_>) -> fmt::Result {
        to.write_str(match self {
            Cause::Caller => "the calling program",
            Cause::Writer => "the job's writer",
            Cause::Drawing => "the drawing",
            Cause::Grant => "the grant",
            Cause::Plan => "the plan",
        })
    }
}

impl fmt::Display for Refusal {
    fn fmt(&self, to: &mut fmt::Formatter<'_>) -> fmt::Result {
        write!(
            to,
            "refused with {}, caused by {}: {}. {}",
            self.number(),
            self.caused_by(),
            self.fault(),
            self.advice()
        )
    }
}

impl Error for Refusal {}
