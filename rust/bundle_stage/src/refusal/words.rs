//! The words of each refusal.

use super::Refusal;

/// What is wrong, as a clause, and what to look at, as a sentence.
pub(super) struct Words {
    pub(super) fault: &'static str,
    pub(super) advice: &'static str,
}

/// By number, from 1.
pub(super) const WORDS: [Words; Refusal::ALL.len()] = [
    // 1: LengthMismatch
    Words {
        fault: "the job has under 5 bytes, or its first four bytes do not count the bytes that follow \
         them",
        advice: "Look at how the job was read or sent: it is cut short, too long, or no job.",
    },
    // 2: BufferTooShort
    Words {
        fault: "the buffer for the answer has under 65,536 bytes, or that of another output that is \
         wanted under its largest size",
        advice: "Lend 65,536 bytes for the answer, 2,432 for a page and 24,578 for a list of crossings \
         that is wanted.",
    },
    // 3: UnknownVersion
    Words {
        fault: "the job's version is not 1",
        advice: "Look at the fifth byte, and at which program wrote the job.",
    },
    // 4: FieldsMismatch
    Words {
        fault: "a field of the job runs past its end, or bytes remain behind it",
        advice: "Look at the counts: each must be the number of records that are written.",
    },
    // 5: LimitExceeded
    Words {
        fault: "a count, lane or grant is above its limit",
        advice: "Look for more than 128 nodes, 256 ports, 256 edges, 32 bundles, 64 points of a route, \
         2,048 points in all, 64 members of a bundle, 256 members in all, a lane above 255, or \
         grants above 2,000,000 tap and 20,000,000 geometry visits.",
    },
    // 6: ValueNotListed
    Words {
        fault: "a flag, side or role is none of those listed",
        advice: "Flags are 0 to 7, sides 0 to 3 (north, east, south, west), roles 0 and 1 (input, \
         output).",
    },
    // 7: NumberOutOfRange
    Words {
        fault: "a number is not finite, or is out of its range",
        advice: "Coordinates and offsets have magnitude at most 2^30, sizes are 0 to 2^30, options 0 to \
         2^20.",
    },
    // 8: DuplicateId
    Words {
        fault: "an id stands twice among the nodes, the edges, the bundles or one node's ports, or an \
         edge is twice in bundles of one role",
        advice: "Give each record of a table an id of its own, and an edge to one bundle of a role at \
         most.",
    },
    // 9: UnknownId
    Words {
        fault: "a port, edge or bundle names a node that is not there, a bundle names a port that its \
         node does not have, or a member names an edge that is not there",
        advice: "Look for a misspelt id.",
    },
    // 10: TapUnreachable
    Words {
        fault: "the route of a bundle's member cannot be led to its tap",
        advice: "Look at the bundle's member routes: each needs two points or more, and a level run, or \
         an upright one, at its corridor: the rail depth, the depth of the bundles before it \
         and its lane's pitches away from the bundle's port.",
    },
    // 11: ForbiddenContact
    Words {
        fault: "a bundle would touch a route or another bundle where it must not, or come too close to \
         it",
        advice: "Look for routes at the place of the bundle's collector and spine, and give them room; \
         where the two are only too near, lower minimum_parallel_wire_spacing; where a route \
         only crosses the bundle and the board forbids crossings, permit them.",
    },
    // 12: RouteThroughNode
    Words {
        fault: "the route of a bundle's member would run through a node that is neither its source nor \
         its target, or is slanted",
        advice: "Look for nodes between the bundle's port and the far ends of its members, and for \
         routes with a run that is neither level nor upright.",
    },
    // 13: NoRoomToSplit
    Words {
        fault: "input and output bundles that share edges have no room for their collectors: the place \
         that would part them has its low end above its high end",
        advice: "Look at the options and at how near the two ports stand: the numbers are rounded so \
         that no x is left between them.",
    },
    // 14: GeometryVisitsSpent
    Words {
        fault: "the checks of the sheet need more geometry visits than the job grants",
        advice: "Grant more geometry visits, up to 20,000,000, or give the board fewer runs and \
         bundles.",
    },
    // 15: OffGrid
    Words {
        fault: "the job is said to be on the drafting grid, and a number is off it",
        advice: "Coordinates, sizes, offsets and options on the grid are multiples of 1/64 with \
         magnitude at most 2^20; move the number, or do not say that the board is on it.",
    },
    // 16: PageOffGrid
    Words {
        fault: "the bundle page is wanted, and the job is not said to be on the drafting grid",
        advice: "A page has exact decimals, which only numbers on the grid have: say that the board is \
         on it (flag bit 2; `grid yes` in a text), or do without the page.",
    },
    // 17: PlanMismatch
    Words {
        fault: "the plan's length, version, marks or count of entries do not fit the job's bundles, or \
         its tap visits left are more than the job grants",
        advice: "Look whether the plan is of this revision of the board, and whole; plan anew.",
    },
    // 18: PlannedNumber
    Words {
        fault: "a planned number is not finite or out of range, or, the job being said to be on the \
         drafting grid, off the grid",
        advice: "Planned numbers have magnitude at most 2^30; on the grid they are multiples of 1/128 \
         with magnitude at most 2^20, and not minus zero. Plan anew.",
    },
    // 19: TooManyCrossings
    Words {
        fault: "the list of crossings is wanted, and bundles and routes cross more than 1,024 times",
        advice: "Look for routes that go across many bundles, and lead them around; or do without the \
         list.",
    },
];
