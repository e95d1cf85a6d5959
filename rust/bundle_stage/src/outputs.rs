//! What the stage can be given beside the job, and its outputs beside the answer.

use bundle_stage_sys::{BUFFER, CROSSINGS, PAGE};

use crate::board::{Board, Point};
use crate::id::Id;
use crate::refusal::Refusal;
use crate::sheet::{Answer, Sheet};
use crate::wire::{Malformed, Reader, record};

/// The bytes of a buffer that holds every bundle page: 32 lines.
pub const PAGE_SIZE: usize = PAGE;
/// The bytes of a line of a bundle page, its newline among them.
pub const PAGE_LINE_SIZE: usize = 76;
/// The bytes of a buffer that holds every list of crossings: 1,024 of them.
pub const CROSSINGS_SIZE: usize = CROSSINGS;
/// The bytes of a crossing in the list, behind the two of its count.
pub const CROSSING_SIZE: usize = 24;
/// Where an answer has its count of bundles, in two bytes.
const BUNDLES_AT: usize = 34;

/// What is given beside the job, and what is wanted beside the answer: by default nothing.
///
/// ```
/// use bundle_stage::Wanted;
///
/// let wanted = Wanted::default().with_page().with_crossings();
/// assert!(wanted.page && wanted.crossings && wanted.plan.is_none());
/// ```
#[derive(Clone, Copy, Debug, Default, Eq, PartialEq)]
#[non_exhaustive]
pub struct Wanted<'a> {
    /// The bytes of a plan to draw from; without one the stage plans itself.
    pub plan: Option<&'a [u8]>,
    /// The bundle page. A board that is not said to be on the drafting grid (`flags.on_grid`) has none
    /// and is refused with [`Refusal::PageOffGrid`], if with nothing else.
    pub page: bool,
    /// The list of crossings. A sheet with more than 1,024 is refused with
    /// [`Refusal::TooManyCrossings`], if with nothing else but for the page.
    pub crossings: bool,
}

impl<'a> Wanted<'a> {
    /// The same, drawn from the bytes of this plan.
    pub fn with_plan(self, plan: &'a [u8]) -> Wanted<'a> {
        let plan = Some(plan);
        Wanted { plan, ..self }
    }

    /// The same, and the bundle page.
    pub fn with_page(self) -> Wanted<'a> {
        Wanted { page: true, ..self }
    }

    /// The same, and the list of crossings.
    pub fn with_crossings(self) -> Wanted<'a> {
        let crossings = true;
        Wanted { crossings, ..self }
    }
}

/// Where a bundle and a route cross without a joint.
#[derive(Clone, Copy, Debug, PartialEq)]
pub struct Crossing {
    /// The place, on the sheet before its last shift.
    pub point: Point,
    /// The bundle, whose collector or spine is crossed.
    pub bundle: Id,
    /// The edge of the route.
    pub edge: Id,
}

record!(Crossing {
    point: "a crossing's place",
    bundle: "a crossing's bundle",
    edge: "a crossing's edge",
});

impl Crossing {
    /// The list that bytes say, if they are a whole one.
    ///
    /// # Errors
    ///
    /// The first byte that does not fit, and what was expected there.
    pub fn list_from_bytes(bytes: &[u8]) -> Result<Vec<Crossing>, Malformed> {
        let mut from = Reader::new(bytes);
        let count = from.field("the count of crossings")?;
        let list = from.rows(count, "a crossing")?;
        from.end()?;
        Ok(list)
    }
}

/// Buffers of the largest sizes, so that none is too short. They can be used again.
///
/// ```
/// use bundle_stage::*;
///
/// let mut buffers = Box::new(Buffers::default());
/// let wanted = Wanted::default().with_page();
/// let job = Board::default().to_bytes()?;
/// assert_eq!(buffers.write(&job, &wanted).answer, [0, 0, 0, 2, 1, 16]);
/// let grid = Board { flags: Flags { on_grid: true, ..Flags::default() }, ..Board::default() };
/// let written = buffers.write(&grid.to_bytes()?, &wanted);
/// assert_eq!(written.page, Some(&b""[..]), "a board without bundles has a page without lines");
/// # Ok::<(), TooMany>(())
/// ```
#[derive(Clone, Debug)]
pub struct Buffers {
    answer: [u8; BUFFER],
    page: [u8; PAGE],
    crossings: [u8; CROSSINGS],
}

impl Default for Buffers {
    fn default() -> Buffers {
        Buffers {
            answer: [0; BUFFER],
            page: [0; PAGE],
            crossings: [0; CROSSINGS],
        }
    }
}

/// What the stage wrote for a job.
#[derive(Clone, Copy, Debug, Eq, PartialEq)]
#[non_exhaustive]
pub struct Written<'a> {
    /// The answer, or the notice of a refusal.
    pub answer: &'a [u8],
    /// The bundle page, if it is wanted and nothing was refused: lines of 76 bytes, one for each bundle.
    pub page: Option<&'a [u8]>,
    /// The list of crossings, if it is wanted and nothing was refused: a count in two bytes, then 24 bytes
    /// for each, by y, then x, then the board's order. It has no entry where crossings are
    /// forbidden.
    pub crossings: Option<&'a [u8]>,
}

impl Buffers {
    /// The answer to a job's bytes, whatever they are, and what else is wanted.
    pub fn write(&mut self, job: &[u8], wanted: &Wanted<'_>) -> Written<'_> {
        let page = wanted.page.then_some(&mut self.page);
        let list = wanted.crossings.then_some(&mut self.crossings);
        let count = bundle_stage_sys::stage_sheet(job, wanted.plan, &mut self.answer, page, list);
        let answer = &self.answer[..count];
        // A notice is shorter, and with it nothing else is written.
        let bundles = match answer.get(BUNDLES_AT..BUNDLES_AT + 2) {
            Some(&[high, low]) => usize::from(u16::from_be_bytes([high, low])),
            _ => {
                return Written {
                    answer,
                    page: None,
                    crossings: None,
                };
            }
        };
        let crossings = usize::from(u16::from_be_bytes([self.crossings[0], self.crossings[1]]));
        Written {
            answer,
            page: wanted.page.then(|| &self.page[..bundles * PAGE_LINE_SIZE]),
            crossings: wanted
                .crossings
                .then(|| &self.crossings[..2 + crossings * CROSSING_SIZE]),
        }
    }
}

/// A sheet with what else is wanted.
#[derive(Clone, Debug, PartialEq)]
#[non_exhaustive]
pub struct Drawn {
    /// The sheet.
    pub sheet: Sheet,
    /// The bundle page, if it is wanted.
    pub page: Option<String>,
    /// The crossings, if they are wanted: by y, then x, then the board's order. Their places are those
    /// before the last shift.
    pub crossings: Option<Vec<Crossing>>,
}

impl Board {
    /// Draws the bundles, as [`Board::draw`] does, or [`Board::draw_from`] where a plan is given, and
    /// gives what else is wanted.
    ///
    /// # Errors
    ///
    /// The stage's refusal, as these give it, or that of an output that is wanted.
    ///
    /// # Panics
    ///
    /// Never: the stage is proved to write whole answers and lists, and pages of digits, letters and
    /// spaces.
    ///
    /// ```
    /// use bundle_stage::*;
    ///
    /// let id = Id::from(1);
    /// let port = Endpoint { node: id, port: id };
    /// let board = Board {
    ///     flags: Flags { on_grid: true, ..Flags::default() },
    ///     nodes: vec![Node { id, x: 0.0, y: 0.0, width: 40.0, height: 40.0 }],
    ///     ports: vec![Port { node: id, id, side: Side::East, offset: 20.5 }],
    ///     bundles: vec![Bundle { id: 7.into(), endpoint: port, role: Role::Input, width: 0, members: vec![] }],
    ///     ..Board::default()
    /// };
    /// let drawn = board.draw_with(&Wanted::default().with_page())?;
    /// let due = "         7 I           40.0000000           20.5000000           20.5000000\n";
    /// assert_eq!(drawn.page.as_deref(), Some(due));
    /// # Ok::<(), Refusal>(())
    /// ```
    pub fn draw_with(&self, wanted: &Wanted<'_>) -> Result<Drawn, Refusal> {
        let job = self.to_bytes().map_err(|_| Refusal::LimitExceeded)?;
        let mut buffers = Box::new(Buffers::default());
        let written = buffers.write(&job, wanted);
        let sheet = Answer::from_bytes(written.answer)
            .expect("the stage is proved to write whole answers")
            .into_result()?;
        let text = |page: &[u8]| str::from_utf8(page).expect("a page is ASCII").to_string();
        let list = |bytes: &[u8]| {
            Crossing::list_from_bytes(bytes).expect("the stage is proved to write whole lists")
        };
        Ok(Drawn {
            sheet,
            page: written.page.map(text),
            crossings: written.crossings.map(list),
        })
    }
}
