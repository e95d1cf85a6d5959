//! Where a refusal has its cause.

pub(crate) mod checks;
mod drawing;
mod fields;
mod grants;
mod ids;
mod meeting;
mod planned;
mod turn;
mod unwritten;

use crate::board::Board;
use crate::outputs::{Buffers, Wanted};
use crate::place::{Place, Refused, place};
use crate::plan::Plan;
use crate::refusal::Refusal;
use crate::sheet::{Answer, Sheet};
use crate::wire::TooMany;

pub use grants::Forecast;
pub(crate) use meeting::met;
pub(crate) use turn::refused_turn;

/// The refusal of a job's bytes with what it is about, or nothing where the job is drawn.
///
/// A refusal by the drawing takes more drawings of the job, about one for each bundle and member.
///
/// ```
/// let refused = bundle_stage::locate(&[0, 0, 0, 2, 7, 0]).expect("no job");
/// assert_eq!(refused.to_string(), "no sheet: byte 4: the version is 7");
/// ```
pub fn locate(job: &[u8]) -> Option<Refused> {
    locate_with(job, &Wanted::default())
}

/// The refusal of a job's bytes that are drawn from a plan's bytes, with what it is about, or nothing where
/// the job is drawn so.
///
/// ```
/// use bundle_stage::Board;
///
/// let job = Board::default().to_bytes()?;
/// let plan = [0, 0, 0, 5, 7, 0, 0, 0, 0];
/// let refused = bundle_stage::locate_planned(&job, &plan).expect("no plan of version 1");
/// assert_eq!(refused.to_string(), "no sheet: byte 4 of the plan: the version is 7");
/// # Ok::<(), bundle_stage::TooMany>(())
/// ```
pub fn locate_planned(job: &[u8], plan: &[u8]) -> Option<Refused> {
    locate_with(job, &Wanted::default().with_plan(plan))
}

/// The same of a job's bytes with what is given and wanted beside them: a page or a list may be refused that
/// has no place for the board, or not enough.
///
/// ```
/// use bundle_stage::{Board, Wanted, locate, locate_with};
///
/// let job = Board::default().to_bytes()?;
/// assert_eq!(locate(&job), None);
/// let refused = locate_with(&job, &Wanted::default().with_page()).expect("not on the grid");
/// assert_eq!(refused.to_string(), "no sheet: grid is no; all numbers of the board are on the drafting grid");
/// # Ok::<(), bundle_stage::TooMany>(())
/// ```
pub fn locate_with(job: &[u8], wanted: &Wanted<'_>) -> Option<Refused> {
    let mut buffers = Box::new(Buffers::default());
    match Answer::from_bytes(buffers.write(job, wanted).answer) {
        Ok(Answer::Refused(refusal)) => Some(Refused {
            refusal,
            places: places(job, wanted.plan, refusal),
        }),
        _ => None,
    }
}

impl Board {
    /// Draws the bundles, as [`Board::draw`] does; a refusal says what it is about.
    ///
    /// # Errors
    ///
    /// The refusal, with its places.
    ///
    /// ```
    /// use bundle_stage::*;
    ///
    /// let node = |id: u32| Node { id: id.into(), x: 0.0, y: 0.0, width: 1.0, height: 1.0 };
    /// let board = Board { nodes: vec![node(5), node(6), node(5)], ..Board::default() };
    /// let refused = board.draw_detailed().expect_err("an id twice");
    /// assert_eq!(refused.refusal, Refusal::DuplicateId);
    /// assert_eq!(
    ///     refused.places[0].to_string(),
    ///     "node 5 and node 5 have one id: the first and the third of the nodes"
    /// );
    /// ```
    pub fn draw_detailed(&self) -> Result<Sheet, Refused> {
        match self.to_bytes() {
            Ok(job) => self.draw().map_err(|refusal| Refused {
                refusal,
                places: places(&job, None, refusal),
            }),
            Err(many) => Err(too_many(&many)),
        }
    }

    /// Draws the bundles where the plan has them, as [`Board::draw_from`] does; a refusal says what it is
    /// about.
    ///
    /// # Errors
    ///
    /// The refusal, with its places.
    ///
    /// ```
    /// use bundle_stage::*;
    ///
    /// let board = Board { grants: Visits { tap: 3, geometry: 0 }, ..Board::default() };
    /// let plan = Plan { tap_visits_left: 4, places: Vec::new() };
    /// let refused = board.draw_from_detailed(&plan).expect_err("more left than is granted");
    /// assert_eq!(refused.refusal, Refusal::PlanMismatch);
    /// assert_eq!(
    ///     refused.places[0].to_string(),
    ///     "byte 5 of the plan: 4 tap visits are left, and tap_visits is 3"
    /// );
    /// ```
    pub fn draw_from_detailed(&self, plan: &Plan) -> Result<Sheet, Refused> {
        let job = self.to_bytes().map_err(|many| too_many(&many))?;
        let bytes = plan.to_bytes().map_err(|many| Refused {
            refusal: Refusal::PlanMismatch,
            places: vec![place!(many.to_string())],
        })?;
        self.draw_from(plan).map_err(|refusal| Refused {
            refusal,
            places: places(&job, Some(&bytes), refusal),
        })
    }
}

fn too_many(many: &TooMany) -> Refused {
    Refused {
        refusal: Refusal::LimitExceeded,
        places: vec![place!(many.to_string())],
    }
}

/// Of a job that is drawn from a plan's bytes, if they are given, else from its own plan.
fn places(job: &[u8], plan: Option<&[u8]>, refusal: Refusal) -> Vec<Place> {
    let by_fields = fields::first(job).filter(|found| found.refusal == refusal);
    let Ok(board) = Board::from_bytes(job) else {
        return by_fields.map(|found| found.place).into_iter().collect();
    };
    match refusal {
        Refusal::OffGrid => board.off_grid().iter().map(|off| off.place()).collect(),
        Refusal::DuplicateId => ids::twice(&board),
        Refusal::UnknownId => ids::unknown(&board),
        Refusal::TapUnreachable | Refusal::ForbiddenContact | Refusal::RouteThroughNode => {
            let plan = match plan {
                Some(plan) => Plan::from_bytes(plan).ok(),
                None => board.plan().ok(),
            };
            plan.map_or(Vec::new(), |plan| drawing::places(&board, &plan, refusal))
        }
        Refusal::PlanMismatch | Refusal::PlannedNumber => {
            planned::places(&board, plan.unwrap_or_default(), refusal)
        }
        Refusal::NoRoomToSplit => ids::components_refused(&board),
        Refusal::GeometryVisitsSpent => {
            let plan = plan.and_then(|plan| Plan::from_bytes(plan).ok());
            vec![grants::place(&board, plan.as_ref())]
        }
        Refusal::PageOffGrid => vec![unwritten::page(&board)],
        Refusal::TooManyCrossings => unwritten::crossings(&board, plan).into_iter().collect(),
        _ => by_fields.map(|found| found.place).into_iter().collect(),
    }
}

/// A place in a table in words: the first, the second, ..
fn nth(place: usize) -> String {
    const FIRST: [&str; 12] = [
        "first", "second", "third", "fourth", "fifth", "sixth", "seventh", "eighth", "ninth",
        "tenth", "eleventh", "twelfth",
    ];
    match FIRST.get(place) {
        Some(word) => format!("the {word}"),
        None => format!("number {}", place + 1),
    }
}
