//! Plans: planned once, drawn later.

use bundle_stage_sys::{BUFFER, PLAN};

use crate::board::{Board, VERSION, version};
use crate::refusal::Refusal;
use crate::sheet::{Answer, Sheet};
use crate::wire::{Malformed, Reader, TooMany, Wire, Writer};

/// The bytes of a buffer that holds every plan: 32 bundles.
pub const PLAN_SIZE: usize = PLAN;

/// A plan: where the collectors of a board's bundles are to stand.
///
/// ```
/// use bundle_stage::*;
///
/// let id = Id::from(1);
/// let port = Endpoint { node: id, port: id };
/// let board = Board {
///     nodes: vec![Node { id, x: 0.0, y: 0.0, width: 40.0, height: 40.0 }],
///     ports: vec![Port { node: id, id, side: Side::East, offset: 20.0 }],
///     bundles: vec![Bundle { id: 7.into(), endpoint: port, role: Role::Input, width: 0, members: vec![] }],
///     ..Board::default()
/// };
/// let plan = board.plan()?;
/// assert_eq!(plan, Plan { tap_visits_left: Visits::MOST.tap, places: vec![None] });
/// // Kept with the board's revision, and drawn from later.
/// let kept = plan.to_bytes().expect("small");
/// let back = Plan::from_bytes(&kept).expect("whole");
/// assert_eq!(board.draw_from(&back)?, board.draw()?);
/// assert_eq!(Board::default().draw_from(&plan), Err(Refusal::PlanMismatch));
/// # Ok::<(), Refusal>(())
/// ```
#[derive(Clone, Debug, PartialEq)]
pub struct Plan {
    /// Tap visits left of the board's grant: the drawing hands them on to the sheet.
    pub tap_visits_left: u32,
    /// For each bundle, in the board's order, the x of its collector inside the sheet, or none: then it
    /// stands at the rail.
    pub places: Vec<Option<f64>>,
}

impl Plan {
    /// The plan that bytes say, if they are a whole one. `to_bytes` gives the same bytes back. Whether it
    /// fits a board is not looked at.
    ///
    /// # Errors
    ///
    /// The first byte that does not fit, and what was expected there.
    pub fn from_bytes(bytes: &[u8]) -> Result<Plan, Malformed> {
        let mut from = Reader::new(bytes);
        from.length()?;
        version(&mut from)?;
        let tap_visits_left = from.field("the tap visits left")?;
        let mut places = Vec::new();
        while !from.is_at_end() {
            let planned = from.field::<bool>("a bundle's mark (0 or 1)")?;
            places.push(match planned {
                true => Some(from.field("a bundle's x")?),
                false => None,
            });
        }
        Ok(Plan {
            tap_visits_left,
            places,
        })
    }

    /// The plan's bytes. They fail only where it is too long for the format.
    ///
    /// # Errors
    ///
    /// What there are too many of.
    pub fn to_bytes(&self) -> Result<Vec<u8>, TooMany> {
        let mut to = Writer::new();
        VERSION.put(&mut to)?;
        self.tap_visits_left.put(&mut to)?;
        for place in &self.places {
            place.is_some().put(&mut to)?;
            if let Some(x) = place {
                x.put(&mut to)?;
            }
        }
        to.finish()
    }
}

/// The plan of a job's bytes, whatever they are, or the notice of its refusal.
///
/// ```
/// assert_eq!(bundle_stage::plan(b"no job"), [0, 0, 0, 2, 1, 1]);
/// ```
pub fn plan(job: &[u8]) -> Vec<u8> {
    let mut buffer = [0; PLAN];
    let count = bundle_stage_sys::stage_plan(job, &mut buffer);
    buffer[..count].to_vec()
}

/// The answer to a job's bytes, drawn from a plan's bytes, whatever they are.
///
/// ```
/// assert_eq!(bundle_stage::answer_from(b"no job", b"no plan"), [0, 0, 0, 2, 1, 1]);
/// ```
pub fn answer_from(job: &[u8], plan: &[u8]) -> Vec<u8> {
    let mut buffer = Box::new([0; BUFFER]);
    let count = bundle_stage_sys::stage_draw(job, plan, &mut buffer);
    buffer[..count].to_vec()
}

impl Board {
    /// Plans the bundles, and draws nothing.
    ///
    /// # Errors
    ///
    /// The stage's refusal: that of a board that cannot be read, or [`Refusal::NoRoomToSplit`]. What only
    /// the drawing meets is not looked for.
    ///
    /// # Panics
    ///
    /// Never: the stage is proved to write whole plans and notices.
    pub fn plan(&self) -> Result<Plan, Refusal> {
        let job = self.to_bytes().map_err(|_| Refusal::LimitExceeded)?;
        let bytes = plan(&job);
        match bytes[..] {
            // A plan has nine bytes at least, a notice six.
            [0, 0, 0, 2, 1, number] => {
                Err(Refusal::of_number(number).expect("the stage's numbers are known"))
            }
            _ => Ok(Plan::from_bytes(&bytes).expect("the stage is proved to write whole plans")),
        }
    }

    /// Draws the bundles where the plan has them. With the plan that [`Board::plan`] gives, this is
    /// [`Board::draw`].
    ///
    /// # Errors
    ///
    /// The stage's refusal; [`Refusal::PlanMismatch`] and [`Refusal::PlannedNumber`] are about the plan.
    /// A plan of another board is refused only if it does not fit this one.
    ///
    /// # Panics
    ///
    /// Never: the stage is proved to write whole answers.
    pub fn draw_from(&self, plan: &Plan) -> Result<Sheet, Refusal> {
        let job = self.to_bytes().map_err(|_| Refusal::LimitExceeded)?;
        let plan = plan.to_bytes().map_err(|_| Refusal::PlanMismatch)?;
        Answer::from_bytes(&answer_from(&job, &plan))
            .expect("the stage is proved to write whole answers")
            .into_result()
    }
}
