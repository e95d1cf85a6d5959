//! In words: whether joints of a sheet in an answer are false, and what is known of its last shift.

use bundle_stage::limits::CROSSINGS;
use bundle_stage::{
    Board, Crossing, FalseJoint, LastShift, Meeting, Point, Segment, Sheet, Shift, Wanted,
};

use crate::explain::counted;
use crate::text::number;

/// What was found on a sheet.
pub enum Joints {
    /// The stage gives another answer to this job, so that nothing is known of this one.
    NotOurs,
    /// Crossings are permitted: these are the stage's list, or those of parts of the board, or there are too
    /// many for either.
    Permitted(Option<Vec<Crossing>>, LastShift),
    /// These are false: none, mostly.
    False(Vec<FalseJoint>, LastShift),
    /// The same of a sheet that the stage draws from a plan that is given.
    Planned(Box<Joints>),
}

impl Joints {
    /// Looks at a sheet. What is proved of the stage holds of its own answers, so the job is drawn
    /// again to compare.
    pub fn of(board: &Board, sheet: &Sheet) -> Joints {
        if board.draw().as_ref() != Ok(sheet) {
            return Joints::NotOurs;
        }
        Joints::found_on(board, sheet, None)
    }

    /// The same of a sheet that may be drawn from a plan, by the plan's bytes.
    pub fn of_plan(board: &Board, sheet: &Sheet, plan: &[u8]) -> Joints {
        let wanted = Wanted::default().with_plan(plan);
        match board.draw_with(&wanted) {
            Ok(drawn) if drawn.sheet == *sheet => {
                Joints::Planned(Box::new(Joints::found_on(board, sheet, Some(plan))))
            }
            _ => Joints::NotOurs,
        }
    }

    fn found_on(board: &Board, sheet: &Sheet, plan: Option<&[u8]>) -> Joints {
        let shift = sheet.last_shift(board);
        match sheet.false_joints(board) {
            Some(joints) => Joints::False(joints, shift),
            None => Joints::Permitted(board.crossings(sheet, plan), shift),
        }
    }

    /// The crossings of bundles and routes, by the stage's list, if there is one.
    pub fn crossings(&self) -> Option<&[Crossing]> {
        match self {
            Joints::NotOurs => None,
            Joints::Permitted(list, _) => list.as_deref(),
            // None is permitted.
            Joints::False(..) => Some(&[]),
            Joints::Planned(joints) => joints.crossings(),
        }
    }

    /// The false ones.
    pub fn found(&self) -> &[FalseJoint] {
        match self {
            Joints::False(joints, _) => joints,
            Joints::Planned(joints) => joints.found(),
            _ => &[],
        }
    }

    /// Whether the stage made this sheet and searched its places itself.
    pub fn searched(&self) -> bool {
        matches!(self, Joints::Permitted(..) | Joints::False(..))
    }

    /// A line for the joints, one for each false one, and one for the last shift.
    pub fn explained(&self) -> String {
        let said = format!("joints: {}\n", self.said());
        let each = self.found().iter();
        let each = each.map(|joint| format!("  {}\n", words(joint)));
        let shift = self.shift().map(|shift| format!("last shift: {shift}\n"));
        said + &each.collect::<String>() + &shift.unwrap_or_default()
    }

    /// The same as one line, the false ones only counted.
    pub fn line(&self) -> String {
        let shift = self.shift().map(|shift| format!(" Last shift: {shift}."));
        let by_tool = match self.crossings() {
            Some(_) => "",
            None => " Where bundles and routes cross was found by the tool itself.",
        };
        format!(
            "Joints: {}.{by_tool}{}",
            self.said(),
            shift.unwrap_or_default()
        )
    }

    fn said(&self) -> String {
        match self {
            Joints::NotOurs => {
                "not looked at, as the stage gives another answer to this job".to_string()
            }
            Joints::Permitted(Some(list), _) => format!(
                "{} with routes, else only taps, as is proved{} before the last shift",
                counted(list.len(), "crossing"),
                if list.len() > CROSSINGS {
                    " of parts of the board, each with at most 1,024,"
                } else {
                    ""
                }
            ),
            Joints::Permitted(None, _) => {
                "crossings are permitted, and there are more than can be listed".to_string()
            }
            Joints::False(joints, _) if joints.is_empty() => {
                "none is false on the sheet in the answer, looked at in exact numbers".to_string()
            }
            Joints::False(joints, _) => format!(
                "{} false, by the rounding of the last shift; before that shift none is, as is \
                 proved",
                match joints.len() {
                    1 => "1 is".to_string(),
                    count => format!("{count} are"),
                }
            ),
            Joints::Planned(joints) => {
                format!("drawn from the plan that is given; {}", joints.planned())
            }
        }
    }

    /// Of a sheet from any plan that much less is proved.
    fn planned(&self) -> String {
        match self {
            Joints::False(joints, _) if !joints.is_empty() => format!(
                "false on the sheet in the answer, looked at in exact numbers: {}",
                joints.len()
            ),
            Joints::Permitted(Some(list), _) => {
                format!(
                    "{} with routes, by the stage's list{}",
                    counted(list.len(), "crossing"),
                    if list.len() > CROSSINGS {
                        "s of parts of the board"
                    } else {
                        ""
                    }
                )
            }
            _ => self.said(),
        }
    }

    fn shift(&self) -> Option<String> {
        match self {
            Joints::NotOurs => None,
            Joints::Permitted(_, shift) | Joints::False(_, shift) => Some(shifted(*shift)),
            Joints::Planned(joints) => joints.shift(),
        }
    }
}

/// What it is called.
pub fn name(joint: &FalseJoint) -> &'static str {
    match joint.meeting {
        Meeting::Route { .. } | Meeting::Bundles { .. } => "false joint",
        Meeting::Node { .. } => "edge in a node",
        Meeting::SlantedRoute { .. } | Meeting::SlantedBundle { .. } => "slanted",
        _ => "false joint",
    }
}

/// What meets, and where.
pub fn words(joint: &FalseJoint) -> String {
    let what = match joint.meeting {
        Meeting::Route { route, bundle } => format!("edge {route} touches bundle {bundle}"),
        Meeting::Bundles { earlier, later } => format!("bundle {later} touches bundle {earlier}"),
        Meeting::Node { route, node } => format!("edge {route} enters node {node}"),
        Meeting::SlantedRoute { route } => format!("edge {route} is slanted"),
        Meeting::SlantedBundle { bundle } => format!("bundle {bundle} is slanted"),
        _ => "parts that must not meet do".to_string(),
    };
    let Segment { start, end } = joint.shared;
    let place = |at: Point| format!("({}, {})", number(at.x), number(at.y));
    if start == end {
        format!("{what} at {}", place(start))
    } else {
        format!("{what} from {} to {}", place(start), place(end))
    }
}

fn shifted(LastShift { x, y }: LastShift) -> String {
    let along = |shift| match shift {
        Shift::Nothing => "it subtracted nothing",
        Shift::Exact => "it was exact (all numbers of the job are multiples of 1/64 up to 2^20)",
        Shift::Rounded => "it rounded a coordinate, or a far side that is summed anew",
        _ => "it may have rounded",
    };
    if x == y {
        along(x).to_string()
    } else {
        format!("across, {}; down, {}", along(x), along(y))
    }
}
