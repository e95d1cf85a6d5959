//! A call that can be given a plan, and can want other outputs than the answer: document 02, F-4, F-5, F-7.

use crate::crossings::{CROSSINGS_BUFFER, Crossing, MOST, encode};
use crate::page::page;
use crate::stage::{BUFFER, answer_and_crossings};
use crate::{answer, number};

/// The bits of `wants`: a plan is given, the page is wanted, the crossings are.
pub const PLAN_GIVEN: u32 = 1;
pub const WANT_PAGE: u32 = 2;
pub const WANT_CROSSINGS: u32 = 4;
/// Smallest buffer of a page that 2 lets through: 32 lines of 76 bytes.
pub const PAGE_BUFFER: usize = 2_432;

/// Lengths of the buffers that are lent.
#[derive(Clone, Copy, Debug, Eq, PartialEq)]
pub struct Lengths {
    pub answer: usize,
    pub page: usize,
    pub crossings: usize,
}

/// What is written to the front of each buffer; later bytes are untouched.
#[derive(Clone, Debug, Default, Eq, PartialEq)]
pub struct Outputs {
    pub answer: Vec<u8>,
    pub page: Vec<u8>,
    pub crossings: Vec<u8>,
}

impl Lengths {
    /// 2: the answer's buffer is too short, or that of an output that is wanted.
    pub fn are_short(&self, wants: u32) -> bool {
        self.answer < BUFFER
            || wants & WANT_PAGE != 0 && self.page < PAGE_BUFFER
            || wants & WANT_CROSSINGS != 0 && self.crossings < CROSSINGS_BUFFER
    }
}

/// All that is written. A bit of `wants` that is not listed says nothing, nor does a plan that is not
/// given.
pub fn outputs(wants: u32, job: &[u8], plan: &[u8], lengths: Lengths) -> Outputs {
    if lengths.are_short(wants) {
        return Outputs::default();
    }
    let plan = (wants & PLAN_GIVEN != 0).then_some(plan);
    let (answer, list) = answer_and_crossings(job, plan);
    beside(wants, job, answer, &list)
}

/// All that is written for a job with this answer and these crossings, where no buffer is too short: 19
/// comes after every other refusal but 16, which is the last, and a refusal leaves all but the answer's
/// buffer untouched.
pub fn beside(wants: u32, job: &[u8], answer: Vec<u8>, list: &[Crossing]) -> Outputs {
    let notice = |number: u8| Outputs {
        answer: answer::notice(number),
        ..Outputs::default()
    };
    let [page_wanted, list_wanted] = [WANT_PAGE, WANT_CROSSINGS].map(|bit| wants & bit != 0);
    let mut outputs = Outputs {
        answer,
        ..Outputs::default()
    };
    if number(&outputs.answer) != 0 {
        return outputs;
    }
    if list_wanted && list.len() > MOST {
        return notice(19);
    }
    // Bit 2 of the flags, which stand behind length and version.
    if page_wanted && job[5] & 4 == 0 {
        return notice(16);
    }
    if page_wanted {
        outputs.page = page(&outputs.answer);
    }
    if list_wanted {
        outputs.crossings = encode(list);
    }
    outputs
}
