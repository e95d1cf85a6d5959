//! A plan's bytes: document 02, F-5. Written from that request alone.

use crate::job::Job;
use crate::wire::{Reader, Short, Writer};

/// Smallest buffer of a plan that 2 lets through: 4 + 1 + 4 bytes and 9 for each of 32 bundles.
pub const PLAN_BUFFER: usize = 297;
const VERSION: u8 = 1;
const COORDINATE_LIMIT: f64 = 1_073_741_824.0; // 2^30
const GRID_LIMIT: f64 = 1_048_576.0; // 2^20
const MINUS_ZERO: u64 = 1 << 63;

/// What a plan says: the tap visits left, and for each bundle in job order its x or none.
#[derive(Clone, Debug, PartialEq)]
pub struct Plan {
    pub tap_visits: u32,
    pub entries: Vec<Option<f64>>,
}

/// 17: the bytes end before a field does.
struct Unfit;

impl From<Short> for Unfit {
    fn from(_: Short) -> Unfit {
        Unfit
    }
}

impl Plan {
    pub fn encode(&self) -> Vec<u8> {
        let mut out = Writer::new();
        out.u32(0);
        out.u8(VERSION);
        out.u32(self.tap_visits);
        for entry in &self.entries {
            match entry {
                None => out.u8(0),
                Some(x) => {
                    out.u8(1);
                    out.f64(*x);
                }
            }
        }
        out.set_length();
        out.bytes
    }

    /// The plan as far as its form fits the job; whether its numbers do is another matter.
    fn read(bytes: &[u8], job: &Job) -> Result<Plan, Unfit> {
        let mut from = Reader::new(bytes);
        let length = from.u32()?;
        if usize::try_from(length) != Ok(from.left()) || from.u8()? != VERSION {
            return Err(Unfit);
        }
        let tap_visits = from.u32()?;
        let entry = |from: &mut Reader<'_>| match from.u8()? {
            0 => Ok(None),
            1 => Ok(Some(from.f64()?)),
            _ => Err(Unfit),
        };
        let entries = job.bundles.iter().map(|_| entry(&mut from));
        let entries = entries.collect::<Result<Vec<_>, Unfit>>()?;
        if from.left() != 0 || tap_visits > job.tap_visits {
            return Err(Unfit);
        }
        Ok(Plan {
            tap_visits,
            entries,
        })
    }
}

/// The plan that bytes say of a job, or 17, or 18: all of 17 comes before 18.
pub fn read(bytes: &[u8], job: &Job) -> Result<Plan, u8> {
    let plan = Plan::read(bytes, job).map_err(|Unfit| 17)?;
    let mut numbers = plan.entries.iter().flatten();
    if numbers.any(|&x| !is_taken(x, job.on_grid)) {
        return Err(18);
    }
    Ok(plan)
}

/// A coordinate that 7 lets through, minus zero too; with bit 2 a multiple of 1/128 of at most 2^20 in
/// magnitude that is not minus zero. The product only moves the exponent.
fn is_taken(x: f64, on_grid: bool) -> bool {
    let coordinate = x.is_finite() && x.abs() <= COORDINATE_LIMIT;
    let grid = x.abs() <= GRID_LIMIT && (x * 128.0).fract() == 0.0 && x.to_bits() != MINUS_ZERO;
    coordinate && (grid || !on_grid)
}
