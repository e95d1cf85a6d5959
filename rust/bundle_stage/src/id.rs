//! Ids.

use std::fmt;
use std::num::ParseIntError;
use std::str::FromStr;

use crate::wire::{Malformed, Reader, TooMany, Wire, Writer};

/// The number by which a node, port, edge or bundle is named.
///
/// It is made of 32 bits, as a job has them, and has room for 64: a program that takes the number out
/// takes it as a u64, and need not change where jobs get longer ids.
///
/// ```
/// use bundle_stage::Id;
///
/// let id = Id::from(41);
/// assert_eq!(id.to_string(), "41");
/// assert_eq!("41".parse(), Ok(id));
/// assert_eq!(id.number(), 41_u64);
/// ```
#[derive(Clone, Copy, Debug, Default, Eq, Hash, Ord, PartialEq, PartialOrd)]
pub struct Id(u64);

impl Id {
    /// The number.
    pub fn number(self) -> u64 {
        self.0
    }
}

impl From<u32> for Id {
    fn from(number: u32) -> Id {
        Id(number.into())
    }
}

impl From<Id> for u64 {
    fn from(id: Id) -> u64 {
        id.0
    }
}

/// The number in decimal digits.
impl fmt::Display for Id {
    fn fmt(&self, to: &mut fmt::Formatter<'_>) -> fmt::Result {
        self.0.fmt(to)
    }
}

/// A number of at most 32 bits in decimal digits.
impl FromStr for Id {
    type Err = ParseIntError;

    fn from_str(word: &str) -> Result<Id, ParseIntError> {
        word.parse::<u32>().map(Id::from)
    }
}

impl Wire for Id {
    fn put(&self, to: &mut Writer) -> Result<(), TooMany> {
        let number = u32::try_from(self.0).expect("ids are made of 32 bits");
        number.put(to)
    }

    fn take(from: &mut Reader<'_>, field: &'static str) -> Result<Id, Malformed> {
        u32::take(from, field).map(Id::from)
    }
}
