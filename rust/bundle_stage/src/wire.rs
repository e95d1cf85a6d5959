//! Big-endian bytes, as jobs and answers have them.

use std::error::Error;
use std::fmt;

/// Bytes that are no job, or no answer: where, and what was expected there.
#[derive(Clone, Debug, Eq, PartialEq)]
#[non_exhaustive]
pub struct Malformed {
    /// The place of the first byte that does not fit, from 0.
    pub at: usize,
    /// The field that was expected there.
    pub field: &'static str,
    /// What is wrong with it.
    pub fault: Fault,
}

/// What is wrong with a field.
#[derive(Clone, Copy, Debug, Eq, PartialEq)]
#[non_exhaustive]
pub enum Fault {
    /// The bytes end before it, or inside it.
    Ends,
    /// It has a value that is not listed.
    NotListed(u32),
    /// So many bytes follow where none should.
    Remain(usize),
    /// It says that so many bytes follow, and not as many do: the bytes are cut off, or others stand behind them.
    Follow {
        /// What it says.
        said: u32,
        /// How many do.
        bytes: usize,
    },
}

impl fmt::Display for Malformed {
    fn fmt(&self, to: &mut fmt::Formatter<'_>) -> fmt::Result {
        let Malformed { at, field, fault } = self;
        write!(to, "byte {at}: expected {field}, found ")?;
        match fault {
            Fault::Ends => write!(to, "the end"),
            Fault::NotListed(value) => write!(to, "{value}"),
            Fault::Remain(count) => write!(to, "more bytes: {count}"),
            Fault::Follow { said, bytes } => {
                let missing = i128::from(*said) - *bytes as i128;
                let what = if missing > 0 { "missing" } else { "too many" };
                let count = missing.abs();
                write!(to, "{said}, and {bytes} follow: {count} are {what}")
            }
        }
    }
}

impl Error for Malformed {}

/// A table, a route or a list of members is longer than the job's format can say.
#[derive(Clone, Copy, Debug, Eq, PartialEq)]
#[non_exhaustive]
pub struct TooMany {
    /// What there are too many of.
    pub what: &'static str,
    /// How many there are.
    pub count: usize,
    /// The most that the format can say.
    pub most: usize,
}

impl fmt::Display for TooMany {
    fn fmt(&self, to: &mut fmt::Formatter<'_>) -> fmt::Result {
        let TooMany { what, count, most } = self;
        write!(
            to,
            "{count} {what} are too many to write down: at most {most}"
        )
    }
}

impl Error for TooMany {}

/// The bytes from a place on, which then stands behind them; none where fewer are left.
pub(crate) fn next<const N: usize>(bytes: &[u8], at: &mut usize) -> Option<[u8; N]> {
    let next = *bytes[*at..].first_chunk()?;
    *at += N;
    Some(next)
}

/// A place in lent bytes.
pub(crate) struct Reader<'a> {
    bytes: &'a [u8],
    at: usize,
}

impl<'a> Reader<'a> {
    pub(crate) fn new(bytes: &'a [u8]) -> Reader<'a> {
        Reader { bytes, at: 0 }
    }

    fn array<const N: usize>(&mut self, field: &'static str) -> Result<[u8; N], Malformed> {
        next(self.bytes, &mut self.at).ok_or(Malformed {
            at: self.at,
            field,
            fault: Fault::Ends,
        })
    }

    pub(crate) fn field<T: Wire>(&mut self, field: &'static str) -> Result<T, Malformed> {
        T::take(self, field)
    }

    /// A value, if the test says that it is listed.
    pub(crate) fn listed<T: Wire + Copy + Into<u32>, U>(
        &mut self,
        field: &'static str,
        meaning: impl Fn(T) -> Option<U>,
    ) -> Result<U, Malformed> {
        let at = self.at;
        let value = self.field::<T>(field)?;
        meaning(value).ok_or_else(|| Malformed {
            at,
            field,
            fault: Fault::NotListed(value.into()),
        })
    }

    /// Records, as many as the count before them said.
    pub(crate) fn rows<T: Wire>(
        &mut self,
        count: u16,
        field: &'static str,
    ) -> Result<Vec<T>, Malformed> {
        (0..count).map(|_| self.field(field)).collect()
    }

    /// The length at the front: all other bytes and no more.
    pub(crate) fn length(&mut self) -> Result<(), Malformed> {
        let (at, field) = (self.at, "the length of all bytes that follow");
        let said = self.field::<u32>(field)?;
        let bytes = self.bytes.len() - self.at;
        if usize::try_from(said) == Ok(bytes) {
            return Ok(());
        }
        let fault = Fault::Follow { said, bytes };
        Err(Malformed { at, field, fault })
    }

    pub(crate) fn is_at_end(&self) -> bool {
        self.at == self.bytes.len()
    }

    pub(crate) fn end(self) -> Result<(), Malformed> {
        match self.bytes.len() - self.at {
            0 => Ok(()),
            count => Err(Malformed {
                at: self.at,
                field: "the end",
                fault: Fault::Remain(count),
            }),
        }
    }
}

/// Bytes with their length before them.
pub(crate) struct Writer {
    bytes: Vec<u8>,
}

impl Writer {
    pub(crate) fn new() -> Writer {
        Writer { bytes: vec![0; 4] }
    }

    pub(crate) fn raw(&mut self, bytes: &[u8]) {
        self.bytes.extend_from_slice(bytes);
    }

    pub(crate) fn count(&mut self, what: &'static str, count: usize) -> Result<(), TooMany> {
        let most = usize::from(u16::MAX);
        let count = u16::try_from(count).map_err(|_| TooMany { what, count, most })?;
        count.put(self)
    }

    pub(crate) fn rows<T: Wire>(&mut self, rows: &[T]) -> Result<(), TooMany> {
        rows.iter().try_for_each(|row| row.put(self))
    }

    /// All bytes, the length set.
    pub(crate) fn finish(mut self) -> Result<Vec<u8>, TooMany> {
        let (what, count) = ("bytes", self.bytes.len() - 4);
        let most = u32::MAX as usize;
        let length = u32::try_from(count).map_err(|_| TooMany { what, count, most })?;
        self.bytes[..4].copy_from_slice(&length.to_be_bytes());
        Ok(self.bytes)
    }
}

/// What has a place in a job or an answer.
pub(crate) trait Wire: Sized {
    fn put(&self, to: &mut Writer) -> Result<(), TooMany>;
    fn take(from: &mut Reader<'_>, field: &'static str) -> Result<Self, Malformed>;
}

macro_rules! number {
    ($($name:ident)*) => {$(
        impl Wire for $name {
            fn put(&self, to: &mut Writer) -> Result<(), TooMany> {
                to.raw(&self.to_be_bytes());
                Ok(())
            }

            fn take(from: &mut Reader<'_>, field: &'static str) -> Result<Self, Malformed> {
                Ok($name::from_be_bytes(from.array(field)?))
            }
        }
    )*};
}

number!(u8 u16 u32 u64);

// By its bits: every NaN comes back as it was.
impl Wire for f64 {
    fn put(&self, to: &mut Writer) -> Result<(), TooMany> {
        self.to_bits().put(to)
    }

    fn take(from: &mut Reader<'_>, field: &'static str) -> Result<Self, Malformed> {
        Ok(f64::from_bits(from.field(field)?))
    }
}

/// A list with its count before it: a route's points, a bundle's members or taps.
impl<T: Wire + Listed> Wire for Vec<T> {
    fn put(&self, to: &mut Writer) -> Result<(), TooMany> {
        to.count(T::PLURAL, self.len())?;
        to.rows(self)
    }

    fn take(from: &mut Reader<'_>, _: &'static str) -> Result<Self, Malformed> {
        let count = from.field(T::COUNT)?;
        from.rows(count, T::PLURAL)
    }
}

/// What stands in a list with a count of its own.
pub(crate) trait Listed {
    const PLURAL: &'static str;
    const COUNT: &'static str;
}

macro_rules! listed {
    ($name:ident $plural:literal) => {
        impl crate::wire::Listed for $name {
            const PLURAL: &'static str = $plural;
            const COUNT: &'static str = concat!("a count of ", $plural);
        }
    };
}

/// A struct whose fields stand in the bytes in the order given here.
macro_rules! record {
    ($name:ident { $($field:ident: $words:expr),* $(,)? }) => {
        impl crate::wire::Wire for $name {
            fn put(&self, to: &mut crate::wire::Writer) -> Result<(), crate::wire::TooMany> {
                $(crate::wire::Wire::put(&self.$field, to)?;)*
                Ok(())
            }

            fn take(
                from: &mut crate::wire::Reader<'_>,
                _: &'static str,
            ) -> Result<Self, crate::wire::Malformed> {
                // Fields of a struct expression are worked out in the order written.
                Ok($name { $($field: from.field($words)?),* })
            }
        }
    };
}

/// An enum or a truth value as one byte.
macro_rules! choice {
    ($name:ident { $($number:literal => $value:expr),* $(,)? }) => {
        impl crate::wire::Wire for $name {
            fn put(&self, to: &mut crate::wire::Writer) -> Result<(), crate::wire::TooMany> {
                $(if *self == $value {
                    to.raw(&[$number]);
                })*
                Ok(())
            }

            fn take(
                from: &mut crate::wire::Reader<'_>,
                field: &'static str,
            ) -> Result<Self, crate::wire::Malformed> {
                from.listed(field, |number: u8| match number {
                    $($number => Some($value),)*
                    _ => None,
                })
            }
        }
    };
}

pub(crate) use {choice, listed, record};
