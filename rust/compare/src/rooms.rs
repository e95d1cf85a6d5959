//! Slices that are lent between unmapped pages.

use std::collections::BTreeMap;

use jobs::rng::Rng;

use crate::outside::{Fenced, PAGE};

/// No slice is longer.
pub const LONGEST: usize = 131_072;

/// Where a lent slice lies in its pages.
#[derive(Clone, Copy, Debug)]
pub enum Side {
    /// It starts right after an unmapped page.
    Start,
    /// It ends right before one.
    End,
}

impl Side {
    pub fn any(rng: &mut Rng) -> Side {
        rng.pick(&[Side::Start, Side::End])
    }

    /// The first place of `length` bytes in `room` bytes.
    fn place(self, room: usize, length: usize) -> usize {
        match self {
            Side::Start => 0,
            Side::End => room - length,
        }
    }
}

/// Pages between unmapped ones, by their number: no more than a slice of the length needs. They
/// hold the pattern, but for what is lent.
pub struct Rooms {
    pattern: Vec<u8>,
    rooms: BTreeMap<usize, Fenced>,
}

impl Rooms {
    pub fn new(seed: u64) -> Rooms {
        let mut rng = Rng::new("pattern", seed, 0);
        Rooms {
            pattern: (0..LONGEST).map(|_| rng.word() as u8).collect(),
            rooms: BTreeMap::new(),
        }
    }

    /// A slice of so many bytes, which hold the pattern.
    pub fn lend(&mut self, side: Side, length: usize) -> Lent<'_> {
        let pages = length.div_ceil(PAGE).max(1);
        let pattern = &self.pattern[..pages * PAGE];
        let room = self.rooms.entry(pages).or_insert_with(|| {
            let mut room = Fenced::new(pages);
            room.bytes().copy_from_slice(pattern);
            room
        });
        let room = room.bytes();
        Lent {
            at: side.place(room.len(), length),
            length,
            room,
            pattern,
        }
    }

    /// The same, the slice holding these bytes.
    pub fn lend_filled(&mut self, side: Side, bytes: &[u8]) -> Lent<'_> {
        let mut lent = self.lend(side, bytes.len());
        lent.bytes().copy_from_slice(bytes);
        lent
    }
}

/// A slice that is lent, and the pages around it.
pub struct Lent<'a> {
    room: &'a mut [u8],
    pattern: &'a [u8],
    at: usize,
    length: usize,
}

impl Lent<'_> {
    pub fn bytes(&mut self) -> &mut [u8] {
        &mut self.room[self.at..self.at + self.length]
    }

    /// The first place, counted from the slice's, that does not hold `due` from the slice's start on
    /// and the pattern elsewhere. The pages then hold the pattern again.
    pub fn settle(self, due: &[u8]) -> Option<i64> {
        let Lent {
            room, pattern, at, ..
        } = self;
        let end = at + due.len();
        let same =
            room[..at] == pattern[..at] && room[at..end] == *due && room[end..] == pattern[end..];
        if same {
            room[at..end].copy_from_slice(&pattern[at..end]);
            return None;
        }
        let all = pattern[..at].iter().chain(due).chain(&pattern[end..]);
        let place = room.iter().zip(all).position(|(byte, due)| byte != due);
        room.copy_from_slice(pattern);
        place.map(|place| place as i64 - at as i64)
    }
}
