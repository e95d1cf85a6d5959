//! Colours, and marks that tell bundles apart without them.

/// Of the colours that Okabe and Ito chose for colour-blind readers, those that show as a thin line
/// on white and are not black.
const COLOURS: [&str; 6] = [
    "#0072b2", "#d55e00", "#009e73", "#cc79a7", "#e69f00", "#56b4e9",
];

const MARKS: [Mark; 6] = [
    Mark::Plain,
    Mark::dashed(&[0.5, 3.5], 1),
    Mark::dashed(&[1.4, 1.4], 1),
    Mark::dashed(&[0.5, 0.7], 3),
    Mark::dashed(&[0.5, 0.7, 0.5, 3.3], 1),
    Mark::dashed(&[1.4, 0.7, 0.5, 1.9], 1),
];

#[derive(Clone, Copy)]
pub enum Mark {
    Plain,
    Dashed(Dashes),
}

/// White dashes in the middle of a trunk. They are short: beside a long one the trunk would look like two
/// routes.
#[derive(Clone, Copy)]
pub struct Dashes {
    /// Dashes, and the ink behind each, in widths of the trunk. They come again and again.
    pub lengths: &'static [f64],
    /// How many times they have to, to be told from another mark's.
    pub times: usize,
}

impl Dashes {
    /// From the start of one time to the next.
    pub fn period(&self) -> f64 {
        self.lengths.iter().sum()
    }

    /// From the first dash to the last, of as few as tell the mark.
    pub fn core(&self) -> f64 {
        self.times as f64 * self.period() - self.lengths.last().copied().unwrap_or_default()
    }
}

impl Mark {
    const fn dashed(lengths: &'static [f64], times: usize) -> Mark {
        Mark::Dashed(Dashes { lengths, times })
    }
}

pub const BLACK: &str = "#222222";
pub const GREY: &str = "#8a8a8a";
pub const WARNING: &str = "#b03a00";

pub fn colour(place: usize) -> &'static str {
    COLOURS[place % COLOURS.len()]
}

/// Neighbours differ in it, and so do the places that have the same colour: 36 of them are all
/// different.
pub fn mark(place: usize) -> Mark {
    MARKS[(place + place / COLOURS.len()) % MARKS.len()]
}
