//! The samples of a legend: each from 0 to 10 mm across, 0 being its middle height.

use bundle_stage::Point;

use super::palette::{BLACK, colour, mark};
use super::paths::marked;
use super::pens::HEAVIEST;
use super::scene::Route;
use super::stroke::Stroke;

/// How wide a sample is, in millimetres.
pub const SAMPLE: f64 = 10.0;

/// A route's line: in two bundles, half in the colour of the one and half in that of the other, as on the sheet.
pub fn sample(route: &Route) -> String {
    match (route.input, route.output) {
        (Some(first), Some(second)) => halves(colour(first), colour(second)),
        (first, second) => thin("M0 0H10", first.or(second).map_or(BLACK, colour)),
    }
}

pub fn halves(first: &str, second: &str) -> String {
    thin("M0 0H5", first) + &thin("M5 0H10", second)
}

pub const OPEN_DOT: &str = "<circle cx=\"5\" cy=\"0\" r=\"0.9\" fill=\"white\" stroke=\"#222222\" \
                            stroke-width=\"0.35\"/>\n";
pub const SQUARE: &str = "<rect x=\"4.4\" y=\"-0.6\" width=\"1.2\" height=\"1.2\" fill=\"white\" \
                          stroke=\"#222222\" stroke-width=\"0.3\"/>\n";

pub fn thin(d: &str, colour: &str) -> String {
    format!("<path d=\"{d}\" fill=\"none\" stroke=\"{colour}\" stroke-width=\"0.35\"/>\n")
}

/// A bundle from one place of a sample to another.
pub fn heavy(ends: [(f64, f64); 2], place: usize) -> String {
    let ends = ends.map(|(x, y)| Point { x, y });
    let stroke = Stroke::new(ends.to_vec(), HEAVIEST, Some(place));
    marked(&[stroke], HEAVIEST, (colour(place), mark(place)), &[])
}

pub fn joint() -> String {
    let first = colour(0);
    heavy([(5.0, -1.6), (5.0, 1.6)], 0)
        + &thin("M5 0H10", first)
        + &format!("<circle cx=\"5\" cy=\"0\" r=\"1\" fill=\"{first}\"/>\n")
}

pub fn crossing() -> String {
    thin("M5 -1.6V-1.2M5 -0.6V1.6", BLACK) + &thin("M0 0H4.1A0.9 0.9 0 0 1 5.9 0H10", BLACK)
}

pub const BOX: &str = "<rect x=\"0\" y=\"-1.8\" width=\"10\" height=\"3.6\" fill=\"#eeeeee\" \
                       stroke=\"#222222\" stroke-width=\"0.3\"/>\n";
