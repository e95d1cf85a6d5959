//! The title of a page and what stands below it.

use bundle_stage::Point;

use crate::signs::reopened;

use super::palette::WARNING;
use super::xml::{BOLD, wide, wide_bold, words};

/// Heights of letters.
const TITLE: f64 = 5.0;
pub const TEXT: f64 = 2.6;
/// From one line of words to the next.
pub const LINE: f64 = 4.2;

/// The title, and words below it. They are broken where they are too long.
pub struct Head {
    pub title: String,
    pub about: Option<String>,
    /// Why there is no sheet, or what is wrong with it.
    pub warnings: Vec<String>,
}

impl Head {
    pub fn height(&self, width: f64) -> f64 {
        let titles = self.titles(width).len().max(1) as f64;
        titles * 1.2 * TITLE - 0.2 * TITLE + 1.5 + LINE * self.broken(width).len() as f64
    }

    fn titles(&self, width: f64) -> Vec<String> {
        broken(&self.title, TITLE, width, wide_bold)
    }

    /// Each line with how it is drawn.
    fn broken(&self, width: f64) -> Vec<(String, String)> {
        let warning = format!("class=\"warning\" {BOLD} fill=\"{WARNING}\"");
        let about = self
            .about
            .iter()
            .flat_map(|line| broken(line, TEXT, width, wide));
        let about = about.map(|line| (line, "class=\"about\"".to_string()));
        let warnings = self.warnings.iter();
        let warnings = warnings.flat_map(|line| broken(line, TEXT, width, wide_bold));
        let warnings = warnings.map(|line| (line, warning.clone()));
        about.chain(warnings).collect()
    }

    pub fn draw(&self, at: Point, width: f64) -> String {
        let mut y = at.y - 0.4 * TITLE;
        let mut svg = String::new();
        for line in self.titles(width) {
            y += 1.2 * TITLE;
            let more = format!("class=\"title\" {BOLD}");
            svg.push_str(&words(Point { x: at.x, y }, TITLE, &more, &line));
        }
        y += 1.5;
        for (line, more) in self.broken(width) {
            y += LINE;
            svg.push_str(&words(Point { x: at.x, y }, TEXT, &more, &line));
        }
        svg
    }
}

/// A line as several that are not wider.
pub fn broken(line: &str, size: f64, width: f64, wide: fn(&str, f64) -> f64) -> Vec<String> {
    let mut lines: Vec<String> = Vec::new();
    for word in line.split(' ') {
        match lines.last_mut() {
            Some(last) if wide(&format!("{last} {word}"), size) < width => {
                last.push(' ');
                last.push_str(word);
            }
            _ => lines.extend(parts(word, size, width, wide)),
        }
    }
    // A name may go on in the next line.
    reopened(&mut lines);
    lines
}

/// A word in parts that are not wider: a name may have no space in it.
fn parts(word: &str, size: f64, width: f64, wide: fn(&str, f64) -> f64) -> Vec<String> {
    let mut parts = vec![String::new()];
    for letter in word.chars() {
        let last = parts
            .last()
            .map_or(String::new(), |last| format!("{last}{letter}"));
        if last.chars().count() > 1 && wide(&last, size) >= width {
            parts.push(letter.to_string());
        } else if let Some(part) = parts.last_mut() {
            *part = last;
        }
    }
    parts
}
