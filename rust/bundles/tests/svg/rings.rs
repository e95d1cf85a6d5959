//! Arches in a picture that is read back: those beside each other over a bundle make no ring.

use super::apart::{Drawn, Shown};
use super::read::{Line, lines};

/// Lines that are further from each other make no ring, in millimetres.
const RING: f64 = 5.0;
/// A bundle's line ends so near to the top of an arch over it.
const GAP: f64 = 1.5;

/// An arch of a level line, or of an upright one whose coordinates are exchanged.
struct Arch {
    upright: bool,
    /// Where its line lies, and how far it rises from there.
    at: f64,
    rise: f64,
    /// From where to where it goes, and where its top is.
    low: f64,
    high: f64,
    top: f64,
}

/// The arches of a line: two quarters, one behind the other.
fn arches(drawn: &Drawn) -> Vec<Arch> {
    let mut all = Vec::new();
    for path in &drawn.paths {
        let parts = path.split('A').collect::<Vec<_>>();
        for three in parts.windows(3).step_by(2) {
            let [start, top, end] = [three[0], three[1], three[2]].map(last_point);
            // The third part goes on behind the second quarter.
            let end = quarter_end(three[2]).unwrap_or(end);
            let upright = start.0 == end.0;
            if !upright && start.1 != end.1 {
                continue;
            }
            let turned = |(x, y): (f64, f64)| if upright { (y, x) } else { (x, y) };
            let [start, top, end] = [start, top, end].map(turned);
            if top.1 != start.1 {
                all.push(Arch {
                    upright,
                    at: start.1,
                    rise: top.1 - start.1,
                    low: start.0.min(end.0),
                    high: start.0.max(end.0),
                    top: top.0,
                });
            }
        }
    }
    all
}

/// The numbers of a part of a path.
fn numbers(part: &str) -> Vec<f64> {
    let words = part.split(|letter: char| letter.is_ascii_uppercase() || letter == ' ');
    let words = words.filter(|word| !word.is_empty());
    words.map(|word| word.parse().expect("a number")).collect()
}

fn last_point(part: &str) -> (f64, f64) {
    let numbers = numbers(part);
    (numbers[numbers.len() - 2], numbers[numbers.len() - 1])
}

/// The end of the quarter with which a part starts: behind two axes, a turn and two marks.
fn quarter_end(part: &str) -> Option<(f64, f64)> {
    let numbers = numbers(part);
    Some((*numbers.get(5)?, *numbers.get(6)?))
}

/// Whether both go over one of the lines, of a bundle.
fn over(one: &Arch, two: &Arch, bundle: &[Line]) -> bool {
    let lines = bundle.iter().map(|line| match one.upright {
        true => line.map(|(x, y)| (y, x)),
        false => *line,
    });
    let across = lines.filter(|line| line[0].0 == line[1].0);
    let across = across.filter(|line| {
        let inside = |arch: &Arch| arch.low < line[0].0 && line[0].0 < arch.high;
        inside(one) && inside(two)
    });
    let ends = across.flatten().map(|end| end.1).collect::<Vec<_>>();
    [one, two].iter().all(|arch| {
        let top = arch.at + arch.rise;
        ends.iter().any(|end| (end - top).abs() < GAP) && arch.low < arch.top
    })
}

pub fn rings(shown: &Shown<'_>) -> Result<(), String> {
    let drawn = shown.routes.iter().chain(&shown.bundles);
    let all = drawn.flat_map(arches).collect::<Vec<_>>();
    let bundles = shown.bundles.iter().map(|bundle| {
        let paths = bundle.paths.iter();
        paths.flat_map(|path| lines(path)).collect::<Vec<_>>()
    });
    let bundles = bundles.collect::<Vec<_>>();
    for one in all.iter().filter(|one| one.rise < 0.0) {
        let away = all.iter().filter(|two| {
            two.upright == one.upright
                && two.rise > 0.0
                && two.at > one.at
                && two.at < one.at + RING
        });
        for two in away {
            if bundles.iter().any(|bundle| over(one, two, bundle)) {
                let (at, to) = (one.at, two.at);
                return Err(format!(
                    "arches at {at} and {to} make a ring at {}",
                    one.top
                ));
            }
        }
    }
    Ok(())
}

#[test]
fn a_ring_is_seen() {
    let of = |path: &str| Drawn {
        white: Vec::new(),
        lines: Vec::new(),
        paths: vec![path.to_string()],
        taps: Vec::new(),
        half: 0.2,
    };
    // From the crossings example, upright, as they were and as they are.
    let left = of("M4 0L4 8A1.5 1 90 0 0 3 9.5L3 9.5A1.5 1 90 0 0 4 11L4 20");
    let right = of("M5.5 0L5.5 8A1.5 1 90 0 1 6.5 9.5L6.5 9.5A1.5 1 90 0 1 5.5 11L5.5 20");
    let (one, two) = (arches(&left), arches(&right));
    assert_eq!((one.len(), two.len()), (1, 1));
    assert_eq!((one[0].at, one[0].rise, one[0].top), (4.0, -1.0, 9.5));
    assert_eq!((two[0].at, two[0].rise, two[0].high), (5.5, 1.0, 11.0));
    let bundle = lines("M0 9.5L2.5 9.5M3.5 9.5L6 9.5M7 9.5L20 9.5");
    assert!(over(&one[0], &two[0], &bundle));
    assert!(!over(&one[0], &two[0], &lines("M0 30L9 30")));
}
