//! Lengths in a picture that is read back: what is left of a line between others, and how far bundles on
//! one line are from each other.

use super::apart::{Drawn, Shown};
use super::read::{Line, lines};

/// What is left of a line between two gaps, in lengths of the longer one; and how long it may be unseen, in
/// millimetres.
const LEFT: f64 = 1.5;
const UNSEEN: f64 = 4.0;
/// Between two bundles on one line.
const IN_LINE: f64 = 1.0;
/// What the file's numbers round.
const ROUNDED: f64 = 0.02;

pub fn lengths(shown: &Shown<'_>) -> Result<(), String> {
    for (route, drawn) in shown.sheet.routes.iter().zip(&shown.routes) {
        kept(drawn).map_err(|words| format!("edge {}: {words}", route.id))?;
    }
    for (place, bundle) in shown.sheet.bundles.iter().enumerate() {
        let drawn = &shown.bundles[place];
        kept(drawn).map_err(|words| format!("bundle {}: {words}", bundle.id))?;
        for other in &shown.bundles[..place] {
            in_line(drawn, other).map_err(|words| format!("bundle {}: {words}", bundle.id))?;
        }
    }
    Ok(())
}

pub fn length([a, b]: Line) -> f64 {
    (a.0 - b.0).hypot(a.1 - b.1)
}

/// The straight parts of paths that are seen, each as it goes on: the next starts where another line is
/// over it, or elsewhere.
pub fn parts(paths: &[String]) -> Vec<Vec<Line>> {
    let mut parts: Vec<Vec<Line>> = Vec::new();
    for line in paths.iter().flat_map(|path| lines(path)) {
        match parts.last_mut() {
            Some(last) if last.last().is_some_and(|before| before[1] == line[0]) => last.push(line),
            _ => parts.push(vec![line]),
        }
    }
    parts
}

/// A line that goes under others stays a line: what is left of it is longer than its gaps.
fn kept(drawn: &Drawn) -> Result<(), String> {
    let parts = parts(&drawn.paths);
    for (turn, two) in parts.windows(2).enumerate() {
        let [end, start] = [two[0].last(), two[1].first()].map(|line| *line.expect("a line"));
        // The strokes of a bundle, spine and collector, follow each other in one path.
        if !straight(end, start) {
            continue;
        }
        let unseen = length([end[1], start[0]]);
        if unseen > UNSEEN + ROUNDED {
            return Err(format!("unseen for {unseen} from {:?}", end[1]));
        }
        let last = *two[1].last().expect("a line");
        let after = parts.get(turn + 2).and_then(|part| part.first());
        let Some(after) = after.filter(|after| straight(last, **after)) else {
            continue;
        };
        let long = two[1].iter().map(|line| length(*line)).sum::<f64>();
        let gap = unseen.max(length([last[1], after[0]]));
        if long < LEFT * (gap - ROUNDED) - ROUNDED {
            return Err(format!("only {long} is left from {:?}", start[0]));
        }
    }
    Ok(())
}

/// Whether one line goes on in another behind a gap.
pub fn straight(before: Line, after: Line) -> bool {
    let across = |a: (f64, f64), b: (f64, f64), c: (f64, f64)| {
        let (x, y) = (b.0 - a.0, b.1 - a.1);
        ((c.0 - a.0) * y - (c.1 - a.1) * x).abs() / x.hypot(y).max(1e-9)
    };
    let way = |[a, b]: Line| (b.0 - a.0, b.1 - a.1);
    let (one, two) = (way(before), way(after));
    let ahead = way([before[1], after[0]]);
    let onwards = one.0 * ahead.0 + one.1 * ahead.1 > 0.0 && one.0 * two.0 + one.1 * two.1 > 0.0;
    onwards && across(before[0], before[1], after[1]) < ROUNDED
}

/// Two bundles on one line are told apart.
fn in_line(one: &Drawn, two: &Drawn) -> Result<(), String> {
    let all = |drawn: &Drawn| {
        let lines = drawn.paths.iter().flat_map(|path| lines(path));
        lines.collect::<Vec<_>>()
    };
    let turned = |line: Line| line.map(|(x, y)| (y, x));
    for a in all(one) {
        for b in all(two) {
            for (a, b) in [(a, b), (turned(a), turned(b))] {
                let level = a[0].1 == a[1].1 && b[0].1 == b[1].1;
                let on = (a[0].1 - b[0].1).abs() < one.half + two.half - ROUNDED;
                let (low, high) = (
                    |line: Line| line[0].0.min(line[1].0),
                    |line: Line| line[0].0.max(line[1].0),
                );
                let gap = (low(b) - high(a)).max(low(a) - high(b));
                if level && on && gap < IN_LINE - ROUNDED {
                    return Err(format!("{gap} beside another in line at {:?}", a[0]));
                }
            }
        }
    }
    Ok(())
}

#[test]
fn what_is_measured() {
    let of = |paths: &[&str]| Drawn::of(paths, &[], &[]);
    assert_eq!(kept(&of(&["M0 0L3 0M4 0L5.5 0M6.5 0L9 0"])), Ok(()));
    assert!(kept(&of(&["M0 0L3 0M4 0L5.4 0M6.4 0L9 0"])).is_err());
    assert!(kept(&of(&["M0 0L3 0M4 0L5.5 0M6.6 0L9 0"])).is_err());
    // In two colours, and around a corner.
    assert!(kept(&of(&["M0 0L3 0M4 0L4.7 0", "M4.7 0L5.4 0M6.4 0L9 0"])).is_err());
    assert!(kept(&of(&["M0 0L3 0M4 0L4.7 0L4.7 0.7M4.7 1.7L4.7 3"])).is_err());
    let corner = "M0 0L3 0M4 0L4.8 0L4.8 0.8M4.8 1.8L4.8 3";
    assert_eq!(kept(&of(&[corner])), Ok(()));
    assert!(kept(&of(&["M0 0L3 0M7.1 0L9 0"])).is_err());
    let [one, near, far, beside] = [
        "M0 0L5 0",
        "M5.9 0.4L9 0.4",
        "M6.1 0.4L9 0.4",
        "M5.9 1.4L9 1.4",
    ]
    .map(|path| of(&[path]));
    assert!(in_line(&one, &near).is_err() && in_line(&near, &one).is_err());
    assert_eq!(in_line(&one, &far), Ok(()));
    assert_eq!(in_line(&one, &beside), Ok(()));
}
