//! The white marks on bundles in a picture that is read back: each is whole, and between two lines that go
//! over a bundle enough of it is seen to show its mark.

use bundle_stage::{Board, Sheet};
use bundles::text;

use super::apart::{Dot, Drawn, Shown, drawn, false_joint};
use super::lengths::{length, parts, straight};
use super::read::{Line, lines};
use super::{checked, svg};

/// Full ink before and behind a dash, in widths of the bundle; what is seen of it between two lines that go
/// over it; and what the file's numbers round.
const FULL: f64 = 0.4;
const LONG: f64 = 2.0;
const ROUNDED: f64 = 0.03;
/// How many dashes tell each mark, by the bundle's place, and of how many it is made: marks of one colour
/// differ.
const DASHES: [(usize, usize); 6] = [(0, 1), (1, 1), (1, 1), (3, 1), (2, 2), (2, 2)];

pub fn marks(shown: &Shown<'_>) -> Result<(), String> {
    for (place, drawn) in shown.bundles.iter().enumerate() {
        let id = shown.sheet.bundles[place].id;
        let dashes = DASHES[(place + place / 6) % 6];
        marked(drawn, &shown.frames, dashes).map_err(|words| format!("bundle {id}: {words}"))?;
    }
    Ok(())
}

/// A straight line that is seen, and whether others go over the bundle before and behind it.
struct Seen {
    line: Line,
    between: bool,
}

fn marked(drawn: &Drawn, frames: &[Line], (least, of): (usize, usize)) -> Result<(), String> {
    let width = 2.0 * drawn.half;
    let seen = drawn.paths.iter().flat_map(|path| seen(path));
    let seen = seen.collect::<Vec<_>>();
    let white = drawn.white.iter().flat_map(|path| lines(path));
    let white = white.collect::<Vec<_>>();
    let lined = seen.iter().map(|seen| seen.line).collect::<Vec<_>>();
    white
        .iter()
        .try_for_each(|dash| in_full_ink(dash, drawn, &lined, frames))?;
    let framed = |line: &Line| frames.iter().any(|frame| meets(line, frame));
    let on = |line: &Line, dot: &Dot| under(line, dot).is_some_and(|far| far < 0.0);
    let dotted = |line: &Line| drawn.taps.iter().any(|dot| on(line, dot));
    for Seen { line, between } in seen {
        // A label between two lines that go over the bundle says more than a mark.
        let between = between && !framed(&line);
        if between && length(line) < LONG * width - ROUNDED {
            return Err(format!("seen only from {:?} to {:?}", line[0], line[1]));
        }
        // A dot takes the room of a mark, and is full ink.
        let between = between && !dotted(&line);
        let dashes = white.iter().filter(|dash| inside(dash, line).is_some());
        let count = dashes.count();
        let whole = count.is_multiple_of(of) && (count >= least || count == 0 && !between);
        if !whole || least == 0 && count > 0 {
            return Err(format!(
                "{count} dashes from {:?} to {:?}",
                line[0], line[1]
            ));
        }
    }
    Ok(())
}

/// The straight lines of a path, an arch having none.
fn seen(path: &str) -> Vec<Seen> {
    let parts = parts(&[path.to_string()]);
    // Spine and collector follow each other in one path.
    let goes_on = |before: Option<&Vec<Line>>, after: Option<&Vec<Line>>| {
        let ends = before
            .and_then(|part| part.last())
            .zip(after.and_then(|part| part.first()));
        ends.is_some_and(|(before, after)| straight(*before, *after))
    };
    let seen = parts.iter().enumerate().flat_map(|(turn, part)| {
        let before = turn.checked_sub(1).and_then(|turn| parts.get(turn));
        let between = goes_on(before, Some(part)) && goes_on(Some(part), parts.get(turn + 1));
        let lines = part.iter().filter(|[a, b]| a.0 == b.0 || a.1 == b.1);
        let between = between && part.len() == 1;
        lines.map(move |line| Seen {
            line: *line,
            between,
        })
    });
    seen.filter(|seen| length(seen.line) > 0.0).collect()
}

/// Whether a level or upright line meets a box.
fn meets([a, b]: &Line, [low, high]: &Line) -> bool {
    a.0.min(b.0) < high.0
        && low.0 < a.0.max(b.0).max(a.0 + ROUNDED)
        && a.1.min(b.1) < high.1
        && low.1 < a.1.max(b.1).max(a.1 + ROUNDED)
}

/// A dash has full ink before and behind it, and nothing over it.
fn in_full_ink(dash: &Line, drawn: &Drawn, seen: &[Line], frames: &[Line]) -> Result<(), String> {
    let full = seen.iter().filter_map(|line| inside(dash, *line));
    let full = full.fold(f64::NEG_INFINITY, f64::max);
    if full < 2.0 * FULL * drawn.half - ROUNDED {
        return Err(format!("only {full} of ink around the dash {dash:?}"));
    }
    if frames.iter().any(|frame| meets(dash, frame)) {
        return Err(format!("the dash {dash:?} is under a label"));
    }
    if !clear(dash, drawn, seen) {
        return Err(format!("the dash {dash:?} is beside a dot or a corner"));
    }
    Ok(())
}

/// Whether there is full ink between a dash and the bundle's dots on its line, and between a dash of the spine
/// and the collector: two white lines that run into each other, or into a dot, would look like wires there.
fn clear(dash: &Line, drawn: &Drawn, seen: &[Line]) -> bool {
    let full = 2.0 * FULL * drawn.half - ROUNDED;
    let mut dots = drawn.taps.iter();
    let at_dots = dots.all(|dot| under(dash, dot).is_none_or(|far| far >= full));
    let level = dash[0].1 == dash[1].1;
    let upright = seen.iter().filter(|line| line[0].0 == line[1].0);
    let mut beside = upright.filter(|[a, b]| {
        let y = dash[0].1;
        level && a.1.min(b.1) - drawn.half <= y && y <= a.1.max(b.1) + drawn.half
    });
    at_dots
        && beside.all(|line| {
            let ends = dash.iter().map(|end| (end.0 - line[0].0).abs());
            ends.fold(f64::INFINITY, f64::min) >= drawn.half + full
        })
}

/// How far a dot on the way of a line is from it.
fn under([a, b]: &Line, (middle, radius): &Dot) -> Option<f64> {
    let (along, off) = if a.1 == b.1 {
        ([a.0, b.0].map(|at| at - middle.0), (a.1 - middle.1).abs())
    } else {
        ([a.1, b.1].map(|at| at - middle.1), (a.0 - middle.0).abs())
    };
    let on = along[0].signum() != along[1].signum();
    let near = along[0].abs().min(along[1].abs());
    (off < radius - ROUNDED).then_some(if on { -radius } else { near - radius })
}

/// How far a dash on a line is from its nearer end, if it is on it.
fn inside([a, b]: &Line, line: Line) -> Option<f64> {
    let long = length(line);
    let (x, y) = (
        (line[1].0 - line[0].0) / long,
        (line[1].1 - line[0].1) / long,
    );
    let along = |at: (f64, f64)| (at.0 - line[0].0) * x + (at.1 - line[0].1) * y;
    let off = |at: (f64, f64)| ((at.0 - line[0].0) * y - (at.1 - line[0].1) * x).abs();
    let ends = [along(*a), along(*b)];
    let on = [*a, *b].iter().all(|at| off(*at) < ROUNDED);
    let near = ends.iter().flat_map(|at| [*at, long - at]);
    let near = near.fold(f64::INFINITY, f64::min);
    (on && near > -ROUNDED).then_some(near)
}

/// Bundles one above the other, and wires that go over all of them.
fn crowded(bundles: u32, wires: u32) -> (Board, Sheet) {
    let (width, height) = (200 + 20 * wires, 40 * bundles);
    let mut lines =
        vec![
        "port_stub 10\nroute_lane_gap 5\nedge_node_clearance 10\nminimum_parallel_wire_spacing 0\n\
         member_endpoint_reserve 20\npermit_crossings yes"
            .to_string(),
        format!("node 1 at 0,0 size 60,{height}\nnode 2 at {width},0 size 60,{height}"),
        format!("node 3 at 0,-80 size {width},30\nnode 4 at 0,{} size {width},30", height + 50),
    ];
    for bundle in 0..bundles {
        let (y, one, two) = (40 * bundle + 20, 2 * bundle + 1, 2 * bundle + 2);
        let x = width - 40 + 10 * (bundle % 3);
        let id = bundle + 1;
        lines.push(format!("port 1:{id} east {y}\nport 2:{one} west {}", y - 5));
        lines.push(format!("port 2:{two} west {}", y + 5));
        for (edge, y_of) in [(one, y - 5), (two, y + 5)] {
            lines.push(format!(
                "edge {edge} from 1:{id} to 2:{edge} via 60,{y} {x},{y} {x},{y_of} {width},{y_of}"
            ));
        }
        lines.push(format!(
            "bundle {id} at 1:{id} input width 2 members {one}@0 {two}@1"
        ));
    }
    for wire in 0..wires {
        let (x, id, edge) = (110 + 20 * wire, wire + 1, 2 * bundles + wire + 1);
        lines.push(format!("port 3:{id} south {x}\nport 4:{id} north {x}"));
        let down = height + 50;
        lines.push(format!(
            "edge {edge} from 3:{id} to 4:{id} via {x},-50 {x},{down}"
        ));
    }
    let board = text::read(lines.join("\n").as_bytes()).expect("a board");
    let sheet = board.draw().expect("a sheet");
    (board, sheet)
}

/// A bundle under many wires is a heavy line with its mark between any two of them: no row of pieces, and
/// none that looks like two wires.
#[test]
fn under_many_wires() {
    for (bundles, wires) in [(7, 12), (12, 30), (30, 30)] {
        let (board, sheet) = crowded(bundles, wires);
        let picture = svg(&board, &sheet, "crowded");
        assert_eq!(
            false_joint(&picture, &board, &sheet),
            Ok(()),
            "{bundles} and {wires}"
        );
        let elements = checked(&picture);
        let all = drawn(&elements, "bundle");
        let white = all.iter().filter(|of| !of.white.is_empty());
        assert!(6 * white.count() >= 5 * bundles as usize - 6);
        let dashed = elements
            .iter()
            .any(|of| !of.value("stroke-dasharray").is_empty());
        assert!(!dashed, "a pattern that begins anew behind each gap");
    }
}

#[test]
fn what_is_marked() {
    let of = |path: &str, white: &str| Drawn::of(&[path], &[white], &[]);
    let told = |drawn: &Drawn, dashes| marked(drawn, &[], dashes);
    let two = "M0 0L9 0M10 0L13 0M14 0L20 0";
    assert_eq!(
        told(&of(two, "M4 0L5.4 0M11 0L12.4 0M16 0L17.4 0"), (1, 1)),
        Ok(())
    );
    // None between two gaps, one that runs out into a gap, and one in a gap.
    assert!(told(&of(two, "M4 0L5.4 0M16 0L17.4 0"), (1, 1)).is_err());
    assert!(told(&of(two, "M4 0L5.4 0M11.5 0L12.9 0M16 0L17.4 0"), (1, 1)).is_err());
    assert!(
        told(
            &of(two, "M4 0L5.4 0M9.2 0L9.7 0M11 0L12.4 0M16 0L17.4 0"),
            (1, 1)
        )
        .is_err()
    );
    // Half a mark, and a piece that is too short for any.
    assert!(told(&of(two, "M4 0L5.4 0M11 0L12.4 0"), (2, 2)).is_err());
    assert!(told(&of("M0 0L9 0M10 0L11.8 0M13 0L20 0", ""), (0, 1)).is_err());
}

/// Between two dots, and between a frame and the collector, a dash has full ink around it or there is none.
#[test]
fn marks_beside_dots_and_corners() {
    let taps = [((20.0, -1.7), 1.0), ((20.0, 1.7), 1.0)];
    let of = |path: &str, white: &str| Drawn::of(&[path], &[white], &taps);
    let told = |path: &str, white: &str| marked(&of(path, white), &[], (1, 1));
    let two = "M0 0L20 0M20 -1.7L20 1.7";
    assert_eq!(told(two, "M17.6 0L19 0"), Ok(()));
    assert!(told(two, "M18 0L19.4 0").is_err());
    assert!(told(two, "M20 -0.7L20 0.7").is_err());
    let long = "M0 0L20 0M20 -1.7L20 6";
    assert_eq!(told(long, "M20 3.2L20 4.6"), Ok(()));
    assert!(told(long, "M20 2.8L20 4.2").is_err());
    assert!(told(long, "M20 1L20 2.4").is_err());
    // A bundle of two members near to each other.
    let (board, sheet) = crowded(3, 2);
    let picture = svg(&board, &sheet, "dots");
    assert_eq!(false_joint(&picture, &board, &sheet), Ok(()));
}
