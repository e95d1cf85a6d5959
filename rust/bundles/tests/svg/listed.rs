//! Names that have no room on the sheet: they stand in the legend, and take no edge's id from it.

use std::collections::BTreeSet;

use bundle_stage::Board;
use bundles::names::Names;

use super::apart::false_joint;
use super::labels::{all_named, counted, names_for, none_covered};
use super::read::{Element, elements};
use super::{checked, example, file, of_class};

/// From one line of the legend to the next, in millimetres.
const LINE: f64 = 4.2;

/// The signs of the legend, each with its parts.
fn signs(elements: &[Element]) -> Vec<&[Element]> {
    let legend = elements.iter().position(|of| of.value("class") == "legend");
    let all = &elements[legend.expect("a legend") + 1..];
    let starts = all.chunk_by(|_, next| next.value("transform").is_empty());
    let signs = starts.filter(|sign| sign[0].value("transform").starts_with("translate"));
    signs.collect()
}

/// A port's or an edge's id and name: `edge 31 data`.
fn is_name(sign: &[Element]) -> bool {
    let texts = sign.iter().filter(|of| of.name == "text");
    let first = texts.map(|of| &of.words[..]).next().unwrap_or("");
    let id = ["port ", "edge "].map(|what| first.strip_prefix(what).unwrap_or(""));
    let mut id = id.iter();
    id.any(|id| id.starts_with(|letter: char| letter.is_ascii_digit()))
}

/// How many lines of the legend have names of ports and edges.
fn lines_of_names(elements: &[Element]) -> usize {
    let number = |text: &str| text.parse::<f64>().expect("a number");
    let signs = signs(elements).into_iter().filter(|sign| is_name(sign));
    let lines = signs.flat_map(|sign| {
        let at = sign[0].value("transform").trim_end_matches(')');
        let y = number(at.split(' ').nth(1).expect("two numbers"));
        let texts = sign.iter().filter(|of| of.name == "text");
        let lines = texts.filter(|of| of.value("class").is_empty());
        lines.map(move |of| ((y + number(of.value("y"))) / LINE * 10.0).round() as i64)
    });
    lines.collect::<BTreeSet<_>>().len()
}

fn on_a_sixth(elements: &[Element]) {
    let height = elements[0].value("height").trim_end_matches("mm");
    let height = height.parse::<f64>().expect("a number");
    let lines = lines_of_names(elements);
    assert!(
        6.0 * LINE * lines as f64 <= height,
        "{lines} lines on {height} mm"
    );
}

fn width(picture: &str) -> String {
    elements(picture)[0].value("width").to_string()
}

/// No edge loses its id by names, and none is left out: a larger paper is taken, the first on which that is so.
#[test]
fn long_names_take_no_ids() {
    let (board, sheet) = example("clock-board");
    let mut papers = Vec::new();
    for letters in [0, 12, 20, 30, 40, 50, 60, 80, 100] {
        let names = names_for(&board, letters);
        let picture = bundles::svg::svg(&board, &sheet, &names, "long").expect("clear");
        all_named(&picture, &board, &names);
        let elements = checked(&picture);
        assert_eq!(counted(&elements), [0, 0], "{letters}");
        let ids = of_class(&elements, "edge-id").len();
        assert_eq!(ids, board.edges.len(), "{letters}");
        on_a_sixth(&elements);
        none_covered(&elements);
        assert_eq!(false_joint(&picture, &board, &sheet), Ok(()));
        papers.push(width(&picture));
    }
    assert_eq!(papers[0], "297mm");
    assert_eq!(papers[4], "420mm");
    assert!(papers.iter().any(|of| of == "594mm"), "{papers:?}");
}

/// The same where edges alone have names.
#[test]
fn long_names_of_edges() {
    let (board, sheet) = example("clock-board");
    let mut names = Names::default();
    for edge in &board.edges {
        names.set_edge(edge.id, &format!("{} {}", edge.id, "x".repeat(47)));
    }
    let picture = bundles::svg::svg(&board, &sheet, &names, "edges").expect("clear");
    let elements = checked(&picture);
    assert_eq!(of_class(&elements, "edge-id").len(), board.edges.len());
    assert_eq!(counted(&elements), [0, 0]);
    assert!(lines_of_names(&elements) > 0);
    on_a_sixth(&elements);
}

/// A name that is longer than a line of the legend goes on in the next, and takes both.
#[test]
fn names_of_several_lines() {
    let (board, sheet) = example("clock-board");
    for count in [1, 2, 4, 8, 16] {
        let mut names = Names::default();
        for port in &board.ports[..count] {
            names.set_port(port.node, port.id, &"port name ".repeat(40));
        }
        let picture = bundles::svg::svg(&board, &sheet, &names, "lines").expect("clear");
        let elements = checked(&picture);
        assert_eq!(counted(&elements), [0, 0]);
        assert_eq!(of_class(&elements, "edge-id").len(), board.edges.len());
        on_a_sixth(&elements);
        if count == 1 {
            assert_eq!(width(&picture), "297mm");
            assert!(lines_of_names(&elements) > 1, "one line");
        }
    }
}

/// The sample of an edge in the legend has the colours that the edge has on the sheet.
#[test]
fn samples_have_the_colours_of_edges() {
    let (board, sheet) = example("clock-board");
    let names = names_for(&board, 60);
    let picture = bundles::svg::svg(&board, &sheet, &names, "colours").expect("clear");
    let elements = elements(&picture);
    let colours = |parts: &[Element]| {
        let paths = parts.iter().filter(|of| of.name == "path");
        let inks = paths.map(|of| of.value("stroke").to_string());
        inks.filter(|ink| ink != "white").collect::<Vec<_>>()
    };
    let mut seen = [0; 3];
    for sign in signs(&elements).into_iter().filter(|sign| is_name(sign)) {
        let words = sign.iter().find(|of| of.name == "text");
        let words = &words.expect("words").words;
        let Some(id) = words.strip_prefix("edge ") else {
            continue;
        };
        let id = format!("route-{}", id.split(' ').next().expect("an id"));
        let at = elements.iter().position(|of| of.value("id") == id);
        let parts = &elements[at.expect("a route") + 1..];
        let end = parts.iter().position(|of| of.name == "g");
        let mut on_sheet = colours(&parts[..end.unwrap_or(parts.len())]);
        on_sheet.dedup();
        assert_eq!(colours(sign), on_sheet, "{id}");
        seen[on_sheet.len()] += 1;
    }
    assert!(seen[1] > 0 && seen[2] > 0, "{seen:?}");
}

/// On a larger page the legend has room for more names.
#[test]
fn names_of_a_largest_board() {
    let job = file("rust/bundles/tests/data/largest-7-0.job");
    let board = Board::from_bytes(&job).expect("a board");
    let sheet = board.draw().expect("a sheet");
    let names = names_for(&board, 12);
    let picture = bundles::svg::svg(&board, &sheet, &names, "largest").expect("clear");
    all_named(&picture, &board, &names);
    let elements = checked(&picture);
    let listed = |of: &&Element| of.name == "text" && of.words.starts_with("port ");
    let listed = elements.iter().filter(listed).count();
    assert!(listed > 200, "{listed}");
    on_a_sixth(&elements);
    assert_eq!(false_joint(&picture, &board, &sheet), Ok(()));
}
