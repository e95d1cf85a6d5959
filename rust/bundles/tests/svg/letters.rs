//! Names in letters of all widths: they keep to their frames and to the page, and lie over no others.

use bundles::names::Names;

use super::read::{Element, Line, elements};
use super::{checked, example, of_class};

/// Names of wide letters: capitals, those of East Asia, pictures; and a long one without a space.
const NAMES: [&str; 5] = [
    "WWWW MMMM",
    "MMMMMMMMWWWW",
    "\u{6642}\u{523b}\u{53d7}\u{4fe1}\u{6a5f}",
    "\u{1f552}\u{1f552}\u{1f4e1}\u{1f4e1}",
    "WMWMWMWMWMWMWMWMWMWMWMWMWMWMWMWMWMWMWMWMWMWMWMWMWMWMWMWMWMWMWMWMWMWMWMWMWMWMWMWMWMWMWM",
];

/// How wide a label really is: in DejaVu Sans, the widest font that the picture names, and as wide as they are
/// high the letters of East Asia, pictures a quarter more.
fn long(label: &Element) -> f64 {
    let bold = !label.value("font-weight").is_empty();
    let wide = |letter: char| match (letter, bold) {
        ('W', false) => 0.989,
        ('W', true) => 1.103,
        ('M', false) => 0.863,
        ('M', true) => 0.995,
        ('0'..='9', false) => 0.636,
        ('0'..='9', true) => 0.696,
        ('B', true) => 0.762,
        (' ', _) => 0.32,
        ('\u{1f000}'.., _) => 1.25,
        ('\u{2e80}'.., _) => 1.0,
        // Others are not looked at here.
        _ => 0.3,
    };
    let size = label.value("font-size").parse::<f64>().expect("a number");
    size * label.words.chars().map(wide).sum::<f64>()
}

/// The box of its letters.
fn around(label: &Element) -> Line {
    let number = |name: &str| label.value(name).parse::<f64>().expect("a number");
    let (x, y, size) = (number("x"), number("y"), number("font-size"));
    let long = long(label);
    let from = match label.value("text-anchor") {
        "start" => x,
        "end" => x - long,
        _ => x - long / 2.0,
    };
    let (low, high) = (y - 0.7 * size, y);
    if label.value("transform").is_empty() {
        return [(from, low), (from + long, high)];
    }
    let middle = y - 0.35 * size;
    [
        (x - 0.35 * size, middle - long / 2.0),
        (x + 0.35 * size, middle + long / 2.0),
    ]
}

fn meet(one: &Line, two: &Line) -> bool {
    let over = |a: (f64, f64), b: (f64, f64)| a.0 < b.1 - 0.01 && b.0 < a.1 - 0.01;
    let x = |line: &Line| (line[0].0, line[1].0);
    let y = |line: &Line| (line[0].1, line[1].1);
    over(x(one), x(two)) && over(y(one), y(two))
}

/// The clock board with one of the names for everything, below this title.
fn named(name: &str, title: &str) -> String {
    let (board, sheet) = example("clock-board");
    let mut names = Names::default();
    for node in &board.nodes {
        names.set_node(node.id, name);
    }
    for port in &board.ports {
        names.set_port(port.node, port.id, name);
    }
    for edge in &board.edges {
        names.set_edge(edge.id, name);
    }
    for bundle in &board.bundles {
        names.set_bundle(bundle.id, name);
    }
    bundles::svg::svg(&board, &sheet, &names, title).expect("a clear picture")
}

#[test]
fn wide_letters_keep_to_their_places() {
    for name in NAMES {
        let picture = named(name, name);
        let elements = checked(&picture);
        let mut labels = Vec::new();
        for class in ["node-id", "node-name", "port-id", "edge-id"] {
            let found = of_class(&elements, class).into_iter();
            labels.extend(found.map(|label| (label.words.clone(), around(label))));
        }
        for two in elements.windows(2) {
            if two[1].value("class") == "bundle-id" {
                let [frame, inside] = [two[0].rect(), around(&two[1])];
                assert!(
                    inside[0].0 > frame[0].0 && inside[1].0 < frame[1].0,
                    "{name}"
                );
                labels.push((two[1].words.clone(), frame));
            }
        }
        // Those of the legend stand at 0, each in a group of its own that is moved.
        let on_sheet = labels
            .iter()
            .filter(|(_, [low, _])| low.0 > 10.1 && low.1 > 0.0);
        let on_sheet = on_sheet.collect::<Vec<_>>();
        for (turn, (one, at)) in on_sheet.iter().enumerate() {
            let mut others = on_sheet[turn + 1..].iter();
            let other = others.find(|(_, other)| meet(at, other));
            assert!(other.is_none(), "{name}: {one} lies over {other:?}");
        }
    }
}

/// Title and legend end with the page, and no letter is lost.
#[test]
fn long_words_are_broken() {
    let name = NAMES[4];
    let titled = name.repeat(5);
    let picture = named(name, &titled);
    let elements = elements(&picture);
    let width = width(&elements);
    let title = of_class(&elements, "title");
    assert!(title.len() > 1, "one line");
    let whole = title.iter().map(|line| line.words.as_str());
    assert_eq!(whole.collect::<String>(), titled);
    for line in title {
        assert!(
            around(line)[1].0 + long(line) / 2.0 < width - 9.9,
            "{}",
            line.words
        );
    }
    legend_keeps(&elements, name);
}

/// One name that is longer than a line of the legend.
#[test]
fn a_long_word_in_the_legend_is_broken() {
    let name = NAMES[4].repeat(3);
    let (board, sheet) = example("clock-board");
    let mut names = Names::default();
    names.set_port(board.ports[0].node, board.ports[0].id, &name);
    let picture = bundles::svg::svg(&board, &sheet, &names, "one").expect("a clear picture");
    assert!(!picture.contains(&format!("{name}</text>")), "one line");
    legend_keeps(&elements(&picture), &name);
}

fn width(elements: &[Element]) -> f64 {
    let width = elements[0].value("width").trim_end_matches("mm");
    width.parse::<f64>().expect("a number")
}

/// The legend ends with the page, and has this name, in several lines or in one.
fn legend_keeps(elements: &[Element], name: &str) {
    let width = width(elements);
    let legend = elements.iter().position(|of| of.value("class") == "legend");
    let legend = &elements[legend.expect("a legend")..];
    let (mut start, mut words) = (0.0, String::new());
    for of in legend {
        let moved = of.value("transform").strip_prefix("translate(");
        if let Some(to) = moved.and_then(|to| to.split(' ').next()) {
            start = to.parse::<f64>().expect("a number");
        }
        if of.name == "text" && of.value("text-anchor").is_empty() {
            let x = of.value("x").parse::<f64>().expect("a number");
            assert!(start + x + long(of) < width - 9.9, "{}", of.words);
            words.push_str(&of.words);
        }
    }
    assert!(words.contains(name), "{words}");
}
