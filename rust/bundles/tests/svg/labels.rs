//! Names on the sheet: all there or in the legend, or counted, and no label on a line.

use std::collections::BTreeSet;

use bundle_stage::{Answer, Board, Id, Sheet};
use bundles::names::Names;
use bundles::text;

use super::apart::{drawn, false_joint};
use super::ports::contacts;
use super::read::{Element, Line, elements};
use super::{checked, each_stored, example, file, of_class, svg};

/// Every bundle of which something is drawn has its id on the sheet, in its frame. A second one, which it does
/// not need, lies over no node.
pub fn ids(elements: &[Element], sheet: &Sheet) -> Result<(), String> {
    let named = |id: Id| {
        let of = format!("bundle-{id}");
        let mut groups = elements.iter();
        groups.any(|group| group.name == "g" && group.value("data-of") == of)
    };
    let bundles = sheet.bundles.iter().filter(|bundle| {
        let parts = [bundle.collector, bundle.spine];
        !bundle.taps.is_empty() || parts.iter().any(|part| part.start != part.end)
    });
    let mut without = bundles.map(|bundle| bundle.id).filter(|id| !named(*id));
    if let Some(id) = without.next() {
        return Err(format!("no id beside bundle {id}"));
    }
    let nodes = elements
        .windows(3)
        .filter(|of| of[0].value("class") == "node");
    let nodes = nodes.map(|of| of[2].rect()).collect::<Vec<_>>();
    let mut before = BTreeSet::new();
    let framed = elements
        .windows(2)
        .map(|two| (two[0].value("data-of"), two));
    let framed = framed.filter(|(of, _)| of.starts_with("bundle-"));
    for (of, two) in framed.filter(|(of, _)| !before.insert(*of)) {
        let [low, high] = two[1].rect();
        let over =
            |[from, to]: &Line| low.0 < to.0 && from.0 < high.0 && low.1 < to.1 && from.1 < high.1;
        if nodes.iter().any(over) {
            return Err(format!("the second id of {of} is over a node"));
        }
    }
    Ok(())
}

/// The frames of all bundles' ids on the sheet.
pub fn frames(elements: &[Element]) -> Vec<Line> {
    let pairs = elements.windows(2);
    let framed = pairs.filter(|two| two[0].value("data-of").starts_with("bundle-"));
    framed.map(|two| two[1].rect()).collect()
}

/// A name for everything: short ones, or of so many letters.
pub fn names_for(board: &Board, letters: usize) -> Names {
    let mut names = Names::default();
    let name = |what: &str, id: Id| {
        let name = format!("{what}{id}");
        name.chars()
            .chain("x".repeat(letters).chars())
            .collect::<String>()
    };
    for node in &board.nodes {
        names.set_node(node.id, &name("n", node.id));
    }
    for port in &board.ports {
        names.set_port(port.node, port.id, &name("p", port.id));
    }
    for edge in &board.edges {
        names.set_edge(edge.id, &name("e", edge.id));
    }
    for bundle in &board.bundles {
        names.set_bundle(bundle.id, &name("b", bundle.id));
    }
    names
}

/// The middle line of the letters of a label, a little shorter than they are, and half their height.
pub fn letters(label: &Element) -> (Line, f64) {
    let number = |name: &str| label.value(name).parse::<f64>().expect("a number");
    let (x, y, size) = (number("x"), number("y"), number("font-size"));
    // Narrow letters of the fonts that are named are 0.22 of their height, digits 0.55.
    let wide = |letter: char| if letter.is_ascii_digit() { 0.55 } else { 0.4 };
    let long = label.words.chars().map(wide).sum::<f64>() * size;
    let y = y - 0.35 * size;
    let from = match label.value("text-anchor") {
        "start" => x,
        "end" => x - long,
        _ => x - long / 2.0,
    };
    let half = 0.3 * size;
    if label.value("transform").is_empty() {
        ([(from, y), (from + long, y)], half)
    } else {
        let middle = x;
        ([(middle, y - long / 2.0), (middle, y + long / 2.0)], half)
    }
}

/// No label of a node, port or edge lies on a line.
pub fn none_covered(elements: &[Element]) {
    let lines = ["route", "bundle"].map(|class| drawn(elements, class));
    let lines = lines.iter().flatten().flat_map(|of| of.lines.iter());
    let lines = lines.copied().collect::<Vec<_>>();
    for class in ["node-id", "node-name", "port-id", "edge-id"] {
        for label in of_class(elements, class) {
            let (middle, half) = letters(label);
            let (low, high) = (middle[0], middle[1]);
            let (low, high) = if low.0 == high.0 {
                ((low.0 - half, low.1), (low.0 + half, high.1))
            } else {
                ((low.0, low.1 - half), (high.0, low.1 + half))
            };
            let on = |[a, b]: &Line| {
                a.0.min(b.0) < high.0
                    && low.0 < a.0.max(b.0)
                    && a.1.min(b.1) < high.1
                    && low.1 < a.1.max(b.1)
                    && (a.0 == b.0 || a.1 == b.1)
            };
            let covered = lines.iter().find(|line| on(line));
            assert!(covered.is_none(), "{class} {} on {covered:?}", label.words);
        }
    }
}

/// Every node's name is on the sheet or in the legend. How many are on the sheet.
pub fn all_named(picture: &str, board: &Board, names: &Names) -> usize {
    let elements = elements(picture);
    let legend = elements.iter().position(|of| of.value("class") == "legend");
    let legend = &elements[legend.expect("a legend")..];
    let on_sheet = of_class(&elements, "node-name");
    for node in &board.nodes {
        let name = names.node(node.id).expect("a name");
        let of = format!("node-{}", node.id);
        let mut shown = on_sheet.iter();
        let shown = shown.any(|label| label.words == name && label.value("data-of") == of);
        let listed = legend.iter().any(|of| of.words == name);
        assert!(shown || listed, "{name}");
    }
    let listed = legend.iter().map(|of| &of.words[..]).collect();
    assert_eq!(neither(&elements, &listed, board, names), counted(legend));
    on_sheet.len()
}

/// The names of how many edges and ports are neither on the sheet nor in the legend, which has these words.
fn neither(
    elements: &[Element],
    listed: &BTreeSet<&str>,
    board: &Board,
    names: &Names,
) -> [usize; 2] {
    let ids = ["edge-id", "port-id"].map(|class| of_class(elements, class));
    let labels = ids.iter().flatten();
    let on_sheet = labels.map(|label| (label.value("data-of"), &label.words[..]));
    let on_sheet = on_sheet.collect::<BTreeSet<_>>();
    let is_neither = |key: &str, short: &str, long: &str| {
        !on_sheet.contains(&(key, short)) && !listed.contains(long)
    };
    let edges = board.edges.iter().map(|edge| edge.id).filter(|id| {
        let Some(name) = names.edge(*id) else {
            return false;
        };
        let said = format!("{id} {name}");
        is_neither(&format!("route-{id}"), &said, &format!("edge {said}"))
    });
    let ports = board.ports.iter().filter(|port| {
        let (node, id) = (port.node, port.id);
        let Some(name) = names.port(node, id) else {
            return false;
        };
        let long = format!("port {node}:{id} {name}");
        is_neither(&format!("port-{node}-{id}"), &format!("{id} {name}"), &long)
    });
    [edges.count(), ports.count()]
}

/// How many names of edges and ports the last line says have no room.
pub fn counted(legend: &[Element]) -> [usize; 2] {
    let notes = of_class(legend, "note").into_iter();
    let note = notes.map(|line| &line.words[..]).collect::<Vec<_>>();
    let note = note.join(" ");
    let said = note.split("No room for the names of ").nth(1);
    let said = said.and_then(|rest| rest.split('.').next()).unwrap_or("");
    ["edge", "port"].map(|what| {
        let mut parts = said.split(", ").filter_map(|part| part.split_once(' '));
        let count = parts.find(|(_, of)| of.trim_end_matches('s') == what);
        count.map_or(0, |(count, _)| count.parse().expect("a count"))
    })
}

#[test]
fn names_of_the_clock_board() {
    let (board, sheet) = example("clock-board");
    let text = text::read_all(&file("examples/clock-board.txt")).expect("a text");
    let picture = bundles::svg::svg(&board, &sheet, &text.names, "named").expect("clear");
    assert_eq!(all_named(&picture, &board, &text.names), board.nodes.len());
    for words in [
        ">B3 oscillator<",
        ">11 time code<",
        ">4 reference 4<",
        ">timestamp unit<",
    ] {
        assert!(picture.contains(words), "{words}");
    }
    none_covered(&checked(&picture));
    // The one name that has no room stands in the legend, and is there under the pointer.
    assert!(picture.contains(">port 5:13 pulse missing</text>"));
    assert!(!picture.contains("No room"));
    assert!(picture.contains("<title>port 5:13 pulse missing</title>"));
    // Names move no line but the marks of bundles, which keep clear of labels.
    let plain = bundles::svg::svg(&board, &sheet, &Names::default(), "named").expect("clear");
    let lines = |picture: &str| {
        let paths = elements(picture).into_iter();
        let paths = paths.filter(|of| of.name == "path" && of.value("stroke") != "white");
        paths
            .map(|of| of.value("d").to_string())
            .collect::<Vec<_>>()
    };
    assert_eq!(lines(&picture), lines(&plain));
}

#[test]
fn names_of_stored_boards() {
    let (mut boards, mut on_sheet, mut nodes) = (0, 0, 0);
    each_stored("stored/jobs.bin", |board, answer| {
        let Answer::Drawn(sheet) = answer else {
            return;
        };
        for letters in [0, 12] {
            let names = names_for(board, letters);
            let Ok(picture) = bundles::svg::svg(board, sheet, &names, "named") else {
                assert!(!contacts(board, sheet).is_empty());
                continue;
            };
            on_sheet += all_named(&picture, board, &names);
            none_covered(&checked(&picture));
            assert_eq!(false_joint(&picture, board, sheet), Ok(()));
            nodes += board.nodes.len();
        }
        boards += 1;
    });
    println!("{boards} boards, {on_sheet} of {nodes} names of nodes on the sheet");
    assert!(
        boards > 100 && 10 * on_sheet > 8 * nodes,
        "{on_sheet} of {nodes}"
    );
}

/// Where each bundle has room for one id alone beside those of the others, none takes that of a node.
#[test]
fn second_ids_leave_room() {
    let ports = [
        25, 29, 15, 14, 17, 13, 22, 24, 2, 4, 30, 27, 12, 5, 20, 6, 10, 28, 19, 18, 8, 21, 7, 23,
        31, 3, 16, 0, 26, 11, 1, 9,
    ];
    let wires = [
        "10,10200 10,-20 10,12600",
        "1478,12600 1478,-20 1478,12600",
        "202,12600 202,-20 1334,-20 1334,12600",
        "1326,12600 1326,-20 1326,12600",
        "1326,12600 1326,-20 750,-20 750,12600",
        "1598,12600 1598,-20 1598,12600",
        "1598,12600 1598,-20 682,-20 682,12600",
        "682,12600 682,-20 682,12600",
        "938,12600 938,-20 294,-20 294,12600",
        "294,11800 294,-20",
    ];
    let mut lines = vec![
        "port_stub 1992\nroute_lane_gap 8\nedge_node_clearance 0\nminimum_parallel_wire_spacing 0\n\
         member_endpoint_reserve 36\nseparate_collectors yes\npermit_crossings yes"
            .to_string(),
    ];
    for (id, at) in ports.iter().enumerate() {
        let y = 400 * at - 40;
        lines.push(format!(
            "node {at} at -100,{y} size 100,80\nport {at}:{at} east 40"
        ));
        lines.push(format!("bundle {id} at {at}:{at} input width 0"));
    }
    let edges = wires.iter().enumerate();
    lines.extend(edges.map(|(id, way)| format!("edge {id} from 0:0 to 0:0 via {way}")));
    let board = text::read(lines.join("\n").as_bytes()).expect("a board");
    let sheet = board.draw().expect("a sheet");
    let picture = svg(&board, &sheet, "seconds");
    assert_eq!(ids(&checked(&picture), &sheet), Ok(()));
    let shown = of_class(&elements(&picture), "node-id").len();
    assert_eq!(shown, 32);
}

/// A bundle from port 1:1 to so many ports of node 2.
fn fan(members: u32) -> Board {
    let mut lines = vec![
        "port_stub 8\nroute_lane_gap 8\nedge_node_clearance 0\nminimum_parallel_wire_spacing 0\n\
         member_endpoint_reserve 8\nseparate_collectors yes\npermit_crossings no\n\
         node 1 at 0,0 size 40,200\nport 1:1 east 100\nnode 2 at 600,0 size 40,200"
            .to_string(),
    ];
    let mut bundle = "bundle 1 at 1:1 input width 9".to_string();
    for port in 1..=members {
        let y = 10 * port;
        lines.push(format!("port 2:{port} west {y}"));
        lines.push(format!(
            "edge {port} from 1:1 to 2:{port} via 40,100 300,100 300,{y} 600,{y}"
        ));
        let start = if port == 1 { " members" } else { "" };
        bundle.push_str(&format!("{start} {port}@{}", port - 1));
    }
    lines.push(bundle);
    text::read(lines.join("\n").as_bytes()).expect("a board")
}

#[test]
fn ports_in_the_legend() {
    for (members, words) in [
        (0, "1:1, no members; input"),
        (1, "1:1 → 2:1; input"),
        (8, "2:7, 2:8; input"),
        (9, "2:8, 2:9; input"),
        (10, "2:7, 2:8 and 2 more; input"),
    ] {
        let board = fan(members);
        let sheet = board.draw().expect("a sheet");
        let picture = svg(&board, &sheet, "a fan");
        assert!(picture.contains(words), "{members}: {words}");
    }
}
