//! Pictures: their form, what is in them, and that nothing looks like a joint that is none.

#![forbid(unsafe_code)]

mod apart;
mod at_ports;
mod crowds;
mod labels;
mod lengths;
mod letters;
mod listed;
mod loose;
mod marks;
mod nodes;
mod order;
mod ports;
mod read;
mod refused;
mod rings;
mod shifts;

use std::fs;

use apart::false_joint;
use bundle_stage::{Answer, Board, Edge, Endpoint, Id, Node, Point, Sheet};
use bundles::names::Names;
use bundles::svg::Unclear;
use bundles::text;
use ports::contacts;
use read::{Element, elements};

fn file(name: &str) -> Vec<u8> {
    let path = format!("{}/../../{name}", env!("CARGO_MANIFEST_DIR"));
    fs::read(path).expect("a file of the repository")
}

fn example(name: &str) -> (Board, Sheet) {
    let board = text::read(&file(&format!("examples/{name}.txt"))).expect("a board");
    let sheet = board.draw().expect("a sheet");
    (board, sheet)
}

/// The picture of a sheet that can be drawn clearly.
fn svg(board: &Board, sheet: &Sheet, title: &str) -> String {
    bundles::svg::svg(board, sheet, &Names::default(), title).expect("a clear picture")
}

fn board(edges: &[(u32, &[(f64, f64)])]) -> Board {
    let end = |id: u32| Endpoint {
        node: id.into(),
        port: id.into(),
    };
    let edge = |(id, points): &(u32, &[(f64, f64)])| Edge {
        id: Id::from(*id),
        source: end(1),
        target: end(2),
        points: points.iter().map(|(x, y)| Point { x: *x, y: *y }).collect(),
    };
    let node = |id: u32, x| Node {
        id: id.into(),
        x,
        y: 150.0,
        width: 20.0,
        height: 20.0,
    };
    Board {
        nodes: vec![node(1, 0.0), node(2, 150.0)],
        edges: edges.iter().map(edge).collect(),
        ..Board::default()
    }
}

/// The elements of a class, the picture being in order.
fn of_class<'a>(elements: &'a [Element], class: &str) -> Vec<&'a Element> {
    let with = elements
        .iter()
        .filter(|element| element.value("class") == class);
    with.collect()
}

/// Every element is closed, every attribute is quoted, no number is infinite or none; and the page
/// is as wide as a paper from A4 on, whichever way it lies, and no higher.
fn checked(picture: &str) -> Vec<Element> {
    let elements = elements(picture);
    for element in &elements {
        for (name, value) in &element.attributes {
            let numbers = !matches!(name.as_str(), "class" | "id" | "font-family");
            let bad = ["NaN", "inf"].iter().any(|word| value.contains(word));
            assert!(!(numbers && bad), "{name}=\"{value}\"");
        }
    }
    let side = |name: &str| {
        let text = elements[0].value(name);
        let length = text.strip_suffix("mm").expect("millimetres");
        length.parse::<f64>().expect("a number")
    };
    let (width, height) = (side("width"), side("height"));
    let papers = [210, 297, 420, 594, 841, 1189, 1682, 2378, 3364, 4756].map(f64::from);
    let fits = |paper: &[f64]| {
        (width == paper[0] && height <= paper[1]) || (width == paper[1] && height <= paper[0])
    };
    assert!(papers.windows(2).any(fits), "{width} by {height}");
    elements
}

/// One group for each node, route and bundle, and one dot for each tap.
fn all_there(elements: &[Element], sheet: &Sheet) {
    let ids = |class: &str| {
        let found = of_class(elements, class).into_iter();
        found
            .map(|element| element.value("id").to_string())
            .collect::<Vec<_>>()
    };
    let due = |class: &str, ids: Vec<Id>| {
        let names = ids.iter().map(|id| format!("{class}-{id}"));
        names.collect::<Vec<_>>()
    };
    let nodes = sheet.nodes.iter().map(|node| node.id).collect();
    let routes = sheet.routes.iter().map(|route| route.id).collect();
    let bundles = sheet.bundles.iter().map(|bundle| bundle.id).collect();
    assert_eq!(ids("node"), due("node", nodes));
    assert_eq!(ids("route"), due("route", routes));
    assert_eq!(ids("bundle"), due("bundle", bundles));
    let taps = sheet.bundles.iter().map(|bundle| bundle.taps.len());
    assert_eq!(of_class(elements, "tap").len(), taps.sum::<usize>());
}

// ---- what is in a picture

#[test]
fn examples() {
    for name in ["clock-board", "crossings"] {
        let (board, sheet) = example(name);
        let text = text::read_all(&file(&format!("examples/{name}.txt"))).expect("a text");
        let named = || bundles::svg::svg(&board, &sheet, &text.names, name);
        let picture = named().expect("a clear picture");
        assert_eq!(named().expect("a clear picture"), picture);
        let elements = checked(&picture);
        all_there(&elements, &sheet);
        assert_eq!(of_class(&elements, "port").len(), board.ports.len());
        for words in [
            &format!(">{name}</text>"),
            "Visits left: ",
            "interior, ",
            ">B1<",
        ] {
            assert!(picture.contains(words), "{words}");
        }
        let shown = file(&format!("docs/pictures/{name}.svg"));
        assert!(
            shown == picture.as_bytes(),
            "docs/pictures/{name}.svg is an old picture: make it anew with `./run`"
        );
    }
}

/// Every stored board of a file with its answer.
fn each_stored(name: &str, mut look: impl FnMut(&Board, &Answer)) {
    let bytes = file(name);
    let mut rest = &bytes[..];
    let mut record = || {
        let (length, tail) = rest.split_first_chunk()?;
        let (record, tail) = tail.split_at(u32::from_be_bytes(*length) as usize);
        rest = tail;
        Some(record.to_vec())
    };
    while let Some((job, answer)) = record().zip(record()) {
        let board = Board::from_bytes(&job).unwrap_or_default();
        look(
            &board,
            &Answer::from_bytes(&answer).expect("a whole answer"),
        );
    }
}

#[test]
fn stored_jobs() {
    let (mut drawn, mut contacts, mut crosses) = (0, 0, 0);
    for name in ["stored/jobs.bin", "stored/largest.bin"] {
        each_stored(name, |board, answer| match answer {
            Answer::Drawn(sheet) => match clear(board, sheet, name) {
                Ok(count) => {
                    drawn += 1;
                    crosses += count;
                }
                Err(words) => {
                    by_contact(board, sheet, &words);
                    contacts += 1;
                }
            },
            Answer::Refused(refusal) => {
                refused::shown(board, *refusal, "stored");
            }
        });
    }
    println!(
        "{drawn} pictures, {contacts} sheets with a line at a port of others, {crosses} crosses"
    );
    assert!(drawn > 100 && contacts > 0 && 20 * contacts < drawn && crosses > 50);
}

/// There is no picture, as the sheet itself has what the words say.
fn by_contact(board: &Board, sheet: &Sheet, words: &Unclear) {
    let contacts = contacts(board, sheet);
    let words = words.to_string();
    let one = contacts.iter().any(|contact| words.ends_with(contact));
    assert!(one, "{words}: {contacts:?}");
}

/// Draws a sheet and reads the picture back: no false joint is to be seen. How many ends have a cross, or why
/// there is no picture.
fn clear(board: &Board, sheet: &Sheet, name: &str) -> Result<usize, Unclear> {
    let picture = bundles::svg::svg(board, sheet, &Names::default(), name)?;
    let elements = checked(&picture);
    all_there(&elements, sheet);
    let labelled = nodes::labelled(&elements);
    assert!(labelled.is_ok(), "{name}: {labelled:?}");
    assert_eq!(contacts(board, sheet), [""; 0], "{name}");
    assert_eq!(false_joint(&picture, board, sheet), Ok(()), "{name}");
    let marked = loose::marked(&picture, board, sheet);
    assert!(marked.is_ok(), "{name}: {marked:?}");
    Ok(marked.unwrap_or_default())
}

/// All jobs in the folder that PICTURE_JOBS names, files that end in `.job`: of every sheet there is a
/// clear picture, or words why there is none.
#[test]
fn jobs_of_a_folder() {
    let Some(folder) = std::env::var_os("PICTURE_JOBS") else {
        return;
    };
    let (mut drawn, mut unclear) = (0, Vec::new());
    for entry in fs::read_dir(folder).expect("a folder") {
        let path = entry.expect("an entry").path();
        if path.extension().is_none_or(|end| end != "job") {
            continue;
        }
        let name = path.display().to_string();
        let Ok(board) = Board::from_bytes(&fs::read(&path).expect("a job")) else {
            continue;
        };
        let Ok(sheet) = board.draw() else {
            continue;
        };
        match clear(&board, &sheet, &name) {
            Ok(_) => drawn += 1,
            Err(words) => {
                if !words.to_string().contains("on paper of ") {
                    by_contact(&board, &sheet, &words);
                }
                unclear.push(format!("{name}: {words}"));
            }
        }
    }
    let count = unclear.len();
    println!("{drawn} clear, {count} refused:\n{}", unclear.join("\n"));
    assert!(drawn > 0);
}

// ---- what a reader could take for a joint

#[test]
fn no_false_joint_in_the_examples() {
    for name in ["clock-board", "crossings"] {
        let (board, sheet) = example(name);
        assert_eq!(
            false_joint(&svg(&board, &sheet, name), &board, &sheet),
            Ok(())
        );
    }
}

#[test]
fn crossings_are_arches() {
    let (board, sheet) = example("crossings");
    let picture = svg(&board, &sheet, "crossings");
    let drawn = &picture[..picture.find("class=\"legend\"").expect("a legend")];
    let paths = elements(&picture)
        .iter()
        .filter(|element| element.name == "path" && element.value("stroke") != "white")
        .map(|element| element.value("d").to_string())
        .filter(|d| drawn.contains(d.as_str()))
        .collect::<String>();
    // 51 and 52 over both spines, 23 over a collector, a spine over a collector: of two quarters each.
    assert_eq!(paths.matches('A').count(), 2 * 6);
}

/// Arches beside each other over a bundle rise to one side: the other way they would look like a ring.
#[test]
fn no_ring_of_arches() {
    let (board, sheet) = example("crossings");
    let elements = checked(&svg(&board, &sheet, "crossings"));
    let routes = apart::drawn(&elements, "route");
    let of = |id: u32| {
        let mut places = sheet.routes.iter();
        let place = places.position(|route| route.id == Id::from(id));
        let lines = &routes[place.expect("a route")].lines;
        let start = lines[2][0];
        // Down to the first bundle and past it, along the middle of the line.
        let middle = lines.iter().skip(2).step_by(5);
        let shifts = middle.map(|line| line[1].0 - start.0);
        let shifts = shifts.take(18).collect::<Vec<_>>();
        shifts.into_iter().fold(0.0, |most: f64, shift| {
            if shift.abs() > most.abs() {
                shift
            } else {
                most
            }
        })
    };
    let (one, two) = (of(51), of(52));
    assert!(one > 0.5 && (one - two).abs() < 0.02, "{one} and {two}");
}

#[test]
fn routes_over_each_other_are_apart() {
    // The same way, forth and back, and a part of it.
    let way: &[(f64, f64)] = &[(0.0, 0.0), (100.0, 0.0), (100.0, 50.0), (200.0, 50.0)];
    let back: &[(f64, f64)] = &[(200.0, 50.0), (100.0, 50.0), (100.0, 0.0), (0.0, 0.0)];
    let part: &[(f64, f64)] = &[(50.0, 80.0), (50.0, 0.0), (100.0, 0.0), (100.0, -30.0)];
    let board = board(&[(1, way), (2, way), (3, back), (4, part)]);
    let sheet = board.draw().expect("no bundle, so nothing to refuse");
    assert_eq!(
        false_joint(&svg(&board, &sheet, "over each other"), &board, &sheet),
        Ok(())
    );
}

#[test]
fn an_end_on_another_route_is_no_joint() {
    let through: &[(f64, f64)] = &[(0.0, 0.0), (100.0, 0.0)];
    let to: &[(f64, f64)] = &[(50.0, 50.0), (50.0, 0.0)];
    // Two that turn at the same place.
    let left: &[(f64, f64)] = &[(0.0, 80.0), (50.0, 80.0), (50.0, 60.0)];
    let right: &[(f64, f64)] = &[(100.0, 80.0), (50.0, 80.0), (50.0, 100.0)];
    let board = board(&[(1, through), (2, to), (3, left), (4, right)]);
    let sheet = board.draw().expect("no bundle, so nothing to refuse");
    assert_eq!(
        false_joint(&svg(&board, &sheet, "ends"), &board, &sheet),
        Ok(())
    );
}

#[test]
fn slanted_lines_cross_in_an_arch_too() {
    let board = board(&[
        (1, &[(0.0, 0.0), (100.0, 60.0)]),
        (2, &[(0.0, 60.0), (100.0, 0.0)]),
        (3, &[(0.0, 30.0), (30.0, 30.0), (30.0, -10.0)]),
    ]);
    let sheet = board.draw().expect("no bundle, so nothing to refuse");
    assert_eq!(
        false_joint(&svg(&board, &sheet, "slanted"), &board, &sheet),
        Ok(())
    );
}
