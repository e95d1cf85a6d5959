//! The page driven in a real browser, by finger, mouse and keys: what is lifted is the way of the thing
//! that was chosen, and nothing else. `html.rs` holds the ways themselves to the board.

#![forbid(unsafe_code)]

mod browser;
mod ink;
mod keys;
mod letters;
mod names;
mod page;
mod paper;
mod pointer;
mod print;
mod refused;
mod sight;
mod stretch;
mod twice;

use std::fs;

use bundle_stage::Board;
use bundles::html::{html, html_unclear};
use bundles::names::Names;
use bundles::svg::svg;
use bundles::text;

use page::Page;

fn file(name: &str) -> Vec<u8> {
    let path = format!("{}/../../{name}", env!("CARGO_MANIFEST_DIR"));
    fs::read(path).expect("a file of the repository")
}

fn example(name: &str) -> (Board, Names) {
    let text = text::read_all(&file(&format!("examples/{name}.txt"))).expect("a board");
    (text.board, text.names)
}

/// At most so many things are tried.
fn drive(name: &str, page: &str, most: usize) {
    let Some(mut page) = Page::open(name, page) else {
        return;
    };
    let step = page.keys.len().div_ceil(most).max(1);
    let keys = page.keys.iter().step_by(step).cloned().collect::<Vec<_>>();
    page.choose(&keys);
    page.browser.value("whole() + ''");
    page.zoom();
}

fn drawn(board: &Board, names: &Names, name: &str) -> String {
    html(board, &board.draw().expect("a sheet"), names, name).expect("a picture")
}

fn largest() -> Board {
    let bytes = file("stored/largest.bin");
    let (length, rest) = bytes.split_first_chunk().expect("a record");
    let job = &rest[..u32::from_be_bytes(*length) as usize];
    Board::from_bytes(job).expect("a board")
}

#[test]
fn the_clock_board() {
    let (board, names) = example("clock-board");
    drive("clock-board", &drawn(&board, &names, "clock-board"), 12);
}

/// A board of which no picture would be clear: search, address and keys tell its ways, and nothing else.
#[test]
fn words_alone() {
    let text = "port_stub 0\nroute_lane_gap 3\nedge_node_clearance 5\n\
        minimum_parallel_wire_spacing 2\nmember_endpoint_reserve 2\n\
        node 1 \"unit\" at 0,0 size 10,10\nnode 2 at 100,0 size 10,10\nnode 3 at 50,5 size 10,10\n\
        port 1:1 east 5\nport 2:1 west 5\nport 3:1 north 5\n\
        edge 1 \"sync\" from 1:1 to 2:1 via 10,5 100,5\n";
    let text = text::read_all(text.as_bytes()).expect("a board");
    let (board, sheet) = (&text.board, text.board.draw().expect("a sheet"));
    let unclear = html(board, &sheet, &text.names, "words").expect_err("unclear");
    let page = html_unclear(&unclear, (board, &sheet), &text.names, "words");
    let Some(mut page) = Page::open("words-alone", &page) else {
        return;
    };
    assert_eq!(page.keys.len(), 3 + 3 + 1);
    let edge = page.browser.value("ways[6].name + ways[6].words.join('')");
    page.browser.value("find.focus() + ''");
    page.browser.ask("Input.insertText", "\"text\":\"sync\"");
    page.browser.key("Enter");
    assert_eq!(page.browser.value("told.textContent"), edge);
    assert_eq!(page.browser.value("location.hash"), "#edge-1");
    for key in ["Escape", "+", "0", "ArrowDown"] {
        page.browser.key(key);
    }
    page.browser
        .value("document.getElementById('none').click() + ''");
    assert_eq!(page.browser.value("told.textContent"), "");
    page.browser.value("(location.hash = '#node-1') + ''");
    while !page.browser.value("told.textContent").contains("unit") {}
}

/// The two bundles that share routes, alone.
#[test]
fn a_chain() {
    let (mut board, names) = example("clock-board");
    board.bundles = vec![board.bundles[2].clone(), board.bundles[3].clone()];
    drive("chain", &drawn(&board, &names, "chain"), 8);
}

#[test]
fn crossings() {
    let (board, names) = example("crossings");
    drive("crossings", &drawn(&board, &names, "crossings"), 10);
}

/// Names of wide letters, capitals and those of East Asia, and pictures.
#[test]
fn wide_letters() {
    for name in [
        "MMMM WWWW",
        "\u{6642}\u{523b}\u{53d7}\u{4fe1}\u{6a5f}",
        "\u{1f552}\u{1f4e1}",
    ] {
        let (board, _) = example("clock-board");
        let mut names = Names::default();
        board
            .nodes
            .iter()
            .for_each(|of| names.set_node(of.id, name));
        board
            .ports
            .iter()
            .for_each(|of| names.set_port(of.node, of.id, name));
        board
            .edges
            .iter()
            .for_each(|of| names.set_edge(of.id, name));
        board
            .bundles
            .iter()
            .for_each(|of| names.set_bundle(of.id, name));
        if let Some(mut page) = Page::open("letters", &drawn(&board, &names, &name.repeat(30))) {
            page.words_in_place();
        }
    }
}

#[test]
fn a_largest_board() {
    let page = drawn(&largest(), &Names::default(), "largest");
    drive("largest", &page, 20);
}

/// Routes that lie nearer to each other than a pointer could tell: each is lifted by its own ink, and by
/// the white that is nearest to it.
#[test]
fn every_route_of_a_largest_board() {
    let job = file("rust/bundles/tests/data/largest-7-0.job");
    let board = Board::from_bytes(&job).expect("a board");
    let page = drawn(&board, &Names::default(), "largest-7-0");
    if let Some(mut page) = Page::open("inks", &page) {
        page.every_route();
    }
}

/// A line that lies over a node, pointed at on it, beside it, and further away on the node's ground; then
/// beside the node.
#[test]
fn a_line_over_a_node() {
    let text = "port_stub 10\nroute_lane_gap 10\nedge_node_clearance 0\n\
                minimum_parallel_wire_spacing 0\nmember_endpoint_reserve 0\n\
                node 1 at 0,0 size 40,80\nnode 2 at 240,0 size 40,80\nnode 3 at 100,0 size 80,80\n\
                port 1:1 east 40\nport 2:1 west 40\nedge 1 from 1:1 to 2:1 via 40,40 240,40\n";
    let text = text::read_all(text.as_bytes()).expect("a board");
    let page = drawn(&text.board, &text.names, "over");
    if let Some(mut page) = Page::open("over", &page) {
        page.beside("node-3", (0.0, 0.0), "edge 1");
        page.beside("node-3", (0.0, 7.0), "edge 1");
        page.beside("node-3", (0.0, 30.0), "node 3");
        page.beside("node-3", (0.5, 30.0), "node 3");
        page.beside("node-3", (0.5, 60.0), "node 3");
        page.beside("node-1", (-0.5, 0.0), "node 1");
    }
}

/// A route that ends short of its port: its cross is lifted and pointed at with it, and it is said that nothing
/// is joined there.
#[test]
fn an_end_short_of_its_port() {
    let board = String::from_utf8(file("examples/clock-board.txt")).expect("text");
    let board = board.replace("via 480,220 480,300", "via 480,220 480,260");
    let text = text::read_all(board.as_bytes()).expect("a board");
    let page = drawn(&text.board, &text.names, "short");
    let Some(mut page) = Page::open("short", &page) else {
        return;
    };
    let cross = "svg.querySelector('.loose-end')";
    for (key, due) in [
        ("", "1"),
        ("route-71", "1"),
        ("port-5-20", "1"),
        ("bundle-3", "0.13"),
    ] {
        page.browser.value(&format!("choose('{key}') + ''"));
        let shown = page
            .browser
            .value(&format!("getComputedStyle({cross}).opacity + ''"));
        assert_eq!(shown, due, "{key}");
    }
    page.browser.value("choose('') + ''");
    // At the end of one of its arms.
    let at = page.browser.value(&format!(
        "(() => {{ const at = {cross}.querySelector('path').getPointAtLength(0.1) \
         .matrixTransform(svg.getScreenCTM()); return at.x + ' ' + at.y; }})()"
    ));
    let (x, y) = at.split_once(' ').expect("a point");
    let at = (x.parse().expect("x"), y.parse().expect("y"));
    page.browser.mouse("mouseMoved", at, "");
    page.seen("route-71", "the mouse on the cross");
    let told = page
        .browser
        .value("[...told.children].map((line) => line.className).join()");
    assert_eq!(told, "name,note,way");
    let note = page
        .browser
        .value("told.querySelector('.note').textContent.slice(2)");
    assert!(note.starts_with("edge 71 ends at (480, 260), not at its port 5:20, "));
}

/// The id of a node that lies over the frame of another, to which it is moved here, as no id lies so: there the
/// frame is pointed at, beside it the id.
#[test]
fn an_id_over_a_frame() {
    let text = "port_stub 10\nroute_lane_gap 10\nedge_node_clearance 0\n\
                minimum_parallel_wire_spacing 0\nmember_endpoint_reserve 0\n\
                node 888 at 0,0 size 200,80\nnode 2 at 100,-20 size 150,120\n";
    let text = text::read_all(text.as_bytes()).expect("a board");
    let page = drawn(&text.board, &text.names, "frame");
    let Some(mut page) = Page::open("frame", &page) else {
        return;
    };
    let id = "svg.querySelector('.node-id[data-of=\"node-888\"]')";
    let moved = "setAttribute('x', document.querySelector('#node-2 rect').getAttribute('x'))";
    page.browser.value(&format!("{id}.{moved} + ''"));
    let words = format!("{id}.getBoundingClientRect()");
    let frame = "document.querySelector('#node-2 rect').getBoundingClientRect()";
    let number = |page: &mut Page, what: &str| {
        let said = page.browser.value(&format!("{what} + ''"));
        said.parse::<f64>().expect("a number")
    };
    let y = number(&mut page, &format!("{words}.top + {words}.height / 2"));
    let x = number(&mut page, &format!("{frame}.left"));
    let (left, right) = (
        number(&mut page, &format!("{words}.left")),
        number(&mut page, &format!("{words}.right")),
    );
    assert!(
        left + 4.0 < x && x + 4.0 < right,
        "the id is not over the frame"
    );
    page.browser.mouse("mouseMoved", (x, y), "");
    page.seen("node-2", "the mouse on the frame");
    page.browser.mouse("mouseMoved", (left + 2.0, y), "");
    page.seen("node-888", "the mouse on the id");
}

/// A window that is high and narrow, as that of a telephone.
#[test]
fn a_narrow_window() {
    let (board, names) = example("clock-board");
    let Some(mut page) = Page::open("narrow", &drawn(&board, &names, "narrow")) else {
        return;
    };
    page.browser.window(420, 900);
    for key in ["bundle-4", "node-5", "port-5-11", "route-33"] {
        page.choose(&[key.to_string()]);
    }
}

#[test]
fn keys() {
    let (board, names) = example("clock-board");
    if let Some(mut page) = Page::open("keys", &drawn(&board, &names, "keys")) {
        page.legend_first(&board);
        page.tab();
        page.long_words("node-5");
        page.many_found();
        page.words_found();
        page.listed_over_the_sheet();
        page.slash();
        page.held();
    }
}

#[test]
fn pointer() {
    let (board, names) = example("clock-board");
    if let Some(mut page) = Page::open("pointer", &drawn(&board, &names, "pointer")) {
        page.buttons("bundle-3");
        page.browser.value("whole() + ''");
        page.drags();
        page.two_fingers("node-4");
    }
}

#[test]
fn sight() {
    let (board, names) = example("clock-board");
    if let Some(mut page) = Page::open("sight", &drawn(&board, &names, "sight")) {
        page.search();
        page.address();
        page.tab_in_sight();
    }
}

#[test]
fn print() {
    let (board, names) = example("clock-board");
    let picture = svg(&board, &board.draw().expect("a sheet"), &names, "print");
    if let Some(mut page) = Page::open("print", &drawn(&board, &names, "print")) {
        page.print(&picture.expect("a picture"));
    }
}
