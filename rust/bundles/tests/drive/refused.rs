//! Pages of boards that are refused: their bundles by their members, and what was tried.

use bundle_stage::Board;
use bundles::html::html_refused;
use bundles::names::Names;

use super::page::Page;
use super::{drive, example};

/// The clock board with a wire across bundle 3, and its page.
fn crossed() -> (Board, Names, String) {
    let (mut board, names) = example("clock-board");
    let mut wire = board.edges[19].clone();
    wire.id = 81.into();
    for (point, y) in wire.points.iter_mut().zip([150.0, 330.0]) {
        (point.x, point.y) = (320.0, y);
    }
    board.edges.push(wire);
    let refusal = board.draw().expect_err("refused");
    let page = html_refused(&board, refusal, &names, "refused");
    assert!(page.contains("class=\"refused\""));
    (board, names, page)
}

#[test]
fn a_refused_board() {
    let (board, _, page) = crossed();
    assert_eq!(board.bundles.len(), 6);
    drive("refused", &page, 12);
}

/// What was tried is the refused bundle's: dimmed where something else is lifted, lifted with the bundle and
/// its members, and pointed at.
#[test]
fn what_was_tried() {
    let (_, _, page) = crossed();
    let Some(mut page) = Page::open("tried", &page) else {
        return;
    };
    let shown = "getComputedStyle(svg.querySelector('.refused')).opacity + ''";
    for (key, due) in [
        ("", "1"),
        ("bundle-3", "1"),
        ("route-33", "1"),
        ("node-3", "0.13"),
        ("bundle-5", "0.13"),
        ("route-71", "0.13"),
    ] {
        page.browser.value(&format!("choose('{key}') + ''"));
        assert_eq!(page.browser.value(shown), due, "{key}");
    }
    page.browser.value("choose('') + ''");
    // Its spine, left of the members' places.
    let at = page.browser.value(
        "(() => { const [path] = [...svg.querySelectorAll('.refused path')].slice(-1); \
         const at = path.getPointAtLength(8).matrixTransform(svg.getScreenCTM()); \
         return at.x + ' ' + at.y; })()",
    );
    let (x, y) = at.split_once(' ').expect("a point");
    let at = (x.parse().expect("x"), y.parse().expect("y"));
    page.browser.mouse("mouseMoved", at, "");
    page.seen("bundle-3", "the mouse");
    let told = page.browser.value("told.textContent");
    assert!(
        told.starts_with("bundle 3 oscillatorNot drawn: a bundle at port 2:1."),
        "{told}"
    );
}
