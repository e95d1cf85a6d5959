//! Page and picture on paper: by the browser's own print, one page of the paper's size, the picture as large as
//! it says.

use std::fs;
use std::path::{Path, PathBuf};
use std::process::Command;

use bundle_stage::{Board, Refusal};
use bundles::html::html_refused;
use bundles::names::Names;
use bundles::svg::svg;

use super::browser::Browser;
use super::page::Page;
use super::{drawn, example, file};

/// The sizes of the pages of a print, in millimetres.
fn printed(browser: &str, folder: &Path, file: &str) -> Vec<[f64; 2]> {
    let to = folder.join(format!("{file}.pdf"));
    let done = Command::new(browser)
        .args([
            "--headless",
            "--no-sandbox",
            "--disable-gpu",
            "--no-pdf-header-footer",
        ])
        .arg(format!(
            "--user-data-dir={}",
            folder.join("browser").display()
        ))
        .arg(format!("--print-to-pdf={}", to.display()))
        .arg(format!("file://{}", folder.join(file).display()))
        .output()
        .expect("the browser runs");
    let bytes =
        fs::read(to).unwrap_or_else(|_| panic!("{}", String::from_utf8_lossy(&done.stderr)));
    let text = String::from_utf8_lossy(&bytes).into_owned();
    let boxes = text.split("/MediaBox").skip(1);
    let size = |rest: &str| {
        let (_, rest) = rest.split_once('[').expect("a box");
        let (inside, _) = rest.split_once(']').expect("a box");
        let numbers = inside.split_whitespace();
        let numbers = numbers.map(|word| word.parse::<f64>().expect("a number"));
        let numbers = numbers.collect::<Vec<_>>();
        // A point is a 72nd of an inch.
        [2, 3].map(|at| numbers[at] * 25.4 / 72.0)
    };
    boxes.map(size).collect()
}

/// The size that a picture says, in millimetres.
fn size(picture: &str) -> [f64; 2] {
    ["width", "height"].map(|side| {
        let (_, rest) = picture.split_once(&format!(" {side}=\"")).expect(side);
        let (length, _) = rest.split_once("mm\"").expect("millimetres");
        length.parse().expect("a number")
    })
}

fn held(name: &str, (picture, page): (&str, &str), paper: [f64; 2]) {
    let Some(browser) = Browser::name() else {
        eprintln!("no chromium: {name} is not printed");
        return;
    };
    let folder = PathBuf::from(env!("CARGO_TARGET_TMPDIR")).join(format!("paper-{name}"));
    let _ = fs::remove_dir_all(&folder);
    fs::create_dir_all(&folder).expect("a folder");
    let [width, height] = size(picture);
    assert_eq!(width, paper[0], "{name}");
    assert!(height <= paper[1], "{name}");
    for (file, text) in [("sheet.svg", picture), ("sheet.html", page)] {
        fs::write(folder.join(file), text).expect("a file");
        let pages = printed(browser, &folder, file);
        assert_eq!(pages.len(), 1, "{name}: {file}: {pages:?}");
        // The browser rounds to pixels.
        let near = |way: usize| (pages[0][way] - paper[way]).abs() < 0.4;
        assert!(
            near(0) && near(1),
            "{name}: {file}: {pages:?}, not {paper:?}"
        );
    }
    as_large(name, page, [width, height]);
}

/// Nothing is fitted to the paper: the picture has its own size there.
fn as_large(name: &str, page: &str, [width, height]: [f64; 2]) {
    let Some(mut page) = Page::open(&format!("paper-{name}"), page) else {
        return;
    };
    page.browser
        .ask("Emulation.setEmulatedMedia", "\"media\":\"print\"");
    let said = page.browser.value(
        "(() => { const box = svg.getBoundingClientRect(); \
         return [box.left, box.top, box.width, box.height].join(' '); })()",
    );
    let said = said.split(' ').map(|word| word.parse::<f64>());
    let said = said.collect::<Result<Vec<_>, _>>().expect("numbers");
    let pixels = [width, height].map(|side| side * 96.0 / 25.4);
    assert_eq!(said[..2], [0.0, 0.0], "{name}");
    assert!(
        (said[2] - pixels[0]).abs() < 0.1 && (said[3] - pixels[1]).abs() < 0.1,
        "{name}: {said:?}"
    );
}

#[test]
fn of_a4() {
    let (board, names) = example("clock-board");
    let picture = svg(&board, &board.draw().expect("a sheet"), &names, "a4").expect("clear");
    held(
        "a4",
        (&picture, &drawn(&board, &names, "a4")),
        [297.0, 210.0],
    );
}

#[test]
fn of_a2_and_more() {
    let job = file("rust/bundles/tests/data/largest-7-0.job");
    let board = Board::from_bytes(&job).expect("a board");
    let names = Names::default();
    let picture = svg(&board, &board.draw().expect("a sheet"), &names, "large").expect("clear");
    let page = drawn(&board, &names, "large");
    let [width, height] = size(&picture);
    assert!(width.max(height) > 500.0, "{width} by {height}");
    let papers = [594.0, 841.0, 1189.0, 1682.0, 2378.0, 3364.0, 4756.0];
    let down = [420.0].into_iter().chain(papers).find(|side| {
        let place = papers.iter().position(|of| *of == width);
        let beside = place.map(|place| {
            let before = if place == 0 { 420.0 } else { papers[place - 1] };
            [before, papers.get(place + 1).copied().unwrap_or_default()]
        });
        *side >= height && beside.is_some_and(|beside| beside.contains(side))
    });
    held("large", (&picture, &page), [width, down.expect("a paper")]);
}

#[test]
fn of_a_refused_board() {
    let (board, names) = example("clock-board");
    let page = html_refused(&board, Refusal::ForbiddenContact, &names, "refused");
    let (_, rest) = page.split_once("<main id=\"sheet\">\n").expect("a picture");
    let (picture, _) = rest.split_once("</main>").expect("a picture");
    held("refused", (picture, &page), [297.0, 210.0]);
}
