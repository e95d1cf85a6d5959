//! Boards on which two records have one id, which the stage refuses with 8: each of the two has its own id in
//! the picture, lifts its own way and is told by its own words, by mouse, finger and search.

use bundle_stage::Refusal;
use bundles::html::html_refused;
use bundles::text;

use super::file;
use super::page::Page;

/// The page of the clock board with these changes, which is refused for an id that stands twice.
fn page(name: &str, changes: &[(&str, &str)]) -> Option<Page> {
    let mut board = String::from_utf8(file("examples/clock-board.txt")).expect("text");
    for (from, to) in changes {
        assert!(board.contains(from), "{from}");
        board = board.replace(from, to);
    }
    let text = text::read_all(board.as_bytes()).expect("a board");
    assert_eq!(text.board.draw(), Err(Refusal::DuplicateId));
    let page = html_refused(&text.board, Refusal::DuplicateId, &text.names, name);
    Page::open(name, &page)
}

/// The ids of all that is not dimmed.
const LIFTED: &str = r#"(() => {
  const seen = (part) => getComputedStyle(part).opacity > 0.99;
  const all = [...svg.querySelectorAll("[id]:not(.cut)")];
  return all.filter(seen).map((part) => part.id).sort().join(" ");
})()"#;

impl Page {
    /// What is lifted, and the name and the last line that are told.
    fn is(&mut self, after: &str, lifted: &str, (name, words): (&str, &str)) {
        assert_eq!(self.browser.value(LIFTED), lifted, "{after}");
        let told = self
            .browser
            .value("told.querySelector('.name')?.textContent + ''");
        assert_eq!(told, name, "{after}");
        let told = self
            .browser
            .value("[...told.querySelectorAll('.way')].pop()?.textContent + ''");
        assert!(told.contains(words), "{after}: {told}");
    }

    /// Mouse and finger on one of the two, if it is drawn; then the search, which lists it at this place under
    /// the id that it shares.
    fn own(&mut self, (id, turn): (&str, usize), own: &Own<'_>) {
        let Own { key, lifted, .. } = *own;
        let said = (own.name, own.words);
        if let Some(at) = self.point(key) {
            self.browser.mouse("mouseMoved", at, "");
            self.is("the mouse", lifted, said);
            self.browser.touch("touchStart", &[at]);
            self.browser.touch("touchEnd", &[]);
            self.is("a finger", lifted, said);
            self.browser.key("Escape");
        }
        self.browser.value("(find.value = '') + find.focus()");
        self.browser
            .ask("Input.insertText", &format!("\"text\":\"{id}\""));
        let names =
            "[...found.querySelectorAll('button')].map((button) => button.textContent).join('|')";
        let listed = self.browser.value(names);
        assert_eq!(listed.split('|').nth(turn), Some(said.0), "{listed}");
        let click = format!("found.querySelectorAll('button')[{turn}].click() + ''");
        self.browser.value(&click);
        self.is("the search", lifted, said);
        // The address brings it back.
        let hash = self.browser.value("location.hash");
        self.browser
            .value("(document.getElementById('none').click(), location.hash = '') + ''");
        self.browser
            .value(&format!("(location.hash = '{hash}') + ''"));
        self.browser
            .value("new Promise((done) => setTimeout(done, 50))");
        self.waited("hash", key);
        self.is("the address", lifted, said);
        self.browser.value("choose('') + ''");
    }

    /// Until the page has taken what is in the address.
    fn waited(&mut self, what: &str, key: &str) {
        for _ in 0..1_000 {
            if self.browser.value("chosen?.key + ''") == key {
                return;
            }
        }
        panic!("{what}: {key} is not chosen");
    }
}

/// One of two records with one id.
struct Own<'a> {
    /// Its id in the picture.
    key: &'a str,
    name: &'a str,
    /// The ids of all that is lifted with it.
    lifted: &'a str,
    /// Of its last line.
    words: &'a str,
}

impl<'a> Own<'a> {
    fn of([key, name, lifted, words]: [&'a str; 4]) -> Own<'a> {
        Own {
            key,
            name,
            lifted,
            words,
        }
    }
}

/// Each of the two that share this id, on the clock board with these changes.
fn both(name: &str, changes: &[(&str, &str)], id: &str, all: [Own<'_>; 2]) {
    let Some(mut page) = page(name, changes) else {
        return;
    };
    for (turn, own) in all.iter().enumerate() {
        page.own((id, turn), own);
    }
}

#[test]
fn edges() {
    let first = Own::of([
        "route-41",
        "edge 41, 1 of 2 with this id",
        "node-5 node-7 port-5-11 port-7-1 route-41",
        " edge 41, 1 of 2 with this id (of bundle 4 time code, not drawn) ",
    ]);
    let second = Own::of([
        "route-41-2",
        "edge 41, 2 of 2 with this id",
        "node-5 node-7 port-5-12 port-7-1 route-41-2",
        " edge 41, 2 of 2 with this id (of bundle 4 time code, not drawn) ",
    ]);
    let changes = [("edge 42 from", "edge 41 from")];
    both("twice-edges", &changes, "edge 41", [first, second]);
}

#[test]
fn ports() {
    let first = Own::of([
        "port-5-11",
        "port 5:11 time code, 1 of 2 with this id",
        "node-5 node-7 port-5-11 port-7-1 route-41",
        " edge 41 ",
    ]);
    let second = Own::of([
        "port-5-11-2",
        "port 5:11 time code, inverted, 2 of 2 with this id",
        "node-5 node-7 port-5-11-2 port-7-1 route-42",
        " edge 42 ",
    ]);
    let changes = [("port 5:12 ", "port 5:11 "), ("from 5:12", "from 5:11")];
    both("twice-ports", &changes, "5:11", [first, second]);
}

/// Each of the nodes has the ports at which its routes end.
#[test]
fn nodes() {
    let first = Own::of([
        "node-4",
        "node 4 PLL, 1 of 2 with this id",
        "node-1 node-2 node-4 node-4-2 node-6 port-1-1 port-2-1 port-4-1 port-4-11 port-4-12 \
                 port-4-13 port-4-14 port-4-2 port-4-20 port-4-3 port-4-4 port-4-5 port-4-920 port-6-1 \
                 route-11 route-12 route-13 route-14 route-21 route-22 route-23 route-24 route-31 route-71",
        " node 4 timestamp unit, 2 of 2 with this id",
    ]);
    let second = Own::of([
        "node-4-2",
        "node 4 timestamp unit, 2 of 2 with this id",
        "node-2 node-3 node-4 node-4-2 node-7 node-8 port-2-1 port-3-1 port-4-20 port-4-91 \
                 port-4-911 port-4-912 port-4-913 port-4-914 port-4-92 port-4-920 port-4-93 port-4-94 \
                 port-7-1 port-8-1 route-34 route-41 route-42 route-51 route-52 route-53 route-61 route-62 \
                 route-71",
        " node 4 timestamp unit, 2 of 2 with this id",
    ]);
    let changes = [("node 5 ", "node 4 "), (" 5:", " 4:9")];
    both("twice-nodes", &changes, "node 4", [first, second]);
}

/// Neither is drawn: each has the ways of its own members.
#[test]
fn bundles() {
    let first = Own::of([
        "bundle-3",
        "bundle 3 oscillator, 1 of 2 with this id",
        "node-2 node-4 node-5 node-7 port-2-1 port-4-5 port-5-1 port-7-1 route-31 route-32 \
                 route-33 route-34",
        " edge 34 ",
    ]);
    let second = Own::of([
        "bundle-3-2",
        "bundle 3 time code, 2 of 2 with this id",
        "node-2 node-5 node-7 port-2-1 port-5-11 port-5-12 port-7-1 route-32 route-33 route-41 \
                 route-42",
        " edge 42 ",
    ]);
    let changes = [("bundle 4 ", "bundle 3 ")];
    both("twice-bundles", &changes, "bundle 3", [first, second]);
}
