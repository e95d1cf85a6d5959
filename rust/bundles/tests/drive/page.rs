//! A page in the browser, and what is done to it: by finger, mouse, keys and search.

use std::fs;
use std::path::PathBuf;

use super::browser::Browser;

/// What is not dimmed, as the browser shows it, against the way of a thing; `all` where nothing is
/// chosen. What is written is `same`, or what differs.
const SEEN: &str = r#"(key) => {
  const seen = (part) => {
    let opacity = 1;
    for (let at = part; at && at.tagName !== "svg"; at = at.parentElement) {
      opacity *= Number(getComputedStyle(at).opacity);
    }
    return opacity > 0.99;
  };
  // What cuts a stretch out is no thing; a bundle is its lines, not its taps.
  const all = [...svg.querySelectorAll("[id]:not(.cut)")];
  const lifted = all.filter((part) => seen(part.querySelector(".trunk") || part)).map((part) => part.id).sort();
  const due = key === "all" ? all.map((part) => part.id).sort()
    : ways.find((way) => way.key === key).lifted.filter((id) => document.getElementById(id)).sort();
  return lifted.join() === due.join() ? "same" : "lifted " + lifted.join(" ") + " due " + due.join(" ");
}"#;

/// Looks at a thing from near, and gives a point of the screen at which, and one step around it, it is on
/// top, by what the browser itself finds there, as `x y`; `none` where there is none, and `under` where a port
/// is none as another has the same place, or where a bundle is not drawn.
const POINT: &str = r#"(key) => {
  const part = document.getElementById(key);
  if (!part) return "under";
  const box = (port) => ["x", "y", "width", "height"].map((name) => port.getAttribute(name)).join();
  const ports = [...svg.querySelectorAll(".port")];
  const above = ports.slice(ports.indexOf(part) + 1);
  if (part.matches(".port") && above.some((port) => box(port) === box(part))) return "under";
  const lines = part.matches("path, rect") ? [part] : [...part.querySelectorAll("path, rect")];
  for (const line of lines) {
    const length = line.getTotalLength();
    for (let turns = 1; turns < 200; turns++) {
      // From the middle on: 100, 101, 99, 102, ..
      const turn = 100 + (turns % 2 ? -1 : 1) * Math.floor(turns / 2);
      let place = line.getPointAtLength(length * turn / 200);
      if (line.matches("rect")) {
        // Between its frame and its middle.
        const box = line.getBBox();
        const share = 0.1 + 0.8 * ((turns * 7) % 10) / 10;
        const mix = (from, to) => from + share * (to - from);
        place = new DOMPoint(mix(place.x, box.x + box.width / 2), mix(place.y, box.y + box.height / 2));
      }
      view = [place.x - 10, place.y - 10 * full[3] / full[2], 20, 20 * full[3] / full[2]];
      look();
      const at = place.matrixTransform(svg.getScreenCTM());
      const on = (x, y) => {
        const top = document.elementFromPoint(at.x + x, at.y + y);
        const of = top && top.closest("[data-way], [data-of]");
        return of && (of.dataset.of || of.id) === key;
      };
      // A finger rounds.
      if ([[0, 0], [1, 0], [-1, 0], [0, 1], [0, -1]].every(([x, y]) => on(x, y))) return at.x + " " + at.y;
    }
  }
  return "none";
}"#;

pub struct Page {
    pub browser: Browser,
    pub keys: Vec<String>,
    /// Where its file is.
    pub folder: PathBuf,
}

impl Page {
    /// None where there is no browser.
    pub fn open(name: &str, page: &str) -> Option<Page> {
        let Some(mut browser) = Browser::start(name) else {
            eprintln!("no chromium: {name} is not driven in a browser");
            return None;
        };
        let folder = PathBuf::from(env!("CARGO_TARGET_TMPDIR")).join(format!("drive-{name}"));
        let path = folder.join("sheet.html");
        fs::write(&path, page).expect("a page");
        browser.open(&path);
        let twice = "(() => { const ids = [...document.querySelectorAll('[id]')].map((part) => part.id); \
                     return ids.filter((id, place) => ids.indexOf(id) !== place).join(); })()";
        assert_eq!(browser.value(twice), "", "{name}: ids that stand twice");
        let keys = browser.value("ways.map((way) => way.key).join(' ')");
        let keys = keys.split(' ').map(str::to_string).collect();
        Some(Page {
            browser,
            keys,
            folder,
        })
    }

    pub fn seen(&mut self, key: &str, after: &str) {
        let said = self.browser.value(&format!("({SEEN})('{key}')"));
        assert_eq!(said, "same", "{key} after {after}");
    }

    /// None where it lies under another in the same place.
    pub fn point(&mut self, key: &str) -> Option<(f64, f64)> {
        let said = self.browser.value(&format!("({POINT})('{key}')"));
        assert_ne!(said, "none", "{key} is nowhere on top");
        let (x, y) = said.split_once(' ')?;
        Some((x.parse().expect("x"), y.parse().expect("y")))
    }

    pub fn view(&mut self) -> Vec<f64> {
        let said = self.browser.value("svg.getAttribute('viewBox')");
        said.split(' ')
            .map(|word| word.parse().expect("a number"))
            .collect()
    }

    /// Finger, mouse, keys and search on each thing.
    pub fn choose(&mut self, keys: &[String]) {
        for key in keys {
            if let Some(at) = self.point(key) {
                self.browser.mouse("mouseMoved", at, "");
                self.seen(key, "the mouse");
                self.browser.touch("touchStart", &[at]);
                self.browser.touch("touchEnd", &[]);
                self.seen(key, "a finger");
                self.browser.key("Escape");
                self.seen("all", "Escape");
            }
            self.focus(key);
            let word = self.browser.value(&format!(
                "byKey.get('{key}').name.split(' ').slice(0, 2).join(' ')"
            ));
            self.browser.value("(find.value = '') + find.focus()");
            self.browser
                .ask("Input.insertText", &format!("\"text\":\"{word}\""));
            self.browser.key("Enter");
            self.seen(key, "the search");
            self.browser
                .value("document.getElementById('none').click() + ''");
            self.seen("all", "show all");
        }
    }

    /// The focus on a thing, and Enter there. What is not drawn has none.
    fn focus(&mut self, key: &str) {
        let part = format!("document.getElementById('{key}')");
        if self.browser.value(&format!("{part} + ''")) == "null" {
            return;
        }
        self.browser.value("document.activeElement.blur() + ''");
        self.browser.value(&format!("{part}.focus() + ''"));
        self.seen(key, "the focus");
        self.browser.key("Enter");
        self.browser.value("find.focus() + ''");
        self.seen(key, "Enter");
        self.browser.key("Escape");
        self.seen("all", "Escape in the search");
    }

    /// Wheel, two fingers, keys and buttons.
    pub fn zoom(&mut self) {
        let full = self.view();
        let middle = (600.0, 500.0);
        self.browser
            .mouse("mouseWheel", middle, ",\"deltaX\":0,\"deltaY\":-100");
        let nearer = self.view();
        assert!(nearer[2] < 0.9 * full[2], "the wheel");
        self.browser.value("document.activeElement.blur() + ''");
        self.browser.key("0");
        assert_eq!(self.view(), full, "0");
        self.browser.key("+");
        assert!(self.view()[2] < full[2], "+");
        self.browser.key("-");
        assert!((self.view()[2] - full[2]).abs() < 1e-6 * full[2], "-");
        self.browser.key("ArrowRight");
        assert!(self.view()[0] > full[0], "the arrow");
        self.browser.key("0");
        self.browser
            .touch("touchStart", &[(500.0, 500.0), (700.0, 500.0)]);
        self.browser
            .touch("touchMove", &[(400.0, 500.0), (800.0, 500.0)]);
        self.browser.touch("touchEnd", &[]);
        assert!(self.view()[2] < 0.9 * full[2], "two fingers");
        self.browser
            .value("document.getElementById('whole').click() + ''");
        assert_eq!(self.view(), full, "whole sheet");
        self.seen("all", "zooming");
    }
}
