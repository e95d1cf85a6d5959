//! Names that are read from right to left: what stands beside them keeps its order, on the screen itself.

use bundles::names::Names;

use super::page::Page;
use super::{drawn, example};

/// Hebrew: time code, clock, unit.
const CODE: &str = "\u{5e7}\u{5d5}\u{5d3} \u{5d6}\u{5de}\u{5df}";
const CLOCK: &str = "\u{5e9}\u{5e2}\u{5d5}\u{5df} (A)";
const UNIT: &str = "\u{5d9}\u{5d7}\u{5d9}\u{5d3}\u{5d4}";

/// The letters of a line of the legend that are in no name, as they stand on the screen from left to right.
const LEGEND: &str = r#"(() => {
  const line = [...svg.querySelectorAll(".legend text")].find((text) => text.textContent.includes("7:1;"));
  const text = line.textContent;
  const [from, to] = [text.indexOf("\u2068"), text.indexOf("\u2069")];
  const places = [...text].map((letter, turn) => [line.getStartPositionOfChar(turn).x, letter, turn]);
  const others = places.filter(([, , turn]) => turn < from || turn > to);
  return others.sort((a, b) => a[0] - b[0] || a[2] - b[2]).map(([, letter]) => letter).join("");
})()"#;

/// The words of the told lines that are in no name, each line's as they stand on the screen.
const TOLD: &str = r#"(() => {
  const lines = [...told.querySelectorAll("p")].map((line) => {
    const words = [];
    for (const part of line.childNodes) {
      if (part.nodeType !== 3) continue;
      for (const word of part.data.matchAll(/[^\s]+/g)) {
        const range = document.createRange();
        range.setStart(part, word.index);
        range.setEnd(part, word.index + word[0].length);
        const box = range.getBoundingClientRect();
        words.push([box.top, box.left, word[0]]);
      }
    }
    return words.sort((a, b) => (Math.abs(a[0] - b[0]) > 4 ? a[0] - b[0] : a[1] - b[1])).map((word) => word[2]).join(" ");
  });
  return lines.join("|");
})()"#;

fn names() -> Names {
    let mut names = Names::default();
    names.set_bundle(4.into(), CODE);
    names.set_bundle(3.into(), CLOCK);
    names.set_node(5.into(), UNIT);
    names.set_edge(41.into(), CODE);
    names
}

impl Page {
    /// What an expression gives, the browser's replies having letters as `\\u05d0`.
    fn letters(&mut self, expression: &str) -> String {
        let said = self.browser.value(expression);
        let mut parts = said.split("\\u");
        let mut all = parts.next().unwrap_or_default().to_string();
        for part in parts {
            let (number, rest) = part.split_at(4);
            let number = u32::from_str_radix(number, 16).expect("a number");
            all.push(char::from_u32(number).expect("a letter"));
            all.push_str(rest);
        }
        all
    }
}

#[test]
fn from_right_to_left() {
    let (board, _) = example("clock-board");
    let Some(mut page) = Page::open("names", &drawn(&board, &names(), "names")) else {
        return;
    };
    let due = ": 2:1, 5:11, 5:12 \u{2192} 7:1; output, interior, width 4";
    assert_eq!(page.letters(LEGEND), due);
    page.browser.value("choose('route-41') + ''");
    let way = "node 5 \u{2192} port 5:11 \u{2192} edge 41 \u{2192} tap \u{2192} collector and spine of bundle 4 \
               \u{2192} port 7:1 \u{2192} node 7";
    let part = "Of bundle 4 only the stretch between port 7:1 and the taps on this way is lifted.";
    assert_eq!(page.letters(TOLD), format!("edge 41|{part}|{way}"));
    let named = "[...told.querySelectorAll('.way bdi')].map((name) => name.textContent).join('|')";
    assert_eq!(page.letters(named), format!("{UNIT}|{CODE}|{CODE}"));
    // The search takes the name as it is typed.
    page.browser.value("choose('') + ''");
    page.browser.value("(find.value = '') + find.focus()");
    let typed = format!("\"text\":\"bundle 4 {CODE}\"");
    page.browser.ask("Input.insertText", &typed);
    let listed =
        "[...found.querySelectorAll('button')].map((button) => button.textContent).join('|')";
    assert_eq!(page.letters(listed), format!("bundle 4 {CODE}"));
    page.browser.key("Enter");
    page.seen("bundle-4", "the search");
}
