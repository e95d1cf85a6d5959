//! Of a bundle that goes on to other taps only the stretch to those on the way is lifted.

use super::page::Page;
use super::{drawn, example};

/// Walks along a bundle's lines: which points of them are lifted, by what the browser finds there, against
/// those between its port and the taps of these edges. How many are, and how many are not, or the first that
/// is wrong.
const WALK: &str = r#"(id, port, edges) => {
  const bundle = document.getElementById("bundle-" + id);
  const copies = [...bundle.querySelectorAll(".stretch")];
  if (copies.length !== 1) return copies.length + " stretches";
  const [copy, trunk] = [copies[0], bundle.querySelector(".trunk")];
  const shown = [copy, bundle, trunk].map((part) => getComputedStyle(part).opacity).join();
  if (shown !== "1,1,0.13") return "opacity " + shown;
  for (const path of copy.children) path.style.pointerEvents = "stroke";
  const box = document.getElementById(port).getBBox();
  const start = box.y + box.height / 2;
  const taps = edges.map((edge) => document.getElementById("tap-" + id + "-" + edge));
  const ends = [start, ...taps.map((tap) => Number(tap.getAttribute("cy")))];
  const [top, bottom] = [Math.min(...ends), Math.max(...ends)];
  const x = Number(taps[0].getAttribute("cx"));
  const line = trunk.querySelector("path");
  const width = parseFloat(line.getAttribute("stroke-width"));
  const count = [0, 0];
  for (let turn = 0; turn <= 400; turn++) {
    const at = line.getPointAtLength(line.getTotalLength() * turn / 400);
    const isSpine = Math.abs(at.x - x) > 2 * width;
    // Where it is cut either may be.
    if (!isSpine && ends.some((end) => Math.abs(at.y - end) < 2 * width)) continue;
    const due = isSpine || (top < at.y && at.y < bottom);
    const on = at.matrixTransform(svg.getScreenCTM());
    const is = document.elementsFromPoint(on.x, on.y).some((part) => copy.contains(part));
    if (is !== due) return at.x + " " + at.y + " is " + is;
    count[Number(due)] += 1;
  }
  for (const path of copy.children) path.style.pointerEvents = "";
  return count.join(" ");
}"#;

/// The bundles whose ids on the sheet are not dimmed.
const LABELLED: &str = r#"(() => {
  const frames = [...svg.querySelectorAll(".ids [data-of^='bundle-']")];
  const shown = frames.filter((frame) => getComputedStyle(frame).opacity === "1");
  return [...new Set(shown.map((frame) => frame.dataset.of))].sort().join(" ");
})()"#;

impl Page {
    fn walks(&mut self, key: &str, (id, port, edges): (u32, &str, &str)) {
        self.browser.value(&format!("choose('{key}') + ''"));
        self.seen(key, "choosing");
        let said = self
            .browser
            .value(&format!("({WALK})({id}, '{port}', [{edges}])"));
        let counts = said.split(' ').map(str::parse::<u32>);
        let counts = counts.collect::<Result<Vec<_>, _>>();
        let counts = counts.unwrap_or_else(|_| panic!("{key}: {said}"));
        assert!(counts.iter().all(|count| *count > 20), "{key}: {said}");
    }

    fn parts(&mut self) -> String {
        self.browser
            .value("[...told.querySelectorAll('.part')].map((line) => line.textContent).join('|')")
    }
}

/// The id of a bundle is lifted with its stretch: a line that is lifted would run through a dimmed one.
#[test]
fn ids_on_stretches() {
    let (board, names) = example("clock-board");
    let Some(mut page) = Page::open("ids", &drawn(&board, &names, "ids")) else {
        return;
    };
    for (key, labelled) in [
        ("port-5-11", "bundle-4"),
        ("route-33", "bundle-3 bundle-4"),
        ("node-7", "bundle-3 bundle-4"),
        ("bundle-4", "bundle-3 bundle-4"),
        ("route-71", ""),
    ] {
        page.browser.value(&format!("choose('{key}') + ''"));
        page.seen(key, "choosing");
        assert_eq!(page.browser.value(LABELLED), labelled, "{key}");
    }
    page.browser.value("choose('') + ''");
    let all = (1..=6).map(|id| format!("bundle-{id}"));
    assert_eq!(
        page.browser.value(LABELLED),
        all.collect::<Vec<_>>().join(" ")
    );
}

#[test]
fn of_a_chain() {
    let (board, names) = example("clock-board");
    let Some(mut page) = Page::open("stretch", &drawn(&board, &names, "stretch")) else {
        return;
    };
    // Two of the four wires of bundle 3 go on to bundle 4, and come from it.
    page.walks("bundle-4", (3, "port-2-1", "32, 33"));
    let part = "Of bundle 3 oscillator only the stretch between port 2:1 and the taps on this way is lifted.";
    assert_eq!(page.parts(), part);
    page.walks("bundle-3", (4, "port-7-1", "32, 33"));
    page.walks("route-41", (4, "port-7-1", "41"));
    page.walks("route-34", (3, "port-2-1", "34"));
    // All taps are on the way: it is whole.
    page.browser.value("choose('port-2-1') + ''");
    page.seen("port-2-1", "choosing");
    let stretches =
        "[...svg.querySelectorAll('.stretch')].map((part) => part.parentNode.id).join()";
    assert_eq!(page.browser.value(stretches), "bundle-4");
    // Nothing of it stays.
    page.browser.value("choose('bundle-5') + ''");
    assert_eq!(page.browser.value(stretches), "");
    assert_eq!(page.parts(), "");
    page.browser.value("choose('') + ''");
    page.seen("all", "choosing nothing");
}
