//! Words as the browser draws them: in their frames, on the page, and over no others.

use super::page::Page;

/// The words that run out of the frame before them, out of the page, or over other words of the sheet.
const OUT: &str = r#"(() => {
  const box = (of) => of.getBoundingClientRect();
  const inside = (one, two) => one.left >= two.left && one.right <= two.right;
  const all = [...svg.querySelectorAll("text")];
  const framed = all.filter((text) => text.classList.contains("bundle-id"));
  const out = framed.filter((text) => !inside(box(text), box(text.previousElementSibling)));
  const off = all.filter((text) => !inside(box(text), box(svg)));
  const names = [...svg.querySelectorAll(".node-name, .port-id, .edge-id, .bundle-id")];
  const sheet = names.filter((text) => !text.closest(".legend"));
  const over = sheet.filter((one, turn) => sheet.slice(turn + 1).some((two) => {
    const [a, b] = [box(one), box(two)];
    // Of a line of words the letters take the middle half.
    const [high, low] = [(a.bottom - a.top) / 4, (b.bottom - b.top) / 4];
    return a.left < b.right - 1 && b.left < a.right - 1
      && a.top + high < b.bottom - low && b.top + low < a.bottom - high;
  }));
  return [...out, ...off, ...over].map((text) => text.textContent).join();
})()"#;

impl Page {
    /// All words keep to their places.
    pub fn words_in_place(&mut self) {
        assert_eq!(self.browser.value(OUT), "");
    }
}
