//! What is chosen from afar is brought into view: by the search, by Tab, by the address.

use super::page::Page;

/// Whether all of a thing is on the screen, inside the sheet's part of it.
const SEEN: &str = r#"(key) => {
  const part = document.getElementById(key).getBoundingClientRect();
  const sheet = svg.getBoundingClientRect();
  const inside = part.left >= sheet.left && part.right <= sheet.right
    && part.top >= sheet.top && part.bottom <= sheet.bottom;
  return inside + "";
}"#;

impl Page {
    fn sees(&mut self, key: &str) -> bool {
        self.browser.value(&format!("({SEEN})('{key}')")) == "true"
    }

    fn find(&mut self, words: &str) {
        self.browser.value("(find.value = '') + find.focus()");
        self.browser
            .ask("Input.insertText", &format!("\"text\":\"{words}\""));
        self.browser.key("Enter");
    }

    /// Looks at a corner of the sheet from near, so that this is out of sight.
    fn far_from(&mut self, key: &str, part: u32) {
        self.browser.value(&format!(
            "view = [full[0], full[1], full[2] / {part}, full[3] / {part}]; look(); ''"
        ));
        assert!(!self.sees(key), "{key} is in sight");
    }

    /// A small thing is brought into view as near as the sheet is looked at; a large one from further away.
    pub fn search(&mut self) {
        self.far_from("node-8", 6);
        let near = self.view();
        self.find("alarm output");
        assert!(self.sees("node-8"), "the search");
        assert_eq!(self.view()[2..], near[2..], "the search zooms");
        // What is in sight stays where it is.
        let there = self.view();
        self.find("port 8:1");
        assert!(self.sees("port-8-1"));
        assert_eq!(self.view(), there, "moved for what was in sight");
        self.far_from("bundle-4", 6);
        self.find("B4 time code");
        self.seen("bundle-4", "the search for words of the legend");
        assert!(self.sees("bundle-4"), "the search");
        self.far_from("route-33", 12);
        let near = self.view();
        self.find("edge 33");
        assert!(self.sees("route-33"), "the search for what is long");
        assert!(self.view()[2] > near[2], "a long route fits no near view");
    }

    /// What stands in the address is chosen and brought into view; what is no such thing is said.
    pub fn address(&mut self) {
        for (hash, key) in [
            ("#edge-41", "route-41"),
            ("#route-42", "route-42"),
            ("#port-5-11", "port-5-11"),
            ("#node-5", "node-5"),
            ("#bundle-6", "bundle-6"),
        ] {
            self.far_from(key, 6);
            self.goes_to(hash, key);
            self.seen(key, hash);
            assert!(self.sees(key), "{hash}");
        }
        self.goes_to("#no-such", "undefined");
        let told = self.browser.value("told.textContent");
        assert_eq!(told, "Nothing here is called no-such.");
        self.goes_to("#%E0%A4%A", "undefined");
        assert_eq!(
            self.browser.value("told.textContent"),
            "Nothing here is called %E0%A4%A."
        );
        self.goes_to("#bundle-1", "bundle-1");
        // What is chosen stands in the address, edges as edges.
        self.browser.value("choose('route-61') + ''");
        assert_eq!(self.browser.value("location.hash"), "#edge-61");
        self.browser.value("choose('') + whole()");
        assert_eq!(self.browser.value("location.hash"), "");
    }

    fn goes_to(&mut self, hash: &str, key: &str) {
        let taken = "addEventListener('hashchange', () => { globalThis.taken = location.hash; }, { once: true })";
        self.browser
            .value(&format!("({taken}, location.hash = '{hash}') + ''"));
        for _ in 0..1_000 {
            if self.browser.value("globalThis.taken + ''") == hash {
                break;
            }
        }
        assert_eq!(self.browser.value("chosen?.key + ''"), key, "{hash}");
    }

    /// Each thing that Tab comes to is in sight.
    pub fn tab_in_sight(&mut self) {
        let near = "view = [full[0], full[1], full[2] / 6, full[3] / 6]; look(); find.focus() + ''";
        self.browser.value(near);
        let mut count = 0;
        for _ in 0..60 {
            self.browser.key("Tab");
            let key = self
                .browser
                .value("document.activeElement.closest('svg [data-way]')?.id + ''");
            if key == "undefined" {
                continue;
            }
            assert!(self.sees(&key), "{key} has the focus, and is out of sight");
            self.seen(&key, "Tab");
            count += 1;
        }
        assert!(count > 40, "{count}");
    }
}
