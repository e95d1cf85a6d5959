//! The page by keys alone.

use bundle_stage::Board;

use super::page::Page;

/// What has the focus: its id, `find`, or nothing.
const FOCUS: &str = "document.activeElement.id";

impl Page {
    /// Tab goes from thing to thing, and what has the focus is lifted; Space and Enter choose it; where the
    /// focus goes on, it is lifted no longer.
    pub fn tab(&mut self) {
        self.browser.value("find.focus() + ''");
        let first = self.tab_to_the_sheet();
        self.seen(&first, "Tab into the sheet");
        self.browser.key("Tab");
        let second = self.browser.value(FOCUS);
        assert_ne!(first, second);
        self.seen(&second, "Tab");
        self.browser.key("Shift+Tab");
        self.seen(&first, "Shift and Tab");
        self.browser.key("Shift+Tab");
        assert_eq!(self.browser.value(FOCUS), "told");
        self.seen("all", "Shift and Tab out of the sheet");
        for choose in [" ", "Enter"] {
            self.browser.key("Tab");
            self.browser.key(choose);
            self.browser.key("Tab");
            self.seen(&second, "Tab from what is chosen");
            self.browser.value("find.focus() + ''");
            self.seen(&first, "what is chosen stays");
            self.browser.key("Escape");
            self.seen("all", "Escape");
            self.tab_to_the_sheet();
            self.browser.key("Shift+Tab");
        }
    }

    /// Behind the bar Tab comes to the bundles, in the legend's order, which is the board's; then to the rest.
    pub fn legend_first(&mut self, board: &Board) {
        self.browser.value("find.focus() + ''");
        let mut keys = vec![self.tab_to_the_sheet()];
        for _ in &board.bundles {
            self.browser.key("Tab");
            keys.push(self.browser.value(FOCUS));
        }
        let bundles = board.bundles.iter();
        let due = bundles.map(|bundle| format!("bundle-{}", bundle.id));
        let due = due.collect::<Vec<_>>();
        assert_eq!(keys[..due.len()], due);
        assert!(keys[due.len()].starts_with("node-"), "{keys:?}");
        self.browser.key("Escape");
    }

    /// Tab until something of the sheet has the focus.
    fn tab_to_the_sheet(&mut self) -> String {
        for _ in 0..12 {
            self.browser.key("Tab");
            if self
                .browser
                .value("svg.contains(document.activeElement) + ''")
                == "true"
            {
                return self.browser.value(FOCUS);
            }
        }
        panic!("Tab does not come to the sheet");
    }

    /// Words that are longer than their place are read by the arrows while they have the focus, and by the keys
    /// for pages from everywhere; the sheet stays where it is.
    pub fn long_words(&mut self, key: &str) {
        self.browser.window(700, 400);
        self.browser.value(&format!("choose('{key}') + ''"));
        let longer = self
            .browser
            .value("(told.scrollHeight > 2 * told.clientHeight) + ''");
        assert_eq!(longer, "true", "the words of {key} are short");
        let view = self.view();
        let read = |page: &mut Page| {
            let read = page.browser.value("told.scrollTop + ''");
            read.parse::<f64>().expect("a number")
        };
        assert_eq!(read(self), 0.0);
        self.browser.value("told.focus() + ''");
        assert_eq!(self.browser.value(FOCUS), "told");
        self.browser.key("ArrowDown");
        self.browser.key("ArrowDown");
        let down = read(self);
        assert!(down > 20.0, "{down}");
        self.browser.key("ArrowUp");
        assert!(read(self) < down);
        self.browser.value("document.activeElement.blur() + ''");
        let before = read(self);
        self.browser.key("PageDown");
        assert!(read(self) > before + down);
        self.browser.key("PageUp");
        assert_eq!(read(self), before);
        assert_eq!(self.view(), view, "the sheet moves with the words");
        // Elsewhere the arrows are the sheet's; other words begin at their first line.
        self.browser.key("ArrowDown");
        assert_ne!(self.view(), view);
        self.browser.value("choose('') + choose('node-5')");
        assert_eq!(read(self), 0.0);
        self.browser.value("choose('') + whole()");
        self.browser.window(1200, 900);
    }

    /// The search lists twelve, and says how many more there are.
    pub fn many_found(&mut self) {
        let found = |page: &mut Page, words: &str| {
            page.browser.value("(find.value = '') + find.focus()");
            let words = format!("\"text\":\"{words}\"");
            page.browser.ask("Input.insertText", &words);
            let count = page.browser.value("found.children.length + ''");
            (count, page.browser.value("found.lastChild.textContent"))
        };
        let all = self
            .browser
            .value("ways.filter((way) => way.name.includes('port')).length + ''");
        let more = all.parse::<usize>().expect("a count") - 12;
        let (count, last) = found(self, "port ");
        assert_eq!(count, "12");
        let due = format!(" and {more} more: a longer word finds fewer");
        assert_eq!(last, due);
        let (count, last) = found(self, "port 5:11");
        assert_eq!((&count[..], &last[..]), ("1", "port 5:11 time code"));
        self.browser
            .value("(find.value = '') + list() + find.blur()");
    }

    /// Types words into the search, in place of what stands there.
    fn types(&mut self, words: &str) {
        self.browser.value("(find.value = '') + find.focus()");
        let words = format!("\"text\":\"{words}\"");
        self.browser.ask("Input.insertText", &words);
    }

    /// Words are found in any order, with any blanks between them; and where nothing is, that is said, and
    /// nothing stays lifted.
    pub fn words_found(&mut self) {
        let first = "found.querySelector('button')?.textContent + ''";
        for words in [
            "B4 time code",
            "time code B4",
            "  time   code  b4 ",
            "code b4 ti",
        ] {
            self.types(words);
            assert_eq!(self.browser.value(first), "bundle 4 time code", "{words}");
            self.browser.key("Enter");
            self.seen("bundle-4", words);
        }
        let listed = "found.textContent";
        for words in ["zzz", "time zzz", "ode b4"] {
            self.browser.value("choose('bundle-4') + ''");
            self.types(words);
            let said = self.browser.value(listed);
            assert_eq!(said, "Nothing here is called that.", "{words}");
            self.seen("bundle-4", "typing");
            self.browser.key("Enter");
            self.seen("all", words);
            let said = self.browser.value("told.textContent");
            assert_eq!(said, format!("Nothing here is called {words}."));
        }
        // Of blanks alone nothing is said.
        self.browser.value("choose('node-5') + ''");
        self.types("  ");
        assert_eq!(self.browser.value(listed), "");
        self.browser.key("Enter");
        self.seen("node-5", "blanks");
        self.browser
            .value("(find.value = '') + choose('') + find.blur()");
    }

    /// What is found is listed over the sheet, which stays where it is, and each of it can be pointed at.
    pub fn listed_over_the_sheet(&mut self) {
        for (width, height) in [(1200, 900), (420, 700)] {
            self.browser.window(width, height);
            let place = "JSON.stringify(svg.getBoundingClientRect()).replace(/\"/g, '')";
            let before = self.browser.value(place);
            for words in ["port", "zzz"] {
                self.types(words);
                assert_eq!(self.browser.value(place), before, "{words}");
                let words = self.browser.value("found.textContent.length + ''");
                assert_ne!(words, "0");
            }
            self.types("port");
            let hidden = "[...found.querySelectorAll('button')].slice(0, 4).filter((button) => { \
                          const { x, y, width, height } = button.getBoundingClientRect(); \
                          return document.elementFromPoint(x + width / 2, y + height / 2) !== button; }) \
                          .length + ' ' + found.querySelectorAll('button').length";
            assert_eq!(self.browser.value(hidden), "0 12");
            self.browser.key("Enter");
            assert_eq!(self.browser.value(place), before, "Enter");
            let shown = self
                .browser
                .value("found.getBoundingClientRect().height + ''");
            assert_eq!(shown, "0");
            self.browser.value("choose('') + find.blur()");
        }
        self.browser.window(1200, 900);
        self.browser.value("(find.value = '') + whole()");
    }

    /// The search has the focus, and no stroke in it.
    pub fn slash(&mut self) {
        self.browser
            .value("(find.value = '') + document.activeElement.blur()");
        self.browser.key("/");
        assert_eq!(self.browser.value(FOCUS), "find");
        assert_eq!(self.browser.value("'<' + find.value + '>'"), "<>");
        // In the search it is a letter as any other.
        self.browser.key("/");
        assert_eq!(self.browser.value("find.value"), "/");
    }

    /// With Control, Alt or Meta held a key is the browser's.
    pub fn held(&mut self) {
        self.browser.value("document.activeElement.blur() + ''");
        self.browser.value(
            "addEventListener('keydown', (event) => { globalThis.taken = event.defaultPrevented; }) + ''",
        );
        self.browser.key("+");
        assert_eq!(self.browser.value("taken + ''"), "true");
        let view = self.view();
        for held in ["Alt", "Control", "Meta"] {
            for key in ["0", "-", "ArrowRight", "/"] {
                self.browser.value("(globalThis.taken = 'no key') + ''");
                self.browser.key(&format!("{held}+{key}"));
                assert_eq!(self.browser.value("taken + ''"), "false", "{held} {key}");
                assert_eq!(self.view(), view, "{held} {key}");
            }
        }
        assert_ne!(self.browser.value(FOCUS), "find");
    }
}
