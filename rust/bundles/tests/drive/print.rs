//! The page on paper.

use std::fs;

use super::page::Page;

/// What paper shows.
const PAPER: &str = "\"media\":\"print\"";
const SCREEN: &str = "\"media\":\"\"";

impl Page {
    /// Whatever is chosen, and however near it is looked at, paper has the whole picture and nothing else,
    /// as it has from the picture's own file; then the page is as it was.
    pub fn print(&mut self, picture: &str) {
        self.browser.value("choose('bundle-4') + zoom(0.3)");
        let near = self.view();
        self.seen("bundle-4", "choosing");
        self.browser
            .value("dispatchEvent(new Event('beforeprint')) + ''");
        self.browser.ask("Emulation.setEmulatedMedia", PAPER);
        self.seen("all", "printing");
        let header = "getComputedStyle(document.querySelector('header')).display";
        assert_eq!(self.browser.value(header), "none");
        let size = "(() => { const box = svg.getBoundingClientRect(); return box.width + ' ' + box.height; })()";
        let size = self.browser.value(size);
        let (width, height) = size.split_once(' ').expect("a size");
        let size = (
            width.parse().expect("a width"),
            height.parse().expect("a height"),
        );
        let page = self.browser.picture(size);
        self.browser.ask("Emulation.setEmulatedMedia", SCREEN);
        self.browser
            .value("dispatchEvent(new Event('afterprint')) + ''");
        assert_eq!(self.view(), near, "after printing");
        self.seen("bundle-4", "printing");
        self.paper(&near);
        let alone = self.folder.join("alone.html");
        // Else it would be a 64th of a pixel wider, which shows.
        let style = "<style>body { margin: 0; } svg { width: auto; height: auto; }</style>";
        let text = format!("<!DOCTYPE html>\n<meta charset=\"utf-8\">\n{style}\n<body>\n{picture}");
        fs::write(&alone, text).expect("a page");
        self.browser.open(&alone);
        self.browser.ask("Emulation.setEmulatedMedia", PAPER);
        assert!(page == self.browser.picture(size), "not the picture");
    }

    /// The browser itself says when it prints, and when it has.
    fn paper(&mut self, near: &[f64]) {
        self.browser.value(
            "addEventListener('beforeprint', () => { globalThis.printed = svg.getAttribute('viewBox'); }) + ''",
        );
        self.browser.ask("Page.printToPDF", "");
        assert_eq!(
            self.browser.value("printed"),
            self.browser.value("full.join(' ')")
        );
        assert_eq!(self.view(), near, "after printing");
    }
}
