//! Buttons of the mouse, and fingers: what chooses, what drags, and what does neither.

use super::page::Page;

const CHOSEN: &str = "chosen?.key + ''";

impl Page {
    fn chosen(&mut self, due: &str, after: &str) {
        assert_eq!(self.browser.value(CHOSEN), due, "{after}");
    }

    fn click(&mut self, button: &str, buttons: u8, at: (f64, f64)) {
        let held = format!(",\"button\":\"{button}\",\"buttons\":{buttons},\"clickCount\":1");
        self.browser.mouse("mouseMoved", at, "");
        self.browser.mouse("mousePressed", at, &held);
        let free = format!(",\"button\":\"{button}\",\"buttons\":0,\"clickCount\":1");
        self.browser.mouse("mouseReleased", at, &free);
    }

    /// The left button chooses and the others do not.
    pub fn buttons(&mut self, key: &str) {
        let at = self.point(key).expect("a point");
        for (button, buttons) in [("right", 2), ("middle", 4)] {
            self.click(button, buttons, at);
            self.chosen("undefined", button);
        }
        self.click("left", 1, at);
        self.chosen(key, "the left button");
        self.click("right", 2, (at.0 + 200.0, at.1 + 60.0));
        self.chosen(key, "the right button elsewhere");
        self.browser.key("Escape");
    }

    /// The left button drags, the right one does not; and a drag ends where its button is no longer held,
    /// though nobody was told that it was let go.
    pub fn drags(&mut self) {
        let from = (500.0, 500.0);
        let held = |buttons: u8| format!(",\"buttons\":{buttons}");
        let press = |button: &str, buttons: u8| {
            format!(",\"button\":\"{button}\",\"buttons\":{buttons},\"clickCount\":1")
        };
        let full = self.view();
        self.browser.mouse("mouseMoved", from, "");
        self.browser.mouse("mousePressed", from, &press("right", 2));
        self.browser.mouse("mouseMoved", (600.0, 500.0), &held(2));
        self.browser
            .mouse("mouseReleased", (600.0, 500.0), &press("right", 0));
        assert_eq!(self.view(), full, "the right button");
        self.browser.mouse("mousePressed", from, &press("left", 1));
        self.browser
            .mouse("mouseMoved", (600.0, 500.0), &(press("left", 1)));
        let dragged = self.view();
        assert!(dragged[0] < full[0], "the left button");
        // Let go outside: the next that is told is a move without it.
        self.browser.mouse("mouseMoved", (650.0, 520.0), &held(0));
        self.browser.mouse("mouseMoved", (700.0, 540.0), &held(0));
        assert_eq!(self.view(), dragged, "a lost release");
        self.browser
            .mouse("mouseReleased", (700.0, 540.0), &press("left", 0));
        self.browser.value("whole() + ''");
    }

    /// Two fingers that touch and do not move choose nothing; one does after that.
    pub fn two_fingers(&mut self, key: &str) {
        let at = self.point(key).expect("a point");
        let other = (at.0 + 150.0, at.1 + 40.0);
        self.browser.touch("touchStart", &[at]);
        self.browser.touch("touchStart", &[at, other]);
        self.browser.touch("touchEnd", &[other]);
        self.browser.touch("touchEnd", &[]);
        self.chosen("undefined", "two fingers");
        self.browser.touch("touchStart", &[at]);
        self.browser.touch("touchEnd", &[]);
        self.chosen(key, "one finger");
        self.browser.key("Escape");
    }
}
