//! A browser without a window, told what to do over its own protocol, through two named pipes.

use std::fs::{self, File};
use std::io::{Read, Write};
use std::path::{Path, PathBuf};
use std::process::{Child, Command, Stdio};

pub struct Browser {
    child: Child,
    to: File,
    from: File,
    read: Vec<u8>,
    count: u32,
    session: String,
}

const NAMES: [&str; 3] = ["chromium", "chromium-browser", "google-chrome"];

/// The shell gives the browser its pipes: commands on descriptor 3, replies on 4.
const START: &str = "exec \"$1\" --headless --no-sandbox --disable-gpu --remote-debugging-pipe \
                     --user-data-dir=\"$2/browser\" about:blank 3<\"$2/to\" 4>\"$2/from\"";

/// Until what was changed is painted.
const FRAMES: &str =
    "new Promise((done) => requestAnimationFrame(() => requestAnimationFrame(() => done(''))))";

impl Browser {
    /// What it is called here.
    pub fn name() -> Option<&'static str> {
        let mut names = NAMES.into_iter();
        names.find(|name| Command::new(name).arg("--version").output().is_ok())
    }

    /// None where there is no browser.
    pub fn start(name: &str) -> Option<Browser> {
        let browser = Browser::name()?;
        let folder = PathBuf::from(env!("CARGO_TARGET_TMPDIR")).join(format!("drive-{name}"));
        let _ = fs::remove_dir_all(&folder);
        fs::create_dir_all(&folder).expect("a folder");
        let pipe = |name: &str| {
            let path = folder.join(name);
            let made = Command::new("mkfifo").arg(&path).status();
            assert!(made.is_ok_and(|status| status.success()), "a pipe");
            path
        };
        let (to, from) = (pipe("to"), pipe("from"));
        let child = Command::new("sh")
            .args(["-c", START, "sh", browser])
            .arg(&folder)
            .stdout(Stdio::null())
            .stderr(Stdio::null())
            .spawn()
            .expect("a shell");
        let to = File::options().write(true).open(to).expect("a pipe");
        let from = File::open(from).expect("a pipe");
        let mut browser = Browser {
            child,
            to,
            from,
            read: Vec::new(),
            count: 0,
            session: String::new(),
        };
        let reply = browser.ask("Target.createTarget", "\"url\":\"about:blank\"");
        let target = string(&reply, "targetId").expect("a page");
        let attach = format!("\"targetId\":\"{target}\",\"flatten\":true");
        let reply = browser.ask("Target.attachToTarget", &attach);
        let session = string(&reply, "sessionId").expect("a session");
        browser.session = format!(",\"sessionId\":\"{session}\"");
        browser.window(1200, 900);
        browser.ask("Emulation.setTouchEmulationEnabled", "\"enabled\":true");
        Some(browser)
    }

    /// The window has this size.
    pub fn window(&mut self, width: u32, height: u32) {
        let size = format!("\"width\":{width},\"height\":{height}");
        let words = format!("{size},\"deviceScaleFactor\":1,\"mobile\":false");
        self.ask("Emulation.setDeviceMetricsOverride", &words);
    }

    /// The reply to a command.
    pub fn ask(&mut self, method: &str, words: &str) -> String {
        self.count += 1;
        let (count, session) = (self.count, &self.session);
        let line =
            format!("{{\"id\":{count},\"method\":\"{method}\",\"params\":{{{words}}}{session}}}\0");
        self.to
            .write_all(line.as_bytes())
            .expect("the browser reads");
        loop {
            let reply = self.message();
            // What else is told is of no interest.
            if reply.starts_with(&format!("{{\"id\":{count},")) {
                assert!(!reply.contains("\"error\":{\"code\""), "{method}: {reply}");
                return reply;
            }
        }
    }

    fn message(&mut self) -> String {
        loop {
            if let Some(end) = self.read.iter().position(|byte| *byte == 0) {
                let rest = self.read.split_off(end + 1);
                self.read.pop();
                let message = std::mem::replace(&mut self.read, rest);
                return String::from_utf8(message).expect("text");
            }
            let mut part = [0; 65_536];
            let count = self.from.read(&mut part).expect("the browser writes");
            assert!(count > 0, "the browser has ended");
            self.read.extend_from_slice(&part[..count]);
        }
    }

    pub fn open(&mut self, path: &Path) {
        self.ask("Page.enable", "");
        self.ask(
            "Page.navigate",
            &format!("\"url\":\"file://{}\"", path.display()),
        );
        while self.value("document.readyState + location.pathname")
            != format!("complete{}", path.display())
        {}
    }

    /// What an expression of the page gives, or what it promises: a string without quotation marks.
    pub fn value(&mut self, expression: &str) -> String {
        let quoted = expression
            .replace('\\', "\\\\")
            .replace('"', "\\\"")
            .replace('\n', "\\n");
        let awaited = "\"returnByValue\":true,\"awaitPromise\":true";
        let words = format!("\"expression\":\"{quoted}\",{awaited}");
        let reply = self.ask("Runtime.evaluate", &words);
        assert!(!reply.contains("exceptionDetails"), "{expression}: {reply}");
        string(&reply, "value").unwrap_or_default()
    }

    /// Presses a key and lets it go, `Shift+Tab` and the like with another held; one letter is typed.
    pub fn key(&mut self, key: &str) {
        let held = key.split_once('+').filter(|(held, _)| !held.is_empty());
        let (held, key) = held.unwrap_or(("", key));
        let code = match key {
            "Enter" => ",\"text\":\"\\r\",\"windowsVirtualKeyCode\":13",
            "Tab" => ",\"windowsVirtualKeyCode\":9",
            "Escape" => ",\"windowsVirtualKeyCode\":27",
            " " => ",\"windowsVirtualKeyCode\":32",
            _ => "",
        };
        let modifiers = match held {
            "Alt" => 1,
            "Control" => 2,
            "Meta" => 4,
            "Shift" => 8,
            _ => 0,
        };
        let text = match key.chars().count() {
            1 if held.is_empty() => format!(",\"text\":\"{key}\""),
            _ => String::new(),
        };
        for kind in ["keyDown", "keyUp"] {
            let words = format!(
                "\"type\":\"{kind}\",\"key\":\"{key}\",\"modifiers\":{modifiers}{code}{text}"
            );
            self.ask("Input.dispatchKeyEvent", &words);
        }
    }

    /// What is to be seen of a part of the page from its left upper corner, as the bytes of a picture.
    pub fn picture(&mut self, (width, height): (f64, f64)) -> String {
        self.value(FRAMES);
        let clip = format!("\"x\":0,\"y\":0,\"width\":{width},\"height\":{height},\"scale\":1");
        let reply = self.ask("Page.captureScreenshot", &format!("\"clip\":{{{clip}}}"));
        string(&reply, "data").expect("a picture")
    }

    pub fn mouse(&mut self, kind: &str, (x, y): (f64, f64), more: &str) {
        let words = format!("\"type\":\"{kind}\",\"x\":{x},\"y\":{y}{more}");
        self.ask("Input.dispatchMouseEvent", &words);
    }

    /// Fingers on the page, one or two; none where they are lifted.
    pub fn touch(&mut self, kind: &str, fingers: &[(f64, f64)]) {
        let points = fingers.iter().enumerate();
        let points = points.map(|(id, (x, y))| {
            format!("{{\"x\":{x},\"y\":{y},\"id\":{id},\"radiusX\":0.5,\"radiusY\":0.5}}")
        });
        let points = points.collect::<Vec<_>>().join(",");
        let words = format!("\"type\":\"{kind}\",\"touchPoints\":[{points}]");
        self.ask("Input.dispatchTouchEvent", &words);
    }
}

impl Drop for Browser {
    fn drop(&mut self) {
        let _ = self.child.kill();
        let _ = self.child.wait();
    }
}

/// The value of a name in a reply, a string.
fn string(reply: &str, name: &str) -> Option<String> {
    let (_, rest) = reply.split_once(&format!("\"{name}\":\""))?;
    rest.split('"').next().map(str::to_string)
}
