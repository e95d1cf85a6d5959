//! The tool as a program: what it writes, and its exit codes.

#![forbid(unsafe_code)]

mod jobs;
mod lists;
mod loose;
mod names;
mod others;
mod plans;
mod refusals;

use std::fs;
use std::io::Write;
use std::path::{Path, PathBuf};
use std::process::{Command, Output, Stdio};

fn example(name: &str) -> String {
    format!("{}/../../examples/{name}", env!("CARGO_MANIFEST_DIR"))
}

fn bundles(words: &[&str], input: &[u8]) -> Output {
    let mut tool = Command::new(env!("CARGO_BIN_EXE_bundles"))
        .args(words)
        .stdin(Stdio::piped())
        .stdout(Stdio::piped())
        .stderr(Stdio::piped())
        .spawn()
        .expect("the tool starts");
    let mut to = tool.stdin.take().expect("a pipe");
    // A command that reads no input may have closed it.
    let _ = to.write_all(input);
    drop(to);
    tool.wait_with_output().expect("the tool ends")
}

/// What is written, the exit code being as said.
fn out(code: i32, words: &[&str], input: &[u8]) -> Vec<u8> {
    let output = bundles(words, input);
    let said = String::from_utf8_lossy(&output.stderr).into_owned();
    assert_eq!(output.status.code(), Some(code), "{words:?}: {said}");
    output.stdout
}

fn text(bytes: Vec<u8>) -> String {
    String::from_utf8(bytes).expect("text")
}

/// What is said on standard error by a command that fails with 2 and writes nothing.
fn failed(words: &[&str]) -> String {
    let output = bundles(words, b"");
    assert_eq!(output.status.code(), Some(2), "{words:?}");
    assert!(output.stdout.is_empty(), "{words:?}");
    text(output.stderr)
}

/// A folder of a test's own.
struct Folder(PathBuf);

impl Folder {
    /// The name of a file in it.
    fn file(&self, name: &str) -> String {
        let path = self.0.join(name);
        path.to_str().expect("text").to_string()
    }

    /// The same, the file being written.
    fn write(&self, name: &str, bytes: impl AsRef<[u8]>) -> String {
        let file = self.file(name);
        fs::write(&file, bytes).expect("a file");
        file
    }
}

/// An empty one.
fn folder(name: &str) -> Folder {
    let folder = Path::new(env!("CARGO_TARGET_TMPDIR")).join(name);
    let _ = fs::remove_dir_all(&folder);
    fs::create_dir_all(&folder).expect("a folder");
    Folder(folder)
}

/// The text of the clock board.
fn clock_board() -> String {
    fs::read_to_string(example("clock-board.txt")).expect("an example")
}

const NO_JOB: &[u8] = b"no job";
/// Refused with 1.
const NOTICE: &[u8] = &[0, 0, 0, 2, 1, 1];

#[test]
fn from_text_to_picture() {
    let (board, job) = (example("clock-board.txt"), example("clock-board.job"));
    let answer = example("clock-board.answer");
    let read = |name: &str| fs::read(name).expect("an example");
    assert_eq!(out(0, &["pack", &board], b""), read(&job));
    assert_eq!(out(0, &["pack"], &read(&board)), read(&job));
    assert_eq!(out(0, &["draw", &job], b""), read(&answer));
    assert_eq!(out(0, &["draw", "-"], &read(&job)), read(&answer));
    let unpacked = out(0, &["unpack", &job], b"");
    assert_eq!(out(0, &["pack", "-"], &unpacked), read(&job));
    let picture = text(out(0, &["svg", &job, &answer], b""));
    assert!(picture.starts_with("<svg ") && picture.ends_with("</svg>\n"));
    assert!(picture.contains("<title>clock-board</title>"));
    // Two members share port 2:1, which stands in the legend once.
    assert!(picture.contains(">2:1, 5:11, 5:12 → 7:1; output"));
    let titled = out(
        0,
        &["svg", &job, &answer, "--title", "Clocks & pulses"],
        b"",
    );
    assert!(text(titled).contains("<title>Clocks &amp; pulses</title>"));
    let named = text(out(0, &["svg", "-", &answer], &read(&job)));
    assert!(named.contains("<title>sheet</title>"));
}

#[test]
fn an_explanation() {
    let (job, answer) = (example("clock-board.job"), example("clock-board.answer"));
    let table = "\
a sheet of 1000 by 480: 8 nodes, 20 edges, 6 bundles

bundle  role    place     collector x  y           taps
1       input   interior  380          70 to 130   4
2       output  interior  580          70 to 130   4
3       input   interior  380          190 to 330  4
4       output  interior  580          240 to 350  4
5       input   rail      120          410 to 430  3
6       output  rail      880          415 to 425  2
";
    let ways = "
B1: 1:1 → 4:1, 4:2, 4:3, 4:4
B2: 4:11, 4:12, 4:13, 4:14 → 6:1
B3: 2:1 → 4:5, 7:1, 5:1
B4: 2:1, 5:11, 5:12 → 7:1
B5: 3:1 → 5:2, 5:3, 5:4
B6: 5:13, 5:14 → 8:1
";
    let left = "tap visits: 1999720 left\ngeometry visits: 19998994 left\n\
                joints: not looked at, as that takes the job\n";
    let paid = "tap visits: 2000000 granted, 280 paid, 1999720 left\n\
                geometry visits: 20000000 granted, 1006 paid, 19998994 left\n\
                joints: none is false on the sheet in the answer, looked at in exact numbers\n\
                last shift: it subtracted nothing\n\
                ends of routes: all are at their ports\n";
    assert_eq!(
        text(out(0, &["explain", &answer], b"")),
        format!("{table}\n{left}")
    );
    assert_eq!(
        text(out(
            0,
            &["explain", "-", &job],
            &fs::read(&answer).expect("an example")
        )),
        format!("{table}{ways}\n{paid}")
    );
}

/// A route through the place of another node's port: so it is on every paper.
const UNCLEAR: &str = "port_stub 0\nroute_lane_gap 3\nedge_node_clearance 5\n\
    minimum_parallel_wire_spacing 2\nmember_endpoint_reserve 2\n\
    node 1 at 0,0 size 10,10\nnode 2 at 100,0 size 10,10\nnode 3 at 50,5 size 10,10\n\
    port 1:1 east 5\nport 2:1 west 5\nport 3:1 north 5\n\
    edge 1 from 1:1 to 2:1 via 10,5 100,5\n";

/// Where no picture would be clear, a page of the same words, and the same exit code.
#[test]
fn no_clear_picture() {
    let [picture, page] = ["picture", "html"].map(|command| {
        let output = bundles(&[command, "-"], UNCLEAR.as_bytes());
        assert_eq!(output.status.code(), Some(2), "{command}");
        (text(output.stdout), text(output.stderr))
    });
    assert!(picture.0.is_empty());
    assert!(
        picture.1.contains("no picture, as it would mislead"),
        "{}",
        picture.1
    );
    assert_eq!(picture.1, page.1);
    assert!(
        page.0
            .contains("<p class=\"warning\">no picture, as it would mislead")
    );
    assert!(
        page.0.contains("{key:\"route-1\",name:\"edge 1"),
        "{}",
        page.0
    );
    assert!(page.0.ends_with("</html>\n"));
}

/// The page without a picture says of which board it is, of what kind the sheet is, and what is wrong with it
/// beside, as a picture does below its title.
#[test]
fn words_of_no_picture() {
    let short = UNCLEAR.replace("via 10,5 100,5", "via 11,5 100,5");
    let words = ["html", "-", "--title", "short & <long>"];
    let page = text(out(2, &words, short.as_bytes()));
    let body = page.split("<main id=\"sheet\">\n").nth(1).expect("a sheet");
    let body = body.split("</main>").next().expect("its end");
    let lines = body.lines().collect::<Vec<_>>();
    assert_eq!(
        lines[..2],
        ["<div class=\"words\">", "<h1>short &amp; &lt;long&gt;</h1>"]
    );
    let starts = [
        "<p class=\"about\">A sheet of 110 by 15: 3 nodes, 1 edge, 0 bundles. ",
        "<p class=\"warning\">no picture, as it would mislead: ",
        "<p class=\"warning\">Edge 1 starts at (11, 5), not at its port 1:1, which stands at (10, 5).</p>",
        "<p class=\"warning\">Edge 1 lies on the frame of node 3.</p>",
    ];
    for (line, start) in lines[2..].iter().zip(starts) {
        assert!(line.starts_with(start), "{line}");
    }
    assert_eq!(lines.len(), 7, "{body}");
    let well = text(out(0, &["html", &example("clock-board.txt")], b""));
    assert!(!well.contains("<div class=\"words\">"));
}

#[test]
fn version() {
    let due = concat!("bundles ", env!("CARGO_PKG_VERSION"), "\n");
    assert_eq!(text(out(0, &["--version"], b"")), due);
    assert_eq!(text(out(0, &["version"], b"")), due);
}

#[test]
fn what_fails() {
    let job = example("clock-board.job");
    let other = example("board.answer");
    for (words, said) in [
        (&[][..], "no command"),
        (&["print"], "no command `print`"),
        (&["svg", &job], "bundles svg JOB ANSWER"),
        (&["pack", "a", "b"], "bundles pack [BOARD]"),
        (&["help", "print"], "no command `print`"),
        (&["draw", "not-there.job"], "not-there.job: "),
        (&["pack", &job], "the bytes are no text"),
        (
            &["unpack", &other],
            "board.answer: no job, but an answer: `bundles explain` tells",
        ),
        (
            &["explain", &job],
            "no answer, but a job: `bundles draw` makes",
        ),
        (&["explain", &other, &job], "is not the answer to"),
        (
            &["svg", &other, &other],
            "board.answer: no job, but an answer: ",
        ),
        (
            &["draw", "--plan", &other, &job],
            "no plan, but an answer: `bundles plan` makes a plan of its job",
        ),
        (&["svg", &job, &other], "is not the answer to"),
        (&["svg", "-", "-"], "cannot both"),
        (&["svg", "-", "-", "--title", "a"], "cannot both"),
        (&["svg", &job, &other, "--title"], "[--title TITLE]"),
        (&["pack"], "standard input: line 1: expected `port_stub`"),
    ] {
        let message = failed(words);
        assert!(message.starts_with("bundles: "), "{message}");
        assert!(message.contains(said), "{words:?}: {message}");
    }
}

#[test]
fn help() {
    let all = text(out(0, &["help"], b""));
    assert_eq!(text(out(0, &["--help"], b"")), all);
    for command in [
        "pack",
        "unpack",
        "names",
        "plan",
        "draw",
        "explain",
        "svg",
        "html",
        "crossings",
        "page",
        "picture",
        "version",
        "help",
    ] {
        assert!(all.contains(&format!("\n  bundles {command} ")));
        let one = text(out(0, &["help", command], b""));
        assert!(one.starts_with(&format!("bundles {command} ")));
        assert!(one.contains("Exit codes: "));
        assert_eq!(text(out(0, &[command, "--help"], b"")), one);
    }
}
