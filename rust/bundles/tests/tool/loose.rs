//! Ends of routes that are not at their ports: said by every command that draws.

use std::fs;

use super::{bundles, clock_board, example, folder, out, text};

/// The clock board with a change, as a file of this name, and the line on which a record stands.
fn changed(folder: &str, from: &str, to: &str) -> (String, String) {
    let board = clock_board();
    assert_eq!(board.matches(from).count(), 1, "{from}");
    let at = board.lines().position(|line| line.contains(from));
    let line = format!("line {}: ", 1 + at.expect("a line"));
    let name = super::folder(folder).write("board.txt", board.replace(from, to));
    (name, line)
}

/// What is said on standard error by a command that does well, and what it writes.
fn said(words: &[&str]) -> (String, Vec<u8>) {
    let output = bundles(words, b"");
    assert_eq!(output.status.code(), Some(0), "{words:?}");
    (text(output.stderr), output.stdout)
}

const SHORT: &str = "via 480,220 480,260";
const WORDS: &str = "edge 71 ends at (480, 260), not at its port 5:20, which stands at (480, 300)";

#[test]
fn an_end_that_is_not_at_its_port() {
    let (board, line) = changed("short", "via 480,220 480,300", SHORT);
    let (packed, _) = said(&["pack", &board]);
    assert_eq!(packed, format!("{board}: {line}{WORDS}\n"));
    let due = format!("{board}: ends of routes: 1 is not at its port\n  {line}{WORDS}\n");
    let (drawn, answer) = said(&["draw", &board]);
    assert_eq!(drawn, due);
    let (pictured, picture) = said(&["picture", &board]);
    assert_eq!(pictured, due);
    let picture = text(picture);
    assert!(picture.contains(&format!(">Edge 71{}.<", &WORDS[7..])));
    let (followed, page) = said(&["html", &board]);
    assert_eq!(followed, due);
    let page = text(page);
    assert!(page.contains(
        "\u{2192} port 4:20 \u{2192} edge 71 \u{d7} port 5:20 \u{2192} node 5 timestamp unit"
    ));
    assert!(page.contains(&format!("notes:[\"\u{d7} {WORDS}.\"]")));
    let explained = text(out(0, &["explain", "-", &board], &answer));
    let end = format!("\nends of routes: 1 is not at its port\n  {line}{WORDS}\n");
    assert!(explained.ends_with(&end), "{explained}");
}

/// How near an end is to be is measured by the board: on a small one nothing but its port is at its port.
#[test]
fn a_small_board() {
    for (end, is_at) in [
        ("1e-7", true),
        ("1.2e-7", false),
        ("1.0000000000000002e-7", true),
    ] {
        let board = format!(
            "port_stub 0\nroute_lane_gap 0\nedge_node_clearance 0\nminimum_parallel_wire_spacing 0\n\
             member_endpoint_reserve 0\nnode 1 at 0,0 size 1e-8,1e-8\nnode 2 at 1e-7,0 size 1e-8,1e-8\n\
             port 1:1 east 0\nport 2:1 west 0\nedge 1 from 1:1 to 2:1 via 1e-8,0 {end},0\n"
        );
        let output = bundles(&["draw"], board.as_bytes());
        assert_eq!(output.status.code(), Some(0));
        let said = text(output.stderr);
        assert_eq!(said.is_empty(), is_at, "{end}: {said}");
    }
}

/// Of a job there is no line; several jobs; from a plan.
#[test]
fn jobs_and_plans() {
    let (board, line) = changed("short-job", "via 480,220 480,300", SHORT);
    let job = out(0, &["pack", &board], b"");
    let jobs = folder("short-jobs");
    let job_of = |name: &str| jobs.file(name);
    jobs.write("a.job", job);
    fs::copy(example("clock-board.job"), job_of("b.job")).expect("a copy");
    let (drawn, _) = said(&["draw", &job_of("a.job"), &job_of("b.job")]);
    let a = format!(
        "1 of 2: {}: 6 bundles drawn; {}\nends of routes: 1 is not at its port\n  {WORDS}\n",
        job_of("a.job"),
        job_of("a.answer")
    );
    let b = format!(
        "2 of 2: {}: 6 bundles drawn; {}\n",
        job_of("b.job"),
        job_of("b.answer")
    );
    assert_eq!(drawn, a + &b);
    let plan = jobs.write("a.plan", out(0, &["plan", &board], b""));
    let (drawn, _) = said(&["draw", "--plan", &plan, &board]);
    let due = format!("{board}: ends of routes: 1 is not at its port\n  {line}{WORDS}\n");
    assert_eq!(drawn, due);
    let words = text(out(0, &["explain", "--plan", &plan, &board], b""));
    assert!(words.ends_with(&format!("  {line}{WORDS}\n")), "{words}");
}

/// What is packed with a change is told in one line; its words.
fn told(folder: &str, from: &str, to: &str) -> String {
    let (board, line) = changed(folder, from, to);
    let (said, _) = said(&["pack", &board]);
    let words = said.strip_prefix(&format!("{board}: {line}"));
    let words = words.and_then(|words| words.strip_suffix("\n"));
    words.expect("one line").to_string()
}

/// What is told of each kind.
#[test]
fn kinds_of_ends() {
    let from = "edge 71 from 4:20 to 5:20 via 480,220 480,300";
    for (folder, to, due) in [
        (
            "start",
            "edge 71 from 4:20 to 5:20 via 480,230 480,300",
            "edge 71 starts at (480, 230), not at its port 4:20, which stands at (480, 220)",
        ),
        (
            "past",
            "edge 71 from 4:20 to 5:20 via 480,220 480,320",
            "edge 71 ends at (480, 320), past its port 5:20, through which it runs at (480, 300)",
        ),
        (
            "no-port",
            "edge 71 from 4:20 to 5:21 via 480,220 480,300",
            "edge 71 ends at (480, 300), and the board has no port 5:21",
        ),
        (
            "no-line",
            "edge 71 from 4:20 to 5:20",
            "edge 71 has no points: no line is drawn from port 4:20 to port 5:20",
        ),
        (
            "named",
            "edge 71 \"sync\" from 4:20 to 5:1 via 480,220 480,300",
            "edge 71 (sync) ends at (480, 300), not at its port 5:1 (holdover), which stands at (400, 330)",
        ),
    ] {
        assert_eq!(told(folder, from, to), due);
    }
}

/// A bundle that leads its member to another port.
#[test]
fn other_ports() {
    assert_eq!(
        told(
            "bundled",
            "edge 41 from 5:11 to 7:1 ",
            "edge 41 from 5:11 to 8:1 "
        ),
        "edge 41 leads into bundle 4 (time code) at port 7:1, not to its own port 8:1"
    );
    assert_eq!(
        told("bundled-start", "edge 51 from 3:1 ", "edge 51 from 2:1 "),
        "edge 51 comes out of bundle 5 (pulse) at port 3:1, not from its own port 2:1"
    );
}

/// A member's end in its bundle is joined by the bundle, wherever its given route begins.
#[test]
fn ends_in_bundles() {
    let (board, _) = changed(
        "in-bundle",
        "edge 11 from 1:1 to 4:1 via 100,100 140,100",
        "edge 11 from 1:1 to 4:1 via 130,100 140,100",
    );
    assert_eq!(said(&["pack", &board]).0, "");
    let (drawn, answer) = said(&["draw", &board]);
    assert_eq!(drawn, "");
    let explained = text(out(0, &["explain", "-", &board], &answer));
    assert!(explained.ends_with("\nends of routes: all are at their ports\n"));
}

/// Where many are not, drawing tells the first twelve and how many more there are; the explanation has all.
#[test]
fn many_ends() {
    let job = format!("{}/tests/data/largest-7-0.job", env!("CARGO_MANIFEST_DIR"));
    let (drawn, answer) = said(&["draw", &job]);
    let count = drawn.matches(", not at its port ").count();
    assert_eq!(count, 12, "{drawn}");
    assert!(drawn.starts_with(&format!(
        "{job}: ends of routes: 256 are not at their ports\n"
    )));
    assert!(drawn.ends_with("\n  and 244 more: `bundles explain` names all\n"));
    let explained = text(out(0, &["explain", "-", &job], &answer));
    assert_eq!(explained.matches(", not at its port ").count(), 256);
}

/// A bundle's line of ports has a cross behind those that its members do not reach.
#[test]
fn ports_of_a_bundle() {
    let (board, _) = changed("of-a-bundle", "140,330 400,330", "140,330 390,330");
    let (_, answer) = said(&["draw", &board]);
    let explained = text(out(0, &["explain", "-", &board], &answer));
    let ports = "2:1 \u{2192} 4:5, 7:1, 5:1 \u{d7}";
    assert!(
        explained.contains(&format!("\nB3 oscillator: {ports}\n")),
        "{explained}"
    );
    let picture = text(said(&["picture", &board]).1);
    assert!(picture.contains(&format!(">oscillator: {ports}; input, interior, width 4<")));
}
