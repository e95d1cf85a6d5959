//! What is printed beside an answer.

use std::fs;

use super::{NO_JOB, bundles, clock_board, example, failed, folder, out, text};

/// Document 02, F-4: the page of a board on the grid, from its text and from its job.
#[test]
fn a_bundle_page() {
    let due = fs::read(example("clock-board.page.txt")).expect("an example");
    for board in ["clock-board.txt", "clock-board.job"] {
        assert_eq!(out(0, &["page", &example(board)], b""), due);
        let bytes = fs::read(example(board)).expect("an example");
        assert_eq!(out(0, &["page"], &bytes), due);
    }
    assert!(due.len() == 6 * 76 && due.ends_with(b"425.0000000\n"));
    // Not said to be on the grid; then refused for another reason as well, which goes first.
    let board = clock_board();
    let off = board.replace("grid                yes", "grid                no");
    let refused = bundles(&["page"], off.as_bytes());
    assert_eq!(refused.status.code(), Some(1));
    assert!(refused.stdout.is_empty());
    let said = text(refused.stderr);
    assert!(
        said.contains("refused with 16, caused by the calling program: "),
        "{said}"
    );
    let line = 1 + off
        .lines()
        .position(|line| line.starts_with("grid "))
        .expect("a line");
    let why = "grid is no; all numbers of the board are on the drafting grid\n";
    assert!(said.ends_with(&format!("\n  line {line}: {why}")), "{said}");
    let unsaid = board.replace("grid                yes", "");
    let said = text(bundles(&["page"], unsaid.as_bytes()).stderr);
    assert!(
        said.ends_with(&format!("\n  the text has no line `grid`: {why}")),
        "{said}"
    );
    let wrong = off.replace("members 61@0", "members 61@999");
    let refused = bundles(&["page"], wrong.as_bytes());
    assert!(refused.stdout.is_empty());
    let said = text(refused.stderr);
    assert!(
        said.contains("refused with 5, ") && said.contains("is 999, and at most 255"),
        "{said}"
    );
}

/// Names stand behind the page, where they are asked for: its own lines stay.
#[test]
fn a_bundle_page_with_names() {
    let page = text(fs::read(example("clock-board.page.txt")).expect("an example"));
    let words = ["page", "--with-names", &example("clock-board.txt")];
    let named = text(out(0, &words, b""));
    let behind = named.strip_prefix(&page).expect("the page first");
    assert!(behind.starts_with("\nB1 references: 1:1 → 4:1, 4:2, 4:3, 4:4\n"));
    assert!(behind.contains("\nB4 time code: 2:1, 5:11, 5:12 → 7:1\n"));
    assert!(behind.contains("\nnode 5: timestamp unit\n  5:1: holdover\n"));
    assert!(behind.ends_with("\nnode 8: alarm output\n"), "{behind}");
    // A job has none, but for those of a file; of a board that is refused there is nothing.
    let job = example("clock-board.job");
    let ids = text(out(0, &["page", &job, "--with-names"], b""));
    assert!(ids.ends_with("\nB6: 5:13, 5:14 → 8:1\n"), "{ids}");
    let names = folder("page-names").write("names", "edge 71 \"trigger\"\n");
    let words = ["page", &job, "--with-names", "--names", &names];
    assert!(text(out(0, &words, b"")).ends_with("8:1\nedge 71: trigger\n"));
    assert!(out(1, &["page", "--with-names"], NO_JOB).is_empty());
    // Of this command alone.
    let said = failed(&["crossings", &job, "--with-names"]);
    assert!(said.contains("no flag `--with-names`"), "{said}");
}

/// Document 02, F-7: the list of crossings, with names where there are some.
#[test]
fn the_list_of_crossings() {
    let (board, job) = (example("crossings.txt"), example("crossings.job"));
    let read = |name: &str| fs::read(name).expect("an example");
    assert_eq!(out(0, &["pack", &board], b""), read(&job));
    let list = "\
5 crossings of bundles and routes; places before the last shift

x    y    bundle  edge
190  80   1       51
190  80   1       52
500  110  1       23
190  240  2       51
240  240  2       52
";
    assert_eq!(text(out(0, &["crossings", &job], b"")), list);
    assert_eq!(text(out(0, &["crossings", &board], b"")), list);
    assert_eq!(text(out(0, &["crossings"], &read(&job))), list);
    let names = "bundle 2 \"clocks\"\nedge 51 \"sync\"\n";
    let names = folder("crossings").write("names", names);
    let named = text(out(0, &["crossings", &job, "--names", &names], b""));
    assert!(named.contains("\n190  240  2 clocks  51 sync\n"), "{named}");
    // Drawn from a plan; forbidden, so that there is none; refused.
    let plan = folder("crossed").write("plan", out(0, &["plan", &job], b""));
    let plan = &plan;
    assert_eq!(
        text(out(0, &["crossings", &job, "--plan", plan], b"")),
        list
    );
    let none = text(out(0, &["crossings", &example("clock-board.job")], b""));
    assert_eq!(
        none,
        "0 crossings of bundles and routes; places before the last shift\n"
    );
    let refused = bundles(&["crossings"], NO_JOB);
    assert_eq!(refused.status.code(), Some(1));
    assert!(refused.stdout.is_empty());
    assert!(text(refused.stderr).contains("refused with 1, "));
}

/// Where the stage has no list it is told how many crossings there are, and where the most are.
#[test]
fn too_many_crossings() {
    let mut board = String::from(
        "port_stub 20\nroute_lane_gap 10\nedge_node_clearance 0\nminimum_parallel_wire_spacing 0\n\
         member_endpoint_reserve 20\npermit_crossings yes\nnode 1 at 0,0 size 40,100\n\
         port 1:1 east 50\nbundle 7 \"spine\" at 1:1 input width 1\n",
    );
    // 17 wires that go up and down over the spine, the first of them 62 times and the others 63.
    for edge in 0..17 {
        let x = 42.0 + f64::from(edge) / 4.0;
        let points = (0..if edge == 0 { 63 } else { 64 }).map(|turn| match turn % 2 {
            0 => format!(" {x},-10"),
            _ => format!(" {x},110"),
        });
        let points = points.collect::<String>();
        board.push_str(&format!("edge {edge} from 1:1 to 1:1 via{points}\n"));
    }
    let refused = bundles(&["crossings"], board.as_bytes());
    assert_eq!(refused.status.code(), Some(1));
    assert!(refused.stdout.is_empty());
    let said = text(refused.stderr);
    let due = "\n  lines 9, 11: there are 1070 crossings; the most of a bundle, 1070, are of bundle 7 (spine), \
               and the most of an edge, 63, of edge 1\n";
    assert!(said.contains(due), "{said}");
}
