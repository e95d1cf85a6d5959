//! Refusals, and what they are about.

use std::fs;

use super::{NO_JOB, NOTICE, bundles, clock_board, example, failed, folder, out, text};

#[test]
fn a_refusal() {
    assert_eq!(out(1, &["draw"], NO_JOB), NOTICE);
    let words = text(out(1, &["explain"], NOTICE));
    assert!(words.starts_with("refused with 1, caused by the calling program: "));
    // Nothing of a board, as the bytes are no job.
    let job = &folder("refusal").write("none.job", NO_JOB);
    let picture = text(out(1, &["svg", job, "-"], NOTICE));
    assert!(picture.contains("refused with 1"), "{picture}");
    let explained = text(out(1, &["explain", "-", job], NOTICE));
    assert!(explained.starts_with(&words), "{explained}");
    let page = text(out(1, &["html", "-"], NO_JOB));
    assert!(page.contains("refused with 1"), "{page}");
}

/// An answer or a plan in the place of a job: the stage's notice is written, and it is said what it is.
#[test]
fn no_job_but_something_else() {
    let folder = folder("no-job");
    let plan = out(0, &["plan", &example("clock-board.job")], b"");
    let plan = folder.write("plan", plan);
    let notice = folder.write("notice", NOTICE);
    for (file, what) in [
        (
            &example("clock-board.answer"),
            "an answer: `bundles explain` tells",
        ),
        (&notice, "the notice of a refusal: `bundles explain` tells"),
        (&plan, "a plan: `bundles explain --plan` tells"),
    ] {
        for command in ["draw", "plan", "picture", "html", "page", "crossings"] {
            let refused = bundles(&[command, file], b"");
            assert_eq!(refused.status.code(), Some(1), "{command} {file}");
            let said = text(refused.stderr);
            assert!(said.contains("refused with "), "{said}");
            assert!(said.contains(&format!("\n  this is {what}")), "{said}");
            assert!(!said.contains("byte "), "{said}");
        }
    }
    let said = failed(&["explain", &plan]);
    assert!(
        said.contains("no answer, but a plan: `bundles explain --plan`"),
        "{said}"
    );
}

/// Names stand in refusals of every command that draws, or are refused themselves.
#[test]
fn names_beside_a_job() {
    let folder = folder("names");
    let board = clock_board();
    let far = board.replace("\"alarms\" at 8:1", "at 8:7");
    folder.write("far.job", out(0, &["pack", "-"], far.as_bytes()));
    folder.write("names", "bundle 6 \"alarms\"\n");
    let (job, names) = (folder.file("far.job"), folder.file("names"));
    let draws: [&[&str]; 5] = [
        &["draw", &job],
        &["picture", &job],
        &["html", &job],
        &["crossings", &job],
        &["page", &job],
    ];
    for words in draws {
        let refused = bundles(&[words, &["--names", &names]].concat(), b"");
        assert_eq!(refused.status.code(), Some(1), "{words:?}");
        let said = text(refused.stderr);
        assert!(said.contains("bundle 6 (alarms) names port 8:7"), "{said}");
    }
    // Of several jobs each has names of its own.
    let said = failed(&["draw", &job, &job, "--names", &names]);
    assert_eq!(
        said,
        "bundles: names are of one job: several cannot be told by them\n"
    );
    // The file of another board, and one with a line that is no name.
    fs::write(
        &names,
        "bundle 6 \"alarms\"\n# no such\nnode 9 \"alarm output\"\n",
    )
    .expect("a file");
    let said = failed(&["draw", &job, "--names", &names]);
    let due = "line 3: node 9 has a name, and the board has none such";
    assert_eq!(said, format!("bundles: {names}: {due}\n"));
    fs::write(&names, "bundle 6 alarms\n").expect("a file");
    let said = failed(&["names", &names]);
    let due = "line 1: expected a name in quotation marks, found `alarms`";
    assert_eq!(said, format!("bundles: {names}: {due}\n"));
    // Names of the file go before those of the text.
    fs::write(&names, "bundle 6 \"bells\"\n").expect("a file");
    let unpacked = text(out(
        0,
        &["unpack", &example("clock-board.txt"), "--names", &names],
        b"",
    ));
    assert!(unpacked.contains("\nbundle 6 \"bells\" at "), "{unpacked}");
    assert!(unpacked.contains("\nbundle 5 \"pulse\" at "), "{unpacked}");
}

/// Line, id and name of what a refusal is about.
#[test]
fn refusals_with_their_place() {
    let folder = folder("refusals");
    let name = folder.file("board.txt");
    let board = clock_board();
    let line = |start: &str| {
        1 + board
            .lines()
            .position(|line| line.starts_with(start))
            .expect(start)
    };
    let said = |from: &str, to: &str| {
        assert_eq!(board.matches(from).count(), 1, "{from}");
        fs::write(&name, board.replace(from, to)).expect("a file");
        let output = bundles(&["draw", &name], b"");
        assert_eq!(output.status.code(), Some(1), "{to}");
        let explained = text(out(1, &["explain", "-", &name], &output.stdout));
        let words = text(output.stderr);
        let place = words.lines().last().expect("a line").to_string();
        assert!(explained.ends_with(&format!("{place}\n")), "{explained}");
        place
    };
    let (four, five) = (line("node 4"), line("node 5"));
    assert_eq!(
        said("node 5 \"timestamp unit\"", "node 4 \"timestamp unit\""),
        format!(
            "  lines {four}, {five}: node 4 (PLL) and node 4 (timestamp unit) have one id: the fourth and the fifth of the nodes"
        )
    );
    let bundle = line("bundle 6");
    assert_eq!(
        said("\"alarms\" at 8:1", "\"alarms\" at 8:7"),
        format!("  line {bundle}: bundle 6 (alarms) names port 8:7, and node 8 has no such port")
    );
    assert_eq!(
        said("members 61@0", "members 61@999"),
        format!(
            "  line {bundle}: byte 2791: the lane of edge 61 in bundle 6 (alarms) is 999, and at most 255 is allowed"
        )
    );
}

/// Two records with one id keep their own names, in a text and in a picture.
#[test]
fn names_of_one_id() {
    let folder = folder("one-id");
    let board = clock_board();
    let twice = board.replace("node 5 \"timestamp unit\"", "node 4 \"timestamp unit\"");
    folder.write("twice.txt", &twice);
    let unpacked = text(out(0, &["unpack", &folder.file("twice.txt")], b""));
    for line in [
        "\nnode 4 \"PLL\" at 400,20 size 160,200\n",
        "\nnode 4 \"timestamp unit\" at 400,300 size 160,180\n",
    ] {
        assert!(unpacked.contains(line), "{unpacked}");
    }
    let picture = text(out(1, &["picture", &folder.file("twice.txt")], b""));
    for group in [
        "id=\"node-4\"><title>node 4 PLL</title>",
        "id=\"node-4-2\"><title>node 4 timestamp unit</title>",
        "data-of=\"node-4\">PLL<",
        "data-of=\"node-4-2\">timestamp unit<",
    ] {
        assert!(picture.contains(group), "{group}");
    }
}
