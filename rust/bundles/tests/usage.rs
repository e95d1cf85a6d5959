//! The tool's words: help wherever it is asked for, flags that a command does not have, files that are
//! something else, and plans that do not fit.

#![forbid(unsafe_code)]

use std::fs;
use std::path::Path;
use std::process::Command;

fn example(name: &str) -> String {
    format!("{}/../../examples/{name}", env!("CARGO_MANIFEST_DIR"))
}

/// The exit code, and what is written to standard output and to standard error.
fn bundles(words: &[&str]) -> (i32, Vec<u8>, String) {
    let tool = Command::new(env!("CARGO_BIN_EXE_bundles"))
        .args(words)
        .output()
        .expect("the tool runs");
    let code = tool.status.code().expect("the tool ends");
    let said = String::from_utf8(tool.stderr).expect("text");
    (code, tool.stdout, said)
}

fn failed(words: &[&str]) -> String {
    let (code, written, said) = bundles(words);
    assert_eq!((code, written.len()), (2, 0), "{words:?}: {said}");
    said
}

#[test]
fn help_wherever_it_is_asked_for() {
    let due = |words: &[&str]| bundles(words).1;
    let svg = due(&["help", "svg"]);
    assert!(svg.starts_with(b"bundles svg "));
    let all = due(&["help"]);
    for (words, due) in [
        (&["svg", "--help"][..], &svg),
        (&["svg", "-h"], &svg),
        (&["--help", "svg"], &svg),
        (&["svg", "--help", "a.job", "a.answer"], &svg),
        (&["svg", "a.job", "--title", "--help"], &svg),
        (&["help", "svg", "--help"], &due(&["help", "help"])),
        (&["--help"], &all),
        (&["-h"], &all),
        (&["print", "--help"], &all),
    ] {
        let (code, written, said) = bundles(words);
        assert_eq!((code, said.as_str()), (0, ""), "{words:?}");
        assert_eq!(&written, due, "{words:?}");
    }
}

#[test]
fn flags_that_a_command_does_not_have() {
    let job = example("clock-board.job");
    for (words, flag, usage) in [
        (
            &["draw", "--quiet", &job][..],
            "--quiet",
            "bundles draw [JOB...]",
        ),
        (&["draw", &job, "-o"], "-o", "bundles draw [JOB...]"),
        (
            &["picture", "--titel", "a", &job],
            "--titel",
            "bundles picture BOARD",
        ),
        (&["pack", "--title", "a"], "--title", "bundles pack [BOARD]"),
        (
            &["unpack", &job, "--plan", "a"],
            "--plan",
            "bundles unpack [JOB]",
        ),
        (&["version", "--names", "a"], "--names", "bundles version"),
    ] {
        let said = failed(words);
        let due = format!("bundles: no flag `{flag}`; it is: {usage}");
        assert!(said.starts_with(&due), "{words:?}: {said}");
    }
    assert!(failed(&["--quiet"]).contains("no command before the flag `--quiet`"));
    assert!(failed(&["print", "--quiet"]).contains("no command `print`"));
    // A file of such a name, by its folder.
    let folder = Path::new(env!("CARGO_TARGET_TMPDIR")).join("usage");
    fs::create_dir_all(&folder).expect("a folder");
    let file = folder.join("-o");
    fs::copy(&job, &file).expect("a copy");
    assert_eq!(bundles(&["draw", file.to_str().expect("text")]).0, 0);
}

#[test]
fn something_else_than_an_answer() {
    for (file, what) in [("clock-board.txt", "a text"), ("clock-board.job", "a job")] {
        let (file, job) = (example(file), example("clock-board.job"));
        for words in [
            &["explain", &file][..],
            &["explain", &file, &job],
            &["svg", &job, &file],
        ] {
            let said = failed(words);
            let due =
                format!("{file}: no answer, but {what}: `bundles draw` makes an answer of it");
            assert!(said.contains(&due), "{said}");
        }
    }
    let said = failed(&["explain", &example("crossings.list")]);
    assert!(said.contains("no answer: byte 0: expected "), "{said}");
}

/// 17 and 18 with their place, by every command that takes a plan.
#[test]
fn plans_that_do_not_fit() {
    let folder = Path::new(env!("CARGO_TARGET_TMPDIR")).join("misfits");
    fs::create_dir_all(&folder).expect("a folder");
    let name = folder.join("plan").to_str().expect("text").to_string();
    let board = example("clock-board.txt");
    let plan = bundles(&["plan", &board]).1;
    let mut number = plan.clone();
    number[10..12].copy_from_slice(&[0x7f, 0xf0]);
    let mut mark = plan.clone();
    mark[9] = 2;
    let line = fs::read_to_string(&board).expect("an example");
    let line = line.lines().position(|line| line.starts_with("bundle 1"));
    let line = line.expect("a line") + 1;
    for (wrong, due) in [
        (
            &plan[..plan.len() - 1],
            "  byte 0 of the plan: the length says that 43 bytes follow it, and 42 do\n"
                .to_string(),
        ),
        (
            &mark,
            format!("  line {line}: byte 9 of the plan: the mark of bundle 1 (references) is 2, "),
        ),
        (
            &number,
            format!("  line {line}: byte 10 of the plan: the x of bundle 1 (references) is "),
        ),
    ] {
        fs::write(&name, wrong).expect("a file");
        for command in ["draw", "page", "crossings"] {
            let (code, _, said) = bundles(&[command, "--plan", &name, &board]);
            assert_eq!(code, 1, "{command}");
            assert!(said.contains(&due), "{command}: {said}");
        }
    }
    let (code, words, _) = bundles(&["explain", "--plan", &name, &board]);
    let words = String::from_utf8(words).expect("text");
    assert_eq!(code, 1);
    let due = format!("  line {line}: byte 10 of the plan: the x of bundle 1 (references) is ");
    assert!(words.contains(&due), "{words}");
}
