//! Names that are read from right to left, and names with signs that would turn what stands beside them.

use std::fs;

use super::{bundles, clock_board, example, failed, folder, out, text};

const CODE: &str = "\u{5e7}\u{5d5}\u{5d3}";

/// The clock board with such a name, and the name as it stands in a sentence.
fn named() -> (String, String) {
    let board = clock_board();
    let board = board.replace("\"time code\" at", &format!("\"{CODE}\" at"));
    (board, format!("\u{2068}{CODE}\u{2069}"))
}

/// In a sentence such a name stands between two signs that keep it apart, and plain names stay plain; in a text
/// it is as it was written.
#[test]
fn from_right_to_left() {
    let folder = folder("right-to-left");
    let (board, apart) = named();
    folder.write("board.txt", &board);
    let answer = out(0, &["draw", &folder.file("board.txt")], b"");
    let words = text(out(
        0,
        &["explain", "-", &folder.file("board.txt")],
        &answer,
    ));
    assert!(
        words.contains(&format!("\nB4 {apart}: 2:1, 5:11, 5:12 \u{2192} 7:1\n")),
        "{words}"
    );
    assert!(words.contains("\nB3 oscillator: "), "{words}");
    assert_eq!(words.matches('\u{2068}').count(), 1, "{words}");
    let picture = text(out(0, &["picture", &folder.file("board.txt")], b""));
    assert!(picture.contains(&format!(
        ">{apart}: 2:1, 5:11, 5:12 \u{2192} 7:1; output, interior, width 4<"
    )));
    assert!(picture.contains(&format!("<title>bundle 4 {apart} at 7:1</title>")));
    let page = text(out(0, &["html", &folder.file("board.txt")], b""));
    assert!(page.contains(&format!(
        "collector and spine of bundle 4 {apart} \u{2192} port 7:1"
    )));
    // The text and the names file.
    for words in [
        ["unpack", &folder.file("board.txt")],
        ["names", &folder.file("board.txt")],
    ] {
        let written = text(out(0, &words, b""));
        assert!(
            written.contains(&format!("bundle 4 \"{CODE}\"")),
            "{written}"
        );
        assert!(!written.contains('\u{2068}'), "{written}");
    }
}

/// Names of nodes, ports and edges are told also where there is no bundle.
#[test]
fn of_a_sheet_without_bundles() {
    let board = clock_board();
    let lines = board.lines().filter(|line| !line.starts_with("bundle "));
    let lines = lines.collect::<Vec<_>>().join("\n");
    let named = lines.replace("edge 71 from", "edge 71 \"trigger\" from");
    assert_ne!(named, lines);
    let folder = folder("no-bundles");
    let board = folder.write("board.txt", named);
    let answer = out(0, &["draw", &board], b"");
    let words = text(out(0, &["explain", "-", &board], &answer));
    for due in [
        "20 edges, 0 bundles\n\nnode 1: reference inputs\n",
        "\nnode 5: timestamp unit\n  5:1: holdover\n",
        "\nedge 71: trigger\n\ntap visits: ",
    ] {
        assert!(words.contains(due), "{due}: {words}");
    }
}

/// A table, and a refusal with its place.
#[test]
fn tables_and_refusals() {
    let folder = folder("right-to-left-refused");
    let (board, apart) = named();
    folder.write("board.txt", &board);
    let kept = out(0, &["plan", &folder.file("board.txt")], b"");
    folder.write("plan", kept);
    let words = text(out(
        0,
        &[
            "explain",
            "--plan",
            &folder.file("plan"),
            &folder.file("board.txt"),
        ],
        b"",
    ));
    assert!(words.contains(&format!("interior  {apart}\n")), "{words}");
    let far = board.replace(" at 7:1 ", " at 7:9 ");
    folder.write("far.txt", far);
    let refused = bundles(&["draw", &folder.file("far.txt")], b"");
    let said = text(refused.stderr);
    assert!(
        said.contains(&format!("bundle 4 ({apart}) names port 7:9")),
        "{said}"
    );
}

/// Such a name is refused in a text and in a file of names, with its line, and is not printed.
#[test]
fn signs_that_no_name_has() {
    let folder = folder("signs");
    let board = clock_board();
    let line = 1 + board
        .lines()
        .position(|line| line.starts_with("bundle 4 "))
        .expect("a line");
    for (sign, number) in [
        ("\u{202e}", "202E"),
        ("\u{1b}[2J", "001B"),
        ("\u{2067}", "2067"),
        ("\t", "0009"),
        ("\u{9b}", "009B"),
    ] {
        let turned = format!("\"time{sign} code\" at 7:1");
        fs::write(
            folder.file("board.txt"),
            board.replace("\"time code\" at 7:1", &turned),
        )
        .expect("a file");
        for command in ["pack", "draw", "picture", "html", "names"] {
            let said = failed(&[command, &folder.file("board.txt")]);
            let due = format!(
                "line {line}: expected a name without control characters, found U+{number} in `"
            );
            assert!(said.contains(&due), "{command}: {said}");
            assert!(!said.contains(sign), "{command}");
        }
        folder.write("names", format!("bundle 4 \"time{sign} code\"\n"));
        let said = failed(&[
            "picture",
            &example("clock-board.job"),
            "--names",
            &folder.file("names"),
        ]);
        assert!(said.contains(&format!(
            "line 1: expected a name without control characters, found U+{number}"
        )));
    }
}
