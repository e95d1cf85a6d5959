//! What is read: jobs and texts.

use std::fs;

use super::{NO_JOB, NOTICE, bundles, clock_board, example, failed, folder, out, text};

/// Document 02, F-1: `-0` is packed as it stands, and drawn, explained and shown as 0 is.
#[test]
fn minus_zero_in_a_board() {
    let folder = folder("minus");
    let text_of = |zero: &str| {
        format!(
            "port_stub 10\nroute_lane_gap 10\nedge_node_clearance {zero}\n\
             minimum_parallel_wire_spacing {zero}\nmember_endpoint_reserve 20\n\
             node 1 at {zero},30 size 40,40\nnode 2 at 200,{zero} size 40,100\n\
             node 3 at {zero},{zero} size {zero},{zero}\n\
             port 1:1 east 20\nport 2:1 west 40\nport 2:2 west 60\nport 3:1 north {zero}\n\
             edge 1 from 1:1 to 2:1 via 40,50 60,50 60,40 200,40\n\
             edge 2 from 1:1 to 2:2 via 40,50 60,50 60,60 200,60\n\
             edge 3 from 3:1 to 2:1 via {zero},{zero} 200,{zero}\n\
             bundle 1 at 1:1 input width 2 members 1@0 2@1\n"
        )
    };
    let [plus, minus] = [("plus", "0"), ("minus", "-0")].map(|(board, zero)| {
        let job = folder.file(&format!("{board}.job"));
        let packed = out(0, &["pack", "-"], text_of(zero).as_bytes());
        fs::write(&job, &packed).expect("a file");
        assert_eq!(
            out(0, &["pack", "-"], &out(0, &["unpack", &job], b"")),
            packed
        );
        let answer = out(0, &["draw", &job], b"");
        let explained = out(0, &["explain", "-", &job], &answer);
        let picture = out(0, &["svg", &job, "-", "--title", "a board"], &answer);
        let short = [0, 0, 0, 2, 1, 2];
        let refused = out(1, &["svg", &job, "-", "--title", "a board"], &short);
        (packed, [answer, explained, picture, refused])
    });
    let minus_zero = (-0.0_f64).to_be_bytes();
    let held = |job: &[u8]| job.windows(8).filter(|bytes| *bytes == minus_zero).count();
    assert_eq!((held(&plus.0), held(&minus.0)), (0, 12));
    assert_eq!(plus.1, minus.1);
}

/// Document 02, F-2: where a number is off the grid, its line and field and what is beside it; the job
/// is packed all the same, and refused with 15.
#[test]
fn numbers_off_the_grid() {
    let folder = folder("grid");
    let job = folder.file("off.job");
    let board = "port_stub 10\nroute_lane_gap 10\nedge_node_clearance 0.1\n\
                 minimum_parallel_wire_spacing 0\nmember_endpoint_reserve 20\n# a comment\n\
                 node 1 at 0,30 size 40,40.5\nport 1:1 east 20\n\
                 edge 1 from 1:1 to 1:1 via 40,50 60,1048577 40,50\n";
    let free = bundles(&["pack"], board.as_bytes());
    assert!(free.stderr.is_empty());
    let output = bundles(&["pack"], format!("{board}grid yes\n").as_bytes());
    assert_eq!(output.status.code(), Some(0));
    let due = [
        "edge_node_clearance is 0.1, off the drafting grid; nearest to it are 0.09375 and 0.109375",
        "the y of point 2 of edge 1 is 1048577, off the drafting grid; nearest to it is 1048576",
    ];
    assert_eq!(
        text(output.stderr),
        format!(
            "standard input: line 3: {}\nstandard input: line 9: {}\n",
            due[0], due[1]
        )
    );
    assert_eq!(output.stdout[5], free.stdout[5] | 4);
    fs::write(&job, output.stdout).expect("a file");
    let drawn = bundles(&["draw", &job], b"");
    assert_eq!(drawn.stdout, [0, 0, 0, 2, 1, 15]);
    let said = format!("  {}\n  {}\n", due[0], due[1]);
    assert!(text(drawn.stderr).ends_with(&said));
    let words = text(out(1, &["explain", "-", &job], &drawn.stdout));
    assert!(words.starts_with("refused with 15, caused by the job's writer: "));
    assert!(words.ends_with(&said), "{words}");
}

#[test]
fn only_65536_bytes_of_a_job_are_looked_at() {
    // As the program sheet: the length counts what is read, and the bytes after it are not there.
    let mut long = vec![0; 70_000];
    long[..6].copy_from_slice(&[0, 0, 0xff, 0xfc, 1, 8]);
    assert_eq!(out(1, &["draw"], &long)[5], 6);
    long[3] = 0xfd;
    assert_eq!(out(1, &["draw"], &long)[5], 1);
}

#[test]
fn several_jobs() {
    let folder = folder("several");
    for job in ["a.job", "b"] {
        fs::copy(example("board.job"), folder.file(job)).expect("a copy");
    }
    let output = bundles(&["draw", &folder.file("a.job"), &folder.file("b")], b"");
    assert_eq!(output.status.code(), Some(0));
    assert!(output.stdout.is_empty());
    let lines = text(output.stderr);
    let due = |turn: &str, job: &str, answer: &str| {
        format!(
            "{turn} of 2: {}: 8 bundles drawn; {}\n",
            folder.file(job),
            folder.file(answer)
        )
    };
    assert_eq!(
        lines,
        due("1", "a.job", "a.answer") + &due("2", "b", "b.answer")
    );
    let answer = fs::read(example("board.answer")).expect("an example");
    for written in ["a.answer", "b.answer"] {
        assert_eq!(fs::read(folder.file(written)).expect("an answer"), answer);
    }
    // One of them is refused.
    folder.write("c.job", NO_JOB);
    assert!(
        out(
            1,
            &["draw", &folder.file("c.job"), &folder.file("a.job")],
            b""
        )
        .is_empty()
    );
    assert_eq!(fs::read(folder.file("c.answer")).expect("a notice"), NOTICE);
    assert!(failed(&["draw", &folder.file("a.job"), "-"]).contains("standard input"));
    // One cannot be read: it is told, and the others are drawn.
    fs::remove_file(folder.file("b.answer")).expect("a file");
    let said = failed(&[
        "draw",
        &folder.file("not-there.job"),
        &folder.file("c.job"),
        &folder.file("b"),
    ]);
    assert!(said.contains("1 of 3: not drawn: "), "{said}");
    assert_eq!(
        fs::read(folder.file("b.answer")).expect("an answer"),
        answer
    );
}

/// What is whole is unpacked, however long it is; what is cut off is said.
#[test]
fn unpacked_jobs() {
    let row = |id: usize| format!("node {id} at 0,0 size 1,1\n");
    let rows = (0..3_000).map(row).collect::<String>();
    let board = format!(
        "port_stub 10\nroute_lane_gap 10\nedge_node_clearance 0\nminimum_parallel_wire_spacing 0\n\
         member_endpoint_reserve 20\n{rows}"
    );
    let job = out(0, &["pack"], board.as_bytes());
    assert!(job.len() > 100_000);
    let unpacked = out(0, &["unpack"], &job);
    assert_eq!(out(0, &["pack"], &unpacked), job);
    for (bytes, due) in [(100_000, "missing"), (5, "missing"), (4, "missing")] {
        let output = bundles(&["unpack"], &job[..bytes]);
        assert_eq!(output.status.code(), Some(2));
        let (said, follow) = (job.len() - 4, bytes - 4);
        let words = format!(
            "bundles: standard input: no whole job: byte 0: expected the length of all bytes that \
             follow, found {said}, and {follow} follow: {} are {due}\n",
            said - follow
        );
        assert_eq!(text(output.stderr), words);
    }
    let output = bundles(&["unpack"], &[&job[..], b"\0\0"].concat());
    assert!(text(output.stderr).ends_with("follow: 2 are too many\n"));
    let output = bundles(&["unpack"], &job[..3]);
    let words = "byte 0: expected the length of all bytes that follow, found the end\n";
    assert!(text(output.stderr).ends_with(words));
}

/// No answer is written twice, or over a job that is given.
#[test]
fn answers_in_one_place() {
    let folder = folder("one-place");
    let job = fs::read(example("board.job")).expect("an example");
    for job_of in ["a.job", "a", "c.answer", "c.job"] {
        folder.write(job_of, &job);
    }
    let said = failed(&["draw", &folder.file("a.job"), &folder.file("a")]);
    let due = format!(
        "2 of 2: not drawn: {}: its answer would replace that to {}, {}: ",
        folder.file("a"),
        folder.file("a.job"),
        folder.file("a.answer")
    );
    assert!(said.contains(&due), "{said}");
    assert_eq!(
        fs::read(folder.file("a.answer")).expect("an answer"),
        fs::read(example("board.answer")).expect("an example")
    );
    // By another way to the same file.
    let other = folder.file("../one-place/a");
    let said = failed(&["draw", &folder.file("a.job"), &other]);
    assert!(said.contains("its answer would replace that to"), "{said}");
    let said = failed(&["draw", &folder.file("c.job"), &folder.file("c.answer")]);
    let due = format!(
        "1 of 2: not drawn: {}: its answer would",
        folder.file("c.job")
    );
    assert!(said.contains(&due), "{said}");
    assert_eq!(fs::read(folder.file("c.answer")).expect("the job"), job);
}

/// A mark of the order of bytes before a text, as some editors write it.
#[test]
fn a_text_with_a_byte_order_mark() {
    let board = fs::read(example("clock-board.txt")).expect("an example");
    let job = fs::read(example("clock-board.job")).expect("an example");
    let marked = [b"\xef\xbb\xbf", &board[..]].concat();
    assert_eq!(out(0, &["pack"], &marked), job);
    let names = out(0, &["names", "-"], &board);
    assert_eq!(out(0, &["names", "-"], &marked), names);
    let wide = board.iter().flat_map(|byte| [*byte, 0]);
    let wide = [0xff, 0xfe].into_iter().chain(wide).collect::<Vec<_>>();
    let output = bundles(&["pack"], &wide);
    assert_eq!(output.status.code(), Some(2));
    let said = text(output.stderr);
    assert!(said.contains("line 1: the text is in UTF-16"), "{said}");
}

/// The search for places that runs out of tap visits is told by every command that draws, with what would be
/// enough; from a plan nothing is searched.
#[test]
fn a_search_that_runs_out() {
    let board = clock_board();
    let board = format!("{board}tap_visits 100\n");
    let folder = folder("spent");
    let name = folder.file("board.txt");
    fs::write(&name, &board).expect("a file");
    let words = "the search for places ran out of tap visits; tap_visits 280 would be enough";
    let due = format!("{name}: {words}\n");
    for command in ["draw", "picture", "html"] {
        let output = bundles(&[command, &name], b"");
        assert_eq!(output.status.code(), Some(0), "{command}");
        assert_eq!(text(output.stderr), due, "{command}");
    }
    let answer = out(0, &["draw", &name], b"");
    let explained = text(out(0, &["explain", "-", &name], &answer));
    assert!(explained.contains(&format!("\n  {words}\n")), "{explained}");
    let picture = text(out(0, &["picture", &name], b""));
    assert!(
        picture.contains(&format!(">The{}.</text>", &words[3..])),
        "{picture}"
    );
    let plan = folder.file("plan");
    fs::write(&plan, out(0, &["plan", &name], b"")).expect("a file");
    let output = bundles(&["picture", "--plan", &plan, &name], b"");
    assert!(output.stderr.is_empty(), "{}", text(output.stderr));
    assert!(!text(output.stdout).contains("ran out"));
}

/// A bundle without members: nothing leads to its port, and that is said.
#[test]
fn a_bundle_without_members() {
    let board = clock_board();
    let board = board.replace("grid yes", "grid no");
    let board = format!("{board}port 8:9 west 5\nbundle 9 \"spare\" at 8:9 output width 2\n");
    let answer = out(0, &["draw"], board.as_bytes());
    let folder = folder("no-members");
    let name = folder.file("board.txt");
    fs::write(&name, &board).expect("a file");
    let explained = text(out(0, &["explain", "-", &name], &answer));
    assert!(
        explained.contains("\nB9 spare: 8:9, no members\n"),
        "{explained}"
    );
    let picture = text(out(0, &["picture", &name], b""));
    assert!(
        picture.contains(">spare: 8:9, no members; output, "),
        "{picture}"
    );
    let page = text(out(0, &["html", &name], b""));
    let note = "notes:[\"No members: no wire is led to port 8:9 by it.\"]";
    assert!(page.contains(note), "{page}");
}

/// A text in place of a job: it is packed, and its lines and names are told.
#[test]
fn texts_in_place_of_jobs() {
    let (board, job) = (example("clock-board.txt"), example("clock-board.job"));
    let answer = fs::read(example("clock-board.answer")).expect("an example");
    assert_eq!(out(0, &["draw", &board], b""), answer);
    let picture = out(0, &["svg", &job, "-"], &answer);
    assert_eq!(out(0, &["picture", &job], b""), picture);
    assert!(text(out(0, &["picture", &board], b"")).starts_with("<svg "));
    let words = text(out(0, &["explain", "-", &board], &answer));
    assert!(
        words.contains("\nB4 time code: 2:1, 5:11, 5:12 → 7:1\n"),
        "{words}"
    );
    assert!(words.contains("\nnode 5: timestamp unit\n"), "{words}");
    let named = out(0, &["explain", "-", &job, "--names", &board], &answer);
    assert_eq!(text(named), words);
    let folder = folder("texts");
    let names = out(0, &["names", &board], b"");
    folder.write("board.names", &names);
    let unpacked = out(
        0,
        &["unpack", &job, "--names", &folder.file("board.names")],
        b"",
    );
    folder.write("unpacked.txt", &unpacked);
    assert_eq!(out(0, &["names", &folder.file("unpacked.txt")], b""), names);
    assert_eq!(
        out(0, &["pack", &folder.file("unpacked.txt")], b""),
        fs::read(&job).expect("a job")
    );
}
