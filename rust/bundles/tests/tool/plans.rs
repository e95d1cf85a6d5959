//! Planned first, drawn later.

use std::fs;

use super::{Folder, NO_JOB, NOTICE, bundles, clock_board, example, failed, folder, out, text};

/// The plan of the clock board, in a file of a folder of this name.
struct Kept {
    folder: Folder,
    file: String,
    plan: Vec<u8>,
}

impl Kept {
    fn new(name: &str) -> Kept {
        let folder = folder(name);
        let plan = out(0, &["plan", &example("clock-board.job")], b"");
        let file = folder.write("clock-board.plan", &plan);
        Kept { folder, file, plan }
    }

    fn name(&self, name: &str) -> String {
        self.folder.file(name)
    }
}

fn read(name: &str) -> Vec<u8> {
    fs::read(name).expect("a file")
}

/// Document 02, F-5: planned with the revision, drawn on delivery.
#[test]
fn planned_and_drawn_later() {
    let (board, job) = (example("clock-board.txt"), example("clock-board.job"));
    let Kept {
        file: kept, plan, ..
    } = Kept::new("plans");
    assert_eq!(out(0, &["plan", &board], b""), plan);
    assert_eq!(out(0, &["plan"], &read(&job)), plan);
    assert_eq!(plan[..9], [0, 0, 0, 43, 1, 0, 0x1e, 0x83, 0x68]);
    let answer = read(&example("clock-board.answer"));
    assert_eq!(out(0, &["draw", "--plan", &kept, &job], b""), answer);
    assert_eq!(out(0, &["draw", "--plan", "-", &job], &plan), answer);
    assert_eq!(out(0, &["draw", "--plan", &kept], &read(&job)), answer);
    let page = read(&example("clock-board.page.txt"));
    assert_eq!(out(0, &["page", &job, "--plan", &kept], b""), page);
}

/// In words, without the job and with it.
#[test]
fn a_plan_in_words() {
    let board = example("clock-board.txt");
    let kept = Kept::new("plan-in-words").file;
    let words = text(out(0, &["explain", "--plan", &kept], b""));
    assert!(words.starts_with("a plan for 6 bundles\n\nplace  planned x\n1      380\n"));
    assert!(words.ends_with("5      none: rail\n6      none: rail\n\ntap visits: 1999720 left\n"));
    let words = text(out(0, &["explain", "--plan", &kept, &board], b""));
    assert!(
        words.contains("\n4       output  580         interior  time code\n"),
        "{words}"
    );
    assert!(
        words.contains("\n5       input   none: rail  rail      pulse\n"),
        "{words}"
    );
    assert!(
        words
            .ends_with("this is the plan that is made for this job\ndrawn on this job: accepted\n"),
        "{words}"
    );
}

/// With the job, ways and names are those of the explanation of its answer; where the sheet is refused they are
/// told too, and where the plan does not fit there are none.
#[test]
fn names_beside_a_plan() {
    let kept = Kept::new("plan-names");
    let board = clock_board().replace("edge 41 from", "edge 41 \"net 41\" from");
    let board = kept.folder.write("named.txt", board);
    let told = |words: &str| {
        let from = words.find("\nB1").expect("ways");
        let to = words.find("\ntap visits: ").expect("visits");
        words[from..to].to_string()
    };
    let answer = kept
        .folder
        .write("named.answer", out(0, &["draw", &board], b""));
    let due = told(&text(out(0, &["explain", &answer, &board], b"")));
    let words = text(out(0, &["explain", "--plan", &kept.file, &board], b""));
    assert_eq!(told(&words), due, "{words}");
    assert!(due.contains("\nB4 time code: 2:1, 5:11, 5:12 → 7:1\n"));
    assert!(due.contains("\n  5:11: time code\n") && due.contains("\nedge 41: net 41\n"));
    let mut number = kept.plan.clone();
    (number[10], number[11]) = (0x7f, 0xff);
    let wrong = kept.folder.write("wrong.plan", number);
    let words = text(out(1, &["explain", "--plan", &wrong, &board], b""));
    assert!(
        words.contains("\ndrawn on this job: refused with 18, "),
        "{words}"
    );
    assert_eq!(told(&words), due, "{words}");
    let words = text(out(
        1,
        &["explain", "--plan", &kept.file, &example("board.job")],
        b"",
    ));
    assert!(
        words.contains("refused with 17, ") && !words.contains("→"),
        "{words}"
    );
}

/// It fits, is not the plan of that job, and is drawn.
#[test]
fn the_plan_of_another_revision() {
    let kept = Kept::new("plan-of-another");
    let name = |file: &str| kept.name(file);
    let (board, kept) = (example("clock-board.txt"), &kept.file);
    let next = read(&board);
    let next = text(next).replace(
        "member_endpoint_reserve       20",
        "member_endpoint_reserve 30",
    );
    fs::write(name("next.txt"), next).expect("a file");
    let own = out(0, &["draw", &name("next.txt")], b"");
    let drawn = out(0, &["draw", "--plan", kept, &name("next.txt")], b"");
    assert_ne!(drawn, own);
    let picture = out(0, &["picture", "--plan", kept, &name("next.txt")], b"");
    let same = ["svg", "--plan", kept, &name("next.txt"), "-"];
    assert_eq!(out(0, &same, &drawn), picture);
    let said =
        "Joints: drawn from the plan that is given; none is false on the sheet in the answer";
    assert!(text(picture).contains(said));
    let words = text(out(0, &["explain", "--plan", kept, &name("next.txt")], b""));
    assert!(
        words.contains("\nanother plan than the one that is made for this job\n"),
        "{words}"
    );
}

/// Another board, a cut plan, a planned number that is none, a notice in a plan's place.
#[test]
fn plans_that_are_refused() {
    let kept = Kept::new("plans-refused");
    let name = |file: &str| kept.name(file);
    let (job, plan) = (example("clock-board.job"), &kept.plan);
    let refused = |plan: &[u8], job: &str, said: &str| {
        fs::write(name("wrong.plan"), plan).expect("a file");
        let output = bundles(&["draw", "--plan", &name("wrong.plan"), job], b"");
        assert_eq!(output.status.code(), Some(1), "{said}");
        assert_eq!(output.stdout.len(), 6);
        let words = text(output.stderr);
        assert!(words.contains(said), "{words}");
    };
    refused(
        plan,
        &example("board.job"),
        "refused with 17, caused by the plan: ",
    );
    refused(&plan[..plan.len() - 1], &job, "refused with 17, ");
    let mut number = plan.clone();
    number[10] = 0x7f;
    number[11] = 0xff;
    refused(&number, &job, "refused with 18, caused by the plan: ");
    refused(NOTICE, &job, "refused with 17, ");
    let words = text(out(1, &["explain", "--plan", "-"], NOTICE));
    assert!(words.starts_with("no plan: refused with 1, "), "{words}");
    assert_eq!(out(1, &["plan"], NO_JOB), NOTICE);
}

/// Words that do not go together, and files that are no plan.
#[test]
fn words_about_plans() {
    let (board, job) = (example("clock-board.txt"), example("clock-board.job"));
    let kept = Kept::new("plan-words").file;
    for (words, said) in [
        (
            &["draw", "--plan", "-", "-"][..],
            "cannot both come from standard input",
        ),
        (
            &["draw", "--plan", &kept, &job, &job],
            "a plan is of one job",
        ),
        (
            &["svg", "--plan", "-", &job, "-"],
            "a plan and an answer cannot both come from standard input",
        ),
        (
            &["html", "--plan", "-", "-"],
            "cannot both come from standard input",
        ),
        (
            &["explain", "--plan", &job],
            "no plan, but a job: `bundles plan` makes a plan of it",
        ),
        (
            &["draw", "--plan", &board, &job],
            "no plan, but a text: `bundles plan` makes a plan of it",
        ),
        (
            &["draw", "--plan"],
            "bundles draw [JOB...] [--plan PLAN] [--names FILE]",
        ),
    ] {
        let message = failed(words);
        assert!(message.contains(said), "{words:?}: {message}");
    }
}

/// The page of a sheet that is drawn from a plan has that sheet's picture; where it is refused, what was tried
/// from the plan.
#[test]
fn a_page_from_a_plan() {
    let folder = folder("planned-page");
    let board = clock_board();
    let kept = folder.file("kept.plan");
    fs::write(&kept, out(0, &["plan", &example("clock-board.txt")], b"")).expect("a file");
    let next = folder.file("next.txt");
    let changed = board.replace(
        "member_endpoint_reserve       20",
        "member_endpoint_reserve 30",
    );
    fs::write(&next, changed).expect("a file");
    let picture = text(out(0, &["picture", &next, "--plan", &kept], b""));
    let page = text(out(0, &["html", &next, "--plan", &kept], b""));
    assert!(page.contains(&picture), "another picture");
    let own = text(out(0, &["html", &next], b""));
    assert!(!own.contains(&picture), "the plan changes nothing");
    // A bundle that is planned where a wire stands: refused from the plan alone.
    let wire = "edge 81 from 4:20 to 5:20 via 250,150 250,330\n";
    let crossed = board.replace("# ---- Bundles", &format!("{wire}# ---- Bundles"));
    let cut = folder.file("cut.plan");
    let mut bytes = fs::read(&kept).expect("a plan");
    folder.write("crossed.txt", crossed);
    let refused = bundles(&["html", &folder.file("crossed.txt"), "--plan", &kept], b"");
    assert_eq!(refused.status.code(), Some(1));
    let said = text(refused.stderr);
    assert!(said.contains("refused with 11, "), "{said}");
    let page = text(refused.stdout);
    assert!(
        page.contains("class=\"refused\" id=\"bundle-3\""),
        "no trial"
    );
    // Not a plan of this board at all.
    bytes.pop();
    fs::write(&cut, bytes).expect("a file");
    let page = text(out(1, &["html", &next, "--plan", &cut], b""));
    assert!(page.contains("No sheet: refused with 17, caused by the plan: "));
}
