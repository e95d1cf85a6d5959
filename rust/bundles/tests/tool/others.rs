//! Answers that are not those of the job beside them: nothing is said of the two but that.

use std::fs;

use super::{NO_JOB, NOTICE, bundles, clock_board, example, failed, folder, out, text};

/// The clock board with a change, as a file in this folder.
fn changed(folder: &str, from: &str, to: &str) -> String {
    let board = clock_board();
    assert_eq!(board.matches(from).count(), 1, "{from}");
    super::folder(folder).write("board.txt", board.replace(from, to))
}

/// What every command that takes both says, and the exit code 2; each begins with the same words.
fn refused(job: &str, answer: &str) -> String {
    let said = failed(&["explain", answer, job]);
    assert_eq!(failed(&["svg", job, answer]), said);
    let begin = format!("bundles: {answer} is not the answer to {job}: ");
    let words = said
        .strip_prefix(&begin)
        .and_then(|words| words.strip_suffix('\n'));
    words.unwrap_or_else(|| panic!("{said}")).to_string()
}

const ASKED: &str =
    "; has the board changed since? If it was drawn from a plan, name that with --plan";

#[test]
fn sheets_of_other_boards() {
    let answer = example("clock-board.answer");
    // Other grants: the visits paid would be less than none.
    let few = "tap_visits 300\ngeometry_visits 2000\ngrid ";
    let grants = changed("other-grants", "grid ", few);
    assert_eq!(
        refused(&grants, &answer),
        format!("other visits are left{ASKED}")
    );
    let wider = changed(
        "other-places",
        "member_endpoint_reserve       20",
        "member_endpoint_reserve 30",
    );
    let said = refused(&wider, &answer);
    assert!(said.starts_with("other "), "{said}");
    let order = changed("other-members", "11@0 12@1", "12@0 11@1");
    assert_eq!(
        refused(&order, &answer),
        format!("bundles of other members{ASKED}")
    );
    let other = example("board.answer");
    let job = example("clock-board.job");
    assert_eq!(
        refused(&job, &other),
        format!("other nodes, routes or bundles{ASKED}")
    );
}

#[test]
fn refusals_of_other_boards() {
    let folder = folder("other-refusals");
    folder.write("notice", NOTICE);
    let job = example("clock-board.job");
    let said = refused(&job, &folder.file("notice"));
    assert_eq!(
        said,
        format!("it is the refusal 1, and the stage draws this job{ASKED}")
    );
    folder.write("none.job", NO_JOB);
    let said = refused(&folder.file("none.job"), &example("clock-board.answer"));
    assert_eq!(
        said,
        format!("it is a sheet, and the stage refuses this job with 1{ASKED}")
    );
    folder.write("eleven", [0, 0, 0, 2, 1, 11]);
    let said = refused(&folder.file("none.job"), &folder.file("eleven"));
    assert_eq!(
        said,
        format!("it is the refusal 11, and the stage refuses this job with 1{ASKED}")
    );
    // A page may have been wanted, or a buffer too short: that is of this job.
    let free = changed("no-grid", "grid", "# grid");
    for (number, own) in [(16, true), (2, true), (19, false)] {
        folder.write("output", [0, 0, 0, 2, 1, number]);
        let code = if own { 1 } else { 2 };
        let words = text(out(code, &["explain", &folder.file("output"), &free], b""));
        assert_eq!(
            words.starts_with(&format!("refused with {number}, ")),
            own,
            "{words}"
        );
    }
}

/// The plan of a board with other grants, which is refused: no visits less than none are said.
#[test]
fn a_plan_of_other_grants() {
    let plan = out(0, &["plan", &example("clock-board.job")], b"");
    let kept = &folder("other-plan").write("plan", plan);
    let few = changed("plan-of-other-grants", "grid ", "tap_visits 300\ngrid ");
    let words = text(out(1, &["explain", "--plan", kept, &few], b""));
    let visits = "\ntap visits: 1999720 left, more than the 300 that are granted\n";
    assert!(words.contains(visits), "{words}");
    assert!(words.contains("refused with 17"), "{words}");
}

/// An answer that was drawn from a plan is held to that plan.
#[test]
fn answers_from_plans() {
    let folder = folder("other-plans");
    fs::write(
        folder.file("plan"),
        out(0, &["plan", &example("clock-board.job")], b""),
    )
    .expect("a file");
    let next = changed(
        "other-revision",
        "member_endpoint_reserve       20",
        "member_endpoint_reserve 30",
    );
    let drawn = out(0, &["draw", "--plan", &folder.file("plan"), &next], b"");
    folder.write("answer", &drawn);
    assert!(refused(&next, &folder.file("answer")).ends_with(ASKED));
    let with = ["--plan", &folder.file("plan")];
    let words = text(out(
        0,
        &[&["explain", &folder.file("answer"), &next][..], &with].concat(),
        b"",
    ));
    assert!(
        words.contains("\njoints: drawn from the plan that is given; "),
        "{words}"
    );
    let own = folder.file("own");
    fs::write(&own, out(0, &["draw", &next], b"")).expect("a file");
    let output = bundles(&[&["explain", &own, &next][..], &with].concat(), b"");
    assert_eq!(output.status.code(), Some(2));
    let said = text(output.stderr);
    let end = "; was it drawn from another plan, or has the board changed since?\n";
    assert!(said.ends_with(end), "{said}");
}
