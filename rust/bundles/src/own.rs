//! Whether an answer is that of a job: what is said of another one would be wrong.

use bundle_stage::{Answer, Buffers, DrawnBundle, Id, Refusal, Sheet};

use crate::draw::{asked, drawn_from};
use crate::files::{Loaded, called};

/// Asks the stage again, with the plan if one is given, and compares.
///
/// # Errors
///
/// The words that say in what the two differ.
pub fn check(
    loaded: &Loaded,
    (name, answer): (&str, &Answer),
    plan: Option<&[u8]>,
) -> Result<(), String> {
    let (_, own) = drawn_from(loaded, plan)?;
    if own == *answer || is_of_another_output(loaded, answer, plan) {
        return Ok(());
    }
    let differs = differs(answer, &own);
    let (name, job) = (called(name), called(&loaded.name));
    let from = match plan {
        Some(_) => "was it drawn from another plan, or has the board changed since?",
        None => "has the board changed since? If it was drawn from a plan, name that with --plan",
    };
    Err(format!(
        "{name} is not the answer to {job}: {differs}; {from}"
    ))
}

fn differs(answer: &Answer, own: &Answer) -> String {
    match (answer, own) {
        (Answer::Refused(said), Answer::Drawn(_)) => {
            format!(
                "it is the refusal {}, and the stage draws this job",
                said.number()
            )
        }
        (Answer::Drawn(_), Answer::Refused(own)) => {
            format!(
                "it is a sheet, and the stage refuses this job with {}",
                own.number()
            )
        }
        (Answer::Refused(said), Answer::Refused(own)) => format!(
            "it is the refusal {}, and the stage refuses this job with {}",
            said.number(),
            own.number()
        ),
        (Answer::Drawn(sheet), Answer::Drawn(own)) => sheets(sheet, own).to_string(),
    }
}

/// A notice that stands for the answer where a page or a list is wanted too, or where a buffer of the calling
/// program is too short, which no job has to do with.
fn is_of_another_output(loaded: &Loaded, answer: &Answer, plan: Option<&[u8]>) -> bool {
    let mut wanted = match answer {
        Answer::Refused(Refusal::BufferTooShort) => return true,
        Answer::Refused(refusal) => asked(*refusal),
        Answer::Drawn(_) => return false,
    };
    wanted.plan = plan;
    let mut buffers = Box::new(Buffers::default());
    let written = buffers.write(&loaded.job, &wanted);
    Answer::from_bytes(written.answer).as_ref() == Ok(answer)
}

fn sheets(sheet: &Sheet, own: &Sheet) -> &'static str {
    if ids(sheet) != ids(own) {
        "other nodes, routes or bundles"
    } else if taps(sheet) != taps(own) {
        "bundles of other members"
    } else if sheet.visits_left != own.visits_left {
        "other visits are left"
    } else {
        "other places"
    }
}

fn ids(sheet: &Sheet) -> [Vec<Id>; 3] {
    let nodes = sheet.nodes.iter().map(|row| row.id);
    let routes = sheet.routes.iter().map(|row| row.id);
    let bundles = sheet.bundles.iter().map(|row| row.id);
    [nodes.collect(), routes.collect(), bundles.collect()]
}

/// The edges that have a tap on each bundle.
fn taps(sheet: &Sheet) -> Vec<Vec<Id>> {
    let edges = |bundle: &DrawnBundle| bundle.taps.iter().map(|tap| tap.edge).collect();
    sheet.bundles.iter().map(edges).collect()
}
