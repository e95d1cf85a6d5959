//! The tool's commands about plans.

use bundle_stage::{Answer, Plan, Refusal};
use bundles::explain::{Drawing, explain_plan};
use bundles::loose;

use crate::Done;
use crate::draw::{done, ends, located, tell};
use crate::files::{Given, called, load, of, out, read};
use crate::usage::Settings;

/// The plan of a job. A notice that stands for it is told.
pub fn plan(name: &str) -> Result<Done, String> {
    let loaded = load(name, None)?;
    let bytes = bundle_stage::plan(&loaded.job);
    out(&bytes)?;
    let Some(refusal) = refused_plan(&bytes) else {
        return Ok(Done::Well);
    };
    tell(&Answer::Refused(refusal), &loaded, None);
    Ok(Done::Refused)
}

/// A notice in a plan's place: a plan is longer.
fn refused_plan(bytes: &[u8]) -> Option<Refusal> {
    match bytes {
        [0, 0, 0, 2, 1, number] => Refusal::of_number(*number),
        _ => None,
    }
}

/// The bytes of the plan that a setting names.
pub fn plan_of(settings: Settings<'_>, job: &str) -> Result<Option<Vec<u8>>, String> {
    match settings.plan {
        Some("-") if job == "-" => {
            Err("a job and its plan cannot both come from standard input".to_string())
        }
        Some(plan) => plan_bytes(plan).map(Some),
        None => Ok(None),
    }
}

/// The bytes of a plan; of another file that is given in its place it is said what it is. What is wrong with a
/// plan itself the stage says.
fn plan_bytes(name: &str) -> Result<Vec<u8>, String> {
    let bytes = read(name)?;
    let given = Given::of(&bytes).filter(|_| Plan::from_bytes(&bytes).is_err());
    let of = match given {
        Some(Given::Text | Given::Job) => "it",
        Some(Given::Answer) => "its job",
        // A notice may stand for a plan.
        _ => return Ok(bytes),
    };
    let (file, what) = (called(name), given.map_or("", Given::name));
    Err(format!(
        "{file}: no plan, but {what}: `bundles plan` makes a plan of {of}"
    ))
}

/// A plan in words, and what comes of it on the job.
pub fn plan_explained(job: Option<&str>, settings: Settings<'_>) -> Result<Done, String> {
    let name = settings.plan.unwrap_or_default();
    let bytes = match job {
        Some(job) => plan_of(settings, job)?.unwrap_or_default(),
        None => plan_bytes(name)?,
    };
    if let Some(refusal) = refused_plan(&bytes) {
        out(format!("no plan: {refusal}\n").as_bytes())?;
        return Ok(Done::Refused);
    }
    let plan = Plan::from_bytes(&bytes)
        .map_err(|malformed| format!("{}: no plan: {malformed}", called(name)))?;
    let Some(job) = job else {
        return out(explain_plan(&plan, None).as_bytes());
    };
    let loaded = load(job, settings.names)?;
    let board = loaded.board()?;
    let answer = Answer::from_bytes(&bundle_stage::answer_from(&loaded.job, &bytes))
        .map_err(of(&loaded.name))?;
    let drawing = Drawing {
        board: &board,
        names: &loaded.names,
        own: bundle_stage::plan(&loaded.job) == bytes,
        answer: &answer,
    };
    let words = explain_plan(&plan, Some(&drawing))
        + &located(&answer, &loaded, Some(&bytes))
        + &loose::told(&ends(&answer, &loaded), &loaded.names, &loaded.lines);
    out(words.as_bytes())?;
    Ok(done(&answer))
}
