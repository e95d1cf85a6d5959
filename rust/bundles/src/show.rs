//! The tool's commands that show what was drawn: in words, as a picture, as a page.

use std::path::Path;

use bundle_stage::{Answer, Board, Sheet};
use bundles::explain::{explain, explain_from};
use bundles::html::{html, html_from, html_refused, html_refused_from, html_unclear};
use bundles::loose;
use bundles::names::Names;
use bundles::svg::{Planned, svg, svg_from, svg_refused, svg_refused_from};

use crate::Done;
use crate::draw::{done, drawn_from, located, tell, tell_loose, tell_spent};
use crate::files::{Loaded, answer, load, of, out};
use crate::own;
use crate::plans::plan_of;
use crate::usage::Settings;

pub fn explained(name: &str, job: Option<&str>, settings: Settings<'_>) -> Result<Done, String> {
    let Some(job) = job else {
        let answer = answer(name)?;
        out(explain(&answer, None, &Names::default()).as_bytes())?;
        return Ok(done(&answer));
    };
    let (loaded, answer, plan) = held(job, name, settings)?;
    let plan = plan.as_deref();
    let board = match &answer {
        Answer::Drawn(_) => Some(loaded.board()?),
        Answer::Refused(_) => None,
    };
    let mut words = explain_from(&answer, board.as_ref(), plan, &loaded.names);
    if let (Answer::Drawn(sheet), Some(board)) = (&answer, &board) {
        words.push_str(&ends(board, sheet, &loaded));
    }
    words.push_str(&located(&answer, &loaded, plan));
    out(words.as_bytes())?;
    Ok(done(&answer))
}

/// Whether the ends of all routes are at their ports, on the sheet in the answer.
fn ends(board: &Board, sheet: &Sheet, loaded: &Loaded) -> String {
    let told = loose::told(&loose::on_sheet(board, sheet), &loaded.names, &loaded.lines);
    if told.is_empty() {
        "ends of routes: all are at their ports\n".to_string()
    } else {
        told
    }
}

/// A job, its answer, and the plan that it was drawn from, if one is given.
fn held(
    job: &str,
    name: &str,
    settings: Settings<'_>,
) -> Result<(Loaded, Answer, Option<Vec<u8>>), String> {
    if settings.plan == Some("-") && name == "-" {
        return Err("a plan and an answer cannot both come from standard input".to_string());
    }
    let plan = plan_of(settings, job)?;
    let answer = answer(name)?;
    let loaded = load(job, settings.names)?;
    own::check(&loaded, (name, &answer), plan.as_deref())
        .map_err(|words| loaded.no_job().unwrap_or(words))?;
    Ok((loaded, answer, plan))
}

pub fn picture_of(job: &str, name: &str, settings: Settings<'_>) -> Result<Done, String> {
    let (loaded, answer, plan) = held(job, name, settings)?;
    shown(&loaded, &answer, plan.as_deref(), settings)
}

/// Packs where that is needed, draws, and shows.
pub fn picture(name: &str, settings: Settings<'_>) -> Result<Done, String> {
    let plan = plan_of(settings, name)?;
    let loaded = load(name, settings.names)?;
    let (_, answer) = drawn_from(&loaded, plan.as_deref())?;
    tell(&answer, &loaded, plan.as_deref());
    tell_loose(&answer, &loaded);
    tell_spent(&answer, &loaded, plan.as_deref());
    shown(&loaded, &answer, plan.as_deref(), settings)
}

fn shown(
    loaded: &Loaded,
    answer: &Answer,
    plan: Option<&[u8]>,
    settings: Settings<'_>,
) -> Result<Done, String> {
    let by_file = title(&loaded.name);
    let title = settings.title.unwrap_or(&by_file);
    let text = match answer {
        Answer::Drawn(sheet) => {
            let board = loaded.board()?;
            let names = &loaded.names;
            let picture = match plan {
                Some(plan) => svg_from(&planned(&board, plan, (names, title)), sheet),
                None => svg(&board, sheet, names, title),
            };
            picture.map_err(of(&loaded.name))?
        }
        // The refusal may be that the bytes are no job; then there is no board to show.
        Answer::Refused(refusal) => {
            let board = loaded.board().unwrap_or_default();
            let names = &loaded.names;
            match plan {
                Some(plan) => svg_refused_from(&planned(&board, plan, (names, title)), *refusal),
                None => svg_refused(&board, *refusal, names, title),
            }
        }
    };
    out(text.as_bytes())?;
    Ok(done(answer))
}

/// The page of a board, from its text or its job. Where no picture would be clear it has the words that
/// say so, and the command fails as `svg` does.
pub fn followed(name: &str, settings: Settings<'_>) -> Result<Done, String> {
    let plan = plan_of(settings, name)?;
    let loaded = load(name, settings.names)?;
    let by_file = title(&loaded.name);
    let title = settings.title.unwrap_or(&by_file);
    let names = &loaded.names;
    let (_, answer) = drawn_from(&loaded, plan.as_deref())?;
    tell(&answer, &loaded, plan.as_deref());
    tell_loose(&answer, &loaded);
    tell_spent(&answer, &loaded, plan.as_deref());
    let page = match (&answer, plan.as_deref()) {
        (Answer::Drawn(sheet), plan) => {
            let board = loaded.board()?;
            let page = match plan {
                Some(plan) => html_from(&planned(&board, plan, (names, title)), sheet),
                None => html(&board, sheet, names, title),
            };
            if let Err(unclear) = &page {
                out(html_unclear(unclear, (&board, sheet), names, title).as_bytes())?;
            }
            page.map_err(of(&loaded.name))?
        }
        // The refusal may be that the bytes are no job; then there is no board to show.
        (Answer::Refused(refusal), Some(plan)) => {
            let board = loaded.board().unwrap_or_default();
            html_refused_from(&planned(&board, plan, (names, title)), *refusal)
        }
        (Answer::Refused(refusal), None) => {
            let board = loaded.board().unwrap_or_default();
            html_refused(&board, *refusal, names, title)
        }
    };
    out(page.as_bytes())?;
    Ok(done(&answer))
}

fn planned<'a>(
    board: &'a Board,
    plan: &'a [u8],
    (names, title): (&'a Names, &'a str),
) -> Planned<'a> {
    Planned {
        board,
        plan,
        names,
        title,
    }
}

/// A picture's title where none is given: the job's name without folder and end.
fn title(job: &str) -> String {
    let stem = Path::new(job).file_stem();
    match stem.and_then(|stem| stem.to_str()) {
        Some(stem) if job != "-" => stem.to_string(),
        _ => "sheet".to_string(),
    }
}
