//! The tool's commands for what is printed beside an answer.

use bundle_stage::{Answer, Buffers, Crossing, Wanted, Written};
use bundles::explain::{explain_crossings, named};

use crate::Done;
use crate::draw::{done, tell};
use crate::files::{Loaded, load, of, out};
use crate::plans::plan_of;
use crate::usage::Settings;

/// The crossings of a board's bundles and routes, from its text or its job. A refusal is told, and there
/// is no list.
pub fn crossings(name: &str, settings: Settings<'_>) -> Result<Done, String> {
    written(
        name,
        settings,
        |of| of.with_crossings(),
        |written, loaded| {
            let Some(list) = written.crossings else {
                return Ok(Vec::new());
            };
            let list = Crossing::list_from_bytes(list).map_err(of(&loaded.name))?;
            Ok(explain_crossings(&list, &loaded.names).into_bytes())
        },
    )
}

/// The bundle page of a board, from its text or its job, and behind it the names, if they are asked for. A
/// refusal is told, and there is no page.
pub fn page(name: &str, settings: Settings<'_>) -> Result<Done, String> {
    written(
        name,
        settings,
        |of| of.with_page(),
        |written, loaded| {
            let mut page = written.page.unwrap_or_default().to_vec();
            if settings.with_names && written.page.is_some() {
                page.extend(names_behind(written, loaded)?);
            }
            Ok(page)
        },
    )
}

/// What stands behind a page, one blank line between the two: the names, and what each bundle leads to.
fn names_behind(written: &Written<'_>, loaded: &Loaded) -> Result<Vec<u8>, String> {
    match Answer::from_bytes(written.answer).map_err(of(&loaded.name))? {
        Answer::Drawn(sheet) => {
            let names = named(&loaded.board()?, &sheet, &loaded.names);
            Ok(format!("\n{names}").into_bytes())
        }
        Answer::Refused(_) => Ok(Vec::new()),
    }
}

/// What is wanted, as bytes of what was written, on standard output; and the answer told.
fn written(
    name: &str,
    settings: Settings<'_>,
    wanted: impl for<'a> FnOnce(Wanted<'a>) -> Wanted<'a>,
    bytes: impl FnOnce(&Written<'_>, &Loaded) -> Result<Vec<u8>, String>,
) -> Result<Done, String> {
    let plan = plan_of(settings, name)?;
    let loaded = load(name, settings.names)?;
    let mut buffers = Box::new(Buffers::default());
    let mut wanted = wanted(Wanted::default());
    wanted.plan = plan.as_deref();
    let written = buffers.write(&loaded.job, &wanted);
    let answer = Answer::from_bytes(written.answer).map_err(of(&loaded.name))?;
    out(&bytes(&written, &loaded)?)?;
    tell(&answer, &loaded, plan.as_deref());
    Ok(done(&answer))
}
