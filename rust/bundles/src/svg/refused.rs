//! The picture of a board that was refused.

use bundle_stage::{Attempt, Board, Place, Plan, Refusal, Refused, locate, locate_planned};

use crate::loose::on_board;
use crate::names::Names;

use super::facts::Facts;
use super::head::Head;
use super::palette::GREY;
use super::said::{first, not_joined, on_frames};
use super::scene::{Mark, Scene};
use super::tried::Tried;
use super::{Planned, picture, ports};

/// Above the limits of a job, so that only a refused one has more: its routes are then left out, as
/// the cost of drawing them apart grows with the square.
const MOST_LINES: usize = 4_096;

/// The board alone, in grey, with the words of its refusal, and over it the bundle that was refused, if
/// it was by the drawing: dashed, as it was tried. Routes that cannot be drawn apart are left out.
pub fn svg_refused(board: &Board, refusal: Refusal, names: &Names, title: &str) -> String {
    let job = board.to_bytes().ok();
    let refused = job.and_then(|job| locate(&job));
    shown(board, (refusal, refused), || board.attempt(), names, title)
}

/// The same of a board that was refused where it was drawn from a plan.
pub fn svg_refused_from(planned: &Planned<'_>, refusal: Refusal) -> String {
    let Planned {
        board,
        plan,
        names,
        title,
    } = *planned;
    let job = board.to_bytes().ok();
    let refused = job.and_then(|job| locate_planned(&job, plan));
    let attempt = || board.attempt_from(&Plan::from_bytes(plan).ok()?);
    shown(board, (refusal, refused), attempt, names, title)
}

fn shown(
    board: &Board,
    (refusal, refused): (Refusal, Option<Refused>),
    attempt: impl FnOnce() -> Option<Attempt>,
    names: &Names,
    title: &str,
) -> String {
    let mut scene = Scene::of_board(board);
    scene.names = names.clone();
    let mut warnings = vec![format!("No sheet: {refusal}")];
    // The board may not be the one that was refused so: then nothing is known of it.
    if let Some(refused) = refused.filter(|refused| refused.refusal == refusal) {
        warnings.extend(here(&refused, names));
        scene.tried = attempt().and_then(|attempt| Tried::of(board, &attempt));
    }
    scene.records.loose = on_board(board);
    warnings.extend(not_joined(&scene));
    let contacts = ports::contacts(&scene).collect::<Vec<_>>();
    let said = contacts.iter().map(|(_, words)| words.clone());
    warnings.extend(first(said.collect()));
    scene.marks = contacts.into_iter().map(Mark::no_joint).collect();
    if scene.lines().len() <= MOST_LINES {
        scene.facts = Facts::of(&scene);
        warnings.extend(on_frames(&scene));
    }
    let head = Head {
        title: title.to_string(),
        about: None,
        warnings,
    };
    drawn(scene, head)
}

fn drawn(mut scene: Scene, mut head: Head) -> String {
    if scene.lines().len() <= MOST_LINES
        && let Ok(svg) = picture(scene.clone(), &head, GREY, None)
    {
        return svg;
    }
    scene.routes.clear();
    scene.records.routes.clear();
    scene.records.loose.clear();
    scene.marks.clear();
    scene.facts = Facts::default();
    let without = "The routes are not shown: they cannot be drawn apart.";
    head.warnings.push(without.to_string());
    // Without lines nothing can touch.
    picture(scene, &head, GREY, None).unwrap_or_default()
}

/// What a refusal is about, in words.
fn here(refused: &Refused, names: &Names) -> Vec<String> {
    let words = |place: &Place| place.words(|item| names.item(item));
    first(refused.places.iter().map(words).collect())
}
