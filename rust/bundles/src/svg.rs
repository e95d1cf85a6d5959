//! A sheet as a picture for somebody who follows its wires.
//!
//! The picture is an SVG page, A4 where everything that does not join can be drawn apart on it, else as
//! large as that needs. Lines and letters have their sizes in millimetres of the page, whatever the
//! sheet's lengths. A joint is a dot; where lines cross without one, the one goes
//! over the other in an arch. Routes that lie over each other are drawn side by side.

mod beside;
mod bodies;
mod crossings;
mod drawn;
mod ends;
mod even;
mod facts;
mod field;
mod frames;
mod head;
mod labels;
mod lanes;
mod legend;
mod loose;
mod marking;
mod page;
mod palette;
mod paths;
mod pens;
mod ports;
mod records;
mod refused;
mod rings;
mod said;
mod samples;
mod scene;
mod shapes;
mod shifts;
mod spans;
mod stretch;
mod stroke;
mod taken;
mod tried;
mod tries;
mod unnamed;
mod walk;
mod white;
mod wishes;
mod without;
mod xml;

use bundle_stage::{Board, Point, Sheet};

use crate::explain::{counted, spent_words};
use crate::joints::Joints;
use crate::loose::on_sheet;
use crate::names::Names;
use crate::text::number;
pub(crate) use xml::escaped;

use facts::Facts;
use field::field;
use head::Head;
use labels::{Labels, labels};
use legend::Legend;
use loose::Crosses;
use page::{MARGIN, Page};
use palette::BLACK;
use pens::Pens;
pub use refused::{svg_refused, svg_refused_from};
use said::{capital, not_joined, on_frames, warnings};
use scene::Scene;
use shapes::{lines, marks, nodes, square};
use stroke::Stroke;
use taken::picture;
use unnamed::in_words;
pub use without::Unclear;
use xml::mm;

/// A board that was drawn from a plan, by the plan's bytes, and what its picture has beside it.
#[derive(Clone, Copy, Debug)]
pub struct Planned<'a> {
    pub board: &'a Board,
    pub plan: &'a [u8],
    pub names: &'a Names,
    pub title: &'a str,
}

/// The finished sheet. `board` is the one that it is the answer to. Where it is the
/// stage's own and has a list of crossings, an arch or a gap of a bundle and a route is a crossing of the
/// list, and each crossing of the list is shown by an arch or a gap, counted for each bundle and route.
///
/// # Errors
///
/// Where on no paper all that does not join can be drawn apart.
pub fn svg(board: &Board, sheet: &Sheet, names: &Names, title: &str) -> Result<String, Unclear> {
    sheet_of(board, sheet, &Joints::of(board, sheet), names, title)
}

/// The same of a sheet that was drawn from a plan: the list of crossings is then that of the plan's sheet.
///
/// # Errors
///
/// Where on no paper all that does not join can be drawn apart.
pub fn svg_from(planned: &Planned<'_>, sheet: &Sheet) -> Result<String, Unclear> {
    let Planned { board, names, .. } = planned;
    let joints = Joints::of_plan(board, sheet, planned.plan);
    sheet_of(board, sheet, &joints, names, planned.title)
}

fn sheet_of(
    board: &Board,
    sheet: &Sheet,
    joints: &Joints,
    names: &Names,
    title: &str,
) -> Result<String, Unclear> {
    let mut scene = Scene::of_sheet(board, sheet);
    scene.names = names.clone();
    // What meets on the sheet itself meets on every paper.
    let met = ports::contacts(&scene).next().map(|(_, what)| what);
    scene.mark(joints.found());
    scene.list(joints.crossings());
    scene.records.loose = on_sheet(board, sheet);
    let mut warnings = warnings(joints);
    warnings.extend(not_joined(&scene));
    scene.facts = Facts::of(&scene);
    warnings.extend(on_frames(&scene));
    let spent = joints.searched().then(|| spent_words(board)).flatten();
    warnings.extend(spent.map(|words| capital(format!("{words}."))));
    let head = Head {
        title: title.to_string(),
        about: Some(about(board, sheet)),
        warnings,
    };
    let drawn = match met {
        Some(what) => Err(Unclear::of(what)),
        None => picture(scene, &head, BLACK, Some(joints.line())),
    };
    drawn.map_err(|unclear| unclear.below(&head))
}

/// What stands below the title of a sheet.
fn about(board: &Board, sheet: &Sheet) -> String {
    let crossings = if board.flags.permit_crossings {
        "permitted"
    } else {
        "forbidden"
    };
    format!(
        "A sheet of {} by {}: {}, {}, {}. Crossings of bundles are {crossings}. Visits left: {} tap, \
         {} geometry.",
        number(sheet.width),
        number(sheet.height),
        counted(sheet.nodes.len(), "node"),
        counted(sheet.routes.len(), "edge"),
        counted(sheet.bundles.len(), "bundle"),
        sheet.visits_left.tap,
        sheet.visits_left.geometry,
    )
}

/// All of a page.
fn page_of(
    scene: &Scene,
    (strokes, pens): (&[Stroke], &Pens),
    (head, legend): (&Head, &Legend),
    page: &Page,
    ink: &str,
) -> (String, Labels) {
    let corner = |x: f64, y: f64| Point { x, y };
    let frame = (
        corner(MARGIN / 2.0, page.top - 6.0),
        corner(page.width - MARGIN / 2.0, page.bottom + 1.0),
    );
    let mut field = field(scene, strokes, frame);
    let mut crosses = Crosses::of(scene, strokes, &mut field);
    let labels = labels(scene, strokes, pens, &mut field);
    crosses.say(&mut field);
    let inner = page.width - 2.0 * MARGIN;
    let mut svg = opened(page, &head.title);
    svg.push_str(&head.draw(corner(MARGIN, MARGIN), inner));
    svg.push_str(&nodes(scene, pens, ink));
    let squares = scene.ports.iter().map(square);
    let covered = squares.chain(labels.frames.iter().copied());
    let covered = covered.collect::<Vec<_>>();
    svg.push_str(&lines(scene, (strokes, pens), &covered, ink));
    svg.push_str(&shapes::ports(scene, ink));
    svg.push_str("<g class=\"ids\" text-anchor=\"middle\">\n");
    svg.push_str(&labels.svg);
    svg.push_str("</g>\n");
    svg.push_str(&crosses.draw());
    svg.push_str(&marks(scene, page.width));
    if let Some(tried) = &scene.tried {
        svg.push_str(&tried.draw(scene, strokes, frame));
    }
    let unnamed = in_words(&legend.unlisted(&labels.unnamed));
    let without = [("ids", &labels.left_out), ("names", &unnamed)];
    let note = note(scene, (&without, crosses.left_out), page);
    svg.push_str(&legend.draw(corner(MARGIN, page.bottom), inner, &note));
    (svg + "</svg>\n", labels)
}

/// The start of the file, up to the white of the page. A printer is told its paper, or it would fit the page to
/// another one.
fn opened(page: &Page, title: &str) -> String {
    let (width, height) = (mm(page.width), mm(page.height));
    let [across, down] = page.paper().map(mm);
    format!(
        "<svg xmlns=\"http://www.w3.org/2000/svg\" width=\"{width}mm\" height=\"{height}mm\" \
         viewBox=\"0 0 {width} {height}\" font-family=\"Helvetica, Arial, 'Liberation Sans', \
         'DejaVu Sans', sans-serif\" fill=\"{BLACK}\">\n<title>{}</title>\n\
         <style>@page {{ size: {across}mm {down}mm; margin: 0 }}</style>\n\
         <rect width=\"{width}\" height=\"{height}\" fill=\"white\"/>\n",
        escaped(title)
    )
}

/// The order of all places is kept, and no length.
const NOT_TO_SCALE: &str =
    "Not to scale: the sheet is stretched where lines are near to each other.";

/// The last line of the page.
fn note(
    scene: &Scene,
    (without, crosses): (&[(&str, &Vec<String>)], usize),
    page: &Page,
) -> String {
    let [across, down] = page.scale.map(|scale| number_of(1.0 / scale));
    let mut note = if !page.is_to_scale() {
        NOT_TO_SCALE.to_string()
    } else if across == down {
        format!("1 mm is {across} of the sheet.")
    } else {
        format!("1 mm is {across} of the sheet across, {down} down.")
    };
    for (what, of) in without {
        if !of.is_empty() {
            note.push_str(&format!(" No room for the {what} of {}.", of.join(", ")));
        }
    }
    if crosses > 0 {
        let count = counted(crosses, "end");
        note.push_str(&format!(
            " No room for a cross at {count} of routes that are not at their ports."
        ));
    }
    if scene.left_out > 0 {
        let count = counted(scene.left_out, "part");
        note.push_str(&format!(
            " Not shown: {count} with numbers that are no places."
        ));
    }
    note
}

/// Three digits are enough for a scale.
fn number_of(scale: f64) -> String {
    let digits = (2.0 - scale.abs().log10().floor()).clamp(0.0, 12.0) as usize;
    let text = format!("{scale:.digits$}");
    if text.contains('.') {
        text.trim_end_matches('0').trim_end_matches('.').to_string()
    } else {
        text
    }
}
