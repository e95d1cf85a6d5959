//! An answer in words.

use bundle_stage::{
    Answer, Board, Bundle, Crossing, DrawnBundle, Endpoint, Forecast, Id, Plan, Refused, Role,
    Sheet, Visits,
};

use crate::joints::Joints;
use crate::lines::Lines;
use crate::loose::{End, Loose, on_board, on_sheet};
use crate::names::Names;
use crate::signs::{is_isolate, isolated};
use crate::text::number;

/// A table of the bundles, the visits and the joints, or the refusal. A job's board adds what only
/// the job says: what was granted, a role that no spine shows, and whether joints are false.
pub fn explain(answer: &Answer, board: Option<&Board>, names: &Names) -> String {
    explain_from(answer, board, None, names)
}

/// The same of an answer that was drawn from a plan, if one is given, by the plan's bytes.
pub fn explain_from(
    answer: &Answer,
    board: Option<&Board>,
    plan: Option<&[u8]>,
    names: &Names,
) -> String {
    match answer {
        Answer::Refused(refusal) => format!("{refusal}\n"),
        Answer::Drawn(sheet) => drawn(sheet, board, plan, names),
    }
}

/// A line for each crossing of a bundle and a route: its place before the last shift, and the two.
pub fn explain_crossings(list: &[Crossing], names: &Names) -> String {
    let mut text = format!(
        "{} of bundles and routes; places before the last shift\n",
        counted(list.len(), "crossing")
    );
    if list.is_empty() {
        return text;
    }
    let named = |id: Id, name: Option<&str>| match name.map(isolated) {
        Some(name) => format!("{id} {name}"),
        None => id.to_string(),
    };
    let head = ["x", "y", "bundle", "edge"].map(from);
    let rows = list.iter().map(|one| {
        [
            number(one.point.x),
            number(one.point.y),
            named(one.bundle, names.bundle(one.bundle)),
            named(one.edge, names.edge(one.edge)),
        ]
    });
    text.push('\n');
    text.push_str(&table(&[head].into_iter().chain(rows).collect::<Vec<_>>()));
    text
}

/// A job that a plan is for, and what comes of the two.
pub struct Drawing<'a> {
    pub board: &'a Board,
    pub names: &'a Names,
    /// The plan is the one that is made for this job.
    pub own: bool,
    pub answer: &'a Answer,
}

/// A table of a plan's places, and its visits left. With its job: the bundles' ids and roles, where they
/// stand on the sheet that is drawn from it, what names say of them as in the explanation of an answer, and
/// whether the stage plans the job so today.
pub fn explain_plan(plan: &Plan, drawing: Option<&Drawing<'_>>) -> String {
    let mut text = format!("a plan for {}\n", counted(plan.places.len(), "bundle"));
    let fits = drawing.filter(|drawing| drawing.board.bundles.len() == plan.places.len());
    if !plan.places.is_empty() {
        text.push_str(&format!("\n{}", planned_table(plan, fits)));
    }
    let named = fits.map_or(String::new(), Drawing::named);
    if !named.is_empty() {
        text.push_str(&format!("\n{named}"));
    }
    text.push('\n');
    let granted = drawing.map(|drawing| drawing.board.grants.tap);
    text.push_str(&visits("tap visits", plan.tap_visits_left, granted));
    if let Some(drawing) = drawing {
        text.push_str(match drawing.own {
            true => "this is the plan that is made for this job\n",
            false => "another plan than the one that is made for this job\n",
        });
        match drawing.answer {
            Answer::Drawn(_) => text.push_str("drawn on this job: accepted\n"),
            Answer::Refused(refusal) => {
                text.push_str(&format!("drawn on this job: {refusal}\n"));
            }
        }
    }
    text
}

impl Drawing<'_> {
    /// What names say of the sheet that is drawn from the plan, or of the board where it is refused.
    fn named(&self) -> String {
        match self.answer {
            Answer::Drawn(sheet) => named(self.board, sheet, self.names),
            Answer::Refused(_) => said(self.board, self.names, &on_board(self.board)),
        }
    }
}

/// A line for each place; `fits` is the job that has as many bundles.
fn planned_table(plan: &Plan, fits: Option<&Drawing<'_>>) -> String {
    let planned = |x: &Option<f64>| x.map_or(from("none: rail"), number);
    let rows = plan.places.iter().enumerate();
    match fits {
        None => {
            let head = ["place", "planned x"].map(from);
            let rows = rows.map(|(place, x)| [(place + 1).to_string(), planned(x)]);
            table(&[head].into_iter().chain(rows).collect::<Vec<_>>())
        }
        Some(drawing) => {
            let head = ["bundle", "role", "planned x", "drawn", "name"].map(from);
            let rows = rows.map(|(place, x)| planned_row(drawing, place, planned(x)));
            table(&[head].into_iter().chain(rows).collect::<Vec<_>>())
        }
    }
}

fn planned_row(drawing: &Drawing<'_>, place: usize, planned: String) -> [String; 5] {
    let bundle = &drawing.board.bundles[place];
    let drawn = match drawing.answer {
        Answer::Drawn(sheet) => match sheet.bundles[place].interior {
            true => "interior",
            false => "rail",
        },
        Answer::Refused(_) => "",
    };
    let role = match bundle.role {
        Role::Input => "input",
        Role::Output => "output",
    };
    let name = drawing.names.bundle(bundle.id).map(isolated);
    [
        bundle.id.to_string(),
        from(role),
        planned,
        from(drawn),
        name.unwrap_or_default(),
    ]
}

/// A line for each place that a refusal is about: its lines in the text, if it has one, and what is
/// wrong there.
pub fn places(refused: &Refused, names: &Names, lines: &Lines) -> String {
    let line = |place| {
        let words = bundle_stage::Place::words(place, |item| names.item(item));
        format!("  {}{words}\n", lines.words(place))
    };
    refused.places.iter().map(line).collect()
}

/// From which ports to which a bundle's wires go: `5:11, 5:12 → 7:1`. A port that a member's line does not
/// reach has a cross behind it.
fn way(board: &Board, bundle: &Bundle, loose: &[Loose]) -> String {
    let member = |id| board.edges.iter().position(|edge| edge.id == id);
    let edges = bundle.members.iter().filter_map(|row| member(row.edge));
    let far = edges.map(|place| {
        let edge = &board.edges[place];
        let (at, end) = match bundle.role {
            Role::Input => (edge.target, End::Target),
            Role::Output => (edge.source, End::Source),
        };
        let mut loose = loose.iter().filter(|one| one.place == place);
        let open = loose.any(|one| one.opens(end));
        format!("{}{}", port(at), if open { " \u{d7}" } else { "" })
    });
    let mut ports: Vec<String> = Vec::new();
    for word in far {
        if !ports.contains(&word) {
            ports.push(word);
        }
    }
    if ports.is_empty() {
        return format!("{}, no members", port(bundle.endpoint));
    }
    let far = ports.join(", ");
    match bundle.role {
        Role::Input => format!("{} → {far}", port(bundle.endpoint)),
        Role::Output => format!("{far} → {}", port(bundle.endpoint)),
    }
}

fn port(at: Endpoint) -> String {
    format!("{}:{}", at.node, at.port)
}

/// What names say of a sheet: a line for each bundle, with its id, its name and its way; then the names of
/// the nodes, ports and edges that have one. Nothing where there is neither.
pub fn named(board: &Board, sheet: &Sheet, names: &Names) -> String {
    said(board, names, &on_sheet(board, sheet))
}

fn said(board: &Board, names: &Names, loose: &[Loose]) -> String {
    ways(board, names, loose) + &records(board, names)
}

/// A line for each bundle: its id, its name and its way.
fn ways(board: &Board, names: &Names, loose: &[Loose]) -> String {
    let mut text = String::new();
    for bundle in &board.bundles {
        let name = names.bundle(bundle.id).map(isolated);
        let name = name.map(|name| format!(" {name}"));
        let way = way(board, bundle, loose);
        text.push_str(&format!(
            "B{}{}: {way}\n",
            bundle.id,
            name.unwrap_or_default()
        ));
    }
    text
}

/// The names of nodes, each with those of its ports, and of edges.
fn records(board: &Board, names: &Names) -> String {
    let mut text = String::new();
    for node in &board.nodes {
        if let Some(name) = names.node(node.id).map(isolated) {
            text.push_str(&format!("node {}: {name}\n", node.id));
        }
        let ports = board.ports.iter().filter(|port| port.node == node.id);
        for port in ports {
            if let Some(name) = names.port(port.node, port.id).map(isolated) {
                text.push_str(&format!("  {}:{}: {name}\n", port.node, port.id));
            }
        }
    }
    for edge in &board.edges {
        if let Some(name) = names.edge(edge.id).map(isolated) {
            text.push_str(&format!("edge {}: {name}\n", edge.id));
        }
    }
    text
}

/// Where searches for places ran out of tap visits, what would be enough: a bundle may then stand at the rail
/// that has a place inside the sheet.
pub fn spent_words(board: &Board) -> Option<String> {
    if board.grants.tap >= Visits::MOST.tap {
        return None;
    }
    match board.forecast() {
        Forecast::Drawn(paid) if paid.tap > board.grants.tap => Some(format!(
            "the search for places ran out of tap visits; tap_visits {} would be enough",
            paid.tap
        )),
        _ => None,
    }
}

fn drawn(sheet: &Sheet, board: Option<&Board>, plan: Option<&[u8]>, names: &Names) -> String {
    let mut text = format!(
        "a sheet of {} by {}: {}, {}, {}\n",
        number(sheet.width),
        number(sheet.height),
        counted(sheet.nodes.len(), "node"),
        counted(sheet.routes.len(), "edge"),
        counted(sheet.bundles.len(), "bundle"),
    );
    if !sheet.bundles.is_empty() {
        let mut rows = vec![["bundle", "role", "place", "collector x", "y", "taps"].map(from)];
        rows.extend(sheet.bundles.iter().map(|bundle| row(bundle, board)));
        text.push('\n');
        text.push_str(&table(&rows));
    }
    let named = board.map_or(String::new(), |board| named(board, sheet, names));
    if !named.is_empty() {
        text.push_str(&format!("\n{named}"));
    }
    text.push('\n');
    text.push_str(&paid(sheet, board, plan));
    text.push_str(&match (board, plan) {
        (Some(board), Some(plan)) => Joints::of_plan(board, sheet, plan).explained(),
        (Some(board), None) => Joints::of(board, sheet).explained(),
        (None, _) => "joints: not looked at, as that takes the job\n".to_string(),
    });
    text
}

/// The visits that are left, and what is known of those paid.
fn paid(sheet: &Sheet, board: Option<&Board>, plan: Option<&[u8]>) -> String {
    let mut text = String::new();
    let left = sheet.visits_left;
    let granted = board.map(|board| board.grants);
    text.push_str(&visits(
        "tap visits",
        left.tap,
        granted.map(|grant| grant.tap),
    ));
    // From a plan nothing is searched.
    let searched = board.filter(|_| plan.is_none());
    if let Some(words) = searched.and_then(spent_words) {
        text.push_str(&format!("  {words}\n"));
    }
    text.push_str(&visits(
        "geometry visits",
        left.geometry,
        granted.map(|grant| grant.geometry),
    ));
    text
}

fn from(word: &str) -> String {
    word.to_string()
}

pub fn counted(count: usize, what: &str) -> String {
    match count {
        1 => format!("1 {what}"),
        _ => format!("{count} {what}s"),
    }
}

fn row(bundle: &DrawnBundle, board: Option<&Board>) -> [String; 6] {
    let said = board.and_then(|board| board.bundle(bundle.id));
    let role = said.map(|said| said.role).or(bundle.role());
    let (start, end) = (bundle.collector.start, bundle.collector.end);
    [
        bundle.id.to_string(),
        from(match role {
            Some(Role::Input) => "input",
            Some(Role::Output) => "output",
            None => "not shown",
        }),
        from(if bundle.interior { "interior" } else { "rail" }),
        number(start.x),
        format!("{} to {}", number(start.y), number(end.y)),
        bundle.taps.len().to_string(),
    ]
}

/// Columns as wide as their longest word, two spaces between them.
fn table<const COLUMNS: usize>(rows: &[[String; COLUMNS]]) -> String {
    let width = |column: usize| {
        let lengths = rows.iter().map(|row| columns(&row[column]));
        lengths.max().unwrap_or(0)
    };
    let widths: [usize; COLUMNS] = std::array::from_fn(width);
    let line = |row: &[String; COLUMNS]| {
        let words = row.iter().zip(widths);
        let padded = words.map(|(word, width)| {
            let gap = width - columns(word);
            format!("{word}{:gap$}", "")
        });
        let line = padded.collect::<Vec<_>>().join("  ");
        format!("{}\n", line.trim_end())
    };
    rows.iter().map(line).collect()
}

/// How many columns a word takes: the signs around a name take none.
fn columns(word: &str) -> usize {
    word.chars().filter(|sign| !is_isolate(*sign)).count()
}

fn visits(what: &str, left: u32, granted: Option<u32>) -> String {
    match granted {
        Some(granted) => match granted.checked_sub(left) {
            Some(paid) => format!("{what}: {granted} granted, {paid} paid, {left} left\n"),
            // Of a plan that is refused for it.
            None => format!("{what}: {left} left, more than the {granted} that are granted\n"),
        },
        None => format!("{what}: {left} left\n"),
    }
}
