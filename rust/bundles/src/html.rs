//! A page to follow a bundle on: the picture in one file that needs nothing else, in which a chosen
//! bundle, route, node or port is lifted with its whole way and told in words.

mod told;
mod ways;

use std::collections::BTreeSet;
use std::fmt::Write;

use bundle_stage::{Board, Refusal, Sheet};

use crate::names::Names;
use crate::svg::{Planned, Unclear, escaped, svg, svg_from, svg_refused, svg_refused_from};
pub use ways::{Way, ways};

const STYLE: &str = include_str!("html/page.css");
const SCRIPT: &str = concat!(include_str!("html/ink.js"), include_str!("html/page.js"));

/// The page of a finished sheet.
///
/// # Errors
///
/// Where no picture would be clear; [`html_unclear`] has a page for that.
pub fn html(board: &Board, sheet: &Sheet, names: &Names, title: &str) -> Result<String, Unclear> {
    let picture = svg(board, sheet, names, title)?;
    Ok(page(&picture, &ways(board, Some(sheet), names), title))
}

/// The same of a sheet that was drawn from a plan.
///
/// # Errors
///
/// Where no picture would be clear.
pub fn html_from(planned: &Planned<'_>, sheet: &Sheet) -> Result<String, Unclear> {
    let picture = svg_from(planned, sheet)?;
    let ways = ways(planned.board, Some(sheet), planned.names);
    Ok(page(&picture, &ways, planned.title))
}

/// The page of a finished sheet of which no picture would be clear: its title, the words that say so, and those
/// that a picture would have below its title. What it has can be searched all the same, and its ways are told.
pub fn html_unclear(
    unclear: &Unclear,
    (board, sheet): (&Board, &Sheet),
    names: &Names,
    title: &str,
) -> String {
    let line = |class: &str, words: &str| format!("<p class=\"{class}\">{}</p>\n", escaped(words));
    let mut words = format!("<h1>{}</h1>\n", escaped(title));
    if let Some(about) = unclear.about() {
        words.push_str(&line("about", about));
    }
    words.push_str(&line("warning", &unclear.to_string()));
    for warning in unclear.warnings() {
        words.push_str(&line("warning", warning));
    }
    let words = format!("<div class=\"words\">\n{words}</div>\n");
    page(&words, &ways(board, Some(sheet), names), title)
}

/// The page of a board that was refused: its nodes, ports and routes as they were given, and its bundles by
/// their members.
pub fn html_refused(board: &Board, refusal: Refusal, names: &Names, title: &str) -> String {
    let picture = svg_refused(board, refusal, names, title);
    page(&picture, &ways_refused(board, names, &picture), title)
}

/// The same of a board that was refused where it was drawn from a plan.
pub fn html_refused_from(planned: &Planned<'_>, refusal: Refusal) -> String {
    let picture = svg_refused_from(planned, refusal);
    let ways = ways_refused(planned.board, planned.names, &picture);
    page(&picture, &ways, planned.title)
}

/// What could not be drawn has no way on the page; a bundle has that of its members.
fn ways_refused(board: &Board, names: &Names, picture: &str) -> Vec<Way> {
    let ids = picture.split(" id=\"").skip(1);
    let ids = ids.filter_map(|rest| rest.split('"').next());
    let ids = ids.collect::<BTreeSet<_>>();
    let mut ways = ways(board, None, names);
    let bundles = board.bundles.len();
    let mut place = 0..;
    ways.retain(|way| place.next() < Some(bundles) || ids.contains(&way.key[..]));
    ways
}

fn page(picture: &str, ways: &[Way], title: &str) -> String {
    let title = escaped(title);
    format!(
        "<!DOCTYPE html>\n<html lang=\"en\">\n<head>\n<meta charset=\"utf-8\">\n\
         <meta name=\"viewport\" content=\"width=device-width, initial-scale=1\">\n\
         <title>{title}</title>\n<style>\n{STYLE}</style>\n</head>\n<body>\n{BAR}\
         <main id=\"sheet\">\n{picture}</main>\n<script>\nconst ways = {};\n{SCRIPT}</script>\n\
         </body>\n</html>\n",
        data(ways)
    )
}

const BAR: &str = "<header>\n<form id=\"search\" role=\"search\">\n\
<label for=\"find\">Find</label> <input id=\"find\" type=\"search\" autocomplete=\"off\" tabindex=\"1\" \
placeholder=\"name or id: bundle 3, node 5, 5:11\">\n\
<button type=\"button\" id=\"larger\" tabindex=\"1\" aria-label=\"larger\">+</button>\n\
<button type=\"button\" id=\"smaller\" tabindex=\"1\" aria-label=\"smaller\">\u{2212}</button>\n\
<button type=\"button\" id=\"whole\" tabindex=\"1\">whole sheet</button>\n\
<button type=\"button\" id=\"none\" tabindex=\"1\">show all</button>\n</form>\n\
<div id=\"found\"></div>\n<div id=\"told\" role=\"status\" aria-live=\"polite\" tabindex=\"1\"></div>\n</header>\n";

/// The ways as a list for the script.
fn data(ways: &[Way]) -> String {
    let mut text = String::from("[\n");
    for way in ways {
        let list = |name: &str, list: &[String]| {
            let quoted = list.iter().map(|text| quoted(text)).collect::<Vec<_>>();
            format!("{name}:[{}]", quoted.join(","))
        };
        let _ = writeln!(
            text,
            "{{key:{},name:{},{},{},{},{},{},{}}},",
            quoted(&way.key),
            quoted(&way.name),
            list("terms", &way.terms),
            list("words", &way.words),
            list("notes", &way.notes),
            list("lifted", &way.lifted),
            list("stretches", &way.stretches),
            list("parts", &way.parts)
        );
    }
    text + "]"
}

/// A string of the script, in which nothing can end it or the script.
fn quoted(text: &str) -> String {
    let mut to = String::from("\"");
    for letter in text.chars() {
        match letter {
            '"' | '\\' | '<' | '>' | '&' | '\u{2028}' | '\u{2029}' => {
                let _ = write!(to, "\\u{:04x}", u32::from(letter));
            }
            _ if letter.is_control() => to.push(' '),
            _ => to.push(letter),
        }
    }
    to + "\""
}
