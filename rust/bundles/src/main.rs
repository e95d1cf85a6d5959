//! The tool `bundles`: `bundles help` says what it does.

#![forbid(unsafe_code)]

mod draw;
mod files;
mod help;
mod lists;
mod own;
mod plans;
mod show;
mod usage;

use std::process::ExitCode;

use bundles::names::Names;
use bundles::{loose, text};

use draw::{draw_all, draw_one};
use files::{called, load_up_to, of, out, read};
use lists::{crossings, page};
use plans::{plan, plan_explained};
use show::{explained, followed, picture, picture_of};
use usage::{Settings, settings, wrong};

/// How a command ends where nothing failed.
enum Done {
    Well,
    Refused,
    /// One of several jobs could not be read or written; it was said.
    Unreadable,
}

fn main() -> ExitCode {
    let done = words().and_then(|words| {
        let words = words.iter().map(String::as_str).collect::<Vec<_>>();
        command(&words)
    });
    match done {
        Ok(Done::Well) => ExitCode::SUCCESS,
        Ok(Done::Refused) => ExitCode::from(1),
        Ok(Done::Unreadable) => ExitCode::from(2),
        Err(message) => {
            eprintln!("bundles: {message}");
            ExitCode::from(2)
        }
    }
}

fn words() -> Result<Vec<String>, String> {
    let words = std::env::args_os().skip(1);
    words
        .map(|word| word.into_string())
        .collect::<Result<_, _>>()
        .map_err(|word| format!("{word:?} is no text (UTF-8)"))
}

fn command(words: &[&str]) -> Result<Done, String> {
    if let Some(text) = usage::help(words) {
        return out(text.as_bytes());
    }
    let (words, settings) = settings(words)?;
    match words[..] {
        ["pack"] => pack("-"),
        ["pack", board] => pack(board),
        ["names", board] => names(board),
        ["unpack"] => unpack("-", settings),
        ["unpack", job] => unpack(job, settings),
        ["plan"] => plan("-"),
        ["plan", job] => plan(job),
        ["draw", ref jobs @ ..] => drawn(jobs, settings),
        ["explain"] if settings.plan.is_some() => plan_explained(None, settings),
        ["explain", job] if settings.plan.is_some() => plan_explained(Some(job), settings),
        ["explain"] => explained("-", None, settings),
        ["explain", answer] => explained(answer, None, settings),
        ["explain", "-", "-"] | ["svg", "-", "-"] => {
            Err("a job and its answer cannot both come from standard input".to_string())
        }
        ["explain", answer, job] => explained(answer, Some(job), settings),
        ["svg", job, answer] => picture_of(job, answer, settings),
        ["picture", board] => picture(board, settings),
        ["html", board] => followed(board, settings),
        ["crossings"] => crossings("-", settings),
        ["crossings", board] => crossings(board, settings),
        ["page"] => page("-", settings),
        ["page", board] => page(board, settings),
        ["help"] => out(help::all().as_bytes()),
        ["version" | "--version" | "-V"] => {
            out(format!("bundles {}\n", env!("CARGO_PKG_VERSION")).as_bytes())
        }
        ["help", name] => help_of(name),
        [] => Err("no command; see `bundles help`".to_string()),
        [name, ..] => Err(wrong(name)),
    }
}

fn help_of(name: &str) -> Result<Done, String> {
    let text = help::one(name).ok_or(format!("no command `{name}`; see `bundles help`"))?;
    out(text.as_bytes())
}

fn drawn(jobs: &[&str], settings: Settings<'_>) -> Result<Done, String> {
    match *jobs {
        [] => draw_one("-", settings),
        [job] => draw_one(job, settings),
        _ if settings.plan.is_some() => {
            Err("a plan is of one job: several cannot be drawn from it".to_string())
        }
        _ if settings.names.is_some() => {
            Err("names are of one job: several cannot be told by them".to_string())
        }
        _ => Ok(draw_all(jobs)),
    }
}

fn pack(name: &str) -> Result<Done, String> {
    let text = text::read_all(&read(name)?).map_err(of(name))?;
    for off in text.lines.off_grid(&text.board) {
        eprintln!("{}: {off}", called(name));
    }
    for one in loose::on_board(&text.board) {
        let (line, words) = (one.line(&text.lines), one.words(&text.names));
        eprintln!("{}: {line}{words}", called(name));
    }
    out(&text.board.to_bytes().map_err(of(name))?)
}

fn names(name: &str) -> Result<Done, String> {
    let names = Names::read(&read(name)?).map_err(of(name))?;
    out(names.write().as_bytes())
}

fn unpack(name: &str, settings: Settings<'_>) -> Result<Done, String> {
    // The stage looks at no more than its limit; a text can say all.
    let loaded = load_up_to(usize::MAX, name, settings.names)?;
    out(text::write_named(&loaded.board()?, &loaded.names).as_bytes())
}
