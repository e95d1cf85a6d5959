//! The tool's commands that draw jobs.

use std::collections::{HashMap, HashSet};
use std::fs;
use std::path::{Path, PathBuf};

use bundle_stage::{Answer, Refusal, Wanted, locate_with};
use bundles::explain::{counted, places, spent_words};
use bundles::loose::{self, Loose};

use crate::Done;
use crate::files::{Given, Loaded, called, load, of, out};
use crate::plans::plan_of;
use crate::usage::Settings;

pub fn draw_one(name: &str, settings: Settings<'_>) -> Result<Done, String> {
    let plan = plan_of(settings, name)?;
    let loaded = load(name, settings.names)?;
    let (bytes, answer) = drawn_from(&loaded, plan.as_deref())?;
    out(&bytes)?;
    tell(&answer, &loaded, plan.as_deref());
    tell_loose(&answer, &loaded);
    tell_spent(&answer, &loaded, plan.as_deref());
    Ok(done(&answer))
}

/// Says a refusal on standard error, and what it is about.
pub fn tell(answer: &Answer, loaded: &Loaded, plan: Option<&[u8]>) {
    if let Answer::Refused(refusal) = answer {
        eprintln!("{}: {refusal}", called(&loaded.name));
        eprint!("{}", located(answer, loaded, plan));
    }
}

/// Says on standard error which ends of routes a drawing leaves off their ports.
pub fn tell_loose(answer: &Answer, loaded: &Loaded) {
    let told = not_joined(answer, loaded);
    if !told.is_empty() {
        eprint!("{}: {told}", called(&loaded.name));
    }
}

/// Says on standard error that a search ran out of visits, where it did.
pub fn tell_spent(answer: &Answer, loaded: &Loaded, plan: Option<&[u8]>) {
    let told = spent(answer, loaded, plan);
    if !told.is_empty() {
        eprint!("{}: {told}", called(&loaded.name));
    }
}

/// The same in words; nothing where none did. From a plan nothing is searched.
fn spent(answer: &Answer, loaded: &Loaded, plan: Option<&[u8]>) -> String {
    let board = match (answer, plan) {
        (Answer::Drawn(_), None) => loaded.board().ok(),
        _ => None,
    };
    let words = board.and_then(|board| spent_words(&board));
    words.map_or(String::new(), |words| format!("{words}\n"))
}

/// The same in words, in the board's coordinates; nothing where all are at their ports.
fn not_joined(answer: &Answer, loaded: &Loaded) -> String {
    loose::told_shortly(&ends(answer, loaded), &loaded.names, &loaded.lines)
}

/// The ends of routes that a drawing leaves off their ports.
pub fn ends(answer: &Answer, loaded: &Loaded) -> Vec<Loose> {
    match (answer, loaded.board()) {
        (Answer::Drawn(_), Ok(board)) => loose::on_board(&board),
        _ => Vec::new(),
    }
}

/// Draws every job that can be read. One that cannot is said, and the others are drawn; so is one whose answer
/// would replace a job that is given, or the answer to another.
pub fn draw_all(names: &[&str]) -> Done {
    let mut all = Done::Well;
    let mut beside = Beside::of(names);
    for (place, name) in names.iter().enumerate() {
        let turn = format!("{} of {}", place + 1, names.len());
        match draw_beside(name, &mut beside) {
            Ok((said, done)) => {
                eprintln!("{turn}: {name}: {said}");
                if let (Done::Refused, Done::Well) = (&done, &all) {
                    all = done;
                }
            }
            Err(message) => {
                eprintln!("{turn}: not drawn: {message}");
                all = Done::Unreadable;
            }
        }
    }
    all
}

/// Draws a job to a file beside it; what to say of it.
fn draw_beside(name: &str, beside: &mut Beside) -> Result<(String, Done), String> {
    let to = beside.answer(name)?;
    let loaded = load(name, None)?;
    let (bytes, answer) = drawn(&loaded)?;
    fs::write(&to, bytes).map_err(of(to.display()))?;
    beside.written.insert(whole(&to), name.to_string());
    let said = match &answer {
        Answer::Drawn(sheet) => format!("{} drawn", counted(sheet.bundles.len(), "bundle")),
        Answer::Refused(refusal) => refusal.to_string(),
    };
    let places = located(&answer, &loaded, None) + &not_joined(&answer, &loaded);
    let places = places + &spent(&answer, &loaded, None);
    let places = places.trim_end();
    let gap = if places.is_empty() { "" } else { "\n" };
    Ok((
        format!("{said}; {}{gap}{places}", to.display()),
        done(&answer),
    ))
}

/// The same from a plan, if one is given.
pub fn drawn_from(loaded: &Loaded, plan: Option<&[u8]>) -> Result<(Vec<u8>, Answer), String> {
    let Some(plan) = plan else {
        return drawn(loaded);
    };
    let bytes = bundle_stage::answer_from(&loaded.job, plan);
    let answer = Answer::from_bytes(&bytes).map_err(of(&loaded.name))?;
    Ok((bytes, answer))
}

/// The bytes of a job's answer, and what they say.
fn drawn(loaded: &Loaded) -> Result<(Vec<u8>, Answer), String> {
    let bytes = bundle_stage::answer(&loaded.job);
    let answer = Answer::from_bytes(&bytes).map_err(of(&loaded.name))?;
    Ok((bytes, answer))
}

/// Where a job was refused, a line for each place that the refusal is about. Of a job that is drawn from a
/// plan, if one is given.
pub fn located(answer: &Answer, loaded: &Loaded, plan: Option<&[u8]>) -> String {
    let Answer::Refused(refusal) = answer else {
        return String::new();
    };
    if let Some(words) = loaded.instead.map(Given::words) {
        return format!("  this is {words}\n");
    }
    let mut wanted = asked(*refusal);
    wanted.plan = plan;
    let refused = locate_with(&loaded.job, &wanted);
    // The answer may be that of another job, or the refusal that of another output.
    let refused = refused.filter(|refused| refused.refusal == *refusal);
    refused.map_or(String::new(), |refused| {
        places(&refused, &loaded.names, &loaded.lines)
    })
}

/// What was wanted beside the answer where a job is refused so.
pub fn asked(refusal: Refusal) -> Wanted<'static> {
    match refusal {
        Refusal::PageOffGrid => Wanted::default().with_page(),
        Refusal::TooManyCrossings => Wanted::default().with_crossings(),
        _ => Wanted::default(),
    }
}

/// Where the answers to several jobs go.
struct Beside {
    /// The files that are given.
    jobs: HashSet<PathBuf>,
    /// The files that are written, each with its job.
    written: HashMap<PathBuf, String>,
}

impl Beside {
    fn of(jobs: &[&str]) -> Beside {
        Beside {
            jobs: jobs.iter().map(|job| whole(Path::new(job))).collect(),
            written: HashMap::new(),
        }
    }

    /// The file of the answer to a job: none of the jobs, and no other job's.
    fn answer(&self, job: &str) -> Result<PathBuf, String> {
        if job == "-" {
            return Err("standard input can only be the one job that is drawn".to_string());
        }
        let stem = job.strip_suffix(".job").unwrap_or(job);
        let to = PathBuf::from(format!("{stem}.answer"));
        let file = whole(&to);
        let alone = format!("draw {job} alone, or rename it");
        if self.jobs.contains(&file) {
            let to = to.display();
            return Err(format!(
                "{job}: its answer would replace {to}, which is given as a job: {alone}"
            ));
        }
        match self.written.get(&file) {
            Some(other) => Err(format!(
                "{job}: its answer would replace that to {other}, {}: {alone}",
                to.display()
            )),
            None => Ok(to),
        }
    }
}

/// A file by its whole path, whichever way it is named, as far as its folder is there.
fn whole(file: &Path) -> PathBuf {
    let folder = match file.parent() {
        Some(folder) if !folder.as_os_str().is_empty() => folder,
        _ => Path::new("."),
    };
    let folder = folder.canonicalize();
    match (folder, file.file_name()) {
        (Ok(folder), Some(name)) => folder.join(name),
        _ => file.to_path_buf(),
    }
}

pub fn done(answer: &Answer) -> Done {
    match answer {
        Answer::Drawn(_) => Done::Well,
        Answer::Refused(_) => Done::Refused,
    }
}
