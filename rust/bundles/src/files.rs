//! What the tool reads and writes.

use std::fmt::Display;
use std::fs::File;
use std::io::{self, Read, Write};

use bundle_stage::{Answer, Board, Plan};
use bundles::lines::Lines;
use bundles::names::Names;
use bundles::text;

use crate::Done;

/// What the program `sheet` reads of a job.
const JOB: usize = 65_536;

/// A job, read or packed, with what its text says beside it.
#[derive(Default)]
pub struct Loaded {
    pub name: String,
    pub job: Vec<u8>,
    pub names: Names,
    pub lines: Lines,
    /// What is given in the place of a job.
    pub instead: Option<Given>,
}

impl Loaded {
    pub fn board(&self) -> Result<Board, String> {
        Board::from_bytes(&self.job).map_err(|malformed| {
            self.no_job()
                .unwrap_or(format!("{}: no whole job: {malformed}", called(&self.name)))
        })
    }

    /// Words that say of what is no job what it is.
    pub fn no_job(&self) -> Option<String> {
        let words = self.instead?.words();
        Some(format!("{}: no job, but {words}", called(&self.name)))
    }
}

/// A job, or a board's text, which is packed: a file is a text if its name ends in `.txt`, or if it can
/// be read as one. Names are those of the text and of the file of names, which go first.
pub fn load(name: &str, names: Option<&str>) -> Result<Loaded, String> {
    load_up_to(JOB, name, names)
}

/// The same of so many bytes of a job.
pub fn load_up_to(most: usize, name: &str, names: Option<&str>) -> Result<Loaded, String> {
    let mut job = read(name)?;
    let mut loaded = Loaded::default();
    match text::read_all(&job) {
        Ok(text) => {
            job = text.board.to_bytes().map_err(of(name))?;
            (loaded.names, loaded.lines) = (text.names, text.lines);
        }
        Err(wrong) if name.ends_with(".txt") => return Err(of(name)(wrong)),
        Err(_) => {
            loaded.instead = Given::of(&job).filter(|given| given.is_no_input());
            job.truncate(most);
        }
    }
    if let Some(file) = names {
        let text = read(file)?;
        let names = match Board::from_bytes(&job) {
            Ok(board) => Names::read_for(&text, &board),
            // What it has is not known.
            Err(_) => Names::read(&text),
        };
        loaded.names.take(names.map_err(of(file))?);
    }
    Ok(Loaded {
        name: name.to_string(),
        job,
        ..loaded
    })
}

pub fn answer(name: &str) -> Result<Answer, String> {
    let bytes = read(name)?;
    Answer::from_bytes(&bytes).map_err(|malformed| {
        let file = called(name);
        match Given::of(&bytes) {
            Some(Given::Plan) => format!("{file}: no answer, but {}", Given::Plan.words()),
            Some(given) => format!(
                "{file}: no answer, but {}: `bundles draw` makes an answer of it, and `bundles picture` \
                 a picture",
                given.name()
            ),
            None => format!("{file}: no answer: {malformed}"),
        }
    })
}

/// What bytes are, that may be given in the place of others.
#[derive(Clone, Copy, Debug, Eq, PartialEq)]
pub enum Given {
    Text,
    Job,
    Answer,
    /// The answer to a job that is refused, or what stands for its plan.
    Notice,
    Plan,
}

impl Given {
    pub fn of(bytes: &[u8]) -> Option<Given> {
        // All but a text begin with a length that has a zero byte.
        let is_text = !bytes.contains(&0) && str::from_utf8(bytes).is_ok();
        if is_text && !bytes.is_empty() {
            return Some(Given::Text);
        }
        if Board::from_bytes(bytes).is_ok() {
            return Some(Given::Job);
        }
        match Answer::from_bytes(bytes) {
            Ok(Answer::Drawn(_)) => Some(Given::Answer),
            Ok(Answer::Refused(_)) => Some(Given::Notice),
            Err(_) => Plan::from_bytes(bytes).ok().map(|_| Given::Plan),
        }
    }

    /// Nothing is drawn of it.
    fn is_no_input(self) -> bool {
        !matches!(self, Given::Text | Given::Job)
    }

    pub fn name(self) -> &'static str {
        match self {
            Given::Text => "a text",
            Given::Job => "a job",
            Given::Answer => "an answer",
            Given::Notice => "the notice of a refusal",
            Given::Plan => "a plan",
        }
    }

    /// Its name, and which command is for it.
    pub fn words(self) -> String {
        let what = self.name();
        match self {
            Given::Text | Given::Job => what.to_string(),
            Given::Answer | Given::Notice => format!("{what}: `bundles explain` tells it in words"),
            Given::Plan => format!(
                "{what}: `bundles explain --plan` tells it in words, and `bundles draw --plan` draws a job \
                 from it"
            ),
        }
    }
}

pub fn read(name: &str) -> Result<Vec<u8>, String> {
    let mut bytes = Vec::new();
    if name == "-" {
        io::stdin().lock().read_to_end(&mut bytes)
    } else {
        File::open(name).and_then(|mut file| file.read_to_end(&mut bytes))
    }
    .map_err(of(name))?;
    Ok(bytes)
}

pub fn out(bytes: &[u8]) -> Result<Done, String> {
    let mut to = io::stdout().lock();
    to.write_all(bytes)
        .and_then(|()| to.flush())
        .map_err(of("standard output"))?;
    Ok(Done::Well)
}

pub fn called(name: &str) -> &str {
    if name == "-" { "standard input" } else { name }
}

/// Words that say of which file an error is.
pub fn of<E: Display>(name: impl Display) -> impl Fn(E) -> String {
    let name = name.to_string();
    move |error| format!("{}: {error}", called(&name))
}
