//! A board as text: docs/TEXT-FORM.md says the form.

use std::error::Error;
use std::fmt;
use std::str::FromStr;

use bundle_stage::{
    Board, Bundle, Edge, Endpoint, Flags, Id, Member, Node, Options, Point, Port, Role, Side,
    Visits,
};

use crate::lines::Lines;
use crate::names::Names;
use crate::signs::{checked, quoted};
use crate::tokens::{self, unquote};

mod named;
mod numbers;
mod write;

pub(crate) use named::{Named, named};
pub use numbers::number;
use numbers::{above_float, above_whole, float, whole};
pub use write::{write, write_named};

/// A line that is not as it should be.
#[derive(Clone, Debug, Eq, PartialEq)]
pub struct Wrong {
    /// From 1.
    pub line: usize,
    pub words: String,
}

impl fmt::Display for Wrong {
    fn fmt(&self, to: &mut fmt::Formatter<'_>) -> fmt::Result {
        write!(to, "line {}: {}", self.line, self.words)
    }
}

impl Error for Wrong {}

// The settings, in the job's order.
const OPTIONS: [&str; 5] = Options::NAMES;
const GRANTS: [&str; 2] = Visits::NAMES;
const FLAGS: [&str; 3] = ["separate_collectors", "permit_crossings", "grid"];

const SIDES: [(&str, Side); 4] = [
    ("north", Side::North),
    ("east", Side::East),
    ("south", Side::South),
    ("west", Side::West),
];
const ROLES: [(&str, Role); 2] = [("input", Role::Input), ("output", Role::Output)];
const ANSWERS: [(&str, bool); 2] = [("no", false), ("yes", true)];

/// The most records of a table, points of a route or members of a bundle: the job counts them in 16
/// bits.
const MOST: usize = u16::MAX as usize;

/// The settings said so far.
#[derive(Default)]
struct Settings {
    options: [Option<f64>; 5],
    grants: [Option<u32>; 2],
    flags: [Option<bool>; 3],
}

/// What a text says: a board, its names, and on which lines its records stand.
#[derive(Clone, Debug, Default)]
pub struct Text {
    pub board: Board,
    pub names: Names,
    pub lines: Lines,
}

/// The board that a text says, or the first line that is not as it should be.
pub fn read(text: &[u8]) -> Result<Board, Wrong> {
    read_all(text).map(|text| text.board)
}

/// The same, with names and lines.
pub fn read_all(text: &[u8]) -> Result<Text, Wrong> {
    let text = utf8(text)?;
    let mut all = Text::default();
    let mut settings = Settings::default();
    for (line, said) in (1..).zip(text.lines()) {
        Words::new(said)
            .and_then(|words| words.line(&mut all, &mut settings))
            .map_err(|words| Wrong { line, words })?;
        let said = [
            said_of(&OPTIONS, &settings.options),
            said_of(&GRANTS, &settings.grants),
            said_of(&FLAGS, &settings.flags),
        ];
        all.lines.note(line, &all.board, said.concat());
    }
    let name_of = |item| {
        let said = text.lines().nth(all.lines.of(item)? - 1)?;
        tokens::unquote(tokens::split(said).ok()?.get(2)?)
    };
    all.names.tell_apart(&all.board, name_of);
    let board = &mut all.board;
    if let Some(place) = settings.options.iter().position(Option::is_none) {
        return Err(Wrong {
            line: text.lines().count() + 1,
            words: format!("expected `{}`, found the end", OPTIONS[place]),
        });
    }
    let options = settings.options.map(Option::unwrap_or_default);
    board.options = Options::of_values(options);
    board.grants = Visits {
        tap: settings.grants[0].unwrap_or(Visits::MOST.tap),
        geometry: settings.grants[1].unwrap_or(Visits::MOST.geometry),
    };
    board.flags = Flags {
        separate_collectors: settings.flags[0].unwrap_or_default(),
        permit_crossings: settings.flags[1].unwrap_or_default(),
        on_grid: settings.flags[2].unwrap_or_default(),
    };
    Ok(all)
}

/// The names of those that were said.
fn said_of<T>(keys: &[&'static str], values: &[Option<T>]) -> Vec<&'static str> {
    let said = keys.iter().zip(values);
    let said = said.filter(|(_, value)| value.is_some());
    said.map(|(key, _)| *key).collect()
}

/// A mark of the order of bytes, which editors write before a text.
const MARK: &str = "\u{feff}";

pub(crate) fn utf8(text: &[u8]) -> Result<&str, Wrong> {
    let read = str::from_utf8(text).map_err(|error| {
        let before = &text[..error.valid_up_to()];
        let words = match text {
            [0xff, 0xfe, ..] | [0xfe, 0xff, ..] => {
                "the text is in UTF-16, and is read in UTF-8 alone: write it anew as that"
            }
            _ => "the bytes are no text (UTF-8); is this a job? `bundles unpack` reads jobs",
        };
        Wrong {
            line: 1 + before.iter().filter(|&&byte| byte == b'\n').count(),
            words: words.to_string(),
        }
    })?;
    Ok(read.strip_prefix(MARK).unwrap_or(read))
}

/// The words of a line, from left to right.
struct Words<'a> {
    words: std::vec::IntoIter<&'a str>,
}

impl<'a> Words<'a> {
    fn new(line: &'a str) -> Result<Words<'a>, String> {
        let words = tokens::split(line)?.into_iter();
        Ok(Words { words })
    }

    fn line(mut self, text: &mut Text, settings: &mut Settings) -> Result<(), String> {
        let Some(key) = self.words.next() else {
            return Ok(());
        };
        let Text { board, names, .. } = text;
        match key {
            "node" => push(&mut board.nodes, "nodes", self.node(names)?)?,
            "port" => push(&mut board.ports, "ports", self.port(names)?)?,
            "edge" => push(&mut board.edges, "edges", self.edge(names)?)?,
            "bundle" => push(&mut board.bundles, "bundles", self.bundle(names)?)?,
            _ => self.setting(key, settings)?,
        }
        self.end()
    }

    fn setting(&mut self, key: &str, settings: &mut Settings) -> Result<(), String> {
        let place = |keys: &[&str]| keys.iter().position(|&listed| listed == key);
        if let Some(place) = place(&OPTIONS) {
            set(&mut settings.options[place], key, self.number("a number")?)
        } else if let Some(place) = place(&GRANTS) {
            let visits = self.whole("a whole number of visits")?;
            set(&mut settings.grants[place], key, visits)
        } else if let Some(place) = place(&FLAGS) {
            set(
                &mut settings.flags[place],
                key,
                self.named(&ANSWERS, "yes or no")?,
            )
        } else {
            let what = "`node`, `port`, `edge`, `bundle` or a setting's name";
            Err(expected(what, Some(key)))
        }
    }

    fn node(&mut self, names: &mut Names) -> Result<Node, String> {
        let id = self.whole("the node's id")?;
        self.name(|name| names.set_node(id, name))?;
        self.key("at")?;
        let (x, y) = self.pair("the node's corner as X,Y")?;
        self.key("size")?;
        let (width, height) = self.pair("the node's size as WIDTH,HEIGHT")?;
        Ok(Node {
            id,
            x,
            y,
            width,
            height,
        })
    }

    fn port(&mut self, names: &mut Names) -> Result<Port, String> {
        let Endpoint { node, port: id } = self.endpoint("the port as NODE:PORT")?;
        self.name(|name| names.set_port(node, id, name))?;
        let side = self.named(&SIDES, "the port's side: north, east, south or west")?;
        let offset = self.number("a number, the port's offset along its side")?;
        Ok(Port {
            node,
            id,
            side,
            offset,
        })
    }

    fn edge(&mut self, names: &mut Names) -> Result<Edge, String> {
        let id = self.whole("the edge's id")?;
        self.name(|name| names.set_edge(id, name))?;
        self.key("from")?;
        let source = self.endpoint("the edge's source as NODE:PORT")?;
        self.key("to")?;
        let target = self.endpoint("the edge's target as NODE:PORT")?;
        let points = self.list("via", "points", |words| {
            let (x, y) = words.pair("a point as X,Y")?;
            Ok(Point { x, y })
        })?;
        Ok(Edge {
            id,
            source,
            target,
            points,
        })
    }

    fn bundle(&mut self, names: &mut Names) -> Result<Bundle, String> {
        let id = self.whole("the bundle's id")?;
        self.name(|name| names.set_bundle(id, name))?;
        self.key("at")?;
        let endpoint = self.endpoint("the bundle's port as NODE:PORT")?;
        let role = self.named(&ROLES, "the bundle's role: input or output")?;
        self.key("width")?;
        let width = self.whole("the bundle's width, a whole number from 0 to 4294967295")?;
        let members = self.list("members", "members", |words| {
            let (edge, lane) = words.two(
                '@',
                "a member as EDGE@LANE, lanes from 0 to 65535",
                (whole::<Id>, whole::<u16>),
                above_whole,
            )?;
            Ok(Member { edge, lane })
        })?;
        Ok(Bundle {
            id,
            endpoint,
            role,
            width,
            members,
        })
    }

    /// The rest of the line behind its key word; nothing where the line ends before it.
    fn list<T>(
        &mut self,
        key: &str,
        plural: &str,
        mut item: impl FnMut(&mut Self) -> Result<T, String>,
    ) -> Result<Vec<T>, String> {
        let mut list = Vec::new();
        if self.words.clone().next().is_some() {
            self.key(key)?;
        }
        while self.words.clone().next().is_some() {
            push(&mut list, plural, item(self)?)?;
        }
        Ok(list)
    }

    /// A name in quotation marks, if one stands here.
    fn name(&mut self, set: impl FnOnce(&str)) -> Result<(), String> {
        let name = self.words.clone().next().and_then(unquote);
        if let Some(name) = name {
            self.words.next();
            set(&checked(name)?);
        }
        Ok(())
    }

    /// A word with a meaning.
    fn word<T>(&mut self, what: &str, meaning: impl Fn(&str) -> Option<T>) -> Result<T, String> {
        self.limited(what, meaning, |_| None)
    }

    /// The same; of a word without one it may be said which limit it is above.
    fn limited<T>(
        &mut self,
        what: &str,
        meaning: impl Fn(&str) -> Option<T>,
        above: impl Fn(&str) -> Option<&'static str>,
    ) -> Result<T, String> {
        let word = self.words.next();
        word.and_then(meaning).ok_or_else(|| {
            let above = word
                .and_then(above)
                .map(|limit| format!(", which is {limit}"));
            expected(what, word) + &above.unwrap_or_default()
        })
    }

    fn key(&mut self, key: &str) -> Result<(), String> {
        self.word(&format!("`{key}`"), |word| (word == key).then_some(()))
    }

    fn whole<T: FromStr>(&mut self, what: &str) -> Result<T, String> {
        self.limited(what, whole, above_whole)
    }

    fn number(&mut self, what: &str) -> Result<f64, String> {
        self.limited(what, float, above_float)
    }

    fn named<T: Copy>(&mut self, names: &[(&str, T)], what: &str) -> Result<T, String> {
        self.word(what, |word| {
            let found = names.iter().find(|(name, _)| *name == word);
            found.map(|&(_, value)| value)
        })
    }

    fn two<T, U>(
        &mut self,
        mark: char,
        what: &str,
        (left, right): (impl Fn(&str) -> Option<T>, impl Fn(&str) -> Option<U>),
        above: impl Fn(&str) -> Option<&'static str>,
    ) -> Result<(T, U), String> {
        let both = |word: &str| {
            let (first, second) = word.split_once(mark)?;
            Some((left(first)?, right(second)?))
        };
        self.limited(what, both, |word| word.split(mark).find_map(&above))
    }

    fn pair(&mut self, what: &str) -> Result<(f64, f64), String> {
        self.two(',', what, (float, float), above_float)
    }

    fn endpoint(&mut self, what: &str) -> Result<Endpoint, String> {
        let (node, port) = self.two(':', what, (whole, whole), above_whole)?;
        Ok(Endpoint { node, port })
    }

    fn end(&mut self) -> Result<(), String> {
        match self.words.next() {
            None => Ok(()),
            word => Err(expected("the line's end", word)),
        }
    }
}

fn expected(what: &str, found: Option<&str>) -> String {
    match found {
        Some(word) => format!("expected {what}, found {}", quoted(word)),
        None => format!("expected {what}, found the line's end"),
    }
}

fn push<T>(rows: &mut Vec<T>, plural: &str, row: T) -> Result<(), String> {
    if rows.len() == MOST {
        return Err(format!("too many {plural}: a job can count {MOST}"));
    }
    rows.push(row);
    Ok(())
}

fn set<T>(place: &mut Option<T>, key: &str, value: T) -> Result<(), String> {
    match place.replace(value) {
        None => Ok(()),
        Some(_) => Err(format!("`{key}` is said a second time")),
    }
}
