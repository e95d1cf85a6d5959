//! The tables of the measurement, and the part of docs/BENCHMARKS.md that is made from it.

use std::collections::BTreeMap;
use std::fs;
use std::path::Path;

use crate::boards::{self, NAMES, Set};
use crate::entries;
use crate::plot::{Panel, Series, plot};
use crate::time::{Measured, Whose, measure, slope};

/// The document, the plot beside it, and the lines between which the document's part stands.
const DOCUMENT: &str = "BENCHMARKS.md";
const PLOT: &str = "growth.svg";
const FIRST: &str = "<!-- written by rust/compare/benchmark: from here -->\n";
const LAST: &str = "<!-- to here -->\n";

/// Instructions of one call, by board and stage.
type Counts = BTreeMap<(String, String), f64>;

fn set(name: &str, seed: u64) -> Set {
    boards::set(name, seed).expect("a name of the list")
}

/// Prints one row a board.
pub fn time(seed: u64, rounds: usize) {
    println!(
        "{:10}{:>5}{:>8}{:>10}{:>10}{:>10}{:>10}{:>10}{:>8}{:>10}",
        "board", "jobs", "bytes", "tap", "geometry", "ours", "rust", "named", "ratio", "to named"
    );
    for name in NAMES {
        let one = measure(&set(name, seed), rounds);
        println!(
            "{:10}{:>5}{:>8.0}{:>10.0}{:>10.0}{:>10.2}{:>10.2}{:>10.2}{:>8.3}{:>10.3}",
            one.name,
            one.jobs,
            one.bytes,
            one.tap_visits,
            one.geometry_visits,
            one.ours,
            one.rust,
            one.named,
            one.ratio,
            one.ratio_to_named()
        );
    }
    println!("microseconds a job; ratio: ours by the Rust's; {rounds} rounds, seed {seed}");
}

/// Measures and writes the table and the plot into `folder`; `counts` is the file that the script
/// has written: board, stage, times and instructions a line.
pub fn document(folder: &Path, counts: &Path, seed: u64, rounds: usize) -> Result<(), String> {
    let counts = read_counts(counts, seed)?;
    let boards = NAMES.map(|name| measure(&set(name, seed), rounds));
    let growing = |jobs: Vec<Vec<u8>>| {
        let sets = jobs.into_iter().map(|job| Set {
            name: "growth",
            jobs: vec![job],
        });
        sets.map(|set| measure(&set, rounds)).collect::<Vec<_>>()
    };
    let searches = growing(boards::searches());
    let checks = growing(boards::contact_checks());
    let mut text = format!("Seed {seed}, {rounds} rounds, on {}.\n\n", processor());
    text += &table(&boards, &counts)?;
    text += "\n";
    text += &entries::table(seed, rounds);
    text += "\n";
    text += &growth("tap", &searches, |one| one.tap_visits);
    text += &growth("geometry", &checks, |one| one.geometry_visits);
    text += &format!("\n![microseconds against visits]({PLOT})\n");
    write_part(&folder.join(DOCUMENT), &text)?;
    let svg = plot(&[
        panel("tap visits", &searches, |one| one.tap_visits),
        panel("geometry visits", &checks, |one| one.geometry_visits),
    ]);
    fs::write(folder.join(PLOT), svg).map_err(|error| format!("{PLOT}: {error}"))
}

/// Instructions of one call: the difference between two numbers of times, so that what is done
/// before the calls does not count.
fn read_counts(path: &Path, seed: u64) -> Result<Counts, String> {
    let text = fs::read_to_string(path).map_err(|error| format!("{}: {error}", path.display()))?;
    let mut totals = BTreeMap::<(String, String), Vec<(f64, f64)>>::new();
    for line in text.lines() {
        let words = line.split_whitespace().collect::<Vec<_>>();
        let wrong = || format!("{}: no count: {line}", path.display());
        let [board, whose, times, total] = words[..] else {
            return Err(wrong());
        };
        let number = |word: &str| word.parse::<f64>().map_err(|_| wrong());
        totals
            .entry((board.to_string(), whose.to_string()))
            .or_default()
            .push((number(times)?, number(total)?));
    }
    totals
        .into_iter()
        .map(|(key, totals)| {
            let [(less, low), (more, high)] = totals[..] else {
                return Err(format!("{key:?}: two counts are needed"));
            };
            let jobs = boards::set(&key.0, seed).ok_or("no such board")?.jobs.len();
            Ok((key, (high - low) / (more - less) / jobs as f64))
        })
        .collect()
}

/// What the system calls this machine's processor.
fn processor() -> String {
    let text = fs::read_to_string("/proc/cpuinfo").unwrap_or_default();
    let line = text.lines().find(|line| line.starts_with("model name"));
    let name = line.and_then(|line| line.split_once(": "));
    name.map_or("a processor that says no name", |(_, name)| name)
        .to_string()
}

/// The ratio that is aimed at.
fn goal(board: &str) -> &'static str {
    match board {
        "small" | "realistic" => "0.2",
        "largest" => "0.5",
        _ => "",
    }
}

fn table(boards: &[Measured], counts: &Counts) -> Result<String, String> {
    const HEAD: [&str; 14] = [
        "board",
        "jobs",
        "bytes",
        "tap visits",
        "geometry visits",
        "stage, µs",
        "Rust, µs",
        "its named functions, µs",
        "ratio",
        "goal",
        "ratio to the named functions alone",
        "stage, instructions",
        "Rust, instructions",
        "their ratio",
    ];
    let line = "|---".repeat(HEAD.len());
    let mut text = format!("| {} |\n{line}|\n", HEAD.join(" | "));
    for one in boards {
        let count = |whose: Whose| {
            let key = (one.name.to_string(), whose.name().to_string());
            let count = counts.get(&key).copied();
            count.ok_or_else(|| format!("{key:?} has no count"))
        };
        let (ours, rust) = (count(Whose::Ours)?, count(Whose::Rust)?);
        text += &format!(
            "| {} | {} | {} | {} | {} | {:.2} | {:.2} | {:.2} | {:.3} | {} | {:.3} | {} | {} | {:.3} |\n",
            one.name,
            one.jobs,
            thousands(one.bytes),
            thousands(one.tap_visits),
            thousands(one.geometry_visits),
            one.ours,
            one.rust,
            one.named,
            one.ratio,
            goal(one.name),
            one.ratio_to_named(),
            thousands(ours),
            thousands(rust),
            ours / rust
        );
    }
    Ok(text)
}

fn growth(name: &str, measured: &[Measured], visits: fn(&Measured) -> f64) -> String {
    let ours = slope(measured, visits, |one| one.ours);
    let rust = slope(measured, visits, |one| one.rust);
    format!("- A {name} visit: {ours:.2} ns in the stage, {rust:.2} ns in the Rust.\n")
}

fn panel(name: &str, measured: &[Measured], visits: fn(&Measured) -> f64) -> Panel {
    let series = |name: &str, time: fn(&Measured) -> f64| Series {
        name: name.to_string(),
        points: measured
            .iter()
            .map(|one| (visits(one), time(one)))
            .collect(),
    };
    Panel {
        name: name.to_string(),
        series: vec![
            series("stage", |one| one.ours),
            series("Rust", |one| one.rust),
        ],
    }
}

/// The number rounded, with a comma before each group of three digits.
fn thousands(number: f64) -> String {
    let digits = format!("{number:.0}");
    let mut text = String::new();
    for (place, digit) in digits.chars().enumerate() {
        if place > 0 && (digits.len() - place).is_multiple_of(3) {
            text.push(',');
        }
        text.push(digit);
    }
    text
}

/// Puts the text between the two lines of the document.
fn write_part(path: &Path, part: &str) -> Result<(), String> {
    let told = |error| format!("{}: {error}", path.display());
    let text = fs::read_to_string(path).map_err(told)?;
    let parts = text.split_once(FIRST).and_then(|(before, rest)| {
        let (_, after) = rest.split_once(LAST)?;
        Some((before, after))
    });
    let (before, after) = parts.ok_or_else(|| format!("{}: no place for it", path.display()))?;
    fs::write(path, format!("{before}{FIRST}\n{part}\n{LAST}{after}")).map_err(told)
}
