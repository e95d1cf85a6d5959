//! The generator as a program.

#![forbid(unsafe_code)]

use std::io::{self, BufWriter, Write};
use std::process::ExitCode;

use jobs::cases::{self, KINDS};
use jobs::families::{self, FAMILIES};
use jobs::{check, crossed, damages, stored, survey};

const USAGE: &str = "jobs list                                families of jobs and kinds of cases
jobs make FAMILY SEED FIRST COUNT        jobs as records, for `oracle batch`
jobs one FAMILY SEED INDEX               one job, bare, for `oracle job` and `oracle show`
jobs crossed SEED INDEX                  one job of a board that permits crossings, bare
jobs crossings SEED COUNT                one job with so many crossings of bundles and routes, bare
jobs cases KIND SEED FIRST COUNT         calls as records, for `oracle calls`
jobs damages SEED JOBS TIMES LONGEST      damaged jobs as records, for `oracle digest`; numbers counted
jobs distribution [SEED [PERCENT]]       numbers and features by family
jobs outcomes [SEED [COUNT]]             first bytes of results by operation
jobs clamp [SEED [COUNT]]                the patched plan against the unpatched one
jobs digest [SEED [COUNT]]               digests of answers and results, to compare builds
jobs stored FOLDER                       makes the stored answers
jobs check-stored FOLDER                 makes them anew and compares";

fn main() -> ExitCode {
    let words = std::env::args().skip(1).collect::<Vec<_>>();
    let words = words.iter().map(String::as_str).collect::<Vec<_>>();
    match run(&words) {
        Ok(true) => ExitCode::SUCCESS,
        Ok(false) => ExitCode::FAILURE,
        Err(message) => {
            eprintln!("{message}");
            ExitCode::from(2)
        }
    }
}

fn bare(job: &[u8]) -> Result<bool, String> {
    io::stdout().lock().write_all(job).map_err(text)?;
    Ok(true)
}

fn run(words: &[&str]) -> Result<bool, String> {
    match *words {
        ["list"] => {
            for family in &FAMILIES {
                println!("{:12} {}", family.name, family.shows);
            }
            for kind in &KINDS {
                println!("{:12} {}", kind.name, kind.shows);
            }
            Ok(true)
        }
        ["make", name, seed, first, count] => {
            let family = families::family(name).ok_or("no such family")?;
            let seed = number(seed)?;
            records(first, count, |index| family.job(seed, index))
        }
        ["one", name, seed, index] => {
            let family = families::family(name).ok_or("no such family")?;
            bare(&family.job(number(seed)?, number(index)?))
        }
        ["crossed", seed, index] => bare(&crossed::job(number(seed)?, number(index)?)),
        ["crossings", seed, count] => {
            bare(&crossed::exactly(number(seed)?, number(count)? as usize))
        }
        ["cases", name, seed, first, count] => {
            let kind = cases::kind(name).ok_or("no such kind")?;
            let seed = number(seed)?;
            records(first, count, |index| kind.record(seed, index))
        }
        ["damages", seed, jobs, times, longest] => {
            let longest = number(longest)? as usize;
            damaged(number(seed)?, number(jobs)?, number(times)?, longest)
        }
        ["distribution", ref rest @ ..] => {
            let [seed, percent] = defaults(rest, [1, 100])?;
            Ok(survey::distribution(seed, percent))
        }
        ["outcomes", ref rest @ ..] => {
            let [seed, count] = defaults(rest, [1, 20_000])?;
            survey::outcomes(seed, count);
            Ok(true)
        }
        ["clamp", ref rest @ ..] => {
            let [seed, count] = defaults(rest, [1, 4_000])?;
            Ok(check::clamp(seed, count))
        }
        ["digest", ref rest @ ..] => {
            let [seed, count] = defaults(rest, [1, 2_000])?;
            check::digest(seed, count);
            Ok(true)
        }
        ["stored", folder] => stored::write(folder.as_ref()).map(|()| true),
        ["check-stored", folder] => stored::check(folder.as_ref()),
        _ => Err(USAGE.to_string()),
    }
}

fn records(first: &str, count: &str, make: impl Fn(u64) -> Vec<u8>) -> Result<bool, String> {
    let (first, count) = (number(first)?, number(count)?);
    let mut to = BufWriter::new(io::stdout().lock());
    for index in first..first + count {
        write_record(&mut to, &make(index)).map_err(text)?;
    }
    to.flush().map_err(text)?;
    Ok(true)
}

/// The damaged jobs on standard output; how many of each number on standard error.
fn damaged(seed: u64, jobs: u64, times: u64, longest: usize) -> Result<bool, String> {
    let mut to = BufWriter::new(io::stdout().lock());
    let mut counts = [0_u64; survey::NUMBERS];
    let mut done = Ok(());
    damages::damages(seed, jobs, times, longest, &mut |job| {
        counts[oracle::job::read(job).map_or_else(usize::from, |_| 0)] += 1;
        if done.is_ok() {
            done = write_record(&mut to, job);
        }
    });
    done.and_then(|()| to.flush()).map_err(text)?;
    let all = counts.iter().sum::<u64>();
    eprintln!("{all} jobs; by number from 0, accepted: {counts:?}");
    Ok(true)
}

fn write_record(to: &mut impl Write, record: &[u8]) -> io::Result<()> {
    to.write_all(&(record.len() as u32).to_be_bytes())?;
    to.write_all(record)
}

fn defaults(words: &[&str], mut values: [u64; 2]) -> Result<[u64; 2], String> {
    if words.len() > 2 {
        return Err(USAGE.to_string());
    }
    for (value, word) in values.iter_mut().zip(words) {
        *value = number(word)?;
    }
    Ok(values)
}

fn number(word: &str) -> Result<u64, String> {
    word.parse().map_err(|_| format!("'{word}' is no number"))
}

fn text(error: io::Error) -> String {
    error.to_string()
}
