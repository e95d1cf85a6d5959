//! The comparison as a program.

#![forbid(unsafe_code)]

use std::path::Path;
use std::process::ExitCode;

use compare::fuzz::{self, Settings};
use compare::time::Whose;
use compare::{boards, entries, heap, joints, outside, report, rounding, stack, time};

const USAGE: &str = "compare fuzz [--seed S] [--from I] [--jobs N] [--seconds T] [--workers W] [--family F]
                                        same bytes on all kinds of jobs, or on one of them
compare heap [SEED [COUNT]]             same bytes, buffers of exact size on the heap; for memcheck
compare joints [SEED [COUNT]]           false joints before and after the last shift, COUNT jobs of each
                                        family
compare rounding [SEED [COUNT]]         that nothing rounds on the drafting grid, COUNT jobs of each family
compare stack [SEED [COUNT]]            bytes of stack, COUNT jobs of each family
compare stack-of PAGES                  largest jobs on a stack of that many pages
compare time [SEED [ROUNDS]]            microseconds a job, both stages
compare entries [SEED [ROUNDS]]         microseconds a job in each entry
compare boards                          the names of the boards that are measured
compare repeat BOARD ours|rust TIMES    one stage on one board's jobs, for callgrind and perf
compare document FOLDER COUNTS          measures and writes the table and the plot of BENCHMARKS.md";

/// Rounds of a measurement where nothing else is asked for.
const ROUNDS: u64 = 31;

fn main() -> ExitCode {
    let words = std::env::args().skip(1).collect::<Vec<_>>();
    let words = words.iter().map(String::as_str).collect::<Vec<_>>();
    match command(&words) {
        Ok(true) => ExitCode::SUCCESS,
        Ok(false) => ExitCode::FAILURE,
        Err(message) => {
            eprintln!("{message}");
            ExitCode::from(2)
        }
    }
}

fn command(words: &[&str]) -> Result<bool, String> {
    match *words {
        ["fuzz", ref rest @ ..] => Ok(fuzz::fuzz(&settings(rest)?, outside::PROVED)),
        ["heap", ref rest @ ..] => {
            let [seed, count] = numbers(rest, [1, 1_000])?;
            Ok(heap::heap(seed, count))
        }
        ["joints", ref rest @ ..] => {
            let [seed, count] = numbers(rest, [1, 1_000])?;
            Ok(joints::joints(seed, count))
        }
        ["rounding", ref rest @ ..] => {
            let [seed, count] = numbers(rest, [1, 10_000])?;
            Ok(rounding::rounding(seed, count))
        }
        ["stack", ref rest @ ..] => {
            let [seed, count] = numbers(rest, [1, 1_000])?;
            Ok(stack::stack(seed, count))
        }
        ["stack-of", pages] => Ok(stack::stack_of(number(pages)? as usize)),
        ["time", ref rest @ ..] => {
            let [seed, rounds] = numbers(rest, [1, ROUNDS])?;
            report::time(seed, rounds as usize);
            Ok(true)
        }
        ["entries", ref rest @ ..] => {
            let [seed, rounds] = numbers(rest, [1, ROUNDS])?;
            entries::entries(seed, rounds as usize);
            Ok(true)
        }
        ["boards"] => {
            println!("{}", boards::NAMES.join("\n"));
            Ok(true)
        }
        ["repeat", board, whose, times] => {
            let set = boards::set(board, 1).ok_or("no such board")?;
            let whose = Whose::of(whose).ok_or(USAGE)?;
            time::repeat(&set, whose, number(times)? as usize);
            Ok(true)
        }
        ["document", folder, counts] => {
            report::document(Path::new(folder), Path::new(counts), 1, ROUNDS as usize)?;
            Ok(true)
        }
        _ => Err(USAGE.to_string()),
    }
}

fn settings(words: &[&str]) -> Result<Settings, String> {
    let mut settings = Settings::default();
    for pair in words.chunks(2) {
        let [name, value] = *pair else {
            return Err(USAGE.to_string());
        };
        if name == "--family" {
            settings.only = Some(fuzz::kind(value).ok_or("no such family")?);
            continue;
        }
        let field = match name {
            "--seed" => &mut settings.seed,
            "--from" => &mut settings.from,
            "--jobs" => &mut settings.jobs,
            "--seconds" => &mut settings.seconds,
            "--workers" => &mut settings.workers,
            _ => return Err(USAGE.to_string()),
        };
        *field = number(value)?;
    }
    settings.workers = settings.workers.clamp(1, 64);
    Ok(settings)
}

/// The numbers given, and the others as they stand.
fn numbers<const N: usize>(words: &[&str], mut values: [u64; N]) -> Result<[u64; N], String> {
    if words.len() > N {
        return Err(USAGE.to_string());
    }
    for (value, word) in values.iter_mut().zip(words) {
        *value = number(word)?;
    }
    Ok(values)
}

fn number(word: &str) -> Result<u64, String> {
    word.parse().map_err(|_| format!("'{word}' is no number"))
}
