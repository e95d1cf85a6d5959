//! The oracle as a program: standard input to standard output.

#![forbid(unsafe_code)]

use std::io::{self, BufReader, BufWriter, Read, Write};
use std::process::ExitCode;

use oracle::outputs::{self, Lengths, Outputs};

const USAGE: &str = "oracle job     one job on standard input, its answer on standard output
oracle plan    one job on standard input, its plan on standard output
oracle draw PLAN
               one job on standard input, the answer from the plan in that file on standard output
oracle crossings
               one job on standard input, the list of its crossings on standard output, or the notice
               of a refusal
oracle page    one job on standard input, its bundle page on standard output, or the notice of a refusal
oracle batch   length-prefixed jobs in, length-prefixed answers out
oracle calls   length-prefixed call records in, length-prefixed results out
oracle digest  length-prefixed jobs in; number and digest of what was read out, nine bytes each
oracle show    one job on standard input, job and answer as text";

fn main() -> ExitCode {
    let words = std::env::args().skip(1).collect::<Vec<_>>();
    let done = match words.iter().map(String::as_str).collect::<Vec<_>>()[..] {
        ["job"] => one_job(oracle::answer_of),
        ["plan"] => one_job(oracle::stage::plan_of),
        ["draw", plan] => std::fs::read(plan)
            .map_err(text)
            .and_then(|plan| one_job(|job| oracle::stage::answer_from(job, &plan))),
        ["page"] => one_job(|job| wanted(outputs::WANT_PAGE, job, |made| made.page)),
        ["crossings"] => one_job(|job| wanted(outputs::WANT_CROSSINGS, job, |made| made.crossings)),
        ["batch"] => each_record(|record| Ok(prefixed(oracle::answer_of(record)))),
        ["calls"] => each_record(|record| {
            oracle::calls::call(record)
                .map(prefixed)
                .map_err(|malformed| format!("{malformed:?}"))
        }),
        ["digest"] => each_record(|record| Ok(oracle::digest::digest(record))),
        ["show"] => show(),
        _ => Err(USAGE.to_string()),
    };
    match done {
        Ok(()) => ExitCode::SUCCESS,
        Err(message) => {
            eprintln!("{message}");
            ExitCode::from(2)
        }
    }
}

/// As the program sheet: at most 65,536 bytes of standard input are looked at.
fn one_job(make: impl FnOnce(&[u8]) -> Vec<u8>) -> Result<(), String> {
    let mut job = Vec::new();
    io::stdin()
        .lock()
        .take(65_536)
        .read_to_end(&mut job)
        .map_err(text)?;
    io::stdout().lock().write_all(&make(&job)).map_err(text)
}

/// An output that is wanted, or the notice of a refusal.
fn wanted(wants: u32, job: &[u8], which: fn(Outputs) -> Vec<u8>) -> Vec<u8> {
    let enough = Lengths {
        answer: usize::MAX,
        page: usize::MAX,
        crossings: usize::MAX,
    };
    let made = outputs::outputs(wants, job, &[], enough);
    match oracle::number(&made.answer) {
        0 => which(made),
        _ => made.answer,
    }
}

fn show() -> Result<(), String> {
    let mut job = Vec::new();
    io::stdin().lock().read_to_end(&mut job).map_err(text)?;
    io::stdout()
        .lock()
        .write_all(oracle::show(&job).as_bytes())
        .map_err(text)
}

fn each_record(make: impl Fn(&[u8]) -> Result<Vec<u8>, String>) -> Result<(), String> {
    let mut from = BufReader::new(io::stdin().lock());
    let mut to = BufWriter::new(io::stdout().lock());
    let mut at = 0_u64;
    while let Some(record) =
        next_record(&mut from).map_err(|error| format!("record {at}: {error}"))?
    {
        let made = make(&record).map_err(|error| format!("record {at}: {error}"))?;
        to.write_all(&made).map_err(text)?;
        at += 1;
    }
    to.flush().map_err(text)
}

fn prefixed(made: Vec<u8>) -> Vec<u8> {
    let mut record = (made.len() as u32).to_be_bytes().to_vec();
    record.extend(made);
    record
}

/// The next record, or none at the end of the input.
fn next_record(from: &mut impl Read) -> io::Result<Option<Vec<u8>>> {
    let mut first = [0];
    if from.read(&mut first)? == 0 {
        return Ok(None);
    }
    let mut rest = [0; 3];
    from.read_exact(&mut rest)?;
    let length = u32::from_be_bytes([first[0], rest[0], rest[1], rest[2]]);
    let mut record = Vec::new();
    from.take(u64::from(length)).read_to_end(&mut record)?;
    if record.len() != length as usize {
        return Err(io::Error::new(
            io::ErrorKind::UnexpectedEof,
            "the input ends inside a record",
        ));
    }
    Ok(Some(record))
}

fn text(error: io::Error) -> String {
    error.to_string()
}
