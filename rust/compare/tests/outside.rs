//! A part of each comparison, and the stack that is promised.

use std::path::Path;

use compare::check::Checker;
use compare::{heap, outside, stack};
use jobs::families::ALPHABET;
use oracle::wire::Reader;

/// The longest of the short strings.
const SHORT: usize = 8;

/// All strings of up to eight bytes over the alphabet; those of up to six in all entries.
#[test]
fn same_bytes_on_short_strings() {
    let mut checker = Checker::new(outside::PROVED, 1);
    for length in 0..=SHORT {
        for number in 0..ALPHABET.len().pow(length as u32) {
            let mut rest = number;
            let mut job = [0; SHORT];
            for byte in &mut job[..length] {
                *byte = ALPHABET[rest % ALPHABET.len()];
                rest /= ALPHABET.len();
            }
            let (job, index) = (&job[..length], number as u64);
            match length {
                0..=6 => drop(checker.check(job, index).expect("the same bytes")),
                _ => {
                    let answer = oracle::answer_of(job);
                    let same = checker.check_stage(job, &answer, index);
                    same.expect("the same bytes");
                }
            }
        }
    }
}

#[test]
fn same_bytes_in_heap_memory() {
    assert!(heap::heap(7, 500));
}

/// Every stored job: the stored answer is the judge's, and ours.
#[test]
fn same_bytes_on_stored_jobs() {
    let folder = Path::new(env!("CARGO_MANIFEST_DIR")).join("../../stored");
    let mut checker = Checker::new(outside::PROVED, 1);
    for name in ["jobs.bin", "largest.bin"] {
        let bytes = std::fs::read(folder.join(name)).expect("a stored file");
        let mut from = Reader::new(&bytes);
        let mut index = 0;
        while let Ok(length) = from.u32() {
            let job = from.take(length as usize).expect("a job").to_vec();
            let length = from.u32().expect("a length");
            let answer = from.take(length as usize).expect("an answer");
            assert_eq!(oracle::answer_of(&job), answer);
            let same = checker.check(&job, index).expect("the same bytes");
            assert_eq!(same.number, oracle::number(answer));
            index += 1;
        }
    }
}

#[test]
fn the_promised_stack_is_enough() {
    assert!(stack::stack(7, 100));
}

/// One page less than promised is not enough: the process ends by a signal.
#[test]
fn one_page_less_is_not_enough() {
    let program = env!("CARGO_BIN_EXE_compare");
    assert!(stack::survives(program, stack::PAGES).expect("a process"));
    assert!(!stack::survives(program, stack::PAGES - 1).expect("a process"));
}
