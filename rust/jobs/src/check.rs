//! Checks over many cases: the clamp's patch, and digests that two builds must share.

use oracle::calls::call;
use oracle::clamp::{Compared, compare};

use crate::cases::KINDS;
use crate::families::FAMILIES;

/// Plans jobs in the patched and the unpatched copy; true where they never differ and 13 came up.
pub fn clamp(seed: u64, count: u64) -> bool {
    // The unpatched clamp panics on purpose.
    let hook = std::panic::take_hook();
    std::panic::set_hook(Box::new(|_| {}));
    let (mut same, mut refused, mut no_job, mut differs) = (0, 0, 0, 0);
    for family in &FAMILIES {
        for index in 0..count.min(family.count) {
            match compare(&family.job(seed, index)) {
                Compared::Same => same += 1,
                Compared::Refused => refused += 1,
                Compared::NoJob => no_job += 1,
                Compared::Differs => {
                    differs += 1;
                    eprintln!("differs: {} seed {seed} index {index}", family.name);
                }
            }
        }
    }
    std::panic::set_hook(hook);
    println!(
        "plans the same {same}, 13 and a panic {refused}, no job {no_job}, different {differs}"
    );
    differs == 0 && refused > 0
}

/// FNV-1a over many byte strings, each with its length.
struct Digest(u64);

impl Digest {
    fn new() -> Digest {
        Digest(0xcbf2_9ce4_8422_2325)
    }

    fn add(&mut self, bytes: &[u8]) {
        for &byte in (bytes.len() as u32).to_be_bytes().iter().chain(bytes) {
            self.0 = (self.0 ^ u64::from(byte)).wrapping_mul(0x0000_0100_0000_01b3);
        }
    }
}

/// One line per family and kind: the digest of its inputs and of their results.
pub fn digest(seed: u64, count: u64) {
    for family in &FAMILIES {
        let (mut jobs, mut answers) = (Digest::new(), Digest::new());
        let count = if family.name == "largest" {
            count.div_ceil(100)
        } else {
            count
        };
        for index in 0..count {
            let job = family.job(seed, index);
            jobs.add(&job);
            answers.add(&oracle::answer_of(&job));
        }
        println!(
            "{:12} {count:>8} {:016x} {:016x}",
            family.name, jobs.0, answers.0
        );
    }
    for kind in &KINDS {
        let (mut records, mut results) = (Digest::new(), Digest::new());
        for index in 0..count {
            let record = kind.record(seed, index);
            records.add(&record);
            results.add(&call(&record).expect("a call"));
        }
        println!(
            "{:12} {count:>8} {:016x} {:016x}",
            kind.name, records.0, results.0
        );
    }
}
