//! The entry `stage_sheet`: every bit of `wants`, and 2 at its edges (document 02, F-4,
//! F-5, F-7).

use compare::outside::stage_sheet;
use compare::sheets::{Lent, Sheets};
use jobs::families::family;
use jobs::{crossed, pages};
use oracle::crossings::CROSSINGS_BUFFER;
use oracle::outputs::{Lengths, PAGE_BUFFER, PLAN_GIVEN, WANT_CROSSINGS, WANT_PAGE, outputs};
use oracle::stage::{BUFFER, plan_of};

/// Jobs that are accepted, on the grid and off it, and refused with each number there is.
fn some_jobs() -> Vec<Vec<u8>> {
    let mut seen = [0; 32];
    let names = [
        "small",
        "grid",
        "off_grid",
        "damaged",
        "truncated",
        "clamp",
        "grants",
    ];
    let families = names.map(|name| family(name).expect("a family"));
    let jobs = (0..400).flat_map(|index| families.iter().map(move |family| family.job(11, index)));
    let mut kept = jobs
        .filter(|job| {
            let number = usize::from(oracle::number(&oracle::answer_of(job)));
            let on_grid = job.get(5).is_some_and(|flags| flags & 4 != 0);
            let kind = number + 16 * usize::from(on_grid && number == 0);
            seen[kind] += 1;
            seen[kind] <= 3
        })
        .collect::<Vec<_>>();
    let numbers = (0..=15).filter(|&number| number != 2);
    assert!(numbers.clone().all(|number| seen[number] > 0), "{seen:?}");
    kept.extend((0..3).map(|index| pages::job(11, index)));
    kept.extend((0..6).map(|index| crossed::job(11, index)));
    kept.extend([1_023, 1_024, 1_025].map(|count| crossed::exactly(11, count)));
    kept
}

/// Each bit alone and with the page's, all bits, none; a bit that is not listed says nothing. Plans are
/// the job's own and none.
#[test]
fn every_bit() {
    let mut sheets = Sheets::new(stage_sheet, 1);
    let bits = (0..32).map(|bit| 1 << bit);
    let masks = bits.flat_map(|bit: u32| [bit, bit | WANT_PAGE, !bit, !bit & !WANT_PAGE]);
    let masks = masks.chain([0, u32::MAX]).collect::<Vec<_>>();
    let mut said = [0; 20];
    for (index, job) in some_jobs().iter().enumerate() {
        let plan = plan_of(job);
        for &wants in &masks {
            for plan in [&plan[..], &[]] {
                let number = sheets
                    .check_wants(job, plan, wants, index as u64)
                    .expect("the judge's");
                said[usize::from(number)] += 1;
            }
        }
    }
    assert!(
        said[16] > 0 && said[17] > 0 && said[19] > 0 && said[0] > said[16],
        "{said:?}"
    );
}

/// 2 at 65,535 and 65,536 bytes of answer, at 2,431 and 2,432 of a page and at 24,577 and 24,578 of a list
/// that is wanted; one that is not wanted may have any length.
#[test]
fn short_buffers() {
    for job in some_jobs() {
        let plan = plan_of(&job);
        let both = WANT_PAGE | WANT_CROSSINGS;
        for wants in [
            0,
            PLAN_GIVEN,
            WANT_PAGE,
            WANT_CROSSINGS,
            both,
            !both,
            u32::MAX,
        ] {
            for lengths in lengths() {
                let due = outputs(wants, &job, &plan, lengths);
                let mut told = vec![0xa5; lengths.answer];
                let mut listing = vec![0x5a; lengths.page];
                let mut list = vec![0xc3; lengths.crossings];
                let count = stage_sheet(Lent {
                    wants,
                    job: &job,
                    plan: &plan,
                    answer: &mut told,
                    page: &mut listing,
                    crossings: &mut list,
                });
                assert_eq!(count, due.answer.len());
                assert_eq!(due.answer.is_empty(), lengths.are_short(wants));
                assert_eq!(told, whole(&due.answer, lengths.answer, 0xa5));
                assert_eq!(listing, whole(&due.page, lengths.page, 0x5a));
                assert_eq!(list, whole(&due.crossings, lengths.crossings, 0xc3));
            }
        }
    }
}

/// All lengths at the edges of 2, of each buffer with each of the others.
fn lengths() -> Vec<Lengths> {
    let mut all = Vec::new();
    for answer in [0, BUFFER - 1, BUFFER] {
        for page in [0, PAGE_BUFFER - 1, PAGE_BUFFER] {
            for crossings in [0, CROSSINGS_BUFFER - 1, CROSSINGS_BUFFER] {
                all.push(Lengths {
                    answer,
                    page,
                    crossings,
                });
            }
        }
    }
    all
}

/// The bytes, and what was there before behind them.
fn whole(bytes: &[u8], length: usize, filler: u8) -> Vec<u8> {
    let mut whole = bytes.to_vec();
    whole.resize(length, filler);
    whole
}

/// Whole accepted jobs with 1,023, 1,024 and 1,025 crossings.
#[test]
fn about_the_limit() {
    let mut sheets = Sheets::new(stage_sheet, 1);
    for seed in 0..40 {
        for (count, due) in [(1_023, 0), (1_024, 0), (1_025, 19)] {
            let job = crossed::exactly(seed, count);
            let (answer, list) = oracle::stage::answer_and_crossings(&job, None);
            assert_eq!((oracle::number(&answer), list.len()), (0, count));
            assert_eq!(oracle::stage::kinds_of_crossings(&job, None), list);
            for (wants, due) in [
                (0, 0),
                (WANT_PAGE, 16),
                (WANT_CROSSINGS, due),
                // 19 before 16.
                (WANT_PAGE | WANT_CROSSINGS, due.max(16)),
            ] {
                let told = sheets
                    .check_wants(&job, &[], wants, seed)
                    .expect("the judge's");
                assert_eq!(told, due, "{count} crossings, {wants}");
            }
        }
    }
}
