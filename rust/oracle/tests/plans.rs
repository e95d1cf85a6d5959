//! Plans (document 02, F-5): the form by hand, 17 and 18 and their order, and that the two in turn are the
//! stage.

use oracle::job;
use oracle::plan::{PLAN_BUFFER, Plan, read};
use oracle::stage::{answer_from, answer_of, plan_of};

/// examples/clock-board.job: six bundles, four of them planned, on the drafting grid.
fn clock_board() -> Vec<u8> {
    let path = concat!(
        env!("CARGO_MANIFEST_DIR"),
        "/../../examples/clock-board.job"
    );
    std::fs::read(path).expect("an example")
}

fn changed(change: impl FnOnce(&mut Vec<u8>)) -> Vec<u8> {
    let mut plan = plan_of(&clock_board());
    change(&mut plan);
    plan
}

fn number(plan: &[u8]) -> u8 {
    oracle::number(&answer_from(&clock_board(), plan))
}

#[test]
fn the_form() {
    let job = clock_board();
    let plan = plan_of(&job);
    // 1,999,720 visits left; four bundles at an x, two at the rail.
    let mut due = vec![0, 0, 0, 5 + 4 * 9 + 2, 1, 0, 0x1e, 0x83, 0x68];
    for x in [380.0, 580.0, 380.0, 580.0_f64] {
        due.push(1);
        due.extend(x.to_be_bytes());
    }
    due.extend([0, 0]);
    assert_eq!(plan, due);
    assert_eq!(answer_from(&job, &plan), answer_of(&job));
    let largest = Plan {
        tap_visits: 0,
        entries: vec![Some(1.0); 32],
    };
    assert_eq!(largest.encode().len(), PLAN_BUFFER);
}

#[test]
fn number_17() {
    let last = plan_of(&clock_board()).len() - 1;
    let set_length = |plan: &mut Vec<u8>| {
        let length = plan.len() as u32 - 4;
        plan[..4].copy_from_slice(&length.to_be_bytes());
    };
    for length in 0..=last {
        assert_eq!(number(&changed(|plan| plan.truncate(length))), 17);
        if length >= 4 {
            let cut = changed(|plan| {
                plan.truncate(length);
                set_length(plan);
            });
            assert_eq!(number(&cut), 17, "cut at {length}");
        }
    }
    for more in [0, 1, 9] {
        assert_eq!(number(&changed(|plan| plan.extend(vec![0; more + 1]))), 17);
        let longer = changed(|plan| {
            plan.extend(vec![0; more + 1]);
            set_length(plan);
        });
        assert_eq!(number(&longer), 17);
    }
    for version in [0, 2, 255] {
        assert_eq!(number(&changed(|plan| plan[4] = version)), 17);
    }
    for mark in [2, 255] {
        assert_eq!(number(&changed(|plan| plan[9] = mark)), 17);
        assert_eq!(number(&changed(|plan| plan[last] = mark)), 17);
    }
    // As many visits as are granted, and one more.
    let with_visits =
        |visits: u32| changed(|plan| plan[5..9].copy_from_slice(&visits.to_be_bytes()));
    assert_eq!(number(&with_visits(2_000_000)), 0);
    assert_eq!(number(&with_visits(2_000_001)), 17);
    // All of 17 before 18.
    let both = changed(|plan| {
        plan[10..18].copy_from_slice(&f64::NAN.to_be_bytes());
        plan[last] = 2;
    });
    assert_eq!(number(&both), 17);
    // A notice is no plan.
    assert_eq!(number(&[0, 0, 0, 2, 1, 13]), 17);
}

#[test]
fn number_18() {
    let grid = job::read(&clock_board()).expect("a job");
    let free = job::Job {
        on_grid: false,
        ..grid.clone()
    };
    let with = |x: f64, job: &job::Job| {
        let plan = changed(|plan| plan[10..18].copy_from_slice(&x.to_be_bytes()));
        read(&plan, job).err()
    };
    let (limit, large) = (1_048_576.0, 1_073_741_824.0_f64);
    let next = |x: f64| f64::from_bits(x.to_bits() + 1);
    for (x, off_grid, on_grid) in [
        (0.0, None, None),
        (-0.0, None, Some(18)),
        (1.0 / 128.0, None, None),
        (-1.0 / 128.0, None, None),
        (1.0 / 256.0, None, Some(18)),
        (5e-324, None, Some(18)),
        (limit, None, None),
        (-limit, None, None),
        (limit - 1.0 / 128.0, None, None),
        (next(limit), None, Some(18)),
        (limit + 1.0 / 128.0, None, Some(18)),
        (-limit - 1.0, None, Some(18)),
        (large, None, Some(18)),
        (-large, None, Some(18)),
        (next(large), Some(18), Some(18)),
        (next(-large), Some(18), Some(18)),
        (f64::INFINITY, Some(18), Some(18)),
        (f64::NEG_INFINITY, Some(18), Some(18)),
        (f64::NAN, Some(18), Some(18)),
        (f64::from_bits(0x7ff0_0000_0000_0001), Some(18), Some(18)),
    ] {
        assert_eq!(with(x, &free), off_grid, "{x}");
        assert_eq!(with(x, &grid), on_grid, "{x} on the grid");
    }
}

/// 1 to 9 before 17; what the sheet meets after 18; 13 is the planner's alone.
#[test]
fn the_order() {
    let job = clock_board();
    let mut wrong = job.clone();
    wrong[4] = 2;
    assert_eq!(answer_from(&wrong, &[]), [0, 0, 0, 2, 1, 3]);
    assert_eq!(plan_of(&wrong), [0, 0, 0, 2, 1, 3]);
    let mut spent = job::read(&job).expect("a job");
    spent.geometry_visits = 0;
    let spent = spent.encode();
    assert_eq!(oracle::number(&answer_from(&spent, &plan_of(&job))), 14);
    assert_eq!(oracle::number(&answer_from(&spent, &[])), 17);
    assert_eq!(plan_of(&spent), plan_of(&job), "the planner draws nothing");
}
