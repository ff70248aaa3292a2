//! The library against the peers: every field of the report and every word of the pool, on jobs of more branchings and
//! records than the differential tests have. `bench long` does the same with as many of both as it is told.

use std::time::{Duration, Instant};

use bench::peer::{self, Until};
use bench::task::{dirty_pool, Task};
use gondamuy::raw::{Job, Report, STOPPED};
use gondamuy::NO_BUDGET;

fn task(wind: &str, n: u32, seed: u64, selection: u32, rules: u32, bound: u32) -> Task {
    Task::of(Job { n, selection, rules, bound }, wind, seed)
}

/// Holds the peers to the library.
fn compare(task: &Task, budget: u64, records: usize) -> Report {
    let until = Until { budget, deadline: Instant::now() + Duration::from_secs(600) };
    let mut pool = dirty_pool(records);
    let (report, _) = task.by_library(budget, &mut pool);
    for peer in [peer::simple, peer::lazy, peer::abreast] {
        task.hold(peer, &until, &report, &pool).expect("it ends");
    }
    report
}

#[test]
fn every_choice() {
    let (mut finished, mut stopped, mut full) = (0, 0, 0);
    for (selection, rules) in (0..4).flat_map(|selection| (0..16).map(move |rules| (selection, rules))) {
        for (wind, n) in [("uniform", 10), ("wind", 10), ("uniform", 16), ("wind", 13)] {
            for bound in 0..2 {
                let report = compare(&task(wind, n, 7, selection, rules, bound), 1_500, 6_000);
                finished += report.is_finished() as usize;
                stopped += (report.mark == STOPPED) as usize;
                full += (report.number == 7) as usize;
            }
        }
    }
    assert!(finished > 50 && stopped > 50 && full > 50, "{finished} finished, {stopped} stopped, {full} full");
}

/// To their end, some in pools of a hundred thousand records.
#[test]
fn long_runs() {
    for (task, records) in [
        (task("wind", 16, 0, 0, 15, 1), 100_000),
        (task("uniform", 16, 0, 0, 1, 1), 100_000),
        (task("wind", 14, 1, 1, 15, 1), 60_000),
        (task("wind", 12, 0, 2, 15, 0), 25_000),
        (task("wind", 14, 0, 3, 1, 1), 80),
        (task("uniform", 16, 0, 3, 7, 1), 100_000),
    ] {
        let report = compare(&task, NO_BUDGET, records);
        println!("{} branched, at most {} active", report.branched, report.most);
        assert!(report.is_finished(), "{task:?}");
    }
}
