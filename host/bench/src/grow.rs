//! How the time of a branching grows with the records held: the office's job on the wind table of sixteen stops that,
//! of so many, has the most branchings, stopped by larger and larger budgets. A row has the lazy peer's time and ours
//! for a branching of the whole run and of those since the row before. The library is left out from the first budget on
//! for which it might need more than so many seconds.

use std::time::Duration;

use bench::peer::{self, Ended, Record};
use bench::task::Task;
use gondamuy::NO_BUDGET;

use crate::{large_pool, until, KINDS, LONG};

const BUDGETS: [u64; 6] = [1_000, 3_000, 10_000, 30_000, 100_000, NO_BUDGET];
const RUNS: usize = 9;

/// The library, where it takes longer than this, runs once.
const SHORT: Duration = Duration::from_millis(300);

pub fn all_rows(tables: u64, seconds: u64) {
    let mut pool = large_pool();
    let office = KINDS.iter().find(|kind| kind.letter == "P").expect("the office has a job");
    let tasks = (0..tables).map(|seed| (seed, office.task("wind", 16, seed)));
    let branched = |task: &Task, pool: &mut [Record]| by_lazy(task, NO_BUDGET, pool).0.report.branched;
    let (seed, task) = tasks.max_by_key(|(_, task)| branched(task, &mut pool)).expect("one table or more");
    println!("wind 16, table {seed}, job P");
    print!("{:>10}{:>10}{:>10}", "branched", "active", "records");
    print!("{:>10}{:>10}{:>10}{:>10}", "lazy ns", "since", "ours ns", "since");
    println!("{:>8}{:>8}", "ratio", "since");
    let mut before = Row::default();
    for budget in BUDGETS {
        let row = Row::of(&task, budget, &before, seconds, &mut pool);
        if row.branched > before.branched {
            row.print(&before);
            before = row;
        }
    }
}

fn by_lazy(task: &Task, budget: u64, pool: &mut [Record]) -> (Ended, Duration) {
    task.by_peer(peer::lazy, &until(budget, LONG), pool).expect("it ends")
}

/// A run that was stopped: the nodes branched, the active ones at its end, and the records needed.
#[derive(Default)]
struct Row {
    branched: u64,
    active: u64,
    records: usize,
    lazy: Duration,
    ours: Option<Duration>,
}

impl Row {
    fn of(task: &Task, budget: u64, before: &Row, seconds: u64, pool: &mut [Record]) -> Row {
        let (ended, _) = by_lazy(task, budget, pool);
        let (report, records) = (ended.report, ended.records);
        let pool = &mut pool[..records + records / 4];
        let lazy = (0..RUNS).map(|_| by_lazy(task, budget, pool).1).min().expect("it ran");
        let growth = report.branched as f64 / before.branched.max(1) as f64;
        let expected = before.ours.map(|time| time.mul_f64(growth * growth));
        let in_time = before.branched == 0 || expected.is_some_and(|time| time < Duration::from_secs(seconds));
        let ours = in_time.then(|| {
            let (ours, time) = task.by_library(budget, pool);
            assert_eq!(ours, report);
            let again = if time < SHORT { RUNS - 1 } else { 0 };
            (0..again).map(|_| task.by_library(budget, pool).1).fold(time, Duration::min)
        });
        Row { branched: report.branched, active: report.active, records, lazy, ours }
    }

    fn print(&self, before: &Row) {
        let each = |time: Duration, since: Duration, branched: u64| {
            time.saturating_sub(since).as_nanos() as f64 / branched.max(1) as f64
        };
        let since = self.branched - before.branched;
        let lazy = [each(self.lazy, Duration::ZERO, self.branched), each(self.lazy, before.lazy, since)];
        print!("{:>10}{:>10}{:>10}{:>10.0}{:>10.0}", self.branched, self.active, self.records, lazy[0], lazy[1]);
        let Some(time) = self.ours else {
            return println!("{:>10}{:>10}{:>8}{:>8}", "-", "-", "-", "-");
        };
        let earlier = before.ours.unwrap_or_default();
        let ours = [each(time, Duration::ZERO, self.branched), each(time, earlier, since)];
        println!("{:>10.0}{:>10.0}{:>8.2}{:>8.2}", ours[0], ours[1], ours[0] / lazy[0], ours[1] / lazy[1]);
    }
}
