//! The lazy peer against the simple one: every field of the report and every word of the pool, over random small jobs.
//! The lazy one runs with its own numbers and with tiny ones, so that chains are long, blocks grow often and the pool
//! is squeezed seldom, often or at every step. Most tables have many ties.

use std::time::{Duration, Instant};

use bench::peer::{self, Ended, Until};
use bench::task::{dirty_pool, Peer, Task};
use gondamuy::raw::{Job, STOPPED};
use gondamuy::NO_BUDGET;
use samples::{Random, KINDS};

/// No pool is so large that it is not squeezed at every step.
const EAGER: i64 = -(1 << 60);

const LAZY: [Peer; 3] = [peer::lazy, peer::abreast, peer::lazy_with::<64, 8, 64, true>];

/// Slow where many records are needed.
const TINY: [Peer; 3] =
    [peer::lazy_with::<4, 4, EAGER, false>, peer::lazy_with::<4, 4, 0, true>, peer::lazy_with::<2, 2, 16, true>];
const MANY: usize = 1_000;

/// How often each way to end was seen.
#[derive(Debug, Default)]
struct Seen {
    finished: usize,
    stopped: usize,
    full: usize,
}

impl Seen {
    /// Plans in a pool of so many records by all.
    fn compare(&mut self, task: &Task, budget: u64, records: usize) -> Ended {
        let until = Until { budget, deadline: Instant::now() + Duration::from_secs(600) };
        let mut pool = dirty_pool(records);
        let (ended, _) = task.by_peer(peer::simple, &until, &mut pool).expect("it ends");
        let tiny = if ended.records < MANY { &TINY[..] } else { &[] };
        for &lazy in LAZY.iter().chain(tiny) {
            task.hold(lazy, &until, &ended.report, &pool).expect("it ends");
        }
        self.finished += ended.report.is_finished() as usize;
        self.stopped += (ended.report.mark == STOPPED) as usize;
        self.full += (ended.report.number == 7) as usize;
        ended
    }

    /// In an ample pool and, where that did, in one of exactly the records needed, one less, one, and some; also within
    /// budgets.
    fn in_some_pools(&mut self, random: &mut Random, task: &Task, ample: usize) {
        let first = self.compare(task, NO_BUDGET, ample);
        if !first.report.is_finished() {
            return;
        }
        let needed = first.records;
        let some = 1 + random.below(needed as u64) as usize;
        for records in [needed, needed.max(2) - 1, 1, some] {
            let again = self.compare(task, NO_BUDGET, records);
            assert_eq!(again.report == first.report, records >= needed, "{records} of {needed} records: {task:?}");
            self.compare(task, random.below(first.report.branched + 2), records);
        }
    }
}

/// Any selection, rules and bound, from an order or from none.
fn random_task(random: &mut Random, n: usize) -> Task {
    let kind = random.below(KINDS.len() as u64) as usize;
    let table = random.table_of_kind(n, kind);
    let start = if random.below(2) == 0 { Vec::new() } else { random.order(n) };
    let [selection, rules, bound] = [4, 16, 2].map(|limit| random.below(limit) as u32);
    Task { job: Job { n: n as u32, selection, rules, bound }, table, start }
}

fn random_tasks(seed: u64, tasks: usize, stops: std::ops::RangeInclusive<usize>, ample: usize) -> Seen {
    let (mut random, mut seen) = (Random(seed), Seen::default());
    for _ in 0..tasks {
        let n = stops.start() + random.below((stops.end() - stops.start() + 1) as u64) as usize;
        let mut task = random_task(&mut random, n);
        // Others of so many stops go on for long.
        if n > 7 {
            (task.job.rules, task.job.bound) = (task.job.rules | 1, 1);
        }
        seen.in_some_pools(&mut random, &task, ample);
    }
    seen
}

#[test]
fn up_to_five_stops() {
    let seen = random_tasks(1, 20_000, 1..=5, 400);
    assert!(seen.finished > 50_000 && seen.stopped > 20_000 && seen.full > 50_000, "{seen:?}");
}

#[test]
fn six_and_seven_stops() {
    let seen = random_tasks(2, 200, 6..=7, 14_000);
    assert!(seen.finished > 300 && seen.stopped > 100 && seen.full > 300, "{seen:?}");
}

#[test]
fn eight_and_nine_stops() {
    let seen = random_tasks(3, 200, 8..=9, 10_000);
    assert!(seen.finished > 200 && seen.stopped > 100 && seen.full > 300, "{seen:?}");
}
