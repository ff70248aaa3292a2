//! Request A.3 of document 02 over random jobs: every budget, in pools that
//! suffice and in pools that don't, against full enumeration and against the
//! states of the run with the largest budget.

mod common;

use std::cell::RefCell;
use std::collections::BTreeSet;

use common::paired::for_each_paired_job;
use common::{
    ample, check_finished, check_order, choices, counts_of, for_each_away_job, for_each_job, read_pool, table_of_kind,
    told_words, Job,
};
use samples::{Random, KINDS};
use witness::{plan_watched, Report, State, LARGEST_BUDGET, STOPPED, WORDS};

/// Budgets that a planner with narrower numbers would take for small ones, and
/// the largest.
const BEYOND: [u64; 4] = [1 << 32, (1 << 32) + 1, LARGEST_BUDGET - 1, LARGEST_BUDGET];

/// A job with the largest budget, and what its run comes to.
struct Course<'a> {
    job: &'a Job,
    /// At the start and after each step, in a pool that suffices.
    states: Vec<State>,
    /// The nodes that each of them has the pool keep.
    keeps: Vec<usize>,
    /// The least cost of all orders that respect the pairs.
    least: u32,
    /// Of the orders that cost it.
    smallest: Vec<u32>,
}

impl Course<'_> {
    fn of(job: &Job) -> Course<'_> {
        let (states, keeps) = (job.states(ample(job.n)), job.keeps());
        let (least, smallest) = job.best();
        Course { job, states, keeps, least, smallest }
    }

    /// The branchings that so many records leave room for, up to the finish.
    fn branchings_in(&self, records: usize) -> u64 {
        let stay = self.keeps.iter().take_while(|&&keep| keep <= records);
        stay.count() as u64 - 1
    }

    fn branchings(&self) -> u64 {
        self.states.len() as u64 - 1
    }

    /// One record, one too few, just enough, and some to spare.
    fn pools(&self) -> Vec<usize> {
        let enough = *self.keeps.iter().max().unwrap();
        let mut pools = vec![1, enough.max(2) - 1, enough, enough + 3];
        pools.dedup();
        pools
    }

    /// Whether the budget is to stop the run in so many records: also where
    /// its next step wouldn't fit, not where it is finished.
    fn stops(&self, records: usize, budget: u64) -> bool {
        budget <= self.branchings_in(records) && budget < self.branchings()
    }
}

/// The report and the pool, which holds other words before the call, and how
/// many states were seen.
type Ended = (Report, Vec<u32>, u64);

fn run(job: &Job, records: usize) -> Ended {
    let mut pool = vec![0xDEAD_BEEF; records * WORDS];
    let mut seen = 0;
    let report = plan_watched(&job.request(), &mut pool, &mut |_| seen += 1);
    (report, pool, seen)
}

/// What request A.3 says of a run that its budget stopped.
fn check_stopped(course: &Course, budget: u64, report: &Report) {
    let job = course.job;
    assert_eq!((report.number, report.mark, report.branched), (0, STOPPED, budget), "{job:?}");
    let parts = report.branched + report.eliminated + report.active;
    assert_eq!(report.generated, parts, "{job:?}");
    assert!(report.floor <= course.least, "{budget} {job:?}");
    if report.order[0] == 0 {
        assert_eq!((report.cost, report.order), (0, [0; 16]), "{job:?}");
    } else {
        check_order(job, report);
        assert!(course.least <= report.cost, "{job:?}");
    }
}

/// The state is that of as many steps of the run with the largest budget.
fn check_state(course: &Course, state: &State, report: &Report, pool: &[u32]) {
    let job = course.job;
    assert_eq!(report.counts(), counts_of(state), "{job:?}");
    assert_eq!(pool, told_words(job, state, pool.len() / WORDS), "{job:?}");
    let (active, _) = read_pool(job, report, pool);
    let floor = active.iter().map(|order| job.bound_of(order)).min();
    assert_eq!(Some(report.floor), floor, "{job:?}");
    assert_eq!(report.cost, state.upper.cost.unwrap_or(0), "{job:?}");
    let best: Vec<u32> = state.upper.order.iter().map(|&stop| stop as u32).collect();
    assert_eq!(report.order[..best.len()], best, "{job:?}");
    assert_eq!(best.is_empty(), report.order[0] == 0, "{job:?}");
}

/// The run with the largest budget: finished or full.
fn check_unlimited(course: &Course, records: usize) -> Ended {
    let (job, ended) = (course.job, run(course.job, records));
    let (report, pool, _) = &ended;
    assert_eq!((report.mark, report.floor), (0, 0), "{job:?}");
    if course.branchings_in(records) == course.branchings() {
        check_finished(job, report, pool, course.least, &course.smallest);
    } else {
        assert_eq!(report.number, 7, "{job:?}");
    }
    ended
}

/// One run of the job; its report if the budget stopped it. Otherwise it ends
/// as the one with the largest budget in as many records.
fn check_budget(course: &Course, records: usize, budget: u64, unlimited: &Ended) -> Option<Report> {
    let ended = run(&course.job.within(budget), records);
    if !course.stops(records, budget) {
        assert_eq!(&ended, unlimited, "{budget} {:?}", course.job);
        return None;
    }
    let (report, pool, seen) = ended;
    assert_eq!(seen, budget + 1, "{:?}", course.job);
    check_stopped(course, budget, &report);
    check_state(course, &course.states[budget as usize], &report, &pool);
    Some(report)
}

/// Of one job, in whatever pools: with more branchings the floor stays or
/// rises, and a known order is kept or bettered.
fn check_larger_budgets(job: &Job, mut stopped: Vec<Report>) {
    stopped.sort_by_key(|report| report.branched);
    for pair in stopped.windows(2) {
        let (smaller, larger) = (&pair[0], &pair[1]);
        if smaller.branched == larger.branched {
            assert_eq!(smaller, larger, "the pools alone differ: {job:?}");
        }
        assert!(smaller.floor <= larger.floor, "{job:?}");
        if smaller.order[0] != 0 {
            assert!(larger.order[0] != 0 && larger.cost <= smaller.cost, "{job:?}");
        }
    }
}

fn check_budgets(job: &Job, budgets: impl Fn(u64) -> Vec<u64>) {
    let course = Course::of(job);
    let mut stopped = Vec::new();
    for records in course.pools() {
        let unlimited = check_unlimited(&course, records);
        for budget in budgets(course.branchings()) {
            stopped.extend(check_budget(&course, records, budget, &unlimited));
        }
    }
    check_larger_budgets(job, stopped);
}

/// From 0 up past the end.
fn every_budget(branchings: u64) -> Vec<u64> {
    (0..=branchings + 2).chain(BEYOND).collect()
}

#[test]
fn every_budget_up_to_three_stops() {
    for_each_job(61, 1, 1, |job| check_budgets(job, every_budget));
    for_each_job(62, 2, 6, |job| check_budgets(job, every_budget));
    for_each_job(63, 3, 6, |job| check_budgets(job, every_budget));
}

#[test]
fn every_budget_of_four_stops() {
    for_each_job(64, 4, 1, |job| check_budgets(job, every_budget));
}

/// Request A.5's days.
#[test]
fn every_budget_of_days_that_end_away() {
    for_each_away_job(67, 1, 1, |job| check_budgets(job, every_budget));
    for_each_away_job(68, 2, 3, |job| check_budgets(job, every_budget));
    for_each_away_job(69, 3, 3, |job| check_budgets(job, every_budget));
}

/// Request A.6's pairs.
#[test]
fn every_budget_with_pairs() {
    for_each_paired_job(121, 2, 2, |job| check_budgets(job, every_budget));
    for_each_paired_job(122, 3, 3, |job| check_budgets(job, every_budget));
    for_each_paired_job(123, 4, 1, |job| check_budgets(job, every_budget));
}

/// Every choice over a table of its own, at times with a starting order; some
/// twenty budgets, the last two before the finish among them.
#[test]
fn budgets_of_five_and_six_stops() {
    let mut random = Random(65);
    for (i, choice) in choices().into_iter().enumerate() {
        let n = 5 + i / 2 % 2;
        let table = table_of_kind(&mut random, n, i % KINDS.len());
        let start: Vec<u32> = if random.below(2) == 0 { Vec::new() } else { random.order(n) };
        let places = random.words(16);
        check_budgets(&Job::new(n, &table, choice, &start), |branchings| {
            let spread = places.iter().map(|&place| u64::from(place) % (branchings + 1));
            spread.chain(branchings.saturating_sub(2)..=branchings + 1).collect()
        });
    }
}

/// Under every selection runs finish, are stopped with an order and without
/// one, and find the pool full, so that the tables above say something.
#[test]
fn every_end_occurs() {
    let ends = RefCell::new(BTreeSet::new());
    for_each_job(66, 3, 1, |job| {
        for (records, budget) in [(16, 20), (16, 7), (16, 3), (16, 0), (2, 20), (2, 0)] {
            let (report, _) = job.within(budget).run(records);
            let Report { number, mark, order, .. } = report;
            ends.borrow_mut().insert((job.selection, number, mark, order[0] != 0));
        }
    });
    let told = [(0, 0, true), (0, STOPPED, false), (0, STOPPED, true), (7, 0, false)];
    let all = (0..4).flat_map(|selection| told.map(|(number, mark, shown)| (selection, number, mark, shown)));
    assert_eq!(ends.into_inner(), all.collect());
}
