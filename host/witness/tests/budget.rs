//! The budget (request A.3 of document 02): cases worked out by hand.

mod common;

use common::{choices, Job};
use samples::{level, T};
use witness::{Report, LARGEST_BUDGET, STOPPED};

fn on_t(choices: [u64; 3], start: &[u32]) -> Job {
    Job::new(3, &T, choices, start)
}

/// Document 01's case b: FIFO, no rules, plain.
fn case_b() -> Job {
    on_t([2, 0, 0], &[])
}

/// A report with number 0: mark and floor, cost, order and counts.
fn told(mark: u32, floor: u32, cost: u32, stops: &[u32], counts: [u64; 5]) -> Report {
    let mut order = [0; 16];
    order[..stops.len()].copy_from_slice(stops);
    let [branched, generated, eliminated, active, most] = counts;
    Report { number: 0, mark, cost, floor, order, branched, generated, eliminated, active, most }
}

fn stopped(floor: u32, cost: u32, stops: &[u32], counts: [u64; 5]) -> Report {
    told(STOPPED, floor, cost, stops, counts)
}

fn finished(cost: u32, stops: &[u32], counts: [u64; 5]) -> Report {
    told(0, 0, cost, stops, counts)
}

fn report(job: &Job, budget: u64, records: usize) -> Report {
    job.within(budget).run(records).0
}

/// e, 1, 2, 3 and 12 are branched; left are 13, 21, 23, 31, 32 and 123, and
/// the least of their bounds is that of 23.
#[test]
fn case_b_after_five_branchings() {
    let (report, pool) = case_b().within(5).run(7);
    assert_eq!(report, stopped(8, 13, &[1, 2, 3], [5, 11, 0, 6, 6]));
    let nodes = [
        [2, 5, 10, 10, 0x20, 0],
        [2, 3, 15, 15, 0x01, 0],
        [2, 6, 8, 8, 0x21, 0],
        [2, 5, 14, 14, 0x02, 0],
        [2, 6, 13, 13, 0x12, 0],
        [3, 7, 7, 13, 0x210, 0],
        [0; 6],
    ];
    assert_eq!(pool, nodes.concat());
}

/// With nine branchings the best order is known and costs the floor, yet the
/// run isn't finished: 32 isn't complete.
#[test]
fn case_b_from_start_to_finish() {
    let b = case_b();
    assert_eq!(report(&b, 0, 6), stopped(0, 0, &[], [0, 1, 0, 1, 1]));
    assert_eq!(report(&b, 1, 6), stopped(4, 0, &[], [1, 4, 0, 3, 3]));
    assert_eq!(report(&b, 4, 6), stopped(6, 0, &[], [4, 10, 0, 6, 6]));
    assert_eq!(report(&b, 9, 6), stopped(13, 13, &[1, 2, 3], [9, 15, 0, 6, 6]));
    for budget in [10, 11, LARGEST_BUDGET] {
        assert_eq!(report(&b, budget, 6), finished(13, &[1, 2, 3], [10, 16, 0, 6, 6]));
    }
}

/// The fourth branching of case b leaves six nodes. In five records a run with
/// three branchings is stopped and one with more is refused.
#[test]
fn spent_budget_before_full_pool() {
    let state = [3, 8, 0, 5, 5];
    assert_eq!(report(&case_b(), 3, 5), stopped(6, 0, &[], state));
    for budget in [4, 5, 9, 10, LARGEST_BUDGET] {
        assert_eq!(report(&case_b(), budget, 5), Report { number: 7, ..finished(0, &[], state) });
    }
}

/// Case f's second job, whose first step is one too many for its record.
#[test]
fn no_branching_in_one_record() {
    let job = on_t([3, 1, 1], &[]);
    let (of_stopped, pool) = job.within(0).run(1);
    assert_eq!(of_stopped, stopped(10, 0, &[], [0, 1, 0, 1, 1]));
    assert_eq!(pool, [0, 0, 0, 10, 0, 0]);
    assert_eq!(job.within(1).run(1).0, Report { number: 7, ..finished(0, &[], [0, 1, 0, 1, 1]) });
}

/// Case e, and the same from a dearer order: the order given is the best known
/// until a complete child is cheaper.
#[test]
fn starting_order_is_known() {
    let e = on_t([3, 1, 1], &[1, 2, 3]);
    assert_eq!(report(&e, 0, 1), stopped(10, 13, &[1, 2, 3], [0, 1, 0, 1, 1]));
    assert_eq!(report(&e, 1, 1), stopped(10, 13, &[1, 2, 3], [1, 4, 2, 1, 1]));
    assert_eq!(report(&e, 2, 1), stopped(13, 13, &[1, 2, 3], [2, 6, 3, 1, 1]));
    assert_eq!(report(&e, 3, 1), finished(13, &[1, 2, 3], [3, 7, 3, 1, 1]));
    let dearer = on_t([2, 0, 0], &[2, 1, 3]);
    assert_eq!(report(&dearer, 4, 6), stopped(6, 27, &[2, 1, 3], [4, 10, 0, 6, 6]));
    assert_eq!(report(&dearer, 5, 6), stopped(8, 13, &[1, 2, 3], [5, 11, 0, 6, 6]));
}

/// Case a: after two branchings the floor is the best cost, and no order is
/// known; the third finds it and finishes.
#[test]
fn floor_without_an_order() {
    let a = on_t([0, 1, 1], &[]);
    assert_eq!(report(&a, 0, 4), stopped(10, 0, &[], [0, 1, 0, 1, 1]));
    assert_eq!(report(&a, 1, 4), stopped(10, 0, &[], [1, 4, 0, 3, 3]));
    assert_eq!(report(&a, 2, 4), stopped(13, 0, &[], [2, 6, 0, 4, 4]));
    assert_eq!(report(&a, 3, 4), finished(13, &[1, 2, 3], [3, 7, 3, 1, 4]));
}

/// Where every leg is free, an order of cost 0 is shown, by its stops.
#[test]
fn free_order_is_shown() {
    let job = Job::new(2, &[0; 9], [2, 0, 0], &[]);
    assert_eq!(report(&job, 1, 2), stopped(0, 0, &[], [1, 3, 0, 2, 2]));
    assert_eq!(report(&job, 2, 2), stopped(0, 0, &[1, 2], [2, 4, 0, 2, 2]));
    assert_eq!(report(&job, 3, 2), finished(0, &[1, 2], [3, 5, 0, 2, 2]));
}

/// A starting order that costs e's bound is known to be cheapest, but not to be
/// the smallest of these, and no run finishes without a branching: legs all the
/// same under close, free ones under both bounds.
#[test]
fn floor_reached_by_the_starting_order() {
    for n in [1, 2, 5, 16] {
        let start: Vec<u32> = (1..=n as u32).rev().collect();
        for [selection, rules, bound] in choices() {
            let leg = bound as u32 * 7;
            let job = Job::new(n, &level(n, leg), [selection, rules, bound], &start);
            let cost = leg * (n as u32 + 1);
            assert_eq!(report(&job, 0, 1), stopped(cost, cost, &start, [0, 1, 0, 1, 1]), "{job:?}");
        }
    }
}

/// Sixteen stops, every leg the dearest, depth first: sixteen branchings lead
/// to the first order. Plain's floor is a node of one stop; close's is what
/// every order costs.
#[test]
fn sixteen_stops() {
    let order: Vec<u32> = (1..=16).rev().collect();
    for (bound, floor) in [(0, 1_000_000), (1, 17_000_000)] {
        let job = Job::new(16, &level(16, 1_000_000), [3, 0, bound], &[]);
        assert_eq!(report(&job, 15, 121), stopped(floor, 0, &[], [15, 136, 0, 121, 121]));
        assert_eq!(report(&job, 16, 121), stopped(floor, 17_000_000, &order, [16, 137, 0, 121, 121]));
    }
}
