//! Equal costs, one order (request A.8 of document 02) over random tables with
//! many ties: legs and charges of 0 to 2 for the most part, pairs half of the
//! time, days of either end.

mod common;

use common::paired::all_choices;
use common::{ample, check_finished, Job};
use samples::Random;
use witness::{Report, STOPPED};

/// A job without a starting order; it may be given any that respects its pairs.
fn tied_job(random: &mut Random, n: usize) -> Job {
    let most = random.pick(&[0, 1, 1, 2, 2]);
    let mut table = random.table(n, 0, most);
    if random.below(2) == 0 {
        (0..=n).for_each(|place| table[place * (n + 2)] = random.below(3) as u32);
    }
    let choice = random.pick(&all_choices());
    let pairs = random.maybe_paired(n);
    Job::new(n, &table, choice, &[]).paired(&pairs)
}

fn started(job: &Job, start: &[u32]) -> Job {
    Job { start: start.to_vec(), ..job.clone() }
}

/// The orders that tie for the least cost, ascending.
fn cheapest(job: &Job) -> Vec<Vec<u32>> {
    let (least, mut orders) = (job.least_cost(), job.orders());
    orders.retain(|order| job.cost(order) == least);
    orders
}

/// Two jobs that differ in selection, rules, plain and close, and in their
/// starting orders, which may be of least cost: both show the smallest of the
/// cheapest orders. How many of these tie.
fn check_one_order(random: &mut Random, n: usize) -> usize {
    let job = tied_job(random, n);
    let cheapest = cheapest(&job);
    for _ in 0..2 {
        let [selection, rules, close] = [random.below(4), random.below(16), random.below(2)];
        let bound = job.bound / 2 * 2 + close;
        let start = match random.below(3) {
            0 => Vec::new(),
            1 => random.order_with(n, &job.pairs),
            _ => random.pick(&cheapest),
        };
        let other = Job { selection, rules, bound, start, ..job.clone() };
        let (report, pool) = other.run(ample(n));
        check_finished(&other, &report, &pool, job.cost(&cheapest[0]), &cheapest[0]);
    }
    cheapest.len()
}

#[test]
fn one_order_whatever_the_choices() {
    let mut random = Random(141);
    for (n, rounds) in [(1, 10), (2, 300), (3, 2_000), (4, 2_000), (5, 600), (6, 60)] {
        let ties = (0..rounds).filter(|_| check_one_order(&mut random, n) > 1).count();
        assert!(n < 3 || ties > rounds / 2, "{n}: {ties}");
    }
}

/// The last state has nothing left that could lead to another order: under the
/// least-bound selections no incomplete node whose bound is the cost, under the
/// others no incomplete node at all.
#[test]
fn what_a_finished_run_leaves() {
    let mut random = Random(142);
    for round in 0..3_000 {
        let job = tied_job(&mut random, 1 + round % 5);
        let last = job.states(ample(job.n)).pop().unwrap();
        let cost = last.upper.cost.unwrap();
        for y in last.active.iter().filter(|y| y.size() < job.n) {
            assert!(job.selection < 2 && y.bound > cost, "{job:?}");
        }
        let best = last.active.iter().any(|y| y.stops == last.upper.order);
        assert!(best, "the order shown is active: {job:?}");
    }
}

/// With rules 2 and 8 no two active nodes have one set and one last stop: of any
/// two such nodes one dominates the other.
#[test]
fn one_node_for_a_set_and_last_stop() {
    let mut random = Random(143);
    for round in 0..2_000 {
        let job = Job { rules: 10 + random.pick(&[0, 1, 4, 5]), ..tied_job(&mut random, 2 + round % 4) };
        for state in job.states(ample(job.n)) {
            let mut ways: Vec<(u32, usize)> = state.active.iter().map(|y| (y.set, y.last())).collect();
            ways.sort();
            assert!(ways.windows(2).all(|pair| pair[0] != pair[1]), "{job:?}");
        }
    }
}

/// Starting orders of one cost, with every budget: all is the same but the order
/// that a stopped run shows, and that is never larger than a smaller start's.
#[test]
fn starting_orders_of_one_cost() {
    let mut random = Random(144);
    let (mut same, mut differ) = (0, 0);
    for round in 0..1_500 {
        let n = 2 + round % 3;
        let job = tied_job(&mut random, n);
        let one = random.order_with(n, &job.pairs);
        let mut tied = job.orders();
        tied.retain(|order| *order >= one && job.cost(order) == job.cost(&one));
        let two = random.pick(&tied);
        let (one, two) = (started(&job, &one), started(&job, &two));
        for budget in 0..=one.run(ample(n)).0.branched {
            let ((of_one, pool), (of_two, other)) =
                (one.within(budget).run(ample(n)), two.within(budget).run(ample(n)));
            assert_eq!((Report { order: of_two.order, ..of_one }, pool), (of_two, other), "{budget} {job:?}");
            assert!(of_one.order <= of_two.order, "{budget} {job:?}");
            assert!(of_one.mark == STOPPED || of_one.order == of_two.order, "{budget} {job:?}");
            *(if of_one.order == of_two.order { &mut same } else { &mut differ }) += 1;
        }
    }
    assert!(same > 1_000 && differ > 1_000, "{same} {differ}");
}

/// With more branchings the order known costs less or, at the same cost, is
/// smaller, or it is the same. How often it was only smaller.
#[test]
fn known_order_from_budget_to_budget() {
    let mut random = Random(145);
    let mut smaller = 0;
    for round in 0..600 {
        let n = 3 + round % 2;
        let job = tied_job(&mut random, n);
        let job = match random.below(2) {
            0 => started(&job, &random.order_with(n, &job.pairs)),
            _ => job,
        };
        let known = |budget| {
            let (report, _) = job.within(budget).run(ample(n));
            (report.order[0] != 0).then_some((report.cost, report.order))
        };
        let branchings = job.run(ample(n)).0.branched;
        for (before, after) in (0..branchings).filter_map(|budget| known(budget).zip(known(budget + 1))) {
            assert!(after <= before, "{job:?}");
            smaller += (after.0 == before.0 && after != before) as u32;
        }
    }
    assert!(smaller > 200, "{smaller}");
}

/// A node that ties with the best is never lost to rule 1: with it and without,
/// the same order is shown.
#[test]
fn rule_1_keeps_equals() {
    let mut random = Random(146);
    for round in 0..2_000 {
        let n = 2 + round % 4;
        let job = tied_job(&mut random, n);
        let start = random.pick(&cheapest(&job));
        let shown = |rules| {
            let (report, _) = started(&Job { rules, ..job.clone() }, &start).run(ample(n));
            (report.number, report.mark, report.cost, report.order)
        };
        assert_eq!(shown(job.rules | 1), shown(job.rules & 14), "{job:?}");
    }
}
