//! Equal costs, one order (request A.8), over random days of 1 to 6 stops under all choices with legs of 0 to 2 at most,
//! so that orders tie; half of them with landing charges, half of them for days that end away and half of them with
//! pairs:
//!
//! - the library against the second planner, every field of the report and every word of the pool, for 20,000 days,
//!   within a budget or none, in pools that suffice and in small ones;
//! - under two choices with starting orders of their own, at times of least cost, for 8,000 days: one order, which of
//!   all that respect the pairs is the smallest of the cheapest;
//! - from two starting orders of one cost, for 8,000 days, within a budget or none: the same, to the last word of the
//!   pool, but for the order that a stopped search shows;
//! - from an order that is no dearer than another, for 8,000 days: no more work.

mod common;

use common::{cheapest_orders, order_cost, planned, random_job, told};
use gondamuy::raw::{Report, STOPPED};
use gondamuy::{NO_BUDGET, RECORD_WORDS};
use jobtext::Job;
use samples::Random;
use witness::job_file::Contents;
use witness::Request;

fn tied_job(random: &mut Random, most_stops: u64) -> Job {
    let n = 1 + random.below(most_stops) as usize;
    let most = random.pick(&[0, 1, 1, 2, 2]);
    random_job(random, n, most)
}

/// As `planned`, by the second planner.
fn by_second(job: &Job, budget: u64, records: usize) -> (Report, Vec<u32>) {
    let mut pool = vec![1; records * RECORD_WORDS];
    let contents = Contents::from(job);
    let request = Request { pairs: &job.pairs, budget, ..contents.request() };
    let report = witness::plan(&request, &mut pool);
    (told(&report), pool)
}

#[test]
fn as_the_second_planner() {
    let mut random = Random(141);
    let (mut finished, mut stopped, mut full) = (0, 0, 0);
    for _ in 0..20_000 {
        let job = tied_job(&mut random, 6);
        let budget = random.pick(&[0, 2, 5, 20, 100, NO_BUDGET, NO_BUDGET, NO_BUDGET]);
        let records = random.pick(&[1, 4, 9, 20, 40, 100, 2_100, 2_100]);
        let (report, pool) = planned(&job, budget, records);
        let (expected, words) = by_second(&job, budget, records);
        assert_eq!(report, expected, "budget {budget}, {records} records, {job:?}");
        assert!(pool == words, "the pools differ: budget {budget}, {records} records, {job:?}");
        finished += report.is_finished() as u32;
        stopped += (report.mark == STOPPED) as u32;
        full += (report.number == 7) as u32;
    }
    assert!(finished > 3_000 && stopped > 3_000 && full > 3_000, "{finished} {stopped} {full}");
}

/// Another search of the same day, with the same pairs and end.
fn other_search(random: &mut Random, job: &Job, cheapest: &[Vec<u8>]) -> Job {
    let [selection, rules, close] = [random.below(4), random.below(16), random.below(2)].map(|k| k as u32);
    let start = match random.below(3) {
        0 => Vec::new(),
        1 => random.order_with(job.n as usize, &job.pairs),
        _ => random.pick(cheapest),
    };
    Job { selection, rules, bound: job.bound & 2 | close, start, ..job.clone() }
}

#[test]
fn one_order_under_all_choices() {
    let mut random = Random(142);
    let (mut ties, mut smaller) = (0, 0);
    for _ in 0..8_000 {
        let job = tied_job(&mut random, 6);
        let cheapest = cheapest_orders(&job);
        let other = other_search(&mut random, &job, &cheapest);
        for job in [&job, &other] {
            let (report, _) = planned(job, NO_BUDGET, 2_100);
            assert!(report.is_finished(), "{job:?}");
            assert_eq!(report.cost, order_cost(job, &cheapest[0]), "{job:?}");
            assert_eq!(&report.order[..job.n as usize], &cheapest[0][..], "{job:?}");
        }
        ties += (cheapest.len() > 1) as u32;
        smaller += (cheapest[1..].contains(&other.start)) as u32;
    }
    assert!(ties > 3_000 && smaller > 1_000, "{ties} {smaller}");
}

#[test]
fn starting_orders_of_one_cost() {
    let mut random = Random(143);
    let mut other_orders = 0;
    for _ in 0..8_000 {
        let mut job = tied_job(&mut random, 5);
        let mut draw = || random.order_with(job.n as usize, &job.pairs);
        let (one, two): (Vec<u8>, Vec<u8>) = (draw(), draw());
        if order_cost(&job, &one) != order_cost(&job, &two) {
            continue;
        }
        let budget = random.pick(&[0, 3, 10, 30, NO_BUDGET]);
        let records = random.pick(&[1, 9, 40, 400]);
        let [(from_one, pool), (from_two, other)] = [one, two].map(|start| {
            job.start = start;
            planned(&job, budget, records)
        });
        assert_eq!((Report { order: from_two.order, ..from_one }, pool), (from_two, other), "{budget} {job:?}");
        assert!(from_one.mark == STOPPED || from_one.order == from_two.order, "{budget} {job:?}");
        other_orders += (from_one.order != from_two.order) as u32;
    }
    assert!(other_orders > 200, "{other_orders}");
}

/// What demand 3 asks of starting orders and rule 1, with costs that tie more often than not.
#[test]
fn no_more_work_from_a_better_start() {
    let mut random = Random(144);
    let mut fewer = 0;
    for _ in 0..8_000 {
        let b = tied_job(&mut random, 5);
        let mut a = b.clone();
        a.start = random.order_with(a.n as usize, &a.pairs);
        if !b.start.is_empty() && order_cost(&b, &a.start) > order_cost(&b, &b.start) {
            a.start = b.start.clone();
        }
        a.rules |= random.below(2) as u32;
        let [of_a, of_b] = [&a, &b].map(|job| planned(job, NO_BUDGET, 400).0);
        assert!(of_a.is_finished() && of_b.is_finished(), "{a:?} {b:?}");
        assert!(of_a.branched <= of_b.branched && of_a.generated <= of_b.generated, "{a:?} {b:?}");
        assert!(of_a.most <= of_b.most, "{a:?} {b:?}");
        fewer += (of_a.branched < of_b.branched) as u32;
    }
    assert!(fewer > 500, "{fewer}");
}
