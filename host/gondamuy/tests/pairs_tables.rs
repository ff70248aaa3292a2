//! What pairs change (request A.6), over random days of 2 to 6 stops under all choices, half of them with landing
//! charges and half of them for days that end away. The same library plans each of them several times:
//!
//! - with its pairs and without, for 10,000 days: with them the order respects them and is the cheapest of all that do,
//!   and is the same as without where the order found without respects them;
//! - with its pairs in another sequence: the same, to the last word of the pool, for 10,000 days, within a budget or
//!   none, and for their first orders;
//! - with its pairs under other choices, for 10,000 days that end at the same place: the same cost and order.

mod common;

use common::{least_cost, order_cost, planned, random_job};
use gondamuy::raw::{first_order, Report};
use gondamuy::NO_BUDGET;
use jobtext::Job;
use samples::{respects, Random};

/// A day of 2 to some stops with one pair at least.
fn paired_job(random: &mut Random, most_stops: u64) -> Job {
    let n = 2 + random.below(most_stops - 1) as usize;
    let most = random.pick(&[0, 1, 2, 9, 1_000, 1_000_000]);
    loop {
        let job = random_job(random, n, most);
        if !job.pairs.is_empty() {
            return job;
        }
    }
}

fn finished(job: &Job) -> Report {
    let (report, _) = planned(job, NO_BUDGET, 2_100);
    assert!(report.is_finished(), "{job:?}");
    report
}

#[test]
fn held_to_the_orders_that_respect_them() {
    let mut random = Random(121);
    let (mut dearer, mut fewer) = (0, 0);
    for _ in 0..10_000 {
        let job = paired_job(&mut random, 5);
        let order = |report: &Report| report.order[..job.n as usize].to_vec();
        let [with, without] = [job.clone(), Job { pairs: Vec::new(), ..job.clone() }].map(|job| finished(&job));
        assert!(respects(&job.pairs, &order(&with)), "{job:?}");
        assert_eq!((with.cost, with.cost), (least_cost(&job), order_cost(&job, &order(&with))), "{job:?}");
        if respects(&job.pairs, &order(&without)) {
            assert_eq!((with.cost, with.order), (without.cost, without.order), "{job:?}");
        }
        assert!(without.cost <= with.cost, "{job:?}");
        dearer += (without.cost < with.cost) as u32;
        fewer += (with.generated < without.generated) as u32;
    }
    assert!(dearer > 2_000 && fewer > 2_000, "{dearer} {fewer}");
}

/// The same pairs, drawn in another sequence.
fn shuffled(random: &mut Random, pairs: &[u8]) -> Vec<u8> {
    let places: Vec<u8> = random.order(pairs.len() / 2);
    places.into_iter().flat_map(|place| pairs[2 * place as usize - 2..2 * place as usize].to_vec()).collect()
}

#[test]
fn their_sequence_plays_no_part() {
    let mut random = Random(122);
    let mut seen = 0;
    for _ in 0..10_000 {
        let job = paired_job(&mut random, 6);
        let other = Job { pairs: shuffled(&mut random, &job.pairs), ..job.clone() };
        let budget = random.pick(&[0, 3, 20, NO_BUDGET, NO_BUDGET]);
        let records = random.pick(&[1, 9, 40, 2_100]);
        assert_eq!(planned(&job, budget, records), planned(&other, budget, records), "{job:?} {other:?}");
        let first = |job: &Job| first_order(job.n, job.bound, &job.table, &job.pairs);
        assert_eq!(first(&job), first(&other), "{job:?} {other:?}");
        seen += (job.pairs != other.pairs) as u32;
    }
    assert!(seen > 1_000, "{seen}");
}

#[test]
fn one_order_under_all_choices() {
    let mut random = Random(123);
    for _ in 0..10_000 {
        let job = paired_job(&mut random, 6);
        let [selection, rules, close] = [random.below(4), random.below(16), random.below(2)].map(|k| k as u32);
        let bound = job.bound & 2 | close;
        let start = random.order_with(job.n as usize, &job.pairs);
        let other = Job { selection, rules, bound, start, ..job.clone() };
        let [one, two] = [&job, &other].map(finished);
        assert_eq!((one.cost, one.order), (two.cost, two.order), "{job:?} {other:?}");
    }
}
