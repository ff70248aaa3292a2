//! What a day that ends away changes (request A.5), over random days of 1 to 6 stops under all choices, half of them
//! with landing charges and half of them with pairs (request A.6). The same library plans each of them twice:
//!
//! - with its flights home and with others: the same, to the last word of the pool, for 20,000 days, within a budget or
//!   none, and for their first orders;
//! - ending away and, where the flights home cost nothing, ending at home: the same again, for 20,000 days;
//! - ending away and ending at home, for 10,000 days of up to 5 stops: each order is the cheapest of all that respect
//!   the pairs by the costs of its own day, and the one that ends away costs no more;
//! - by close and by plain, earliest and latest first, for 10,000 days: the same cost and no more work.

mod common;

use common::{least_cost, order_cost, planned, random_job};
use gondamuy::raw::{first_order, FirstOrder, Report};
use gondamuy::NO_BUDGET;
use jobtext::Job;
use samples::{free_flights_home, Random};

const LEGS: [u32; 6] = [0, 1, 2, 9, 1_000, 1_000_000];

/// A day of some stops at most that ends away.
fn away_job(random: &mut Random, most_stops: u64) -> Job {
    let n = 1 + random.below(most_stops) as usize;
    let most = random.pick(&LEGS);
    let mut job = random_job(random, n, most);
    job.bound |= 2;
    job
}

/// The same day ending at home.
fn at_home(job: &Job) -> Job {
    Job { bound: job.bound - 2, ..job.clone() }
}

fn first(job: &Job) -> FirstOrder {
    first_order(job.n, job.bound, &job.table, &job.pairs)
}

/// How often each number was seen, and how many searches were stopped.
#[derive(Debug, Default)]
struct Seen {
    numbers: [usize; 8],
    stopped: u32,
}

/// Plans two forms of 20,000 days, in pools and within budgets of many sizes: all that comes back is the same.
fn the_same(seed: u64, forms: fn(&mut Random, Job) -> [Job; 2]) {
    let mut random = Random(seed);
    let mut seen = Seen::default();
    for _ in 0..20_000 {
        let job = away_job(&mut random, 6);
        let [one, other] = forms(&mut random, job);
        let budget = random.pick(&[0, 3, 20, NO_BUDGET, NO_BUDGET]);
        let records = random.pick(&[1, 9, 40, 2_100]);
        let (report, pool) = planned(&one, budget, records);
        assert_eq!((report, pool), planned(&other, budget, records), "{one:?} {other:?}");
        assert_eq!(first(&one), first(&other), "{one:?} {other:?}");
        seen.numbers[report.number as usize] += 1;
        seen.stopped += report.mark;
    }
    assert!(seen.numbers[0] > 5_000 && seen.numbers[7] > 2_000 && seen.stopped > 2_000, "{seen:?}");
}

#[test]
fn flights_home_change_nothing() {
    the_same(111, |random, job| {
        let table = random.other_flights_home(job.n as usize, &job.table);
        [Job { table, ..job.clone() }, job]
    });
}

#[test]
fn free_flights_home_make_no_difference() {
    the_same(112, |_, job| {
        let table = free_flights_home(job.n as usize, &job.table);
        let job = Job { table, ..job };
        [at_home(&job), job]
    });
}

/// The stops of a finished search's order.
fn flown<'a>(job: &Job, report: &'a Report) -> &'a [u8] {
    &report.order[..job.n as usize]
}

#[test]
fn held_to_all_orders() {
    let mut random = Random(113);
    let (mut other_orders, mut saved) = (0, 0);
    for _ in 0..10_000 {
        let away = away_job(&mut random, 5);
        let home = at_home(&away);
        let [ending_away, ending_home] = [&away, &home].map(|job| {
            let (report, _) = planned(job, NO_BUDGET, 2_100);
            assert!(report.is_finished(), "{job:?}");
            assert_eq!(report.cost, least_cost(job), "{job:?}");
            assert_eq!(report.cost, order_cost(job, flown(job, &report)), "{job:?}");
            report
        });
        // Each order is one for the other day too, where it costs the flight home less or more.
        assert!(ending_away.cost <= order_cost(&away, flown(&home, &ending_home)), "{away:?}");
        assert!(ending_home.cost <= order_cost(&home, flown(&away, &ending_away)), "{away:?}");
        assert!(ending_away.cost <= ending_home.cost, "{away:?}");
        saved += (ending_away.cost < ending_home.cost) as u32;
        other_orders += (ending_away.order != ending_home.order) as u32;
    }
    assert!(other_orders > 1_000 && saved > 5_000, "{other_orders} {saved}");
}

/// Two searches that both end away come out at one order, and under FIFO and LIFO close is at least as close as plain.
#[test]
fn close_is_no_more_work_than_plain() {
    let mut random = Random(114);
    let mut fewer = 0;
    for _ in 0..10_000 {
        let mut job = away_job(&mut random, 6);
        job.selection |= 2;
        let [close, plain] = [3, 2].map(|bound| planned(&Job { bound, ..job.clone() }, NO_BUDGET, 2_100).0);
        assert!(close.is_finished() && plain.is_finished(), "{job:?}");
        assert_eq!((close.cost, close.order), (plain.cost, plain.order), "{job:?}");
        assert!(close.branched <= plain.branched && close.generated <= plain.generated, "{job:?}");
        assert!(close.most <= plain.most, "{job:?}");
        fewer += (close.branched < plain.branched) as u32;
    }
    assert!(fewer > 2_000, "{fewer}");
}
