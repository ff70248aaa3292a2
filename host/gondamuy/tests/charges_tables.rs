//! What landing charges change (request A.4), over random days of 1 to 6 stops under all choices, half of which end
//! away (request A.5), where home's charge is not paid, and half of which have pairs (request A.6). The same library
//! plans each of them twice:
//!
//! - with its charges and with them put into the legs: the same, to the last word of the pool, for 20,000 days, within
//!   a budget or none, and for their first orders;
//! - with its charges and without: the same cost but for every landing, for 20,000 finished searches; and the same
//!   counts and orders under the close bound, costs alone being higher, in the pool too, for 10,000 days; other ones
//!   under plain, for two days worked by hand.

mod common;

use common::{order_cost, planned, random_job};
use gondamuy::raw::{first_order, Report};
use gondamuy::{NO_BUDGET, RECORD_WORDS};
use jobtext::Job;
use samples::{charged, folded, level, uncharged, Random, T};

/// A day of 1 to 6 stops with charges.
fn charged_job(random: &mut Random, most: u32) -> Job {
    let n = 1 + random.below(6) as usize;
    let mut job = random_job(random, n, most);
    job.table = random.with_charges(n, &job.table);
    job
}

/// The same day over another form of its table.
fn over(form: fn(usize, &[u32]) -> Vec<u32>, job: &Job) -> Job {
    Job { table: form(job.n as usize, &job.table), ..job.clone() }
}

/// What every order pays for landings: one at each stop, and one at home if the day ends there.
fn landings(job: &Job) -> u32 {
    let home = usize::from(job.bound >= 2);
    job.charges().skip(home).sum()
}

#[test]
fn charges_put_into_the_legs() {
    let mut random = Random(101);
    let mut seen = [0; 8];
    let mut stopped = 0;
    for _ in 0..20_000 {
        let most = random.pick(&[0, 1, 9, 1_000, 900_000]);
        let job = charged_job(&mut random, most);
        let budget = random.pick(&[0, 3, 20, NO_BUDGET, NO_BUDGET]);
        let records = random.pick(&[1, 9, 40, 2_100]);
        let (report, pool) = planned(&job, budget, records);
        let in_the_legs = over(folded, &job);
        assert_eq!((report, pool), planned(&in_the_legs, budget, records), "{job:?}");
        let first = |job: &Job| first_order(job.n, job.bound, &job.table, &job.pairs);
        assert_eq!(first(&job), first(&in_the_legs), "{job:?}");
        seen[report.number as usize] += 1;
        stopped += report.mark;
    }
    assert!(seen[0] > 5_000 && seen[7] > 2_000 && stopped > 2_000, "{seen:?} {stopped}");
}

/// The legs of an order, as the day without charges has them.
fn legs(job: &Job, order: &[u8]) -> u32 {
    order_cost(&over(uncharged, job), order)
}

#[test]
fn every_landing_is_paid_once() {
    let mut random = Random(102);
    for _ in 0..20_000 {
        let most = random.pick(&[0, 1, 9, 1_000, 1_000_000]);
        let job = charged_job(&mut random, most);
        let (with, _) = planned(&job, NO_BUDGET, 2_100);
        let (without, _) = planned(&over(uncharged, &job), NO_BUDGET, 2_100);
        assert!(with.is_finished() && without.is_finished(), "{job:?}");
        assert_eq!(with.cost, without.cost + landings(&job), "{job:?}");
        assert_eq!(with.cost, legs(&job, &with.order[..job.n as usize]) + landings(&job), "{job:?}");
        let first = first_order(job.n, job.bound, &job.table, &job.pairs);
        assert_eq!(first.cost, legs(&job, &first.order[..job.n as usize]) + landings(&job), "{job:?}");
    }
}

/// A record with the charges of its stops in its path cost, and every landing in its bound.
fn with_landings(job: &Job, record: &[u32]) -> Vec<u32> {
    let stops = job.charges().skip(1).enumerate().filter(|(bit, _)| record[1] >> bit & 1 == 1);
    let path: u32 = stops.map(|(_, charge)| charge).sum();
    vec![record[0], record[1], record[2] + path, record[3] + landings(job), record[4], record[5]]
}

/// Every node's close bound rises by all landings, and so does every order's cost: no choice falls otherwise.
#[test]
fn close_searches_take_the_same_steps() {
    let mut random = Random(103);
    let mut seen = [0; 8];
    for _ in 0..10_000 {
        let most = random.pick(&[0, 1, 9, 1_000, 1_000_000]);
        let mut job = charged_job(&mut random, most);
        job.bound |= 1;
        let budget = random.pick(&[0, 3, 20, NO_BUDGET]);
        let records = random.pick(&[1, 9, 2_100]);
        let (with, raised_pool) = planned(&job, budget, records);
        let (without, mut pool) = planned(&over(uncharged, &job), budget, records);
        let raised = |cost, is_told| if is_told { cost + landings(&job) } else { 0 };
        let cost = raised(without.cost, without.order[0] != 0);
        let floor = raised(without.floor, without.mark == 1);
        assert_eq!(with, Report { cost, floor, ..without }, "{job:?}");
        let branched = if job.rules & 4 != 0 { without.branched } else { 0 };
        for record in pool.chunks_mut(RECORD_WORDS).take((without.active + branched) as usize) {
            record.copy_from_slice(&with_landings(&job, record));
        }
        assert_eq!(raised_pool, pool, "{job:?}");
        seen[with.number as usize] += 1;
    }
    assert!(seen[0] > 5_000 && seen[7] > 1_000, "{seen:?}");
}

/// A plain bound has the landings flown so far and no others: with all legs 1 stop 2 is then the cheaper one to begin
/// with, so that 2 1 is found before 1 2, which costs the same; in table T the cheapest order is found after more
/// branchings.
#[test]
fn plain_searches_may_take_others() {
    let found = |n: u32, table: &[u32], budget| {
        let job =
            Job { n, table: table.to_vec(), selection: 0, rules: 1, bound: 0, start: Vec::new(), pairs: Vec::new() };
        let (report, _) = planned(&job, budget, 10);
        (report.cost, report.order[..n as usize].to_vec(), report.branched)
    };
    let (legs, landings) = (level(2, 1), charged(&level(2, 1), &[0, 5, 1]));
    assert_eq!([2, NO_BUDGET].map(|budget| found(2, &legs, budget)), [(3, vec![1, 2], 2), (3, vec![1, 2], 3)]);
    assert_eq!([2, NO_BUDGET].map(|budget| found(2, &landings, budget)), [(9, vec![2, 1], 2), (9, vec![1, 2], 3)]);
    assert_eq!(found(3, &T, NO_BUDGET), (13, vec![1, 2, 3], 8));
    assert_eq!(found(3, &charged(&T, &[2, 10, 20, 40]), NO_BUDGET), (13 + 72, vec![1, 2, 3], 10));
}
