//! Landing charges (request A.4 of document 02), free landings among them, over
//! random tables: full enumeration, and the same days with the charges put into
//! the legs or left out.

mod common;

use common::{ample, check_finished, choices, read_pool, Job};
use samples::{charges, folded, uncharged, Random, KINDS};
use witness::checks::DEAREST_LEG;
use witness::enumerate::all_orders;
use witness::{first_order, plan, Report, Request, WORDS};

fn some_table(random: &mut Random, n: usize) -> Vec<u32> {
    let kind = random.below(KINDS.len() as u64) as usize;
    let table = random.table_of_kind(n, kind);
    random.with_charges(n, &table)
}

fn some_job(random: &mut Random, n: usize) -> Job {
    let table = some_table(random, n);
    let start: Vec<u32> = if random.below(2) == 0 { Vec::new() } else { random.order(n) };
    Job::new(n, &table, random.pick(&choices()), &start)
}

fn over(table: Vec<u32>, job: &Job) -> Job {
    Job { table, ..job.clone() }
}

/// The legs of an order, without any landing.
fn legs_of(n: usize, table: &[u32], order: &[usize]) -> u32 {
    let mut places = vec![0];
    places.extend(order);
    places.push(0);
    places.windows(2).map(|pair| table[pair[0] * (n + 1) + pair[1]]).sum()
}

/// The least over all orders of their legs, and on top each landing once; and
/// the smallest order that has it.
fn best(n: usize, table: &[u32]) -> (u32, Vec<u32>) {
    let (legs, order) = all_orders(n).into_iter().map(|order| (legs_of(n, table, &order), order)).min().unwrap();
    let landings: u32 = charges(n, table).iter().sum();
    (legs + landings, order.iter().map(|&stop| stop as u32).collect())
}

/// So many tables under so many choices, with and without a starting order.
fn enumerate(random: &mut Random, n: usize, tables: usize, some: usize) {
    for _ in 0..tables {
        let table = some_table(random, n);
        let (least, smallest) = best(n, &table);
        for _ in 0..some {
            let job = over(table.clone(), &some_job(random, n));
            let (report, pool) = job.run(ample(n));
            check_finished(&job, &report, &pool, least, &smallest);
        }
    }
}

#[test]
fn enumeration_up_to_five_stops() {
    let mut random = Random(71);
    for n in 1..=4 {
        enumerate(&mut random, n, 60, 60);
    }
    enumerate(&mut random, 5, 20, 40);
}

#[test]
fn enumeration_of_six_and_seven_stops() {
    let mut random = Random(72);
    enumerate(&mut random, 6, 8, 24);
    enumerate(&mut random, 7, 4, 12);
}

/// Report and pool in some pool, with some budget.
fn end(job: &Job, records: usize, budget: u64) -> (Report, Vec<u32>) {
    job.within(budget).run(records)
}

/// Charges put into the legs that lead to them give the same report, pool and
/// first order, wherever the sums still pass for legs.
#[test]
fn charges_within_the_legs() {
    let mut random = Random(73);
    let (mut same, mut dearer) = (0, 0);
    for round in 0..2_400 {
        let n = 1 + round % 6;
        let job = some_job(&mut random, n);
        let sums = folded(n, &job.table);
        if sums.iter().any(|&leg| leg > DEAREST_LEG) {
            assert_eq!(first_order(n as u64, 0, &sums, &[]).number, 3);
            dearer += 1;
            continue;
        }
        let (records, budget) = (1 + random.below(60) as usize, random.below(60));
        let other = over(sums, &job);
        assert_eq!(end(&job, records, budget), end(&other, records, budget), "{job:?}");
        assert_eq!(end(&job, ample(n), u64::MAX), end(&other, ample(n), u64::MAX), "{job:?}");
        let first = |job: &Job| first_order(n as u64, job.bound, &job.table, &[]);
        assert_eq!(first(&job), first(&other), "{job:?}");
        same += 1;
    }
    assert!(same > 2_000 && dearer > 20, "{same} {dearer}");
}

/// The pool of a run without charges as it is with them, under close: each
/// node has paid the landings of its set, and its bound has all landings.
fn with_landings(job: &Job, report: &Report, pool: &[u32]) -> Vec<u32> {
    let nodes = report.active as usize + if job.rule(4) { report.branched as usize } else { 0 };
    let charges = charges(job.n, &job.table);
    let mut pool = pool.to_vec();
    for record in pool.chunks_mut(WORDS).take(nodes) {
        let flown = (1..=job.n).filter(|stop| record[1] >> (stop - 1) & 1 == 1);
        record[2] += flown.map(|stop| charges[stop]).sum::<u32>();
        record[3] += charges.iter().sum::<u32>();
    }
    pool
}

/// Under close the charges move no choice: the run is that over the legs alone,
/// but for the costs.
#[test]
fn close_searches_as_without_charges() {
    let mut random = Random(74);
    for round in 0..2_400 {
        let n = 1 + round % 6;
        let job = Job { bound: 1, ..some_job(&mut random, n) };
        let (records, budget) = (1 + random.below(80) as usize, random.below(200));
        let (bare, bare_pool) = end(&over(uncharged(n, &job.table), &job), records, budget);
        let (report, pool) = end(&job, records, budget);
        let all = charges(n, &job.table).iter().sum::<u32>();
        let cost = if bare.order[0] == 0 { 0 } else { bare.cost + all };
        let floor = bare.floor + all * bare.mark;
        assert_eq!(report, Report { cost, floor, ..bare }, "{job:?}");
        assert_eq!(pool, with_landings(&job, &bare, &bare_pool), "{job:?}");
    }
}

/// Without charges all is as the legs alone have it.
#[test]
fn no_charges() {
    let mut random = Random(75);
    for round in 0..600 {
        let n = 1 + round % 6;
        let charged = some_job(&mut random, n);
        let job = over(uncharged(n, &charged.table), &charged);
        assert_eq!(folded(n, &job.table), job.table);
        let (report, pool) = job.run(ample(n));
        let order: Vec<usize> = report.order[..n].iter().map(|&stop| stop as usize).collect();
        assert_eq!(report.cost, legs_of(n, &job.table, &order), "{job:?}");
        let (active, _) = read_pool(&job, &report, &pool);
        for (order, record) in active.iter().zip(pool.chunks(WORDS)) {
            let places: Vec<u32> = [&[0], &order[..]].concat();
            let path: u32 = places.windows(2).map(|pair| job.leg(pair[0], pair[1])).sum();
            assert_eq!(record[2], path, "{job:?}");
        }
    }
}

/// Under plain the charges do change what is searched, and the nearest stop
/// changes too, so that the tables above say something.
#[test]
fn charges_change_the_search_somewhere() {
    let mut random = Random(76);
    let (mut counts, mut orders) = (0, 0);
    for _ in 0..400 {
        let job = Job { bound: 0, ..some_job(&mut random, 5) };
        let bare = over(uncharged(5, &job.table), &job);
        counts += (job.run(ample(5)).0.counts() != bare.run(ample(5)).0.counts()) as u32;
        let first = |job: &Job| first_order(5, 0, &job.table, &[]).order;
        orders += (first(&job) != first(&bare)) as u32;
    }
    assert!(counts > 100 && orders > 50, "{counts} {orders}");
}

/// Were the place that is left to charge, all orders would cost the same as
/// now, but not what leads up to them.
#[test]
fn charges_on_leaving_differ_somewhere() {
    let mut random = Random(77);
    let mut differ = 0;
    for _ in 0..400 {
        let job = some_job(&mut random, 4);
        let charges = charges(4, &job.table);
        let mut on_leaving = uncharged(4, &job.table);
        for (at, leg) in on_leaving.iter_mut().enumerate().filter(|(at, _)| at / 5 != at % 5) {
            *leg += charges[at / 5];
        }
        if on_leaving.iter().any(|&leg| leg > DEAREST_LEG) {
            continue;
        }
        let (mut pool, mut other_pool) = (vec![0; ample(4) * WORDS], vec![0; ample(4) * WORDS]);
        let report = plan(&job.request(), &mut pool);
        let other = plan(&Request { table: &on_leaving, ..job.request() }, &mut other_pool);
        assert_eq!(report.cost, other.cost, "{job:?}");
        differ += (pool != other_pool) as u32;
    }
    assert!(differ > 200, "{differ}");
}
