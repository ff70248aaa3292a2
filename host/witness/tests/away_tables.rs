//! Days that end away (request A.5 of document 02) over random tables: full
//! enumeration without the leg home, bounds over whole search trees, and the
//! way home, which changes nothing.

mod common;

use common::{ample, away_choices, check_finished, choices, for_each_table, table_of_kind, Job};
use samples::{charges, Random, KINDS};
use witness::enumerate::all_orders;
use witness::first_order;
use witness::legs::{Ends, Legs};
use witness::node::{Bound, Node};

/// The legs of an order up to its last stop, without any landing.
fn legs_of(n: usize, table: &[u32], order: &[usize]) -> u32 {
    let places = [&[0], order].concat();
    places.windows(2).map(|pair| table[pair[0] * (n + 1) + pair[1]]).sum()
}

/// The least over all orders of these, and on top each stop's landing once; and
/// the smallest order that has it.
fn best(n: usize, table: &[u32]) -> (u32, Vec<u32>) {
    let (legs, order) = all_orders(n).into_iter().map(|order| (legs_of(n, table, &order), order)).min().unwrap();
    let landings: u32 = charges(n, table)[1..].iter().sum();
    (legs + landings, order.iter().map(|&stop| stop as u32).collect())
}

/// Every selection, sum of rules and bound of the two comes to the least cost,
/// with a starting order and without.
fn enumerate(random: &mut Random, n: usize, table: &[u32]) {
    let (least, smallest) = best(n, table);
    let start = random.order(n);
    for choice in away_choices() {
        for start in [&[], &start[..]] {
            let job = Job::new(n, table, choice, start);
            let (report, pool) = job.run(ample(n));
            check_finished(&job, &report, &pool, least, &smallest);
        }
    }
}

#[test]
fn enumeration_up_to_four_stops() {
    let mut random = Random(81);
    for n in 1..=4 {
        for_each_table(&mut random, n, 4, |random, table| enumerate(random, n, table));
    }
}

#[test]
fn enumeration_of_five_and_six_stops() {
    let mut random = Random(82);
    for_each_table(&mut random, 5, 1, |random, table| enumerate(random, 5, table));
    let table = table_of_kind(&mut random, 6, 0);
    enumerate(&mut random, 6, &table);
}

const BOUNDS: [Bound; 4] = [Bound::Plain, Bound::Close, Bound::PlainAway, Bound::CloseAway];

/// A node, with each of the four bounds, and all below it. How many were seen.
fn walk(legs: &Legs, nodes: &[Node; 4]) -> usize {
    let [plain, close, plain_away, close_away] = nodes;
    assert!(plain_away.bound <= close_away.bound);
    assert_eq!(plain_away.path, plain.path);
    let unflown = plain.unflown(legs);
    let home = unflown.iter().map(|&stop| legs.flying(stop, 0)).min();
    match home {
        Some(home) => {
            assert_eq!((plain_away.bound, close_away.bound), (plain.bound, close.bound - home));
        }
        None => {
            let cost = legs.order_cost(&plain.stops, Ends::Away);
            assert_eq!((plain_away.bound, close_away.bound), (cost, cost));
            assert_eq!(plain.bound - cost, legs.flying(plain.last(), 0));
        }
    }
    let mut count = 1;
    for stop in unflown {
        let children = [0, 1, 2, 3].map(|at| nodes[at].extended(stop, legs, BOUNDS[at]));
        for (child, parent) in children.iter().zip(nodes) {
            assert!(child.bound >= parent.bound, "{child:?} {parent:?}");
        }
        count += walk(legs, &children);
    }
    count
}

/// Away, bounds never fall from parent to child, close is at least plain, and
/// at complete nodes both are the order's cost; they differ from those of a
/// day home by the way home alone.
#[test]
fn bounds_of_all_nodes() {
    for n in 1..=6 {
        for_each_table(&mut Random(83), n, 8, |_, table| {
            let legs = &Legs::new(n, table);
            let e = BOUNDS.map(|kind| Node::empty(legs, kind));
            assert_eq!(walk(legs, &e), ample(n));
        });
    }
}

/// Plain and close, each with rules, selection and starting order of its own.
#[test]
fn plain_and_close_agree() {
    for n in 1..=6 {
        for_each_table(&mut Random(84), n, 8, |random, table| {
            let start = random.order(n);
            let found = |bound, random: &mut Random| {
                let [selection, rules, _] = random.pick(&away_choices());
                let start = if random.below(2) == 0 { &[] } else { &start[..] };
                let (report, _) = Job::new(n, table, [selection, rules, bound], start).run(ample(n));
                assert_eq!((report.number, report.mark), (0, 0));
                (report.cost, report.order)
            };
            assert_eq!(found(2, random), found(3, random), "{table:?}");
        });
    }
}

fn some_job(random: &mut Random, n: usize, choices: &[[u64; 3]]) -> Job {
    let kind = random.below(KINDS.len() as u64) as usize;
    let table = table_of_kind(random, n, kind);
    let start: Vec<u32> = if random.below(2) == 0 { Vec::new() } else { random.order(n) };
    Job::new(n, &table, random.pick(choices), &start)
}

/// The job over the same table but for the legs into home and home's charge.
fn with_way_home(job: &Job, charge: u32, mut leg: impl FnMut() -> u32) -> Job {
    let mut other = job.clone();
    other.table[0] = charge;
    for stop in 1..=job.n {
        other.table[stop * (job.n + 1)] = leg();
    }
    other
}

fn with_some_way_home(random: &mut Random, job: &Job) -> Job {
    let charge = random.below(100_001) as u32;
    with_way_home(job, charge, || random.below(1_000_001) as u32)
}

/// Whatever the way home costs, report, pool and first order are the same, in
/// every pool and with every budget.
#[test]
fn way_home_changes_nothing() {
    let mut random = Random(85);
    for round in 0..1_200 {
        let n = 1 + round % 6;
        let job = some_job(&mut random, n, &away_choices());
        let other = with_some_way_home(&mut random, &job);
        let (records, budget) = (1 + random.below(60) as usize, random.below(60));
        assert_eq!(job.within(budget).run(records), other.within(budget).run(records), "{job:?}");
        assert_eq!(job.run(ample(n)), other.run(ample(n)), "{job:?}");
        let first = |job: &Job| first_order(n as u64, job.bound, &job.table, &[]);
        assert_eq!(first(&job), first(&other), "{job:?}");
    }
}

/// On a day home it changes reports, the orders in them and first orders, so
/// that the jobs above say something.
#[test]
fn way_home_matters_at_home() {
    let mut random = Random(86);
    let (mut reports, mut orders, mut firsts) = (0, 0, 0);
    for _ in 0..300 {
        let job = some_job(&mut random, 4, &choices());
        let other = with_some_way_home(&mut random, &job);
        let (one, two) = (job.run(ample(4)).0, other.run(ample(4)).0);
        reports += (one != two) as u32;
        orders += (one.order != two.order) as u32;
        let first = |job: &Job| first_order(4, job.bound, &job.table, &[]).order;
        firsts += (first(&job) != first(&other)) as u32;
    }
    assert!(reports > 200 && orders > 100 && firsts > 50, "{reports} {orders} {firsts}");
}

/// A day away is as the day home over a table on which the way home is free.
#[test]
fn free_way_home() {
    let mut random = Random(87);
    for round in 0..900 {
        let n = 1 + round % 6;
        let job = some_job(&mut random, n, &away_choices());
        let free = Job { bound: job.bound - 2, ..with_way_home(&job, 0, || 0) };
        let (records, budget) = (1 + random.below(60) as usize, random.below(60));
        assert_eq!(job.within(budget).run(records), free.within(budget).run(records), "{job:?}");
        assert_eq!(job.run(ample(n)), free.run(ample(n)), "{job:?}");
        let first = |job: &Job| first_order(n as u64, job.bound, &job.table, &[]);
        assert_eq!(first(&job), first(&free), "{job:?}");
    }
}

/// Held against each other, a run home and one away differ in the order as
/// well as in the cost, and either may count more.
#[test]
fn home_and_away_differ_somewhere() {
    let mut random = Random(88);
    let (mut orders, mut fewer, mut more) = (0, 0, 0);
    for _ in 0..300 {
        let job = some_job(&mut random, 4, &choices());
        let (home, away) = (job.run(65).0, Job { bound: job.bound + 2, ..job.clone() }.run(65).0);
        assert!(away.cost <= home.cost, "{job:?}");
        orders += (home.order != away.order) as u32;
        fewer += (away.branched < home.branched) as u32;
        more += (away.branched > home.branched) as u32;
    }
    assert!(orders > 50 && fewer > 50 && more > 5, "{orders} {fewer} {more}");
}
