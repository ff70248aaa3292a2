//! Pick-up before drop (request A.6 of document 02) over random tables: full
//! enumeration, the whole tree of nodes, and what pairs change.

mod common;

use common::paired::{all_choices, for_each_paired_job};
use common::{ample, check_finished, for_each_table, table_of_kind, Job};
use samples::{Random, KINDS};
use witness::legs::Legs;
use witness::node::{Bound, Node};
use witness::pairs::Pairs;

/// A finished run costs the least of all orders that respect the pairs, and
/// shows the smallest of those that cost it.
fn check_least(job: &Job) {
    let (report, pool) = job.run(ample(job.n));
    let (least, smallest) = job.best();
    check_finished(job, &report, &pool, least, &smallest);
}

#[test]
fn enumeration_up_to_four_stops() {
    for n in 1..=4 {
        for_each_paired_job(131, n, 6, check_least);
    }
}

#[test]
fn enumeration_of_five_stops() {
    for_each_paired_job(132, 5, 2, check_least);
}

/// Every choice over a table of its own, with one to three pairs.
#[test]
fn enumeration_of_six_stops() {
    let mut random = Random(133);
    for (i, choice) in all_choices().into_iter().enumerate() {
        let table = table_of_kind(&mut random, 6, i % KINDS.len());
        let pairs = random.pairs(6, 1 + i % 3);
        for start in [Vec::new(), random.order_with(6, &pairs)] {
            check_least(&Job::new(6, &table, choice, &start).paired(&pairs));
        }
    }
}

const BOUNDS: [Bound; 4] = [Bound::Plain, Bound::Close, Bound::PlainAway, Bound::CloseAway];

/// The orders below a node, left to right. Every node that isn't complete has
/// a child, and no bound falls.
fn leaves(node: &Node, legs: &Legs, kind: Bound, pairs: &Pairs) -> Vec<Vec<u32>> {
    let children = node.children(legs, kind, pairs);
    assert_eq!(children.is_empty(), node.is_complete(legs), "{node:?}");
    assert!(children.iter().all(|child| child.bound >= node.bound), "{node:?}");
    if children.is_empty() {
        return vec![node.stops.iter().map(|&stop| stop as u32).collect()];
    }
    children.iter().flat_map(|child| leaves(child, legs, kind, pairs)).collect()
}

/// The tree has each order that respects the pairs and no other: half as many
/// for every pair.
#[test]
fn every_node_has_a_child() {
    for n in 1..=6 {
        for_each_table(&mut Random(134), n, 3, |random, table| {
            let all: usize = (1..=n).product();
            for count in 0..=n / 2 {
                let file = random.pairs(n, count);
                let (legs, pairs) = (Legs::new(n, table), Pairs::read(n, &file).unwrap());
                let orders = Job::new(n, table, [0, 0, 0], &[]).paired(&file).orders();
                assert_eq!(orders.len(), all >> count, "{file:?}");
                for kind in BOUNDS {
                    assert_eq!(leaves(&Node::empty(&legs, kind), &legs, kind, &pairs), orders, "{file:?}");
                }
            }
        });
    }
}

/// Watched step by step: each branching makes a child at least, and the active
/// set is never empty.
#[test]
fn every_branching_makes_a_child() {
    for_each_paired_job(135, 4, 2, |job| {
        let states = job.states(ample(4));
        for pair in states.windows(2) {
            assert!(pair[1].generated > pair[0].generated, "{job:?}");
            assert_eq!(pair[1].branched.len(), pair[0].branched.len() + 1, "{job:?}");
        }
        assert!(states.iter().all(|state| !state.active.is_empty()), "{job:?}");
    });
}

fn some_job(random: &mut Random, n: usize) -> Job {
    let kind = random.below(KINDS.len() as u64) as usize;
    let table = table_of_kind(random, n, kind);
    let pairs = random.some_pairs(n);
    let start = if random.below(2) == 0 { Vec::new() } else { random.order_with(n, &pairs) };
    Job::new(n, &table, random.pick(&all_choices()), &start).paired(&pairs)
}

/// Whichever way round the pairs stand in their file, report and pool are the
/// same, in every pool and with every budget.
#[test]
fn sequence_of_pairs_plays_no_part() {
    let mut random = Random(136);
    for round in 0..1_200 {
        let job = some_job(&mut random, 1 + round % 6);
        let other: Vec<u8> = job.pairs.chunks(2).rev().flatten().copied().collect();
        let other = job.paired(&other);
        let (records, budget) = (1 + random.below(60) as usize, random.below(60));
        assert_eq!(job.within(budget).run(records), other.within(budget).run(records), "{job:?}");
        assert_eq!(job.run(ample(job.n)), other.run(ample(job.n)), "{job:?}");
    }
}

/// Pairs never lower the cost. They leave it if the order found without them
/// respects them; with the cheapest orders forbidden it rises. Either happens
/// often, so that the jobs above say something.
#[test]
fn what_pairs_change() {
    let mut random = Random(137);
    let (mut left, mut risen, mut fewer, mut more) = (0, 0, 0, 0);
    for _ in 0..600 {
        let job = some_job(&mut random, 5);
        let (with, without) = (job.run(ample(5)).0, job.paired(&[]).run(ample(5)).0);
        assert!(with.cost >= without.cost, "{job:?}");
        if job.respects(&without.order[..5]) {
            assert_eq!(with.cost, without.cost, "{job:?}");
            left += !job.pairs.is_empty() as u32;
        }
        risen += (with.cost > without.cost) as u32;
        fewer += (with.generated < without.generated) as u32;
        more += (with.generated > without.generated) as u32;
    }
    assert!(left > 50 && risen > 100 && fewer > 200 && more > 5, "{left} {risen} {fewer} {more}");
}

/// A stopped run's floor is at most the least cost of the orders that respect
/// the pairs, and is at times above the least of all orders.
#[test]
fn floors_go_by_the_pairs() {
    let mut above = 0;
    for_each_paired_job(138, 4, 1, |job| {
        let (least, of_all) = (job.least_cost(), job.paired(&[]).least_cost());
        for budget in 0..=job.run(ample(4)).0.branched {
            let (report, _) = job.within(budget).run(ample(4));
            assert!(report.mark == 0 || report.floor <= least, "{budget} {job:?}");
            above += (report.floor > of_all) as u32;
        }
    });
    assert!(above > 500, "{above}");
}

/// A starting order that goes against the pairs is refused, and one that
/// respects them isn't: all orders of up to five stops.
#[test]
fn all_starting_orders() {
    for n in 1..=5 {
        let mut random = Random(139);
        for _ in 0..20 {
            let job = some_job(&mut random, n);
            let numbers = job.paired(&[]).orders().into_iter().map(|start| {
                let number = Job { start: start.clone(), ..job.clone() }.run(ample(n)).0.number;
                assert_eq!(number, if job.respects(&start) { 0 } else { 5 }, "{start:?} {job:?}");
                number
            });
            let refused = numbers.filter(|&number| number == 5).count();
            let all: usize = (1..=n).product();
            assert_eq!(refused, all - (all >> (job.pairs.len() / 2)), "{job:?}");
        }
    }
}
