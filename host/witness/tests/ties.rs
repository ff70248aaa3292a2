//! Equal costs, one order (request A.8 of document 02): cases worked out by hand.

mod common;

use common::by_hand::{expect, expect_stopped, on_t};
use common::Job;
use samples::level;
use witness::legs::Legs;
use witness::node::{Bound, Node};

/// Legs of 1 but 2 from 1 to 3, so that 123 costs less than 213.
const SHORTER: [u32; 16] = [0, 1, 1, 1, 1, 0, 1, 2, 1, 1, 0, 1, 1, 1, 1, 0];

/// The node that flies these stops.
fn node(legs: &Legs, stops: &[usize]) -> Node {
    stops.iter().fold(Node::empty(legs, Bound::Plain), |node, &stop| node.extended(stop, legs, Bound::Plain))
}

/// At equal path costs the smaller order dominates and the other doesn't; at
/// others the cheaper one does, whichever is smaller.
#[test]
fn dominance() {
    let even = &Legs::new(4, &level(4, 1));
    let dominates = |legs, y: &[usize], z: &[usize]| node(legs, y).dominates(&node(legs, z));
    assert!(dominates(even, &[1, 2, 3], &[2, 1, 3]) && !dominates(even, &[2, 1, 3], &[1, 2, 3]));
    assert!(dominates(even, &[2, 3, 1, 4], &[3, 1, 2, 4]) && !dominates(even, &[3, 1, 2, 4], &[2, 3, 1, 4]));
    assert!(!dominates(even, &[1, 2, 3], &[1, 2, 3]));
    assert!(!dominates(even, &[1, 3, 2], &[2, 1, 3]), "another last stop");
    assert!(!dominates(even, &[1, 2], &[4, 2]), "another set");
    let cheaper = &Legs::new(3, &SHORTER);
    assert!(dominates(cheaper, &[1, 2, 3], &[2, 1, 3]) && !dominates(cheaper, &[2, 1, 3], &[1, 2, 3]));
    let mut turned = SHORTER;
    (turned[7], turned[11]) = (1, 2);
    let dearer = &Legs::new(3, &turned);
    assert!(dominates(dearer, &[2, 1, 3], &[1, 2, 3]) && !dominates(dearer, &[1, 2, 3], &[2, 1, 3]));
}

/// The nodes that a run branches, first to last.
fn branched(job: &Job, records: usize) -> Vec<Vec<usize>> {
    let last = job.states(records).pop().unwrap();
    last.branched.iter().map(|y| y.stops.clone()).collect()
}

/// All legs free: all nodes tie, and every one that isn't complete is branched
/// before a complete one ends the run, the earliest first or the latest.
#[test]
fn incomplete_nodes_first() {
    let free = |selection, bound| Job::new(3, &[0; 16], [selection, 0, bound], &[]);
    for bound in 0..4 {
        let earliest = [&[][..], &[1], &[2], &[3], &[1, 2], &[1, 3], &[2, 1], &[2, 3], &[3, 1], &[3, 2]];
        assert_eq!(branched(&free(0, bound), 6), earliest);
        let latest = [&[][..], &[3], &[3, 2], &[3, 1], &[2], &[2, 3], &[2, 1], &[1], &[1, 3], &[1, 2]];
        assert_eq!(branched(&free(1, bound), 6), latest);
        for selection in [0, 1] {
            expect(&free(selection, bound), 6, 0, &[1, 2, 3], [10, 16, 0, 6, 6]);
        }
    }
}

/// Two stops, plain, free legs but 1 from 2 to 1: after 1 is branched 2 and 12
/// tie, and 2 is chosen. With a leg out to 2 of 1 as well it is dearer, and 12
/// ends the run beside it.
#[test]
fn complete_node_of_least_bound_ends_the_run() {
    for selection in [0, 1] {
        let tied = Job::new(2, &[0, 0, 0, 0, 0, 0, 0, 1, 0], [selection, 0, 0], &[]);
        expect(&tied, 2, 0, &[1, 2], [3, 5, 0, 2, 2]);
        let dearer = Job::new(2, &[0, 0, 1, 0, 0, 0, 0, 1, 0], [selection, 0, 0], &[]);
        expect(&dearer, 2, 0, &[1, 2], [2, 4, 0, 2, 2]);
        assert_eq!(dearer.run(2).1, [[1, 2, 1, 1, 1, 0], [2, 3, 0, 0, 0x10, 0]].concat());
    }
}

/// Case d from 213 (27), 123 (13) and none: a bound of U's cost or above ends
/// nothing, and neither does a node that stands alone.
#[test]
fn bounds_end_no_run() {
    expect(&on_t([3, 1, 1], &[2, 1, 3]), 4, 13, &[1, 2, 3], [9, 15, 5, 1, 4]);
    expect(&on_t([3, 0, 1], &[1, 2, 3]), 6, 13, &[1, 2, 3], [10, 16, 0, 6, 6]);
    expect(&on_t([2, 0, 1], &[1, 2, 3]), 6, 13, &[1, 2, 3], [10, 16, 0, 6, 6]);
    let alone = Job::new(1, &[0, 3, 5, 0], [3, 1, 1], &[1]);
    expect_stopped(&alone.within(0), 1, 8, 8, &[1], [0, 1, 0, 1, 1]);
    expect(&alone, 1, 8, &[1], [1, 2, 0, 1, 1]);
}

/// All legs 1, depth first: 321, 312, 231, 213, 132 and 123 are found in turn,
/// and each is smaller than the one before. A starting order stays until a
/// smaller one is found.
#[test]
fn known_order_step_by_step() {
    let shown = |start: &[u32], budget| {
        let (report, _) = Job::new(3, &level(3, 1), [3, 0, 0], start).within(budget).run(6);
        report.order[..3].to_vec()
    };
    let budgets = [1, 3, 4, 6, 7, 9, 10];
    let found = [[0, 0, 0], [3, 2, 1], [3, 1, 2], [2, 3, 1], [2, 1, 3], [1, 3, 2], [1, 2, 3]];
    assert_eq!(budgets.map(|budget| shown(&[], budget)), found);
    let started = [[2, 3, 1], [2, 3, 1], [2, 3, 1], [2, 3, 1], [2, 1, 3], [1, 3, 2], [1, 2, 3]];
    assert_eq!(budgets.map(|budget| shown(&[2, 3, 1], budget)), started);
    assert_eq!(budgets.map(|budget| shown(&[1, 2, 3], budget)), [[1, 2, 3]; 7]);
}

/// A cheaper order takes the place of a smaller one.
#[test]
fn cost_comes_before_the_order() {
    let mut table = level(3, 1);
    table[2] = 0;
    for selection in 0..4 {
        for start in [&[][..], &[1, 2, 3], &[3, 2, 1]] {
            let job = Job::new(3, &table, [selection, 0, 0], start);
            assert_eq!((job.run(6).0.cost, &job.run(6).0.order[..3]), (3, &[2, 1, 3][..]));
        }
    }
}

/// Ten stops in a free chain, where 1 and 2, and 9 and 10, may be exchanged for
/// nothing: of the four cheapest orders the first, though its words in a record
/// are larger than those of 2 1 3 and so on.
#[test]
fn ties_in_both_words_of_an_order() {
    let mut table = level(10, 1_000);
    let chain = (0..=10).map(|from| (from, (from + 1) % 11));
    for (from, to) in chain.chain([(0, 2), (2, 1), (1, 3), (8, 10), (10, 9), (9, 0)]) {
        table[from * 11 + to] = 0;
    }
    let order: Vec<u32> = (1..=10).collect();
    let last: Vec<u32> = vec![2, 1, 3, 4, 5, 6, 7, 8, 10, 9];
    for (selection, start) in [(0, &[][..]), (1, &[]), (3, &[]), (0, &last), (1, &last), (2, &last), (3, &last)] {
        let (report, _) = Job::new(10, &table, [selection, 1, 1], start).run(200);
        assert_eq!((report.number, report.mark, report.cost, &report.order[..10]), (0, 0, 0, &order[..]));
    }
}

/// Of the orders that the pairs allow, the smallest.
#[test]
fn smallest_of_those_allowed() {
    for [pick_up, drop, first, second, third] in [[2, 1, 2, 1, 3], [3, 1, 2, 3, 1], [3, 2, 1, 3, 2], [1, 3, 1, 2, 3]] {
        for selection in 0..4 {
            let job = Job::new(3, &level(3, 1), [selection, 15, 1], &[]).paired(&[pick_up as u8, drop as u8]);
            let (report, _) = job.run(20);
            assert_eq!((report.number, report.cost, &report.order[..3]), (0, 4, &[first, second, third][..]));
        }
    }
}

/// Five stops, selection 1, rules 4 and 8, plain. A child that rule 4 eliminates
/// eliminates no active node; if it did, 26 would go and 39 stay.
#[test]
fn eliminated_child_eliminates_nothing() {
    let rows = [
        [0, 0, 1, 1, 0, 0],
        [0, 0, 1, 1, 1, 1],
        [0, 0, 0, 1, 0, 1],
        [0, 1, 1, 0, 1, 1],
        [0, 1, 0, 1, 0, 0],
        [1, 0, 0, 1, 0, 0],
    ];
    let job = Job::new(5, &rows.concat(), [1, 12, 0], &[]);
    expect(&job, 100, 1, &[4, 5, 2, 1, 3], [47, 112, 25, 40, 40]);
}

/// Where every leg is free, every node that isn't complete is branched: for
/// seven stops 1 + 7 + 42 + 210 + 840 + 2,520 + 5,040.
#[test]
fn seven_stops_that_all_tie() {
    let order: Vec<u32> = (1..=7).collect();
    for selection in 0..4 {
        let job = Job::new(7, &[0; 64], [selection, 0, 0], &[]);
        expect(&job, 5_040, 0, &order, [8_660, 13_700, 0, 5_040, 5_040]);
    }
}
