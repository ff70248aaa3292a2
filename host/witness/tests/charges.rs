//! Landing charges (request A.4 of document 02): cases worked out by hand.

mod common;

use common::by_hand::{expect, expect_stopped};
use common::course::course;
use common::{choices, Job};
use samples::{charged, level, T};
use witness::legs::{Ends, Legs};
use witness::node::{Bound, Node};
use witness::pairs::Pairs;
use witness::{Report, STOPPED};

/// Two stops; landings cost 7 at home, 10 at stop 1 and 20 at stop 2. Flying
/// costs 11 and 22 from home, 24 from 1 to 2, 16 from 2 to 1, 10 and 12 home.
const TWO: [u32; 9] = [7, 1, 2, 3, 10, 4, 5, 6, 20];

/// Order 12 pays 11, 24 and 12; order 21 pays 22, 16 and 10.
#[test]
fn orders_of_two_stops() {
    let legs = Legs::new(2, &TWO);
    assert_eq!((legs.flying(0, 1), legs.flying(1, 2), legs.flying(2, 0)), (1 + 10, 4 + 20, 5 + 7));
    assert_eq!((legs.flying(0, 2), legs.flying(2, 1), legs.flying(1, 0)), (2 + 20, 6 + 10, 3 + 7));
    assert_eq!([[1, 2], [2, 1]].map(|order| legs.order_cost(&order, Ends::Home)), [47, 48]);
}

/// Path cost and bound of e, 1, 2, 12 and 21.
fn nodes_of_two_stops(kind: Bound) -> Vec<(u32, u32)> {
    let legs = Legs::new(2, &TWO);
    let e = Node::empty(&legs, kind);
    let sized_1 = e.children(&legs, kind, &Pairs::none());
    let sized_2: Vec<Node> = sized_1.iter().flat_map(|y| y.children(&legs, kind, &Pairs::none())).collect();
    let all = [vec![e], sized_1, sized_2].concat();
    all.iter().map(|y| (y.path, y.bound)).collect()
}

/// e's close bound is 11 into 1, 22 into 2 and 10 home. Node 1 has 24 and 12
/// to come, node 2 has 16 and 10.
#[test]
fn bounds_of_two_stops() {
    assert_eq!(nodes_of_two_stops(Bound::Plain), [(0, 0), (11, 11), (22, 22), (35, 47), (38, 48)]);
    assert_eq!(nodes_of_two_stops(Bound::Close), [(0, 43), (11, 47), (22, 48), (35, 47), (38, 48)]);
}

/// FIFO, rule 4, plain: active 12, 21, then branched e, 1, 2.
#[test]
fn pool_of_two_stops() {
    let job = Job::new(2, &TWO, [2, 4, 0], &[]);
    expect(&job, 5, 47, &[1, 2], [3, 5, 0, 2, 2]);
    let (n12, n21) = ([2, 3, 35, 47, 0x10, 0], [2, 3, 38, 48, 0x01, 0]);
    let (e, n1, n2) = ([0; 6], [1, 1, 11, 11, 0, 0], [1, 2, 22, 22, 1, 0]);
    assert_eq!(job.run(5).1, [n12, n21, e, n1, n2].concat());
    let (report, pool) = job.run(4);
    assert_eq!((report.number, report.cost, report.counts()), (7, 0, [2, 4, 0, 2, 2]));
    assert_eq!(pool, [n2, n12, e, n1].concat());
}

/// Selection 0, rules 1, close: order 12 is found by the second branching and
/// eliminates node 2. A budget that stops it earlier shows e's and node 1's
/// bounds as floors, and a starting order with what it costs.
#[test]
fn budgets_of_two_stops() {
    let job = Job::new(2, &TWO, [0, 1, 1], &[]);
    expect(&job, 2, 47, &[1, 2], [2, 4, 1, 1, 2]);
    let shown = |job: &Job, budget| {
        let Report { number, mark, cost, floor, .. } = job.within(budget).run(2).0;
        (number, mark, cost, floor)
    };
    assert_eq!(shown(&job, 0), (0, STOPPED, 0, 43));
    assert_eq!(shown(&job, 1), (0, STOPPED, 0, 47));
    assert_eq!(shown(&job, 2), (0, 0, 47, 0));
    let started = Job::new(2, &TWO, [0, 1, 1], &[2, 1]);
    assert_eq!(shown(&started, 0), (0, STOPPED, 48, 43));
    let plain = Job::new(2, &TWO, [0, 1, 0], &[2, 1]);
    assert_eq!([shown(&plain, 0), shown(&plain, 1)], [(0, STOPPED, 48, 0), (0, STOPPED, 48, 11)]);
}

/// Out 3 and back 5, landings 11 and 7. Close has it all in e's bound.
#[test]
fn one_stop() {
    let table = [7, 3, 5, 11];
    for [selection, rules, bound] in choices() {
        let job = Job::new(1, &table, [selection, rules, bound], &[]);
        expect(&job, 2, 3 + 11 + 5 + 7, &[1], [1, 2, 0, 1, 1]);
        assert_eq!(job.run(2).1[..6], [1, 1, 3 + 11, 26, 0, 0]);
        assert_eq!(job.within(0).run(1).0.floor, bound as u32 * 26);
        let started = Job::new(1, &table, [selection, rules, bound], &[1]);
        expect(&started, 2, 26, &[1], [1, 2, 0, 1, 1]);
    }
    assert_eq!(course(1, &table), [(26, vec![1])]);
}

/// Two stops, all legs free, home's landing 1. Plain learns of it with order
/// 12, so node 2 is still cheaper and is branched; close has it in all bounds,
/// and node 2 goes before order 12, which ties with it.
#[test]
fn home_charges_alone() {
    let table = charged(&[0; 9], &[1, 0, 0]);
    for bound in [0, 1] {
        expect(&Job::new(2, &table, [0, 0, bound], &[]), 5, 1, &[1, 2], [3, 5, 0, 2, 2]);
        let floor = |budget| Job::new(2, &table, [0, 0, bound], &[]).within(budget).run(2).0.floor;
        assert_eq!([0, 1, 2].map(floor), [bound as u32; 3]);
    }
}

/// Cases a to e and k of document 01 with landings of 1 at home and 10, 20 and
/// 30: each order and close bound is 61 dearer, the counts are the same.
#[test]
fn table_t_with_charges() {
    let table = charged(&T, &[1, 10, 20, 30]);
    let on_t = |choices, start: &[u32]| Job::new(3, &table, choices, start);
    expect(&on_t([0, 1, 1], &[]), 16, 74, &[1, 2, 3], [3, 7, 3, 1, 4]);
    expect(&on_t([2, 0, 0], &[]), 16, 74, &[1, 2, 3], [10, 16, 0, 6, 6]);
    expect(&on_t([3, 1, 0], &[]), 16, 74, &[1, 2, 3], [10, 16, 5, 1, 4]);
    expect(&on_t([3, 1, 1], &[]), 16, 74, &[1, 2, 3], [9, 15, 5, 1, 4]);
    expect(&on_t([3, 1, 1], &[1, 2, 3]), 1, 74, &[1, 2, 3], [3, 7, 3, 1, 1]);
    let legs = Legs::new(3, &table);
    let e = Node::empty(&legs, Bound::Close);
    let bounds: Vec<u32> = e.children(&legs, Bound::Close, &Pairs::none()).iter().map(|y| y.bound).collect();
    assert_eq!((e.bound, bounds), (71, vec![71, 79, 80]));
}

/// Every leg and every landing the dearest, and a budget that ends the run with
/// the first of the orders, all of which tie.
#[test]
fn dearest_legs_and_charges() {
    let table = charged(&level(16, 1_000_000), &[100_000; 17]);
    let order: Vec<u32> = (1..=16).rev().collect();
    let job = Job::new(16, &table, [1, 15, 1], &[]);
    let all = 17 * 1_100_000;
    expect_stopped(&job.within(16), 137, all, all, &order, [16, 137, 0, 121, 121]);
    assert_eq!(course(16, &table), [(18_700_000, (1..=16).collect())]);
}

/// In T a landing of 10 at stop 1 makes 2 the nearest; from there, 3 costs 1.
/// Two exchanges lead back to 123. Home's landing sends nobody elsewhere.
#[test]
fn nearest_stop_by_leg_and_charge() {
    let told = [(7 + 1 + 15 + 5, vec![2, 3, 1]), (14 + 6 + 4 + 3, vec![1, 3, 2]), (14 + 2 + 1 + 6, vec![1, 2, 3])];
    assert_eq!(course(3, &charged(&T, &[0, 10, 0, 0])), told);
    assert_eq!(course(3, &charged(&T, &[500, 0, 0, 0])), [(513, vec![1, 2, 3])]);
}

/// Legs out of 4 and 7, landings of 3 and 0: both stops are at 7, and the
/// lower number is nearest. With landings of 4 and 0, stop 2 is.
#[test]
fn nearest_stops_tie_by_the_sum() {
    let table = [0, 4, 7, 1, 0, 1, 1, 1, 0];
    assert_eq!(course(2, &charged(&table, &[0, 3, 0]))[0], (7 + 1 + 1, vec![1, 2]));
    assert_eq!(course(2, &charged(&table, &[0, 4, 0]))[0], (7 + 5 + 1, vec![2, 1]));
}
