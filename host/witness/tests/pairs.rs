//! Pick-up before drop (request A.6 of document 02): cases worked out by hand.

mod common;

use common::by_hand::{expect, expect_stopped, on_t};
use common::course::course_with;
use common::paired::all_choices;
use common::Job;
use samples::{level, T};
use witness::legs::Legs;
use witness::node::{Bound, Node};
use witness::pairs::Pairs;
use witness::{Report, STOPPED};

/// Two stops; landings cost 7 at home, 10 at stop 1 and 20 at stop 2. Flying
/// costs 22 out to 2, 16 from there to 1 and 10 home.
const TWO: [u32; 9] = [7, 1, 2, 3, 10, 4, 5, 6, 20];

/// Of five stops with the pairs 4 before 1 and 2 before 5.
#[test]
fn stops_and_orders_allowed() {
    let pairs = Pairs::read(5, &[4, 1, 2, 5]).unwrap();
    let allowed = |flown: &[usize]| -> Vec<usize> { (1..=5).filter(|&stop| pairs.allow(stop, flown)).collect() };
    assert_eq!(allowed(&[]), [2, 3, 4]);
    assert_eq!(allowed(&[3]), [2, 3, 4]);
    assert_eq!(allowed(&[4]), [1, 2, 3, 4]);
    assert_eq!(allowed(&[2, 3]), [2, 3, 4, 5]);
    assert_eq!(allowed(&[4, 2]), [1, 2, 3, 4, 5]);
    for order in [&[][..], &[4], &[2, 4, 5], &[4, 2, 3, 5, 1], &[2, 5, 4, 1, 3], &[4, 1, 3, 2, 5]] {
        assert!(pairs.respected_by(order), "{order:?}");
    }
    for order in [&[1][..], &[5], &[2, 1], &[1, 2, 3, 4, 5], &[4, 1, 5, 2, 3], &[2, 5, 1, 4, 3]] {
        assert!(!pairs.respected_by(order), "{order:?}");
    }
    assert!(Pairs::none().respected_by(&[5, 4, 3, 2, 1]));
}

/// Orders of children, path costs and bounds in T, with 2 before 1. Close is
/// as without pairs: e's 10 has the 4 into 1 from home, which nobody may fly.
#[test]
fn children_in_t() {
    let legs = Legs::new(3, &T);
    let pairs = Pairs::read(3, &[2, 1]).unwrap();
    let children = |node: &Node| node.children(&legs, Bound::Close, &pairs);
    let shown = |nodes: &[Node]| -> Vec<(Vec<usize>, u32, u32)> {
        nodes.iter().map(|y| (y.stops.clone(), y.path, y.bound)).collect()
    };
    let e = Node::empty(&legs, Bound::Close);
    let sized_1 = children(&e);
    assert_eq!((e.bound, shown(&sized_1)), (10, vec![(vec![2], 7, 18), (vec![3], 9, 19)]));
    assert_eq!(shown(&children(&sized_1[0])), [(vec![2, 1], 15, 27), (vec![2, 3], 8, 18)]);
    let of_3 = children(&sized_1[1]);
    assert_eq!(shown(&of_3), [(vec![3, 2], 13, 26)]);
    assert_eq!(shown(&children(&of_3[0])), [(vec![3, 2, 1], 21, 26)]);
}

/// Cases a, b and d of document 01 with 2 before 1. The orders are 213 (27),
/// 231 (18) and 321 (26). In a, e, 2 and 23 are branched, and 231 eliminates 3
/// and 21; in b, all six partial orders; in d, e, 3, 32, 2 and 23, and 21 goes
/// for 321, which goes for 231.
#[test]
fn cases_with_2_before_1() {
    let job = |choices| on_t(choices, &[]).paired(&[2, 1]);
    expect(&job([0, 1, 1]), 3, 18, &[2, 3, 1], [3, 6, 2, 1, 3]);
    expect(&job([2, 0, 0]), 3, 18, &[2, 3, 1], [6, 9, 0, 3, 3]);
    expect(&job([3, 1, 1]), 2, 18, &[2, 3, 1], [5, 8, 2, 1, 2]);
    assert_eq!([job([0, 1, 1]).run(2).0.number, job([3, 1, 1]).run(1).0.number], [7, 7]);
}

/// Case e with 3 before 2, from 132 (17): 3 (19) goes at once, 12 is never
/// made, and e, 1 and 13 lead to 132 again.
#[test]
fn case_e_with_3_before_2() {
    let job = on_t([3, 1, 1], &[1, 3, 2]).paired(&[3, 2]);
    expect(&job, 1, 17, &[1, 3, 2], [3, 5, 1, 1, 1]);
    assert_eq!(job.run(1).1, [3, 7, 14, 17, 0x120, 0]);
    // Without the pair 2 goes as well, 12 and 13 are made and branched, and 123 is found, for which 132 goes.
    expect(&on_t([3, 1, 1], &[1, 3, 2]), 2, 13, &[1, 2, 3], [4, 8, 3, 1, 2]);
}

/// FIFO, rule 4, plain, 2 before 1: active 21, then branched e and 2; in two
/// records the state before the last step.
#[test]
fn pool_of_two_stops() {
    let job = Job::new(2, &TWO, [2, 4, 0], &[]).paired(&[2, 1]);
    expect(&job, 3, 48, &[2, 1], [2, 3, 0, 1, 1]);
    let (n21, e, n2) = ([2, 3, 38, 48, 0x01, 0], [0; 6], [1, 2, 22, 22, 1, 0]);
    assert_eq!(job.run(3).1, [n21, e, n2].concat());
    let (report, pool) = job.run(2);
    assert_eq!((report.number, report.cost, report.counts()), (7, 0, [1, 2, 0, 1, 1]));
    assert_eq!(pool, [n2, e].concat());
    let away = Job { bound: 2, ..job };
    expect(&away, 3, 38, &[2, 1], [2, 3, 0, 1, 1]);
}

/// The first of the cases above, stopped: the floor is 18 once e is branched,
/// where without pairs it would be 10. A starting order is shown until then.
#[test]
fn budgets_in_t() {
    let shown = |start: &[u32], budget| {
        let job = on_t([0, 1, 1], start).paired(&[2, 1]).within(budget);
        let Report { number, mark, cost, floor, .. } = job.run(3).0;
        (number, mark, cost, floor)
    };
    let none = [(0, STOPPED, 0, 10), (0, STOPPED, 0, 18), (0, STOPPED, 0, 18), (0, 0, 18, 0)];
    assert_eq!([0, 1, 2, 3].map(|budget| shown(&[], budget)), none);
    let started = [(0, STOPPED, 26, 10), (0, STOPPED, 26, 18), (0, STOPPED, 26, 18), (0, 0, 18, 0)];
    assert_eq!([0, 1, 2, 3].map(|budget| shown(&[3, 2, 1], budget)), started);
    // From 231, which costs 18, the floor is its cost after e, and 2 and 23 are left to branch.
    let best = [(0, STOPPED, 18, 10), (0, STOPPED, 18, 18), (0, STOPPED, 18, 18), (0, 0, 18, 0)];
    assert_eq!([0, 1, 2, 3].map(|budget| shown(&[2, 3, 1], budget)), best);
}

/// All legs 1, FIFO, rule 2, plain, 1 before 2: of the orders 123, 132 and 312
/// the last goes for the one before it.
#[test]
fn dominance_with_1_before_2() {
    let job = Job::new(3, &level(3, 1), [2, 2, 0], &[]).paired(&[1, 2]);
    expect(&job, 3, 4, &[1, 2, 3], [6, 9, 1, 2, 3]);
    assert_eq!(job.run(3).1, [[3, 7, 3, 4, 0x210, 0], [3, 7, 3, 4, 0x120, 0], [0; 6]].concat());
}

/// Eight pairs of sixteen stops, every leg the dearest: one dive, on which each
/// pair is fetched and set down at once, with 8, 8, 7, 7 and so on children. All
/// orders tie, so a budget ends the run.
#[test]
fn eight_pairs() {
    let pairs: Vec<u8> = (1..=16).collect();
    let order = [15, 16, 13, 14, 11, 12, 9, 10, 7, 8, 5, 6, 3, 4, 1, 2];
    for (bound, legs) in [(1, 17), (3, 16)] {
        let job = Job::new(16, &level(16, 1_000_000), [1, 15, bound], &[]).paired(&pairs);
        let all = legs * 1_000_000;
        expect_stopped(&job.within(16), 73, all, all, &order, [16, 73, 0, 57, 57]);
    }
    let backwards: Vec<u8> = (1..=16).rev().collect();
    let job = Job::new(16, &level(16, 1), [1, 15, 1], &[]).paired(&backwards);
    let order = [16, 15, 14, 13, 12, 11, 10, 9, 8, 7, 6, 5, 4, 3, 2, 1];
    expect_stopped(&job.within(16), 73, 17, 17, &order, [16, 73, 0, 57, 57]);
}

/// Stops 1 and 2 in a pair: the one order there is, found by every choice.
#[test]
fn one_order() {
    for choice in all_choices() {
        for start in [&[][..], &[2, 1]] {
            let (report, _) = Job::new(2, &TWO, choice, start).paired(&[2, 1]).run(3);
            let cost = if choice[2] < 2 { 48 } else { 38 };
            assert_eq!((report.number, report.mark, report.cost, &report.order[..3]), (0, 0, cost, &[2, 1, 0][..]));
        }
    }
}

/// In T, with 2 before 1, home's nearest is 2, as 1 isn't allowed. 132 (17)
/// would be an exchange away, if it were allowed. With 3 before 2, 3 is the
/// nearest to 1, and both 123 (13) and 231 (18) are forbidden.
#[test]
fn first_orders_in_t() {
    assert_eq!(course_with(3, &T, &[2, 1], [0, 1]), [(7 + 1 + 5 + 5, vec![2, 3, 1])]);
    assert_eq!(course_with(3, &T, &[2, 1], [2, 3]), [(7 + 1 + 5, vec![2, 3, 1])]);
    assert_eq!(course_with(3, &T, &[3, 2], [0, 1]), [(4 + 6 + 4 + 3, vec![1, 3, 2])]);
    assert_eq!(course_with(3, &T, &[3, 2], [2, 3]), [(4 + 6 + 4, vec![1, 3, 2])]);
}

/// All legs the same: the lowest stop of those allowed.
#[test]
fn nearest_stops_that_tie() {
    let order = |n: usize, pairs: &[u8]| course_with(n, &level(n, 5), pairs, [0, 1])[0].1.clone();
    assert_eq!([order(3, &[2, 1]), order(3, &[3, 1]), order(3, &[1, 3])], [[2, 1, 3], [2, 3, 1], [1, 2, 3]]);
    assert_eq!([order(4, &[4, 1, 3, 2]), order(4, &[4, 2, 3, 1])], [[3, 2, 4, 1], [3, 1, 4, 2]]);
    let backwards: Vec<u8> = (1..=16).rev().collect();
    assert_eq!(order(16, &backwards), [2, 1, 4, 3, 6, 5, 8, 7, 10, 9, 12, 11, 14, 13, 16, 15]);
}

/// All legs 1 but four. From 123 (13) the exchanges lead to 213 (8), 321 (7)
/// and 132 (4): the greatest gain is among those that are allowed.
#[test]
fn exchanges_allowed() {
    let mut table = level(3, 1);
    (table[2], table[3], table[9], table[11]) = (3, 2, 3, 10);
    let course = |pairs: &[u8]| course_with(3, &table, pairs, [0, 1]);
    let (n123, n132, n213) = ((13, vec![1, 2, 3]), (4, vec![1, 3, 2]), (8, vec![2, 1, 3]));
    assert_eq!(course(&[]), [n123.clone(), n132.clone()]);
    assert_eq!(course(&[1, 3]), [n123.clone(), n132]);
    assert_eq!(course(&[2, 3]), [n123, n213]);
}

/// The order 4231 costs nothing but the leg out, which is 2; 1234, to which the
/// nearest stops lead, costs 8. The exchange of 1 and 4 takes the one to the
/// other, and both of them past 2 and 3.
#[test]
fn exchange_past_a_stop_between() {
    let mut table = level(4, 5);
    for (from, to) in [(4, 2), (2, 3), (3, 1), (1, 0)] {
        table[from * 5 + to] = 0;
    }
    for (from, to) in [(0, 1), (1, 2), (3, 4)] {
        table[from * 5 + to] = 1;
    }
    table[4] = 2;
    let course = |pairs: &[u8]| course_with(4, &table, pairs, [0, 1]);
    let (nearest, free) = ((1 + 1 + 1 + 5, vec![1, 2, 3, 4]), (2, vec![4, 2, 3, 1]));
    assert_eq!(course(&[2, 3]), [nearest.clone(), free.clone()]);
    for forbidden in [[1, 2], [1, 3], [1, 4], [2, 4], [3, 4]] {
        assert_eq!(course(&forbidden)[0], nearest);
        assert!(!course(&forbidden).contains(&free), "{forbidden:?}");
    }
}
