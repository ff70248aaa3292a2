//! Days that end away (request A.5 of document 02): cases worked out by hand.

mod common;

use common::by_hand::{expect, expect_stopped, on_t};
use common::course::{course, course_away};
use common::{away_choices, Job};
use samples::{charged, level, T};
use witness::enumerate::{all_orders, cheapest_orders, least_cost};
use witness::legs::{Ends, Legs};
use witness::node::{Bound, Node};
use witness::pairs::Pairs;
use witness::{Report, STOPPED};

/// Two stops; landings cost 7 at home, 10 at stop 1 and 20 at stop 2. Flying
/// costs 11 and 22 from home, 24 from 1 to 2, 16 from 2 to 1, 10 and 12 home.
const TWO: [u32; 9] = [7, 1, 2, 3, 10, 4, 5, 6, 20];

/// Home again, order 12 is cheaper: 1 + 4 + 1 against 2 + 1 + 9. Away, it is
/// 21: 1 + 4 against 2 + 1.
const TURNED: [u32; 9] = [0, 1, 2, 9, 0, 4, 1, 1, 0];

/// Out and between the stops, and nothing behind the last of them.
#[test]
fn orders() {
    let two = Legs::new(2, &TWO);
    assert_eq!([[1, 2], [2, 1]].map(|order| two.order_cost(&order, Ends::Away)), [11 + 24, 22 + 16]);
    let legs = Legs::new(3, &T);
    let costs: Vec<u32> = all_orders(3).iter().map(|o| legs.order_cost(o, Ends::Away)).collect();
    assert_eq!(costs, [4 + 2 + 1, 4 + 6 + 4, 7 + 8 + 6, 7 + 1 + 5, 9 + 5 + 2, 9 + 4 + 8]);
    assert_eq!((least_cost(&legs, Ends::Away), cheapest_orders(&legs, Ends::Away)), (7, vec![vec![1, 2, 3]]));
}

/// Path cost and bound of all nodes, by size and then by order.
fn nodes(n: usize, table: &[u32], kind: Bound) -> Vec<(u32, u32)> {
    let legs = Legs::new(n, table);
    let (mut all, mut sized) = (Vec::new(), vec![Node::empty(&legs, kind)]);
    while !sized.is_empty() {
        all.extend(sized.iter().map(|y| (y.path, y.bound)));
        sized = sized.iter().flat_map(|y| y.children(&legs, kind, &Pairs::none())).collect();
    }
    all
}

/// e, 1, 2, 12 and 21. e's close bound is 11 into 1 and 22 into 2; node 1 has
/// 24 to come, node 2 has 16.
#[test]
fn bounds_of_two_stops() {
    assert_eq!(nodes(2, &TWO, Bound::PlainAway), [(0, 0), (11, 11), (22, 22), (35, 35), (38, 38)]);
    assert_eq!(nodes(2, &TWO, Bound::CloseAway), [(0, 11 + 22), (11, 11 + 24), (22, 22 + 16), (35, 35), (38, 38)]);
}

/// Case k's nodes away. e has 4, 2 and 1 to come; node 1 has 2 and 1, node 2
/// has 5 and 1, node 3 has 5 and 2. A node of two stops has one leg to come,
/// so its close bound is what its only order costs.
#[test]
fn bounds_in_t() {
    let close: Vec<u32> = nodes(3, &T, Bound::CloseAway).iter().map(|y| y.1).collect();
    assert_eq!(close[..4], [4 + 2 + 1, 4 + 2 + 1, 7 + 5 + 1, 9 + 5 + 2]);
    assert_eq!(close[4..10], [7, 14, 21, 13, 16, 21]);
    assert_eq!(close[10..], [7, 14, 21, 13, 16, 21]);
    assert!(nodes(3, &T, Bound::PlainAway).iter().all(|&(path, bound)| path == bound));
}

/// FIFO, rule 4, plain: active 12, 21, then branched e, 1, 2.
#[test]
fn pool_of_two_stops() {
    let job = Job::new(2, &TWO, [2, 4, 2], &[]);
    expect(&job, 5, 35, &[1, 2], [3, 5, 0, 2, 2]);
    let (n12, n21) = ([2, 3, 35, 35, 0x10, 0], [2, 3, 38, 38, 0x01, 0]);
    let (e, n1, n2) = ([0; 6], [1, 1, 11, 11, 0, 0], [1, 2, 22, 22, 1, 0]);
    assert_eq!(job.run(5).1, [n12, n21, e, n1, n2].concat());
    let (report, pool) = job.run(4);
    assert_eq!((report.number, report.cost, report.counts()), (7, 0, [2, 4, 0, 2, 2]));
    assert_eq!(pool, [n2, n12, e, n1].concat());
}

/// Cases a and b away count as at home. In case c's place 21 (15) goes with
/// 312 when 231 (13) is found, and so isn't branched. In case d's place 21
/// (21) goes at once and 13 (14) goes for 231.
#[test]
fn cases_a_to_d() {
    expect(&on_t([0, 1, 3], &[]), 16, 7, &[1, 2, 3], [3, 7, 3, 1, 4]);
    expect(&on_t([2, 0, 2], &[]), 16, 7, &[1, 2, 3], [10, 16, 0, 6, 6]);
    expect(&on_t([3, 1, 2], &[]), 16, 7, &[1, 2, 3], [9, 15, 5, 1, 4]);
    expect(&on_t([3, 1, 3], &[]), 16, 7, &[1, 2, 3], [8, 14, 5, 1, 4]);
}

/// From 123 (7), 2 (13) and 3 (16) go at once and 13 (14) when it comes up; e,
/// 1 and 12 are branched. From 231 (13), 3 (16) goes at once, 21 (21) and 13 (14) when they come up, and 231
/// when 123 is found; e, 2, 23, 1 and 12 are branched.
#[test]
fn cases_e_and_f() {
    expect(&on_t([3, 1, 3], &[1, 2, 3]), 1, 7, &[1, 2, 3], [3, 7, 3, 1, 1]);
    expect(&on_t([3, 1, 3], &[2, 3, 1]), 2, 7, &[1, 2, 3], [5, 10, 4, 1, 2]);
    let (report, pool) = on_t([3, 1, 3], &[]).run(1);
    assert_eq!((report.number, report.cost, report.order), (7, 0, [0; 16]));
    assert_eq!((report.counts(), &pool[..]), ([0, 1, 0, 1, 1], &[0, 0, 0, 7, 0, 0][..]));
}

/// Out 3 and back 5, landings 11 and 7: neither 5 nor 7 is paid. Close has all
/// the rest in e's bound.
#[test]
fn one_stop() {
    let table = [7, 3, 5, 11];
    for [selection, rules, bound] in away_choices() {
        let job = Job::new(1, &table, [selection, rules, bound], &[]);
        expect(&job, 2, 3 + 11, &[1], [1, 2, 0, 1, 1]);
        assert_eq!(job.run(2).1[..6], [1, 1, 14, 14, 0, 0]);
        assert_eq!(job.within(0).run(1).0.floor, (bound as u32 - 2) * 14);
        let started = Job::new(1, &table, [selection, rules, bound], &[1]);
        expect(&started, 2, 14, &[1], [1, 2, 0, 1, 1]);
    }
    assert_eq!(course_away(1, &table), [(14, vec![1])]);
}

/// Two stops, all legs free, home's landing 1: nobody pays it, and all nodes
/// tie.
#[test]
fn home_charges_alone() {
    let table = charged(&[0; 9], &[1, 0, 0]);
    for [selection, _, bound] in away_choices() {
        expect(&Job::new(2, &table, [selection, 0, bound], &[]), 5, 0, &[1, 2], [3, 5, 0, 2, 2]);
    }
}

/// Where the day ends decides which order is the cheapest.
#[test]
fn another_order_than_home() {
    for [selection, rules, bound] in away_choices() {
        for start in [&[][..], &[1, 2], &[2, 1]] {
            let shown = |bound| {
                let (report, _) = Job::new(2, &TURNED, [selection, rules, bound], start).run(5);
                (report.number, report.cost, report.order[0])
            };
            assert_eq!((shown(bound), shown(bound - 2)), ((0, 3, 2), (0, 6, 1)));
        }
    }
}

/// Selection 0, rules 1, close: order 12 is found by the second branching and
/// eliminates node 2. A budget that stops it earlier shows e's and node 1's
/// bounds as floors, and a starting order with what it costs.
#[test]
fn budgets_of_two_stops() {
    let job = Job::new(2, &TWO, [0, 1, 3], &[]);
    expect(&job, 2, 35, &[1, 2], [2, 4, 1, 1, 2]);
    let shown = |job: &Job, budget| {
        let Report { number, mark, cost, floor, .. } = job.within(budget).run(2).0;
        (number, mark, cost, floor)
    };
    assert_eq!(shown(&job, 0), (0, STOPPED, 0, 33));
    assert_eq!(shown(&job, 1), (0, STOPPED, 0, 35));
    assert_eq!(shown(&job, 2), (0, 0, 35, 0));
    let started = Job::new(2, &TWO, [0, 1, 3], &[2, 1]);
    assert_eq!(shown(&started, 0), (0, STOPPED, 38, 33));
    let plain = Job::new(2, &TWO, [0, 1, 2], &[2, 1]);
    assert_eq!([shown(&plain, 0), shown(&plain, 1)], [(0, STOPPED, 38, 0), (0, STOPPED, 38, 11)]);
}

/// Every leg and every landing the dearest: sixteen flights, found by the first
/// dive. All that are left tie with it, so a budget ends the run.
#[test]
fn dearest_legs_and_charges() {
    let table = charged(&level(16, 1_000_000), &[100_000; 17]);
    let order: Vec<u32> = (1..=16).rev().collect();
    let job = Job::new(16, &table, [1, 15, 3], &[]);
    let all = 16 * 1_100_000;
    expect_stopped(&job.within(16), 137, all, all, &order, [16, 137, 0, 121, 121]);
    assert_eq!(course_away(16, &table), [(17_600_000, (1..=16).collect())]);
}

/// The nearest stop is the same; what an exchange leads to is not.
#[test]
fn first_orders() {
    assert_eq!(course_away(3, &T), [(4 + 2 + 1, vec![1, 2, 3])]);
    assert_eq!(course(2, &TURNED), [(1 + 4 + 1, vec![1, 2])]);
    assert_eq!(course_away(2, &TURNED), [(1 + 4, vec![1, 2]), (2 + 1, vec![2, 1])]);
}

/// All legs 1 but 10 from 2 to 3 and 5 from 3 home. Home again 321 and 132
/// tie at 4, and 213 costs 8; away all three tie at 3.
#[test]
fn exchanges_that_tie() {
    let mut table = level(3, 1);
    (table[2 * 4 + 3], table[3 * 4]) = (10, 5);
    assert_eq!(course(3, &table), [(1 + 1 + 10 + 5, vec![1, 2, 3]), (4, vec![3, 2, 1])]);
    assert_eq!(course_away(3, &table), [(1 + 1 + 10, vec![1, 2, 3]), (3, vec![2, 1, 3])]);
}

/// The numbers of the way home are looked at though nobody flies it.
#[test]
fn way_home_is_checked() {
    for bound in [2, 3] {
        for (place, most) in [(0, 100_000), (4, 1_000_000), (8, 1_000_000), (12, 1_000_000)] {
            let number = |entry| {
                let mut table = T;
                table[place] = entry;
                let job = Job::new(3, &table, [0, 1, bound], &[]);
                let (report, _) = job.run(16);
                assert_eq!(witness::first_order(3, bound, &table, &[]).number, report.number);
                report.number
            };
            assert_eq!((number(most), number(most + 1)), (0, 3), "{place}");
        }
    }
}

/// Behind 3, in front of 5 and 6; with 2 and 3 in its place, these come up.
#[test]
fn number_4_among_others() {
    let mut dear = T;
    dear[1] = 1_000_001;
    for (bound, four) in [(2, 0), (3, 0), (4, 4), (5, 4)] {
        let number = |table: &[u32], start: &[u32], words: usize| {
            let mut pool = vec![9; words];
            let report = Job::new(3, table, [0, 1, bound], start).run_in(&mut pool);
            let number = report.number;
            if number != 0 {
                assert_eq!((report, pool), (Report { number, ..Report::default() }, vec![9; words]));
            }
            number
        };
        assert_eq!([number(&T, &[], 96), number(&dear, &[], 96), number(&dear, &[1], 95)], [four, 3, 3]);
        let others = [number(&T, &[1, 1, 2], 96), number(&T, &[], 95), number(&T, &[1], 0)];
        assert_eq!(others, if four == 4 { [4, 4, 4] } else { [5, 6, 5] });
    }
}
