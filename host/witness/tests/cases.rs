//! Cases a to k of document 01, with e, f and i as request A.8 of document 02
//! has them, and further cases worked out by hand.

mod common;

use common::by_hand::{expect, expect_stopped, on_t};
use common::Job;
use samples::{level, T};
use witness::enumerate::{all_orders, cheapest_orders, least_cost};
use witness::legs::{Ends, Legs};
use witness::node::{Bound, Node};
use witness::pairs::Pairs;
use witness::STOPPED;

#[test]
fn costs_of_the_orders_in_t() {
    let legs = Legs::new(3, &T);
    let costs: Vec<u32> = all_orders(3).iter().map(|o| legs.order_cost(o, Ends::Home)).collect();
    assert_eq!(costs, [13, 17, 27, 18, 19, 26]);
    assert_eq!(least_cost(&legs, Ends::Home), 13);
    assert_eq!(cheapest_orders(&legs, Ends::Home), [[1, 2, 3]]);
    assert_eq!(all_orders(6).len(), 720);
}

#[test]
fn case_a() {
    expect(&on_t([0, 1, 1], &[]), 16, 13, &[1, 2, 3], [3, 7, 3, 1, 4]);
}

#[test]
fn case_b() {
    expect(&on_t([2, 0, 0], &[]), 16, 13, &[1, 2, 3], [10, 16, 0, 6, 6]);
}

#[test]
fn case_c() {
    expect(&on_t([3, 1, 0], &[]), 16, 13, &[1, 2, 3], [10, 16, 5, 1, 4]);
}

#[test]
fn case_d() {
    expect(&on_t([3, 1, 1], &[]), 16, 13, &[1, 2, 3], [9, 15, 5, 1, 4]);
}

#[test]
fn case_e() {
    expect(&on_t([3, 1, 1], &[1, 2, 3]), 16, 13, &[1, 2, 3], [3, 7, 3, 1, 1]);
}

#[test]
fn case_f() {
    expect(&on_t([3, 1, 1], &[1, 2, 3]), 1, 13, &[1, 2, 3], [3, 7, 3, 1, 1]);
    let (report, pool) = on_t([3, 1, 1], &[]).run(1);
    assert_eq!((report.number, report.cost, report.order), (7, 0, [0; 16]));
    assert_eq!(report.counts(), [0, 1, 0, 1, 1]);
    assert_eq!(pool, [0, 0, 0, 10, 0, 0]);
}

#[test]
fn case_g() {
    expect(&on_t([2, 2, 0], &[]), 16, 13, &[1, 2, 3], [10, 16, 3, 3, 6]);
}

#[test]
fn case_h() {
    expect(&Job::new(1, &[0, 3, 5, 0], [0, 0, 0], &[]), 2, 8, &[1], [1, 2, 0, 1, 1]);
}

#[test]
fn case_i() {
    for selection in [0, 1] {
        let job = Job::new(2, &[0; 9], [selection, 0, 1], &[]);
        expect(&job, 5, 0, &[1, 2], [3, 5, 0, 2, 2]);
    }
}

#[test]
fn case_j() {
    let end = |job: &Job| {
        let (report, _) = job.within(0).run(1);
        (report.number, report.mark)
    };
    let table = [0; 17 * 17];
    let job = Job::new(16, &table, [0, 0, 0], &(1..=16).collect::<Vec<u32>>());
    assert_eq!(end(&job), (0, STOPPED));
    let table = [0; 18 * 18];
    let job = Job::new(17, &table, [0, 0, 0], &[]);
    assert_eq!(end(&job), (1, 0));
    let dear = Job::new(1, &[0, 1_000_000, 0, 0], [0, 0, 0], &[]);
    assert_eq!(end(&dear), (0, STOPPED));
    let dearer = Job::new(1, &[0, 1_000_001, 0, 0], [0, 0, 0], &[]);
    assert_eq!(end(&dearer), (3, 0));
}

#[test]
fn case_k() {
    let legs = Legs::new(3, &T);
    let e = Node::empty(&legs, Bound::Close);
    assert_eq!(e.bound, 10);
    let bounds: Vec<u32> = e.children(&legs, Bound::Close, &Pairs::none()).iter().map(|y| y.bound).collect();
    assert_eq!(bounds, [10, 18, 19]);
}

/// Job a leaves the one node 123 in the pool.
#[test]
fn pool_of_case_a() {
    let (_, pool) = on_t([0, 1, 1], &[]).run(4);
    assert_eq!(pool[..6], [3, 7, 7, 13, 0x210, 0]);
    assert_eq!(pool[6..], [0; 18]);
}

/// Both orders cost the same: 12 is the answer, whichever is found first or
/// given.
#[test]
fn equal_but_smaller_order_replaces() {
    for selection in 0..4 {
        for start in [&[][..], &[1, 2], &[2, 1]] {
            let free = Job::new(2, &[0; 9], [selection, 0, 1], start);
            expect(&free, 5, 0, &[1, 2], [3, 5, 0, 2, 2]);
            let dear = Job::new(2, &level(2, 1), [selection, 0, 0], start);
            expect(&dear, 5, 3, &[1, 2], [3, 5, 0, 2, 2]);
        }
    }
}

/// Active 12, 21, then branched e, 1, 2; with one record less, the state
/// before the last step: active 2, 12, then branched e, 1.
#[test]
fn pool_with_branched_nodes() {
    let job = Job::new(2, &[0, 1, 2, 3, 0, 4, 5, 6, 0], [2, 4, 0], &[]);
    let (report, pool) = job.run(5);
    assert_eq!((report.number, report.mark, report.cost), (0, 0, 10));
    assert_eq!(report.counts(), [3, 5, 0, 2, 2]);
    let (n12, n21) = ([2, 3, 5, 10, 0x10, 0], [2, 3, 8, 11, 0x01, 0]);
    let (e, n1, n2) = ([0; 6], [1, 1, 1, 1, 0, 0], [1, 2, 2, 2, 1, 0]);
    assert_eq!(pool, [n12, n21, e, n1, n2].concat());
    let (report, pool) = job.run(4);
    assert_eq!((report.number, report.cost, report.order), (7, 0, [0; 16]));
    assert_eq!(report.counts(), [2, 4, 0, 2, 2]);
    assert_eq!(pool, [n2, n12, e, n1].concat());
}

/// All legs 1: of two equal nodes the smaller stays. FIFO makes it first, so
/// that rule 2 eliminates the other and rule 8 neither; LIFO makes it last.
#[test]
fn smaller_of_two_equal_nodes_stays() {
    let kept = |selection, rules, counts| {
        let job = Job::new(3, &level(3, 1), [selection, rules, 0], &[]);
        expect(&job, 6, 4, &[1, 2, 3], counts);
        let (report, pool) = job.run(6);
        pool.chunks(6).take(report.active as usize).map(|record| record[4]).collect::<Vec<u32>>()
    };
    for rules in [2, 10] {
        assert_eq!(kept(2, rules, [10, 16, 3, 3, 6]), [0x210, 0x120, 0x021]);
    }
    for rules in [8, 10] {
        assert_eq!(kept(3, rules, [10, 16, 3, 3, 5]), [0x021, 0x120, 0x210]);
    }
    assert_eq!(kept(2, 8, [10, 16, 0, 6, 6]), [0x210, 0x120, 0x201, 0x021, 0x102, 0x012]);
    assert_eq!(kept(3, 2, [10, 16, 0, 6, 6]), [0x012, 0x102, 0x021, 0x201, 0x120, 0x210]);
}

/// Legs out of 4, 3, 2 and 1, all others 1, LIFO: the 24 nodes of size 3 go in
/// pairs of one set and last stop, and the later of each pair, which is dearer,
/// meets a branched node. With all legs 1 it is smaller, and none goes.
#[test]
fn rule_4_against_branched_nodes() {
    let mut table = level(4, 1);
    table[1..5].copy_from_slice(&[4, 3, 2, 1]);
    let job = Job::new(4, &table, [3, 4, 0], &[]);
    expect(&job, 41, 5, &[4, 1, 2, 3], [29, 53, 12, 12, 15]);
    assert_eq!(job.run(40).0.number, 7);
    let tied = Job::new(4, &level(4, 1), [3, 4, 0], &[]);
    expect(&tied, 65, 5, &[1, 2, 3, 4], [41, 65, 0, 24, 24]);
}

/// The free chain 1 to 16 is followed without a detour; both words of the
/// order are in use.
#[test]
fn sixteen_stops_in_a_chain() {
    let mut table = level(16, 1_000_000);
    (0..17).for_each(|i| table[i * 17 + (i + 1) % 17] = 0);
    let order: Vec<u32> = (1..=16).collect();
    let job = Job::new(16, &table, [0, 1, 1], &[]);
    expect(&job, 121, 0, &order, [16, 137, 120, 1, 121]);
    let (_, pool) = job.run(121);
    assert_eq!(pool[..6], [16, 0xFFFF, 0, 0, 0x7654_3210, 0xFEDC_BA98]);
}

/// Every leg the dearest: seventeen of them, found by the first dive. All that
/// are left tie with it, so a budget ends the run.
#[test]
fn dearest_legs() {
    let order: Vec<u32> = (1..=16).rev().collect();
    let job = Job::new(16, &level(16, 1_000_000), [1, 15, 1], &[]);
    expect_stopped(&job.within(16), 137, 17_000_000, 17_000_000, &order, [16, 137, 0, 121, 121]);
}

/// Under selection 0 a closer bound may have more active nodes, which is why
/// demand 3 lets the bounds differ under FIFO and LIFO only. Over the second
/// table it counts no more.
#[test]
fn closer_bound_may_count_more_under_least_bound() {
    let table = [0, 2, 2, 2, 0, 1, 0, 1, 0, 0, 0, 0, 0, 2, 2, 1, 1, 0, 0, 0, 0, 2, 1, 2, 0];
    let on = |bound| Job::new(4, &table, [0, 10, bound], &[]);
    expect(&on(0), 17, 2, &[2, 1, 3, 4], [21, 41, 8, 12, 17]);
    expect(&on(1), 18, 2, &[2, 1, 3, 4], [15, 33, 1, 17, 18]);
    let table = [0, 1, 1, 0, 1, 0, 1, 0, 0, 0, 0, 0, 0, 0, 0, 0];
    let on = |bound| Job::new(3, &table, [0, 0, bound], &[]);
    expect(&on(0), 6, 1, &[1, 3, 2], [9, 15, 0, 6, 6]);
    expect(&on(1), 6, 1, &[1, 3, 2], [8, 14, 0, 6, 6]);
}
