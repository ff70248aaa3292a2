//! A day that ends away (request A.5) through the wrapper: days worked by hand; which bounds are refused, and where.

mod common;

use common::numbers;
use gondamuy::raw;
use gondamuy::{first_order, plan_records, read, write, Bound, Job, Plan, Planned, Record, Refusal, Rules, Selection};
use gondamuy::{DEAREST_CHARGE, DEAREST_LEG, LONGEST_FILE, NO_BUDGET};
use samples::{charged, level, T};

const AWAY: [Bound; 2] = [Bound::PlainAway, Bound::CloseAway];

const FIFO_PLAIN: Job = Job { n: 3, selection: Selection::Fifo, rules: Rules::NONE, bound: Bound::PlainAway };

fn finished(job: Job, table: &[u32], start: &[u8], pool: &mut [Record]) -> Plan {
    plan_records(job, table, start, &[], NO_BUDGET, pool).unwrap().finished().unwrap()
}

/// 3 out and 20 for landing there. Neither the leg back nor the landing at home is flown.
#[test]
fn one_stop() {
    for table in [[7, 3, 5, 20], [0, 3, 0, 20], [DEAREST_CHARGE, 3, DEAREST_LEG, 20]] {
        for bound in AWAY {
            let mut pool = [Record::default(); 1];
            let plan = finished(Job { n: 1, bound, ..FIFO_PLAIN }, &table, &[], &mut pool);
            assert_eq!((plan.cost, plan.order()), (23, &[1][..]));
            assert_eq!(pool[0], Record { size: 1, set: 1, path: 23, bound: 23, first: 0, second: 0 });
            assert_eq!(first_order(1, bound, &table, &[]).unwrap().cost, 23);
        }
    }
}

/// Every order of table T without its leg home, in ascending order: at a complete node the bound is the path cost.
#[test]
fn plain_of_table_t() {
    let mut pool = [Record::default(); 6];
    let plan = finished(FIFO_PLAIN, &T, &[], &mut pool);
    assert_eq!((plan.cost, plan.order(), plan.counts.branched), (7, &[1, 2, 3][..], 10));
    assert_eq!(pool.map(|record| record.bound), [7, 14, 21, 13, 16, 21]);
    assert_eq!(pool.map(|record| record.path), [7, 14, 21, 13, 16, 21]);
}

/// Document 01's case k without the cheapest leg home: e has 4, 2 and 1 for the legs into the stops.
#[test]
fn close_of_table_t() {
    let job = Job { bound: Bound::CloseAway, ..FIFO_PLAIN };
    let mut pool = [Record::default(); 3];
    let Planned::Stopped(at_once) = plan_records(job, &T, &[], &[], 0, &mut pool).unwrap() else { panic!() };
    assert_eq!((at_once.floor, at_once.known, pool[0].bound), (7, None, 7));
    let Planned::Stopped(after) = plan_records(job, &T, &[], &[], 1, &mut pool).unwrap() else { panic!() };
    assert_eq!((after.floor, pool.map(|record| record.bound)), (7, [7, 13, 16]));
    assert_eq!(pool.map(|record| record.path), [4, 7, 9]);
}

/// A starting order costs no leg home either: 1 2 3 costs what the empty node's bound is, and all that is branched is
/// what leads to it again.
#[test]
fn a_starting_order_costs_its_path() {
    let job = Job { selection: Selection::Lifo, rules: Rules::UPPER_COST, bound: Bound::CloseAway, ..FIFO_PLAIN };
    let plan = finished(job, &T, &[1, 2, 3], &mut [Record::default(); 1]);
    assert_eq!((plan.cost, plan.order(), plan.counts.branched), (7, &[1, 2, 3][..], 3));
    let Planned::Stopped(known) = plan_records(job, &T, &[1, 3, 2], &[], 0, &mut [Record::default(); 1]).unwrap()
    else {
        panic!()
    };
    assert_eq!((known.known.unwrap().cost, known.floor, known.far_off()), (14, 7, Some(7)));
}

/// The charges of the stops are paid, home's is not.
#[test]
fn landings_at_the_stops() {
    let table = charged(&T, &[5, 10, 20, 30]);
    for bound in AWAY {
        let plan = finished(Job { bound, ..FIFO_PLAIN }, &table, &[], &mut [Record::default(); 6]);
        assert_eq!((plan.cost, plan.order()), (7 + 60, &[1, 2, 3][..]));
        assert_eq!(first_order(3, bound, &table, &[]).unwrap().cost, 7 + 60);
    }
}

/// Two stops, and a dear leg home from the second. Ending at home the day ends with stop 1, ending away with stop 2;
/// the nearest stops are 1 and 2 for both, and are exchanged for the day that ends at home alone.
#[test]
fn another_order() {
    let table = [0, 1, 2, 0, 0, 1, 1_000, 1, 0];
    for (bound, cost, order) in [
        (Bound::Plain, 3, [2, 1]),
        (Bound::Close, 3, [2, 1]),
        (Bound::PlainAway, 2, [1, 2]),
        (Bound::CloseAway, 2, [1, 2]),
    ] {
        let plan = finished(Job { n: 2, bound, ..FIFO_PLAIN }, &table, &[], &mut [Record::default(); 2]);
        assert_eq!((plan.cost, plan.order()), (cost, &order[..]), "{bound:?}");
        let first = first_order(2, bound, &table, &[]).unwrap();
        assert_eq!((first.cost, first.order()), (cost, &order[..]), "{bound:?}");
    }
}

/// Sixteen flights of 1,100,000: the flight home, as dear as they are, is not counted. All orders tie, so a budget ends
/// the search.
#[test]
fn the_dearest_day() {
    let table = charged(&level(16, DEAREST_LEG), &[DEAREST_CHARGE; 17]);
    assert_eq!(first_order(16, Bound::PlainAway, &table, &[]).unwrap().cost, 17_600_000);
    let job = Job { n: 16, selection: Selection::LeastBoundLatest, bound: Bound::CloseAway, ..FIFO_PLAIN };
    let Planned::Stopped(after) = plan_records(job, &table, &[], &[], 16, &mut [Record::default(); 121]).unwrap()
    else {
        panic!()
    };
    assert_eq!((after.known.unwrap().cost, after.floor), (17_600_000, 17_600_000));
}

const CASE_A: raw::Job = raw::Job { n: 3, selection: 0, rules: 1, bound: 1 };

/// Bounds 0 to 3 pass and others do not, in every call, behind 1, 2 (in a file 9) and 3 and in front of 5.
#[test]
fn where_check_4_comes() {
    for bound in 0..=300 {
        let number = if bound < 4 { 0 } else { 4 };
        let job = raw::Job { bound, ..CASE_A };
        let calls = numbers(job, &T, &[]);
        assert_eq!(calls[..3], [number; 3], "{bound}");
        assert_eq!(calls[3], if bound % 256 < 4 { 0 } else { 4 }, "a file has a byte for it: {bound}");
    }
    for bound in [4, 5, 255] {
        let wrong = raw::Job { bound, ..CASE_A };
        assert_eq!(numbers(wrong, &T, &[1, 1, 3]), [4; 4]);
        assert_eq!(numbers(raw::Job { n: 0, ..wrong }, &T, &[1, 1, 3]), [1; 4]);
        assert_eq!(numbers(wrong, &T[..15], &[]), [2, 2, 2, 9]);
        assert_eq!(numbers(wrong, &charged(&T, &[100_001, 0, 0, 0]), &[1, 1, 3]), [3; 4]);
    }
    for bound in [1 << 16, 1 << 31, u32::MAX] {
        assert_eq!(numbers(raw::Job { bound, ..CASE_A }, &T, &[1, 1, 3])[..3], [4; 3]);
        let zeros = raw::FirstOrder { number: 4, ..raw::FirstOrder::default() };
        assert_eq!(raw::first_order(3, bound, &T, &[]), zeros);
    }
}

/// Selection and rules are none of the first order's: it looks at the bound alone.
#[test]
fn first_orders_look_at_the_bound() {
    for bound in 0..=3 {
        let wrong = raw::Job { n: 3, selection: 4, rules: 16, bound };
        assert_eq!(numbers(wrong, &T, &[1, 1, 3]), [4, 0, 4, 4]);
        assert_eq!(numbers(raw::Job { bound, ..CASE_A }, &T, &[1, 1, 3]), [5, 0, 5, 5]);
    }
}

/// Legs home and home's charge stand in the table, and check 3 looks at them though nobody flies there.
#[test]
fn check_3_looks_at_flights_home() {
    for (at, dearest) in [(0, DEAREST_CHARGE), (4, DEAREST_LEG), (8, DEAREST_LEG), (12, DEAREST_LEG)] {
        for (number, most) in [(0, dearest), (3, dearest + 1), (3, u32::MAX)] {
            let mut table = T;
            table[at] = most;
            for bound in 0..=3 {
                assert_eq!(numbers(raw::Job { bound, ..CASE_A }, &table, &[]), [number; 4], "{at} {most} {bound}");
            }
        }
    }
}

/// A file has the bound's number in its last byte, and keeps its layout.
#[test]
fn files_keep_the_bound() {
    for (bound, last) in [(Bound::PlainAway, 2), (Bound::CloseAway, 3)] {
        let job = Job { bound, ..FIFO_PLAIN };
        let mut buffer = [0; LONGEST_FILE];
        let length = write(job, &T, &[2, 3, 1], &mut buffer).unwrap();
        assert_eq!((length, buffer[length - 5..length].to_vec()), (80, vec![3, 3, 2, 0, last]));
        let contents = read(&buffer[..length]).unwrap();
        assert_eq!((contents.job, contents.table(), contents.start()), (job, &T[..], &[2, 3, 1][..]));
        buffer[length - 1] = 4;
        assert_eq!(read(&buffer[..length]), Err(Refusal::Choice));
    }
}
