//! Pick-up before drop (request A.6) through the wrapper: days worked by hand, which pairs are refused and where, and
//! what pairs do to starting orders, first orders and files.

use gondamuy::raw;
use gondamuy::{first_order, pair_file, plan_records, read, write, Bound, Job, Pair, Plan, Planned, Record, Refusal};
use gondamuy::{Rules, Selection, LONGEST_FILE, MOST_PAIRS, MOST_PAIR_BYTES, NO_BUDGET};
use samples::{charged, level, T};

const FIFO_PLAIN: Job = Job { n: 3, selection: Selection::Fifo, rules: Rules::NONE, bound: Bound::Plain };

fn pair(pick_up: u8, drop: u8) -> Pair {
    Pair { pick_up, drop }
}

fn finished(job: Job, table: &[u32], start: &[u8], pairs: &[Pair], pool: &mut [Record]) -> Plan {
    plan_records(job, table, start, pairs, NO_BUDGET, pool).unwrap().finished().unwrap()
}

/// Of the orders of table T, which cost 13 (1 2 3), 17, 27, 18 (2 3 1), 19 and 26, three respect a pair. Those of 3
/// before 1 are 2 3 1, 3 1 2 and 3 2 1.
#[test]
fn the_orders_of_a_pair() {
    for (pick_up, drop, cost, order) in [
        (1, 2, 13, [1, 2, 3]),
        (1, 3, 13, [1, 2, 3]),
        (2, 3, 13, [1, 2, 3]),
        (3, 2, 17, [1, 3, 2]),
        (2, 1, 18, [2, 3, 1]),
        (3, 1, 18, [2, 3, 1]),
    ] {
        let mut pool = [Record::default(); 3];
        let plan = finished(FIFO_PLAIN, &T, &[], &[pair(pick_up, drop)], &mut pool);
        assert_eq!((plan.cost, plan.order()), (cost, &order[..]), "{pick_up} {drop}");
        assert_eq!((plan.counts.active, plan.counts.eliminated), (3, 0));
    }
    let mut pool = [Record::default(); 3];
    assert_eq!(finished(FIFO_PLAIN, &T, &[], &[pair(3, 1)], &mut pool).cost, 18);
    assert_eq!(pool.map(|record| (record.first, record.bound)), [(0x021, 18), (0x102, 19), (0x012, 26)]);
}

/// With 3 before 1 the children of e are 2 and 3, of 2 only 23, of 3 both 31 and 32: a child against the pairs is not
/// generated, so that nobody counts it as eliminated.
#[test]
fn children_that_are_not_generated() {
    let mut pool = [Record::default(); 3];
    let pairs = [pair(3, 1)];
    let told = [(0, 1, vec![0]), (1, 3, vec![0x1, 0x2]), (2, 4, vec![0x2, 0x21]), (3, 6, vec![0x21, 0x02, 0x12])];
    for (budget, generated, first) in told {
        let answer = plan_records(FIFO_PLAIN, &T, &[], &pairs, budget, &mut pool).unwrap();
        let Planned::Stopped(stopped) = answer else { panic!("{answer:?}") };
        assert_eq!((stopped.counts.generated, stopped.counts.eliminated), (generated, 0), "{budget}");
        let active = &pool[..stopped.counts.active as usize];
        assert_eq!(active.iter().map(|record| record.first).collect::<Vec<u32>>(), first, "{budget}");
    }
    let plan = finished(FIFO_PLAIN, &T, &[], &pairs, &mut pool);
    assert_eq!((plan.counts.branched, plan.counts.generated, plan.counts.most), (6, 9, 3));
}

/// The empty node's close bound is case k's with pairs too, and the floor of a search that was stopped at once; the
/// best of the orders that respect them costs more.
#[test]
fn bounds_look_at_no_pairs() {
    let job = Job { bound: Bound::Close, ..FIFO_PLAIN };
    let Planned::Stopped(at_once) = plan_records(job, &T, &[], &[pair(3, 1)], 0, &mut [Record::default(); 1]).unwrap()
    else {
        panic!()
    };
    assert_eq!((at_once.floor, at_once.known), (10, None));
}

/// A starting order is known from the beginning if it respects the pairs. Otherwise it is refused by 5 and the pool is
/// as it was; without the pair it passes.
#[test]
fn starting_orders() {
    let dirty = [Record { size: 9, set: 9, path: 9, bound: 9, first: 9, second: 9 }; 2];
    for order in [[1, 2, 3], [1, 3, 2], [2, 1, 3], [2, 3, 1], [3, 1, 2], [3, 2, 1]] {
        let place = |stop| order.iter().position(|&s| s == stop).unwrap();
        let mut pool = dirty;
        let answer = plan_records(FIFO_PLAIN, &T, &order, &[pair(3, 1)], 0, &mut pool);
        if place(3) < place(1) {
            let Ok(Planned::Stopped(stopped)) = answer else { panic!("{answer:?}") };
            assert_eq!(stopped.known.unwrap().order(), order);
        } else {
            assert_eq!((answer.unwrap_err().refusal, pool), (Refusal::Start, dirty));
        }
        assert!(plan_records(FIFO_PLAIN, &T, &order, &[], 0, &mut pool).is_ok());
        assert!(plan_records(FIFO_PLAIN, &T, &order, &[pair(order[0], order[2])], 0, &mut pool).is_ok());
    }
}

/// From home stop 1 is nearest, then 2, then 3; with 3 before 1 it is 2, as 1 may not be flown yet, then 3, then 1. No
/// exchange keeps 3 before 1 and costs less.
#[test]
fn first_orders() {
    for (bound, without, with) in [(Bound::Close, 13, 18), (Bound::PlainAway, 7, 13)] {
        let first = first_order(3, bound, &T, &[]).unwrap();
        assert_eq!((first.cost, first.order()), (without, &[1, 2, 3][..]));
        let first = first_order(3, bound, &T, &[pair(3, 1)]).unwrap();
        assert_eq!((first.cost, first.order()), (with, &[2, 3, 1][..]));
        let against = first_order(3, bound, &T, &[pair(1, 3)]).unwrap();
        let job = Job { bound, ..FIFO_PLAIN };
        let pool = &mut [Record::default(); 1];
        for (start, pairs, number) in [
            (first.order(), &[pair(3, 1)][..], 0),
            (first.order(), &[], 0),
            (first.order(), &[pair(1, 3)], 5),
            (against.order(), &[pair(3, 1)], 5),
        ] {
            let report = raw::plan_records(job.into(), &T, start, pair_file(pairs), 0, pool);
            assert_eq!(report.number, number, "{start:?} {pairs:?}");
        }
    }
}

/// Two stops and a dear leg home from the second: a day that ends at home exchanges them, unless a pair forbids it.
#[test]
fn exchanges_that_are_not_made() {
    let table = [0, 1, 2, 0, 0, 1, 1_000, 1, 0];
    for (pairs, cost, order) in [(vec![], 3, [2, 1]), (vec![pair(2, 1)], 3, [2, 1]), (vec![pair(1, 2)], 1_002, [1, 2])]
    {
        let first = first_order(2, Bound::Plain, &table, &pairs).unwrap();
        assert_eq!((first.cost, first.order()), (cost, &order[..]), "{pairs:?}");
        let plan = finished(Job { n: 2, ..FIFO_PLAIN }, &table, &[], &pairs, &mut [Record::default(); 2]);
        assert_eq!((plan.cost, plan.order()), (cost, &order[..]), "{pairs:?}");
    }
}

/// Eight pairs, each drop with the number below its pick-up, and the last of ties: straight down to the only order that
/// takes the highest allowed stop each time. Landings and the end of the day are paid as ever. All orders tie, so a
/// budget ends the search.
#[test]
fn sixteen_stops_in_eight_pairs() {
    let pairs: Vec<Pair> = (1..=8).map(|k| pair(2 * k, 2 * k - 1)).collect();
    assert_eq!((pairs.len(), pair_file(&pairs).len()), (MOST_PAIRS, MOST_PAIR_BYTES));
    let table = charged(&level(16, 7), &[5; 17]);
    let told: Vec<u8> = (1..=16).rev().collect();
    for (bound, cost) in [(Bound::Close, 17 * 12), (Bound::CloseAway, 16 * 12)] {
        let job = Job { n: 16, selection: Selection::LeastBoundLatest, rules: Rules::UPPER_COST, bound };
        let planned = plan_records(job, &table, &[], &pairs, 16, &mut [Record::default(); 100]).unwrap();
        let after = planned.finished().unwrap_err();
        let known = after.known.unwrap();
        assert_eq!((known.cost, known.order(), after.floor), (cost, &told[..], cost));
        let first = first_order(16, bound, &table, &pairs).unwrap();
        let lowest: Vec<u8> = (1..=8).flat_map(|k| [2 * k, 2 * k - 1]).collect();
        assert_eq!((first.cost, first.order()), (cost, &lowest[..]));
    }
}

const CASE_A: raw::Job = raw::Job { n: 3, selection: 0, rules: 1, bound: 1 };

/// What `plan` and `first_order` say of these bytes. A refusal comes with zeros, and leaves the pool as it was.
fn numbers(job: raw::Job, table: &[u32], start: &[u8], pairs: &[u8]) -> [u32; 2] {
    let mut pool = [7; 24];
    let report = raw::plan(job, table, start, pairs, NO_BUDGET, &mut pool);
    if report.number != 0 {
        assert_eq!((report, pool), (raw::Report { number: report.number, ..raw::Report::default() }, [7; 24]));
    }
    let first = raw::first_order(job.n, job.bound, table, pairs);
    if first.number != 0 {
        assert_eq!(first, raw::FirstOrder { number: first.number, ..raw::FirstOrder::default() });
    }
    [report.number, first.number]
}

/// Every file of one byte and of two, over three stops: six pairs pass.
#[test]
fn every_short_file() {
    let mut passed = 0;
    for one in 0..=255 {
        assert_eq!(numbers(CASE_A, &T, &[], &[one]), [11; 2]);
        for other in 0..=255 {
            let good = (1..=3).contains(&one) && (1..=3).contains(&other) && one != other;
            assert_eq!(numbers(CASE_A, &T, &[], &[one, other]), if good { [0; 2] } else { [11; 2] }, "{one} {other}");
            passed += good as u32;
        }
    }
    assert_eq!((passed, numbers(CASE_A, &T, &[], &[])), (6, [0; 2]));
}

/// Bad by their length alone, though each pair of them would pass, and by a stop of another pair.
#[test]
fn longer_files() {
    let table = level(16, 1);
    let job = raw::Job { n: 16, selection: 1, ..CASE_A };
    let stops: Vec<u8> = (1..=16).collect();
    for length in 0..=16 {
        let number = if length % 2 == 0 { 0 } else { 11 };
        assert_eq!(raw::first_order(16, 1, &table, &stops[..length]).number, number, "{length}");
        let report = raw::plan(job, &table, &[], &stops[..length], 0, &mut [0; 126 * 6]);
        assert_eq!(report.number, number, "{length}");
    }
    for length in [17, 18, 32, 256, 1_000] {
        let long: Vec<u8> = stops.iter().copied().cycle().take(length).collect();
        assert_eq!(numbers(job, &table, &[], &long), [11; 2], "{length}");
    }
    let four = level(4, 1);
    let job = raw::Job { n: 4, ..CASE_A };
    for twice in [[1, 2, 1, 3], [1, 2, 3, 1], [1, 2, 2, 3], [1, 2, 3, 2], [1, 2, 1, 2], [1, 2, 2, 1], [1, 2, 3, 3]] {
        assert_eq!(numbers(job, &four, &[], &twice), [11; 2], "{twice:?}");
    }
}

/// 11 comes behind 1 to 5 and in front of 6; 5 is said of a permutation only where the pairs pass.
#[test]
fn where_check_11_comes() {
    for bad in [&[3][..], &[3, 0], &[4, 1], &[255, 1], &[2, 2], &[1, 2, 2, 3]] {
        assert_eq!(numbers(CASE_A, &T, &[], bad), [11; 2], "{bad:?}");
        assert_eq!(numbers(raw::Job { n: 0, ..CASE_A }, &T, &[], bad), [1; 2]);
        assert_eq!(numbers(CASE_A, &T[..15], &[], bad), [2; 2]);
        assert_eq!(numbers(CASE_A, &charged(&T, &[100_001, 0, 0, 0]), &[], bad), [3; 2]);
        assert_eq!(numbers(raw::Job { bound: 4, ..CASE_A }, &T, &[1, 1, 3], bad), [4; 2]);
        assert_eq!(numbers(raw::Job { rules: 16, ..CASE_A }, &T, &[1, 1, 3], bad), [4, 11]);
        assert_eq!(numbers(CASE_A, &T, &[1, 1, 3], bad), [5, 11]);
        assert_eq!(numbers(CASE_A, &T, &[1, 2, 3], bad), [11; 2]);
        for words in [0, 5, 7] {
            assert_eq!(raw::plan(CASE_A, &T, &[], bad, NO_BUDGET, &mut vec![0; words]).number, 11);
        }
    }
    assert_eq!(numbers(CASE_A, &T, &[1, 2, 3], &[3, 1]), [5, 0]);
    assert_eq!(raw::plan(CASE_A, &T, &[1, 2, 3], &[3, 1], NO_BUDGET, &mut []).number, 5);
    assert_eq!(raw::plan(CASE_A, &T, &[3, 1, 2], &[3, 1], NO_BUDGET, &mut []).number, 6);
}

/// A job file is the same with pairs and without, so whoever plans what is read from it must hand them in again.
#[test]
fn files_have_no_pairs() {
    let mut buffer = [0; LONGEST_FILE];
    let length = write(FIFO_PLAIN, &T, &[1, 2, 3], &mut buffer).unwrap();
    let contents = read(&buffer[..length]).unwrap();
    let plan = |start: &[u8], pairs: &[Pair]| {
        plan_records(contents.job, contents.table(), start, pairs, NO_BUDGET, &mut [Record::default(); 6])
    };
    assert_eq!(plan(contents.start(), &[]).unwrap().finished().unwrap().cost, 13);
    assert_eq!(plan(&[], &[pair(3, 1)]).unwrap().finished().unwrap().cost, 18);
    assert_eq!(plan(contents.start(), &[pair(3, 1)]).unwrap_err().refusal, Refusal::Start);
}
