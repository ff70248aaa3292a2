//! Landing charges (request A.4) through the wrapper: days worked by hand, and where check 3 comes among the others.

mod common;

use common::numbers;
use gondamuy::raw::{self, Job};
use gondamuy::{first_order, plan_records, read, words, write, Bound, Plan, Planned, Record, Refusal};
use gondamuy::{Rules, Selection, DEAREST_CHARGE, DEAREST_LEG, LONGEST_FILE, NO_BUDGET};
use samples::{charged, level, T};

/// Home's charge, then those of the stops of table T.
const CHARGES: [u32; 4] = [5, 10, 20, 30];
const LANDINGS: u32 = 65;

const FIFO_PLAIN: gondamuy::Job =
    gondamuy::Job { n: 3, selection: Selection::Fifo, rules: Rules::NONE, bound: Bound::Plain };

fn finished(job: gondamuy::Job, table: &[u32], pool: &mut [Record]) -> Plan {
    plan_records(job, table, &[], &[], NO_BUDGET, pool).unwrap().finished().unwrap()
}

/// 3 out and 20 for landing there, 5 back and 7 for landing at home.
#[test]
fn one_stop() {
    let table = [7, 3, 5, 20];
    for bound in [Bound::Plain, Bound::Close] {
        let mut pool = [Record::default(); 1];
        let plan = finished(gondamuy::Job { n: 1, bound, ..FIFO_PLAIN }, &table, &mut pool);
        assert_eq!((plan.cost, plan.order()), (35, &[1][..]));
        assert_eq!(pool[0], Record { size: 1, set: 1, path: 23, bound: 35, first: 0, second: 0 });
    }
    assert_eq!(first_order(1, Bound::Plain, &table, &[]).unwrap().cost, 35);
}

/// The path costs of the nodes 1, 2 and 3 have their landings and not home's, which a whole order's bound has.
#[test]
fn paths_pay_the_stops_alone() {
    let table = charged(&T, &CHARGES);
    let mut pool = [Record::default(); 6];
    let Planned::Stopped(after) = plan_records(FIFO_PLAIN, &table, &[], &[], 1, &mut pool).unwrap() else { panic!() };
    let costs = [0, 1, 2].map(|k| (pool[k].path, pool[k].bound));
    assert_eq!((after.floor, costs), (14, [(14, 14), (27, 27), (39, 39)]));
    let plan = finished(FIFO_PLAIN, &table, &mut pool);
    assert_eq!((plan.cost, plan.order(), plan.counts.branched), (13 + LANDINGS, &[1, 2, 3][..], 10));
    assert_eq!(pool.map(|record| record.bound), [13, 17, 27, 18, 19, 26].map(|cost| cost + LANDINGS));
    assert_eq!(pool.map(|record| record.path), [67, 74, 81, 73, 76, 81]);
}

/// Document 01's case k: the close bounds of the empty node and of its children, and every landing on top.
#[test]
fn close_bounds_pay_every_landing() {
    let table = charged(&T, &CHARGES);
    let job = gondamuy::Job { bound: Bound::Close, ..FIFO_PLAIN };
    let mut pool = [Record::default(); 3];
    let Planned::Stopped(at_once) = plan_records(job, &table, &[], &[], 0, &mut pool).unwrap() else { panic!() };
    assert_eq!((at_once.floor, pool[0].path, pool[0].bound), (10 + LANDINGS, 0, 10 + LANDINGS));
    let Planned::Stopped(after) = plan_records(job, &table, &[], &[], 1, &mut pool).unwrap() else { panic!() };
    assert_eq!(pool.map(|record| record.bound), [10, 18, 19].map(|bound| bound + LANDINGS));
    assert_eq!((after.floor, pool.map(|record| record.path)), (10 + LANDINGS, [14, 27, 39]));
}

/// Both orders' legs cost the same, so that no exchange is made: the nearest stop alone decides. By the legs it is stop
/// 1; it is stop 2 where landing at stop 1 costs more than its leg saves; at a tie the lower number.
#[test]
fn the_nearest_stop_is_landed_at() {
    let legs = [0, 1, 2, 2, 0, 2, 2, 1, 0];
    for (charges, order) in [([0, 0, 0], [1, 2]), ([9, 1, 0], [1, 2]), ([0, 2, 0], [2, 1]), ([9, 3, 1], [2, 1])] {
        let first = first_order(2, Bound::Plain, &charged(&legs, &charges), &[]).unwrap();
        assert_eq!((first.cost, first.order()), (5 + charges.iter().sum::<u32>(), &order[..]), "{charges:?}");
    }
}

/// Seventeen flights of 1,100,000. All close bounds are equal, and the latest of equals leads straight to an order;
/// under plain the latest generated does. All orders tie, so a budget ends the search.
#[test]
fn the_dearest_day() {
    let table = charged(&level(16, DEAREST_LEG), &[DEAREST_CHARGE; 17]);
    assert_eq!(first_order(16, Bound::Close, &table, &[]).unwrap().cost, 18_700_000);
    let job = gondamuy::Job { n: 16, selection: Selection::LeastBoundLatest, bound: Bound::Close, ..FIFO_PLAIN };
    let mut pool = [Record::default(); 121];
    let Planned::Stopped(after) = plan_records(job, &table, &[], &[], 16, &mut pool).unwrap() else { panic!() };
    assert_eq!((after.known.unwrap().cost, after.floor), (18_700_000, 18_700_000));
    let job = gondamuy::Job { n: 16, selection: Selection::Lifo, ..FIFO_PLAIN };
    let Planned::Stopped(after) = plan_records(job, &table, &[], &[], 16, &mut pool).unwrap() else { panic!() };
    assert_eq!((after.known.unwrap().cost, after.floor), (18_700_000, 1_100_000));
    assert_eq!(pool[120].path, 17_600_000);
}

const CASE_A: Job = Job { n: 3, selection: 0, rules: 1, bound: 1 };

/// On the diagonal 100,000 passes and 100,001 does not, at home and at every stop; elsewhere 1,000,000 and 1,000,001,
/// though the leg and the landing come to 1,100,000.
#[test]
fn what_check_3_lets_pass() {
    for at in 0..16 {
        let dearest = if at % 5 == 0 { DEAREST_CHARGE } else { DEAREST_LEG };
        for (most, number) in [(dearest, 0), (dearest + 1, 3), (u32::MAX, 3)] {
            for others in [[0; 4], CHARGES, [DEAREST_CHARGE; 4]] {
                let mut table = charged(&T, &others);
                table[at] = most;
                assert_eq!(numbers(CASE_A, &table, &[]), [number; 4], "{table:?}");
            }
        }
    }
    for charge in [DEAREST_CHARGE + 1, DEAREST_LEG - 1, DEAREST_LEG] {
        assert_eq!(numbers(CASE_A, &charged(&T, &[0, charge, 0, 0]), &[]), [3; 4], "{charge}");
    }
    let dearest = charged(&level(3, DEAREST_LEG), &[DEAREST_CHARGE; 4]);
    assert_eq!(finished(FIFO_PLAIN, &dearest, &mut [Record::default(); 6]).cost, 4_400_000);
}

/// A charge too dear is found behind 1 and 2 and in front of 4, 5, 6 and 10; in a file behind 1 and 9.
#[test]
fn where_check_3_comes() {
    for home in [true, false] {
        let dear = charged(&T, &if home { [100_001, 0, 0, 0] } else { [0, 0, 100_001, 0] });
        assert_eq!(numbers(Job { n: 17, ..CASE_A }, &dear, &[]), [1; 4]);
        assert_eq!(numbers(CASE_A, &dear[..15], &[]), [2, 2, 2, 9]);
        let wrong = Job { n: 3, selection: 4, rules: 16, bound: 4 };
        assert_eq!(numbers(wrong, &dear, &[1, 1, 3]), [3; 4]);
        assert_eq!(numbers(wrong, &T, &[1, 1, 3]), [4; 4]);
        assert_eq!(numbers(Job { bound: 3, ..wrong }, &T, &[1, 1, 3]), [4, 0, 4, 4]);
        assert_eq!(numbers(CASE_A, &dear, &[1, 1, 3]), [3; 4]);
        for words in [0, 5] {
            let mut pool = [7; 5];
            let report = raw::plan(CASE_A, &dear, &[], &[], NO_BUDGET, &mut pool[..words]);
            assert_eq!((report, pool), (raw::Report { number: 3, ..raw::Report::default() }, [7; 5]));
        }
        let mut buffer = [7; 20];
        let written = raw::write(CASE_A, &dear, &[], &mut buffer);
        assert_eq!((written.number, written.length, buffer), (3, 0, [7; 20]));
    }
}

/// A file has the charges on its table's diagonal, and keeps its layout.
#[test]
fn files_keep_the_charges() {
    let table = charged(&T, &CHARGES);
    let job = gondamuy::Job::try_from(CASE_A).unwrap();
    let mut buffer = [0; LONGEST_FILE];
    let length = write(job, &table, &[], &mut buffer).unwrap();
    assert_eq!((length, buffer[..4].to_vec(), buffer[20..24].to_vec()), (77, vec![5, 0, 0, 0], vec![10, 0, 0, 0]));
    let contents = read(&buffer[..length]).unwrap();
    assert_eq!((contents.job, contents.table()), (job, &table[..]));
    let mut pool = [Record::default(); 4];
    assert_eq!(finished(contents.job, contents.table(), &mut pool).cost, 13 + LANDINGS);
    assert_eq!(words(&mut pool)[..6], [3, 7, 67, 78, 0x210, 0]);
    let dear = charged(&T, &[0, 0, 0, 100_001]);
    assert_eq!(write(job, &dear, &[], &mut buffer), Err(Refusal::Leg));
}
