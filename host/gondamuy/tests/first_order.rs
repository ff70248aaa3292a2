//! The first order (request A.1): every field against the second planner's, and what `plan` makes of it as a starting
//! order:
//!
//! - 60,000 tables of 1 to 6 stops and 20,000 of 7 to 16, half of them with landing charges (request A.4) and half of
//!   them with pairs (request A.6), most of them with so few values that ties are common, and the dearest table; each
//!   with every bound (request A.5);
//! - 128,000 calls with causes 1 to 4 and 11, each in half of them and in every mixture, where the number is known
//!   beforehand;
//! - 20,000 plans of 1 to 6 stops under all choices and 100 of 7 to 16 in the pilot's way, each with and without it,
//!   and with pairs in half of those of up to 12 stops.

mod common;

use std::ops::RangeInclusive;

use common::{any_job, some_of, spoil_day, spoil_pairs};
use gondamuy::raw::{first_order, plan, FirstOrder, Job, Report};
use gondamuy::{NO_BUDGET, RECORD_WORDS};
use samples::{level, respects, Random};
use witness::first_order::nearest_stop_order;
use witness::legs::Legs;
use witness::pairs::Pairs;

/// Holds both to each other. Returns what the proved one answers.
fn compare(n: u32, bound: u32, table: &[u32], pairs: &[u8]) -> FirstOrder {
    let ours = first_order(n, bound, table, pairs);
    let theirs = witness::first_order(n.into(), bound.into(), table, pairs);
    assert_eq!((ours.number, ours.cost), (theirs.number, theirs.cost), "{n} {bound} {table:?} {pairs:?}");
    assert_eq!(ours.order.map(u32::from), theirs.order, "{n} {bound} {table:?} {pairs:?}");
    ours
}

/// For a day that ends at home and for one that ends away. Of a bound nothing else is looked at: plain and close of
/// either day have the same answer.
fn both_ends(n: u32, table: &[u32], pairs: &[u8]) -> [FirstOrder; 2] {
    let [plain, close, plain_away, close_away] = [0, 1, 2, 3].map(|bound| compare(n, bound, table, pairs));
    assert_eq!((plain, plain_away), (close, close_away), "{n} {table:?} {pairs:?}");
    [plain, plain_away]
}

/// Legs of few values, but for the last two kinds, and in half of the tables charges.
fn any_table(random: &mut Random, n: usize) -> Vec<u32> {
    let table = match random.below(9) {
        0..=2 => random.few_free(n),
        kind => random.table(n, 0, [0, 1, 2, 3, 1_000, 1_000_000][kind as usize - 3]),
    };
    random.maybe_charged(n, table)
}

/// In how many tables stops of the nearest-stop order were exchanged, for a day that ends at home and for one that ends
/// away, in how many the two orders differ, and in how many the pairs make them others than without.
#[derive(Debug, Default)]
struct Seen {
    exchanged: [usize; 2],
    differ: usize,
    paired: usize,
}

/// From each place to the nearest stop left that the pairs allow.
fn nearest(n: usize, table: &[u32], pairs: &[u8]) -> Vec<u8> {
    let order = nearest_stop_order(&Legs::new(n, table), &Pairs::read(n, pairs).unwrap());
    order.into_iter().map(|stop| stop as u8).collect()
}

/// Compares over so many tables of some sizes.
fn compared(random: &mut Random, tables: usize, sizes: RangeInclusive<usize>) -> Seen {
    let mut seen = Seen::default();
    for n in sizes.cycle().take(tables) {
        let table = any_table(random, n);
        let pairs = random.maybe_paired(n);
        let firsts = both_ends(n as u32, &table, &pairs);
        for (first, exchanged) in firsts.iter().zip(&mut seen.exchanged) {
            assert!(first.number == 0 && respects(&pairs, &first.order[..n]), "{table:?} {pairs:?}");
            *exchanged += (first.order[..n] != nearest(n, &table, &pairs)) as usize;
        }
        seen.differ += (firsts[0].order != firsts[1].order) as usize;
        seen.paired += (firsts != both_ends(n as u32, &table, &[])) as usize;
    }
    seen
}

#[test]
fn small_tables() {
    let seen = compared(&mut Random(81), 60_000, 1..=6);
    assert!(seen.exchanged.iter().all(|&count| count > 15_000) && seen.differ > 5_000, "{seen:?}");
    assert!(seen.paired > 10_000, "{seen:?}");
}

#[test]
fn up_to_sixteen_stops() {
    let seen = compared(&mut Random(82), 20_000, 7..=16);
    assert!(seen.exchanged.iter().all(|&count| count > 10_000) && seen.differ > 5_000, "{seen:?}");
    assert!(seen.paired > 5_000, "{seen:?}");
}

#[test]
fn dearest_legs_and_charges() {
    let mut table = level(16, 1_000_000);
    let costs = |table: &[u32]| both_ends(16, table, &[]).map(|first| (first.number, first.cost));
    assert_eq!(costs(&table), [(0, 17_000_000), (0, 16_000_000)]);
    for place in 0..=16 {
        table[place * 18] = 100_000;
    }
    assert_eq!(costs(&table), [(0, 18_700_000), (0, 17_600_000)]);
}

#[test]
fn every_mixture_of_causes() {
    let mut random = Random(83);
    for round in 0..128_000 {
        let mut job = any_job(&mut random);
        let causes = some_of(&[1, 2, 3, 4, 11], round);
        if causes.contains(&11) {
            spoil_pairs(&mut random, &mut job);
        }
        if causes.contains(&4) {
            job.bound = random.pick(&[4, 5, 6, 7, 256, 1 << 31, u32::MAX]);
        }
        spoil_day(&mut random, &mut job, &causes);
        let first = compare(job.n, job.bound, &job.table, &job.pairs);
        assert_eq!(first.number, causes.first().copied().unwrap_or(0), "{causes:?} {job:?}");
        if first.number != 0 {
            assert_eq!(first, FirstOrder { number: first.number, ..FirstOrder::default() });
        }
    }
}

/// Plans with and without it, with the same pairs, in a pool and within a budget that are large enough without: the
/// same cost, no more than the order's own, and no more work.
fn started(job: Job, table: &[u32], pairs: &[u8], records: usize) -> (Report, Report) {
    let first = first_order(job.n, job.bound, table, pairs);
    let mut pool = vec![0; records * RECORD_WORDS];
    let without = plan(job, table, &[], pairs, NO_BUDGET, &mut pool);
    let with = plan(job, table, &first.order[..job.n as usize], pairs, without.branched, &mut pool);
    assert!(with.is_finished() && without.is_finished(), "{job:?} {table:?}");
    assert_eq!(with.cost, without.cost, "{job:?} {table:?}");
    assert!(with.cost <= first.cost, "{job:?} {table:?}");
    assert!(with.branched <= without.branched && with.generated <= without.generated, "{job:?} {table:?}");
    assert!(with.most <= without.most, "{job:?} {table:?}");
    (with, without)
}

#[test]
fn as_a_starting_order() {
    let mut random = Random(84);
    for _ in 0..20_000 {
        let choices = [1 + random.below(6), random.below(4), random.below(16), random.below(4)];
        let [n, selection, rules, bound] = choices.map(|k| k as u32);
        let pairs = random.maybe_paired(n as usize);
        started(Job { n, selection, rules, bound }, &any_table(&mut random, n as usize), &pairs, 2_000);
    }
}

#[test]
fn as_a_pilots_starting_order() {
    let mut random = Random(85);
    let mut fewer = 0;
    for n in 7..=16 {
        for _ in 0..10 {
            let job = Job { n, selection: 3, rules: 1, bound: random.pick(&[1, 3]) };
            let table = random.table(n as usize, 1, 1_000);
            let table = random.maybe_charged(n as usize, table);
            // A close bound knows of no pairs, so that they make long searches of many stops.
            let pairs = if n > 12 { Vec::new() } else { random.maybe_paired(n as usize) };
            let (with, without) = started(job, &table, &pairs, 150);
            assert!(with.most < 100, "{}", with.most);
            fewer += (with.branched < without.branched) as u32;
        }
    }
    assert!(fewer > 50, "{fewer}");
}
