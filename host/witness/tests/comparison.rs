//! Demand 3 with request A.3's budgets and request A.8's order: job A, given no
//! less than job B, finishes in every pool that B finishes in and counts no
//! more, and both report the smallest of the cheapest orders. Both end home or
//! both end away (request A.5), the one as often as the other, and both have the
//! same pairs (request A.6) or, half of the time, none.

mod common;

use common::{away_choices, choices, for_each_table, table_of_kind, Job};
use samples::Random;
use witness::{Report, LARGEST_BUDGET, STOPPED};

/// Two orders, the cheaper one first; of two that cost the same, either may be.
fn two_orders(random: &mut Random, job: &Job) -> (Vec<u32>, Vec<u32>) {
    let [x, y] = [0, 1].map(|_| random.order_with(job.n, &job.pairs));
    if job.cost(&x) <= job.cost(&y) {
        (x, y)
    } else {
        (y, x)
    }
}

/// None as often as some, which may be none too.
fn maybe_pairs(random: &mut Random, n: usize) -> Vec<u8> {
    match random.below(2) {
        0 => Vec::new(),
        _ => random.some_pairs(n),
    }
}

/// A and B as the letter words it, over `table`.
fn pair(random: &mut Random, n: usize, table: &[u32]) -> (Job, Job) {
    let selection = random.below(4);
    let dominance = 2 * random.below(8);
    let plain = 2 * random.below(2);
    let bound = plain + random.below(2);
    let pairs = maybe_pairs(random, n);
    let mut b = Job::new(n, table, [selection, dominance, bound], &[]).paired(&pairs);
    let mut a = b.clone();
    let (upper_a, upper_b) = random.pick(&[(0, 0), (1, 0), (1, 1)]);
    a.rules += upper_a;
    b.rules += upper_b;
    let (cheaper, dearer) = two_orders(random, &b);
    match random.below(3) {
        0 => {}
        1 => a.start = cheaper,
        _ => (a.start, b.start) = (cheaper, dearer),
    }
    if selection >= 2 && random.below(2) == 0 {
        a.bound = plain + 1;
    }
    (a, b)
}

/// The run finished, with the smallest of the cheapest orders.
fn check_best(job: &Job, report: &Report, (least, smallest): &(u32, Vec<u32>)) {
    assert_eq!((report.number, report.mark, report.cost), (0, 0, *least), "{job:?}");
    assert_eq!(&report.order[..job.n], smallest, "{job:?}");
}

/// What B reports where it finishes: in so many records and with as large a
/// budget as it branches, and with no less of either.
fn report_of_b(b: &Job, records: usize, best: &(u32, Vec<u32>)) -> Report {
    let (of_b, _) = b.run(records);
    check_best(b, &of_b, best);
    if records > 1 {
        assert_eq!(b.run(records - 1).0.number, 7, "{b:?}");
    }
    assert_eq!(b.within(of_b.branched).run(records).0, of_b, "{b:?}");
    assert_eq!(b.within(of_b.branched - 1).run(records).0.mark, STOPPED, "{b:?}");
    of_b
}

/// B's budget may be any from its branchings on, and A's any from B's on.
fn check_pair(a: &Job, b: &Job, best: &(u32, Vec<u32>)) {
    let enough = b.keeps().into_iter().max().unwrap();
    let of_b = report_of_b(b, enough, best);
    for records in [enough, enough + 1, enough + 5, 2 * enough] {
        for budget in [of_b.branched, LARGEST_BUDGET] {
            let (of_a, _) = a.within(budget).run(records);
            check_best(a, &of_a, best);
            assert!(of_a.branched <= of_b.branched, "{a:?} {b:?}");
            assert!(of_a.generated <= of_b.generated, "{a:?} {b:?}");
            assert!(of_a.most <= of_b.most, "{a:?} {b:?}");
        }
    }
}

/// Two jobs that share the table, where the day ends, the pairs, and nothing
/// else: where both finish, their costs and orders are equal. How often they
/// did.
fn finish_both(random: &mut Random, n: usize, table: &[u32]) -> u32 {
    let choices = if random.below(2) == 0 { choices() } else { away_choices() };
    let pairs = maybe_pairs(random, n);
    let mut finished = Vec::new();
    for _ in 0..2 {
        let choice = random.pick(&choices);
        let start = if random.below(2) == 0 { Vec::new() } else { random.order_with(n, &pairs) };
        let job = Job::new(n, table, choice, &start).paired(&pairs).within(random.below(40));
        let (report, _) = job.run(1 + random.below(40) as usize);
        finished.extend((report.number == 0 && report.mark == 0).then_some((report.cost, report.order)));
    }
    match finished[..] {
        [one, other] => {
            assert_eq!(one, other, "{table:?}");
            1
        }
        _ => 0,
    }
}

fn check_pairs(seed: u64, n: usize, tables: usize, pairs: usize) {
    for_each_table(&mut Random(seed), n, tables, |random, table| {
        for _ in 0..pairs {
            let (a, b) = pair(random, n, table);
            check_pair(&a, &b, &a.best());
        }
    });
}

#[test]
fn pairs_up_to_three_stops() {
    check_pairs(21, 1, 2, 50);
    check_pairs(22, 2, 50, 50);
    check_pairs(23, 3, 100, 60);
}

#[test]
fn pairs_of_four_stops() {
    check_pairs(24, 4, 60, 60);
}

#[test]
fn pairs_of_five_stops() {
    check_pairs(25, 5, 15, 50);
}

#[test]
fn pairs_of_six_stops() {
    check_pairs(26, 6, 1, 40);
}

#[test]
fn costs_and_orders_of_runs_that_finish() {
    let mut both = 0;
    for n in 1..=4 {
        for_each_table(&mut Random(28), n, 100, |random, table| both += finish_both(random, n, table));
    }
    assert!(both > 500, "{both}");
}

/// With other pairs than B's, A may come to another cost and count more.
#[test]
fn other_pairs_are_not_compared() {
    let (mut costs, mut counts) = (0, 0);
    for_each_table(&mut Random(30), 4, 20, |random, table| {
        let (a, b) = pair(random, 4, table);
        let pairs = random.some_pairs(4);
        let a = Job { start: random.order_with(4, &pairs), ..a.paired(&pairs) };
        let (of_a, of_b) = (a.run(65).0, b.run(65).0);
        costs += (of_a.cost != of_b.cost) as u32;
        counts += (of_a.branched > of_b.branched) as u32;
    });
    assert!(costs > 30 && counts > 10, "{costs} {counts}");
}

/// With a smaller budget than B's, A may be stopped where B finishes.
#[test]
fn smaller_budgets_may_stop_a() {
    let mut stopped = 0;
    for_each_table(&mut Random(29), 4, 20, |random, table| {
        let (a, b) = pair(random, 4, table);
        let (of_b, _) = b.run(65);
        let smaller = of_b.branched.saturating_sub(1);
        stopped += (a.within(smaller).run(65).0.mark == STOPPED) as u32;
    });
    assert!(stopped > 10);
}

/// With the bounds the other way round the comparison does fail, so that the
/// pairs above say something.
#[test]
fn plain_counts_more_than_close_somewhere() {
    let mut random = Random(27);
    for plain in [0, 2] {
        let mut more = 0;
        for _ in 0..50 {
            let table = table_of_kind(&mut random, 4, 4);
            let branched = |bound| Job::new(4, &table, [3, 1, bound], &[]).run(65).0.branched;
            more += (branched(plain) > branched(plain + 1)) as u32;
        }
        assert!(more > 25, "{plain}: {more}");
    }
}
