//! The first order (request A.1 of document 02) over random tables: what the
//! request says of it, a slower working, and full enumeration.

mod common;

use common::course::course;
use common::paired::all_choices;
use common::{ample, for_each_table, Job};
use samples::{folded, nearest, Random};
use witness::{first_order, FirstOrder};

/// By legs that have the charges in them, pairs or not.
fn nearest_of_all(job: &Job) -> Vec<u32> {
    nearest(job.n, &folded(job.n, &job.table)).into_iter().map(u32::from).collect()
}

/// The same among the stops that the pairs allow.
fn nearest_stops(job: &Job) -> Vec<u32> {
    let mut order = Vec::new();
    while order.len() < job.n {
        let last = order.last().copied().unwrap_or(0);
        let left = (1..=job.n as u32).filter(|stop| !order.contains(stop));
        let allowed = left.filter(|&stop| job.respects(&[&order[..], &[stop]].concat()));
        let next = allowed.min_by_key(|&stop| (job.leg(last, stop) + job.charges(&[stop]), stop)).unwrap();
        order.push(next);
    }
    if job.pairs.is_empty() {
        assert_eq!(order, nearest_of_all(job), "{job:?}");
    }
    order
}

/// With charges as often as without.
fn few_free(random: &mut Random, n: usize) -> Vec<u32> {
    let table = random.few_free(n);
    random.maybe_charged(n, table)
}

/// A day that ends home.
fn over(n: usize, table: &[u32]) -> Job {
    Job::new(n, table, [0, 0, 0], &[])
}

fn first(job: &Job) -> FirstOrder {
    first_order(job.n as u64, job.bound, &job.table, &job.pairs)
}

/// What ranks an exchange, from the cost it leads to and its two positions.
type Key = fn(usize, usize, usize) -> [usize; 3];

/// The first order once more: of the allowed exchanges that lower the cost,
/// always the one with the lowest key.
fn by_keys(job: &Job, key: Key) -> Vec<u32> {
    let mut order = nearest_stops(job);
    loop {
        let mut lower = Vec::new();
        for q in (0..job.n).rev() {
            for p in (0..q).rev() {
                let mut next = order.clone();
                next.swap(p, q);
                if job.respects(&next) && job.cost(&next) < job.cost(&order) {
                    lower.push((key(job.cost(&next) as usize, p, q), next));
                }
            }
        }
        lower.sort();
        match lower.into_iter().next() {
            Some((_, next)) => order = next,
            None => return order,
        }
    }
}

/// What the request says of every first order.
fn check_first_order(job: &Job) {
    let first = first(job);
    assert_eq!(first.number, 0, "{job:?}");
    let (order, rest) = first.order.split_at(job.n);
    assert!(rest.iter().all(|&s| s == 0), "{job:?}");
    let mut sorted = order.to_vec();
    sorted.sort();
    assert_eq!(sorted, (1..=job.n as u32).collect::<Vec<u32>>(), "{job:?}");
    assert_eq!(first.cost, job.cost(order), "{job:?}");
    assert!(job.respects(order), "{job:?}");
    for q in 0..job.n {
        for p in 0..q {
            let mut next = order.to_vec();
            next.swap(p, q);
            assert!(!job.respects(&next) || job.cost(&next) >= first.cost, "{p} {q} {job:?}");
        }
    }
    assert!(first.cost <= job.cost(&nearest_stops(job)), "{job:?}");
    assert_eq!(order, by_keys(job, |cost, p, q| [cost, p, q]), "{job:?}");
}

/// 9,600 tables.
#[test]
fn one_to_sixteen_stops() {
    let mut random = Random(51);
    for n in 1..=16 {
        for_each_table(&mut random, n, 100, |_, table| check_first_order(&over(n, table)));
    }
}

/// 4,800 tables.
#[test]
fn few_free_legs() {
    let mut random = Random(52);
    for n in 1..=16 {
        for _ in 0..300 {
            check_first_order(&over(n, &few_free(&mut random, n)));
        }
    }
}

/// With each bound of a day that ends away (request A.5): 1,920 tables of both
/// sorts.
#[test]
fn days_that_end_away() {
    let mut random = Random(56);
    for n in 1..=16 {
        for_each_table(&mut random, n, 10, |random, table| {
            for table in [table, &few_free(random, n)] {
                check_first_order(&Job { bound: 2, ..over(n, table) });
                check_first_order(&Job { bound: 3, ..over(n, table) });
            }
        });
    }
}

/// With pairs (request A.6), of days with either end: 1,536 tables of both
/// sorts, each with the fewest pairs, the most, and some.
#[test]
fn days_with_pairs() {
    let mut random = Random(57);
    for n in 1..=16 {
        for_each_table(&mut random, n, 8, |random, table| {
            for table in [table, &few_free(random, n)] {
                for pairs in [random.pairs(n, 0), random.pairs(n, n / 2), random.some_pairs(n)] {
                    let bound = random.below(4);
                    check_first_order(&Job { bound, ..over(n, table) }.paired(&pairs));
                }
            }
        });
    }
}

/// Pairs that turn the nearest stops elsewhere, that forbid a cheaper exchange,
/// and that allow one, so that the tables above say something. The first order
/// is the same however the pairs stand in their file, never below the least
/// cost, and a starting order for every choice.
#[test]
fn pairs_matter() {
    let mut random = Random(58);
    let (mut turned, mut forbidden, mut exchanged) = (0, 0, 0);
    for_each_table(&mut random, 5, 100, |random, table| {
        let job = over(5, table).paired(&random.some_pairs(5));
        let (near, first) = (nearest_stops(&job), first(&job));
        turned += (near != nearest_of_all(&job)) as u32;
        exchanged += (!job.pairs.is_empty() && job.cost(&near) > first.cost) as u32;
        let swapped = (0..25).map(|at| {
            let mut next = first.order[..5].to_vec();
            next.swap(at / 5, at % 5);
            next
        });
        forbidden += swapped.into_iter().any(|next| job.cost(&next) < first.cost) as u32;
        let other: Vec<u8> = job.pairs.chunks(2).rev().flatten().copied().collect();
        assert_eq!(first_order(5, 0, table, &other), first, "{job:?}");
        let least = job.least_cost();
        assert!(first.cost >= least, "{job:?}");
        let [selection, rules, bound] = random.pick(&all_choices());
        let started = Job { selection, rules, bound: bound % 2, start: first.order[..5].to_vec(), ..job };
        let (report, _) = started.run(ample(5));
        assert_eq!((report.number, report.cost), (0, least), "{started:?}");
    });
    assert!(turned > 200 && forbidden > 50 && exchanged > 100, "{turned} {forbidden} {exchanged}");
}

/// How many exchanges sixteen stops take: never more than the nearest-stop
/// order costs, and in these 10,000 tables twelve at most.
#[test]
fn exchanges_of_sixteen_stops() {
    let mut random = Random(55);
    let mut most = 0;
    for round in 0..10_000 {
        let table = match round % 4 {
            0 => random.few_free(16),
            1 => random.table(16, 1, 12),
            2 => random.table(16, 1, 1_000),
            _ => random.table(16, 0, 1_000_000),
        };
        let table = random.maybe_charged(16, table);
        let course = course(16, &table);
        let exchanges = course.len() - 1;
        assert!(exchanges <= course[0].0 as usize, "{table:?}");
        most = most.max(exchanges);
    }
    println!("at most {most} exchanges");
    assert_eq!(most, 12);
}

/// The slower working under other tie rules, or with the first gain in place
/// of the greatest, does answer otherwise, so that the tables above say
/// something.
#[test]
fn other_readings_differ_somewhere() {
    let others: [(&str, Key); 4] = [
        ("smallest second position, then first", |cost, p, q| [cost, q, p]),
        ("smallest first position, then greatest second", |cost, p, q| [cost, p, 16 - q]),
        ("greatest first position, then smallest second", |cost, p, q| [cost, 16 - p, q]),
        ("first gain", |cost, p, q| [p, q, cost]),
    ];
    let mut random = Random(53);
    let jobs: Vec<Job> = (0..3_000).map(|k| k % 13 + 4).map(|n| over(n, &few_free(&mut random, n))).collect();
    for (name, key) in others {
        let differs = |job: &&Job| by_keys(job, key) != first(job).order[..job.n];
        let differ = jobs.iter().filter(differs).count();
        println!("{name}: {differ} of {} tables answer otherwise", jobs.len());
        assert!(differ > 50, "{name}");
    }
}

/// Against all orders: never below the least cost, at times brought down to it
/// by the exchanges, at times above it. `plan` takes it as a starting order.
#[test]
fn against_enumeration() {
    let (mut tables, mut reached, mut missed) = (0, 0, 0);
    for n in 1..=6 {
        for_each_table(&mut Random(54), n, 40, |_, table| {
            let least = over(n, table).least_cost();
            let first = first(&over(n, table));
            assert!(first.cost >= least, "{table:?}");
            tables += 1;
            let job = Job::new(n, table, [0, 1, 1], &first.order[..n]);
            reached += (first.cost == least && job.cost(&nearest_stops(&job)) > least) as u32;
            missed += (first.cost > least) as u32;
            let (report, _) = job.run(ample(n));
            assert_eq!((report.number, report.cost), (0, least), "{table:?}");
        });
    }
    println!("of {tables} tables, exchanges reached the least cost in {reached} and missed it in {missed}");
    assert!(reached > 100 && missed > 100);
}
