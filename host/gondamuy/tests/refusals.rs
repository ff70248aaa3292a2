//! What `plan` refuses before it searches: 128,000 calls with causes 1 to 6 and 11, each in half of them and in every
//! mixture, where the number is known beforehand: the first in the sequence 1, 2, 3, 4, 5, 11, 6, whatever the budget.
//! Every other field is 0 and the pool untouched, and the second planner says the same.

mod common;

use common::{any_job, choices, some_of, spoil_choice, spoil_day, spoil_pairs, spoil_start, told};
use gondamuy::raw::{plan, Report};
use gondamuy::NO_BUDGET;
use jobtext::Job;
use samples::Random;
use witness::job_file::Contents;
use witness::Request;

const SEQUENCE: [u32; 7] = [1, 2, 3, 4, 5, 11, 6];

/// Runs both planners on a dirty pool and holds them to each other.
fn compare(random: &mut Random, job: &Job, budget: u64, words: usize) -> Report {
    let pool = random.words(words);
    let (mut ours, mut theirs) = (pool.clone(), pool.clone());
    let report = plan(choices(job), &job.table, &job.start, &job.pairs, budget, &mut ours);
    let contents = Contents::from(job);
    let request = Request { pairs: &job.pairs, budget, ..contents.request() };
    assert_eq!(report, told(&witness::plan(&request, &mut theirs)), "{job:?}");
    assert_eq!(ours, theirs, "{job:?}");
    if report.number != 0 {
        assert_eq!((report, ours), (Report { number: report.number, ..Report::default() }, pool), "{job:?}");
    }
    report
}

/// Number 5: no permutation or, where the pairs pass, one that goes against them.
fn spoil_order(random: &mut Random, job: &mut Job, pairs_pass: bool) -> bool {
    let against = pairs_pass && !job.pairs.is_empty() && random.below(2) == 0;
    if against {
        job.start = random.order_against(job.n as usize, &job.pairs);
    } else {
        spoil_start(random, job);
    }
    against
}

#[test]
fn every_mixture_of_causes() {
    let mut random = Random(41);
    let mut against = 0;
    for round in 0..128_000 {
        let mut job = any_job(&mut random);
        let causes = some_of(&SEQUENCE, round);
        if causes.contains(&11) {
            spoil_pairs(&mut random, &mut job);
        }
        if causes.contains(&5) {
            let turned = spoil_order(&mut random, &mut job, !causes.contains(&11));
            against += (turned && causes[0] == 5) as u32;
        }
        if causes.contains(&4) {
            spoil_choice(&mut random, &mut job, &[0, 1, 252, 256, 65_536, u32::MAX - 16]);
        }
        spoil_day(&mut random, &mut job, &causes);
        let words = if causes.contains(&6) { random.pick(&[0, 1, 5, 7, 11, 13, 61]) } else { 60 };
        // What is not refused is stopped at once, in the first record.
        let budget = if causes.is_empty() { 0 } else { random.pick(&[0, 1, 20, NO_BUDGET]) };
        let report = compare(&mut random, &job, budget, words);
        assert_eq!(report.number, causes.first().copied().unwrap_or(0), "{causes:?} {job:?}");
    }
    assert!(against > 300, "{against}");
}

/// A permutation is held to pairs that pass and to no others: bad pairs are 11 beside any of them.
#[test]
fn starting_orders_and_pairs() {
    let mut random = Random(42);
    for round in 0..20_000 {
        let n = 2 + random.below(15) as usize;
        let job = any_job(&mut random);
        let table = random.table(n, 0, 9);
        let pairs = random.pairs(n, 1 + round % (n / 2));
        let job = Job { n: n as u32, table, pairs, ..job };
        let number = |random: &mut Random, start: Vec<u8>, pairs: &[u8]| {
            let job = Job { start, pairs: pairs.to_vec(), ..job.clone() };
            compare(random, &job, 0, 6).number
        };
        let (with, against) = (random.order_with(n, &job.pairs), random.order_against(n, &job.pairs));
        let bad = random.bad_pairs(n);
        assert_eq!(number(&mut random, Vec::new(), &job.pairs), 0, "{job:?}");
        assert_eq!(number(&mut random, with.clone(), &job.pairs), 0, "{job:?}");
        assert_eq!(number(&mut random, against.clone(), &job.pairs), 5, "{job:?}");
        assert_eq!(number(&mut random, against.clone(), &[]), 0, "{job:?}");
        for start in [Vec::new(), with, against] {
            assert_eq!(number(&mut random, start, &bad), 11, "{bad:?} {job:?}");
        }
        assert_eq!(number(&mut random, vec![1; n], &bad), 5, "{bad:?} {job:?}");
        assert_eq!(number(&mut random, vec![1; n], &job.pairs), 5, "{job:?}");
    }
}
