//! The proved planner against the second planner: every field of the report and every word of the pool, over random
//! jobs of many kinds, half of them with legs of 0 to 2 at most, so that many orders tie (request A.8), half of them with
//! landing charges (request A.4), half of them for days that end away (request A.5) and half of them with pairs (request
//! A.6), without a starting order and with one, at times the first order of request A.1. Most are planned without a budget and, in the same pool, within one (request A.3), and then the two
//! reports are held to each other as well; `large_jobs_within_a_budget` has those that are planned within one alone.
//! Test file `refusals` has the jobs that are refused before a search.

mod common;

use common::{choices, first_stops, random_job, some_budget, told};
use gondamuy::raw::{plan, Report, STOPPED};
use gondamuy::{NO_BUDGET, RECORD_WORDS};
use jobtext::Job;
use samples::{level, nearest, Random};
use witness::job_file::Contents;
use witness::{plan_watched, Request};

/// Runs both planners on the same pool and holds them to each other. Returns
/// the report and how many records the run needed at most.
fn compare(job: &Job, budget: u64, pool: &[u32]) -> (Report, usize) {
    let mut ours = pool.to_vec();
    let mut theirs = pool.to_vec();
    let mut most = 0;
    let with_branched = job.rules & 4 != 0;
    let contents = Contents::from(job);
    let request = Request { pairs: &job.pairs, budget, ..contents.request() };
    let expected = plan_watched(&request, &mut theirs, &mut |state| {
        let branched = if with_branched { state.branched.len() } else { 0 };
        most = most.max(state.active.len() + branched);
    });
    let report = plan(choices(job), &job.table, &job.start, &job.pairs, budget, &mut ours);
    assert_eq!(report, told(&expected), "budget {budget}, {job:?}");
    assert!(ours == theirs, "the pools differ: budget {budget}, {job:?}");
    (report, most)
}

/// The same job in the same pool, without a budget and within one.
struct Both {
    without: Report,
    /// Records that it needed without.
    needed: usize,
    within: Report,
}

/// Plans both ways, and holds what the budget changes to what it may change: a search that ends by itself before it is
/// spent, and every refusal but 7, are the same; all others are stopped there, those that would fill the pool too.
fn both(random: &mut Random, job: &Job, words: usize) -> Both {
    let pool = random.words(words);
    let (without, needed) = compare(job, NO_BUDGET, &pool);
    let budget = some_budget(random, without.branched);
    let (within, _) = compare(job, budget, &pool);
    let same = match without.number {
        0 => budget >= without.branched,
        7 => budget > without.branched,
        _ => true,
    };
    if same {
        assert_eq!(within, without, "budget {budget}, {job:?}");
    } else {
        assert_eq!((within.number, within.mark, within.branched), (0, STOPPED, budget), "{job:?}");
    }
    assert_eq!((without.mark, without.floor), (0, 0), "{job:?}");
    Both { without, needed, within }
}

/// How often each way to end was seen.
#[derive(Debug, Default)]
struct Seen {
    jobs: usize,
    full: usize,
    stopped: usize,
    /// Stopped where the pool would have been full without a budget.
    before_full: usize,
    /// Stopped with an order to show.
    known: usize,
}

impl Seen {
    fn take(&mut self, both: &Both) {
        let stopped = both.within.mark == STOPPED;
        self.jobs += 2;
        self.full += [both.without, both.within].iter().filter(|report| report.number == 7).count();
        self.stopped += stopped as usize;
        self.before_full += (stopped && both.without.number == 7) as usize;
        self.known += (stopped && both.within.order[0] != 0) as usize;
    }
}

/// In an ample dirty pool, in one of exactly the records needed, one less, and one.
fn in_four_pools(random: &mut Random, job: &Job, ample: usize, seen: &mut Seen) {
    let first = both(random, job, ample * RECORD_WORDS);
    assert!(first.without.is_finished(), "{job:?}");
    seen.take(&first);
    let exact = both(random, job, first.needed * RECORD_WORDS);
    assert_eq!(exact.without, first.without, "a pool of the records needed suffices: {job:?}");
    seen.take(&exact);
    for records in [first.needed.max(2) - 1, 1] {
        seen.take(&both(random, job, records * RECORD_WORDS));
    }
}

#[test]
fn small_tables_under_all_choices() {
    let mut random = Random(1);
    let mut seen = Seen::default();
    for round in 0..13_000u64 {
        let n = 1 + random.below(if round % 40 == 0 { 6 } else { 4 }) as usize;
        let most = random.pick(&[0, 1, 2, 9, 1_000, 1_000_000]);
        let job = random_job(&mut random, n, most);
        in_four_pools(&mut random, &job, 2_100, &mut seen);
    }
    assert!(seen.jobs >= 100_000 && seen.full > 10_000, "{seen:?}");
    assert!(seen.stopped > 10_000 && seen.before_full > 1_000, "{seen:?}");
    assert!(seen.known > 5_000 && seen.stopped - seen.known > 1_000, "{seen:?}");
}

#[test]
fn up_to_sixteen_stops() {
    let mut random = Random(2);
    for n in 7..=16 {
        for round in 0..6 {
            let most = random.pick(&[1, 2, 1_000, 1_000_000]);
            let mut job = random_job(&mut random, n, most);
            job.bound |= 1;
            // Small pools: such jobs end soon, with an order or full. Depth first
            // they need not, nor with the latest of ties, where the pool holds all
            // that waits on the way down, unless the branched nodes are kept too.
            // With pairs fewer wait.
            let records = [1, 17, 40, 90, 200, 400][round];
            let waiting = n * (n - 1) / if job.pairs.is_empty() { 2 } else { 4 };
            if job.selection % 2 == 1 && n > 8 && records > waiting {
                job.rules |= 4;
            }
            both(&mut random, &job, records * RECORD_WORDS);
            // All legs equal, the latest of ties: straight down to an order, and
            // then to others that tie.
            job.table = random.maybe_charged(n, level(n, 7));
            job.selection = 1;
            job.rules = random.below(16) as u32;
            let pool = random.words(400 * RECORD_WORDS);
            for (budget, down) in [(n as u64 - 1, false), (n as u64, true)] {
                let (report, _) = compare(&job, budget, &pool);
                let known = down || !job.start.is_empty();
                assert_eq!((report.mark, report.order[0] != 0), (STOPPED, known), "{budget} {job:?}");
            }
            compare(&job, 300, &pool);
        }
    }
}

/// Under every choice, where without a budget the search would go on for long.
#[test]
fn large_jobs_within_a_budget() {
    let mut random = Random(5);
    let mut stopped = 0;
    for round in 0..300 {
        let n = 10 + round % 7;
        let most = random.pick(&[1, 2, 1_000, 1_000_000]);
        let job = random_job(&mut random, n, most);
        let budget = random.pick(&[0, 1, 2, 15, 16, 17, 40, 100]);
        let records = random.pick(&[100, 2_000]);
        let (report, _) = compare(&job, budget, &random.words(records * RECORD_WORDS));
        stopped += (report.mark == STOPPED) as u32;
    }
    assert!(stopped > 100, "{stopped}");
}

#[test]
fn pilots_of_twelve_stops() {
    let mut random = Random(3);
    for _ in 0..6 {
        let mut job = random_job(&mut random, 12, 1_000);
        (job.selection, job.rules, job.bound) = (3, 1, job.bound | 1);
        let own = if job.pairs.is_empty() { nearest(12, &job.table) } else { random.order_with(12, &job.pairs) };
        for start in [own, first_stops(12, job.bound, &job.table, &job.pairs)] {
            job.start = start;
            let found = both(&mut random, &job, 120 * RECORD_WORDS);
            assert!(found.without.is_finished(), "{job:?}");
        }
    }
}
