//! Number 7 (document 01, "The pool" and "Causes and numbers").

mod common;

use common::paired::for_each_paired_job;
use common::{ample, choices, counts_of, for_each_away_job, for_each_job, read_pool, table_of_kind, told_words, Job};
use samples::{Random, KINDS};
use witness::{plan_watched, State, WORDS};

fn check_size(job: &Job, states: &[State], keeps: &[usize], records: usize) {
    let refused = keeps.iter().position(|&k| k > records);
    let stands = refused.unwrap_or(states.len()) - 1;
    let mut pool = vec![0xDEAD_BEEF; records * WORDS];
    let mut seen = 0;
    let report = plan_watched(&job.request(), &mut pool, &mut |s| {
        assert_eq!(s, &states[seen], "{job:?}");
        seen += 1;
    });
    assert_eq!(seen, stands + 1, "{job:?}");
    assert_eq!(report.number, if refused.is_some() { 7 } else { 0 }, "{job:?}");
    assert_eq!((report.mark, report.floor), (0, 0), "{job:?}");
    assert_eq!(report.counts(), counts_of(&states[stands]), "{job:?}");
    assert_eq!(pool, told_words(job, &states[stands], records), "{job:?}");
    let parts = report.branched + report.eliminated + report.active;
    assert_eq!(report.generated, parts, "{job:?}");
    if refused.is_some() {
        assert_eq!((report.cost, report.order), (0, [0; 16]), "{job:?}");
    } else {
        assert_eq!(report, job.run(ample(job.n)).0, "{job:?}");
    }
    read_pool(job, &report, &pool);
}

/// Every size from one record to two past the smallest that suffices.
fn check_sizes(job: &Job) {
    let states = job.states(ample(job.n));
    let keeps = job.keeps();
    assert_eq!(keeps.len(), states.len());
    let enough = *keeps.iter().max().unwrap();
    for records in 1..=enough + 2 {
        check_size(job, &states, &keeps, records);
    }
}

#[test]
fn sizes_up_to_three_stops() {
    for_each_job(31, 1, 1, check_sizes);
    for_each_job(32, 2, 4, check_sizes);
    for_each_job(33, 3, 6, check_sizes);
}

#[test]
fn sizes_of_four_stops() {
    for_each_job(34, 4, 1, check_sizes);
}

/// Five stops, each choice over a table of its own.
#[test]
fn sizes_of_five_stops() {
    let mut random = Random(35);
    for (i, choice) in choices().into_iter().enumerate() {
        let table = table_of_kind(&mut random, 5, i % KINDS.len());
        check_sizes(&Job::new(5, &table, choice, &[]));
    }
}

/// Request A.5's days.
#[test]
fn sizes_of_days_that_end_away() {
    for_each_away_job(37, 1, 1, check_sizes);
    for_each_away_job(38, 2, 2, check_sizes);
    for_each_away_job(39, 3, 3, check_sizes);
}

/// Request A.6's pairs.
#[test]
fn sizes_with_pairs() {
    for_each_paired_job(111, 2, 2, check_sizes);
    for_each_paired_job(112, 3, 3, check_sizes);
    for_each_paired_job(113, 4, 1, check_sizes);
}

/// e's sixteen children need their records even where a starting order costs no
/// more than e's bound.
#[test]
fn known_orders_save_no_record() {
    let identity: Vec<u32> = (1..=16).collect();
    for start in [&[], &identity[..]] {
        let job = Job::new(16, &[0; 17 * 17], [0, 0, 0], start);
        assert_eq!(job.run(15).0.number, 7);
        assert_eq!(job.run(15).1, [0; 15 * WORDS]);
        assert_eq!(job.run(15).0.counts(), [0, 1, 0, 1, 1]);
        assert_eq!(job.run(16).0.counts(), [1, 17, 0, 16, 16]);
    }
}

/// A run that is finished isn't refused: one stop, in the one record that e and
/// order 1 take in turn.
#[test]
fn finish_comes_before_the_step() {
    for start in [&[][..], &[1]] {
        let (report, pool) = Job::new(1, &[0, 3, 5, 0], [0, 0, 0], start).run(1);
        assert_eq!((report.number, report.mark, report.cost), (0, 0, 8));
        assert_eq!(report.counts(), [1, 2, 0, 1, 1]);
        assert_eq!(pool, [1, 1, 3, 8, 0, 0]);
    }
}

/// What the pool held before plays no part.
#[test]
fn earlier_contents_play_no_part() {
    let mut random = Random(36);
    for choice in choices() {
        let table = table_of_kind(&mut random, 4, 0);
        let job = Job::new(4, &table, choice, &[]);
        for records in [1, 4, 9, 30, 65] {
            let mut dirty = random.words(records * WORDS);
            let report = job.run_in(&mut dirty);
            assert_eq!((report, dirty), job.run(records));
        }
    }
}
