//! The cases of `crates/answer/specs/OwnCases.antt`, and those of `TieCases.antt`
//! that have every word of the pool, number for number: what is proved there of
//! the definitions, this planner finds by itself.

mod common;

use common::Job;
use samples::{level, T};

const NINE: [u32; 9] = [0; 9];

/// Number, cost, order, counts, and the records of the pool, zeros behind;
/// nothing stops it.
fn expect(job: Job, records: usize, told: (u32, u32, &[u32], [u64; 5]), nodes: &[[u32; 6]]) {
    let (report, pool) = job.run(records);
    let (number, cost, order, counts) = told;
    assert_eq!((report.number, report.mark, report.cost), (number, 0, cost));
    assert_eq!(&report.order[..order.len()], order);
    assert!(report.order[order.len()..].iter().all(|&s| s == 0));
    assert_eq!(report.counts(), counts);
    let mut words = nodes.concat();
    words.resize(records * 6, 0);
    assert_eq!(pool, words);
}

#[test]
fn fifo_on_case_i() {
    let nodes = [[2, 3, 0, 0, 16, 0], [2, 3, 0, 0, 1, 0]];
    let job = Job::new(2, &NINE, [2, 0, 1], &[]);
    expect(job, 3, (0, 0, &[1, 2], [3, 5, 0, 2, 2]), &nodes);
}

#[test]
fn rule_4_fills() {
    let nodes = [
        [1, 4, 1, 1, 2, 0],
        [2, 3, 2, 2, 16, 0],
        [2, 5, 2, 2, 32, 0],
        [2, 3, 2, 2, 1, 0],
        [2, 6, 2, 2, 33, 0],
        [0; 6],
        [1, 1, 1, 1, 0, 0],
        [1, 2, 1, 1, 1, 0],
    ];
    expect(Job::new(3, &level(3, 1), [2, 4, 0], &[]), 8, (7, 0, &[], [3, 8, 0, 5, 5]), &nodes);
}

#[test]
fn rule_8_keeps_smaller() {
    let nodes = [[3, 7, 3, 4, 33, 0], [3, 7, 3, 4, 288, 0], [3, 7, 3, 4, 528, 0]];
    let job = Job::new(3, &level(3, 1), [3, 8, 1], &[]);
    expect(job, 5, (0, 4, &[1, 2, 3], [10, 16, 3, 3, 5]), &nodes);
}

#[test]
fn rules_2_and_8() {
    let nodes = [[3, 7, 3, 4, 288, 0], [3, 7, 3, 4, 528, 0], [3, 7, 3, 4, 33, 0]];
    let job = Job::new(3, &level(3, 1), [1, 10, 0], &[]);
    expect(job, 6, (0, 4, &[1, 2, 3], [10, 16, 3, 3, 6]), &nodes);
}

#[test]
fn all_rules_tied() {
    let nodes = [
        [3, 7, 3, 4, 528, 0],
        [3, 7, 3, 4, 288, 0],
        [3, 7, 3, 4, 33, 0],
        [0, 0, 0, 4, 0, 0],
        [1, 1, 1, 4, 0, 0],
        [1, 2, 1, 4, 1, 0],
        [1, 4, 1, 4, 2, 0],
        [2, 3, 2, 4, 16, 0],
        [2, 5, 2, 4, 32, 0],
        [2, 3, 2, 4, 1, 0],
        [2, 6, 2, 4, 33, 0],
        [2, 5, 2, 4, 2, 0],
        [2, 6, 2, 4, 18, 0],
    ];
    let job = Job::new(3, &level(3, 1), [0, 15, 1], &[]);
    expect(job, 13, (0, 4, &[1, 2, 3], [10, 16, 3, 3, 6]), &nodes);
}

#[test]
fn all_rules_started() {
    let nodes = [
        [3, 7, 7, 13, 528, 0],
        [0; 6],
        [1, 1, 4, 4, 0, 0],
        [2, 3, 6, 6, 16, 0],
        [1, 2, 7, 7, 1, 0],
        [2, 6, 8, 8, 33, 0],
        [1, 4, 9, 9, 2, 0],
        [2, 5, 10, 10, 32, 0],
        [2, 6, 13, 13, 18, 0],
    ];
    let job = Job::new(3, &T, [0, 15, 0], &[1, 2, 3]);
    expect(job, 9, (0, 13, &[1, 2, 3], [8, 14, 5, 1, 4]), &nodes);
}

/// Four stops: 143 and 413 cost the same, and 143 is branched first.
const TIED_PATHS: [u32; 25] = [0, 1, 3, 3, 2, 1, 0, 2, 1, 1, 1, 1, 0, 3, 3, 1, 1, 1, 0, 3, 3, 1, 2, 2, 0];

#[test]
fn smaller_eliminates() {
    let nodes = [
        [4, 15, 5, 6, 4656, 0],
        [0, 0, 0, 5, 0, 0],
        [1, 1, 1, 5, 0, 0],
        [2, 9, 2, 6, 48, 0],
        [3, 13, 4, 6, 560, 0],
        [1, 8, 2, 6, 3, 0],
        [2, 9, 3, 6, 3, 0],
    ];
    let job = Job::new(4, &TIED_PATHS, [1, 5, 1], &[]);
    expect(job, 10, (0, 6, &[1, 4, 3, 2], [6, 16, 9, 1, 7]), &nodes);
}

#[test]
fn larger_spares() {
    let (report, _) = Job::new(4, &level(4, 1), [3, 4, 0], &[]).run(65);
    assert_eq!((report.number, report.cost, &report.order[..4]), (0, 5, &[1, 2, 3, 4][..]));
    assert_eq!(report.counts(), [41, 65, 0, 24, 24]);
}
