//! Jobs worked out by hand: what a run must give.

use super::{check_finished, read_pool, Job};
use samples::T;
use witness::STOPPED;

/// The cost, the order and the counts of a job's run over so many records.
pub fn expect(job: &Job, records: usize, cost: u32, order: &[u32], counts: [u64; 5]) {
    let (report, pool) = job.run(records);
    check_finished(job, &report, &pool, cost, order);
    assert_eq!(report.counts(), counts);
}

/// The same of a run that its budget stops, with the floor in front of the cost.
pub fn expect_stopped(job: &Job, records: usize, floor: u32, cost: u32, order: &[u32], counts: [u64; 5]) {
    let (report, pool) = job.run(records);
    assert_eq!((report.number, report.mark, report.floor), (0, STOPPED, floor));
    assert_eq!((report.cost, &report.order[..order.len()]), (cost, order));
    assert_eq!(report.counts(), counts);
    read_pool(job, &report, &pool);
}

/// A job on document 01's table T.
pub fn on_t(choices: [u64; 3], start: &[u32]) -> Job {
    Job::new(3, &T, choices, start)
}
