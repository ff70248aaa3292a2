//! What is planned, and each of the four that plan it.

use std::time::{Duration, Instant};

use gondamuy::{raw, RECORD_WORDS};

use crate::peer::{Ended, Job, Record, Until};
use crate::tables::{rows, table};

/// A peer, as it is called.
pub type Peer = fn(&Job, &[u8], &Until, &mut [Record]) -> Option<Ended>;

/// A job with its table and its starting order.
#[derive(Debug)]
pub struct Task {
    pub job: raw::Job,
    pub table: Vec<u32>,
    pub start: Vec<u8>,
}

impl Task {
    /// A job on a table by kind and seed: depth first from the nearest-stop order, else from none.
    pub fn of(job: raw::Job, kind: &str, seed: u64) -> Task {
        let table = table(kind, job.n as usize, seed);
        let start = if job.selection == 3 { samples::nearest(job.n as usize, &table) } else { Vec::new() };
        Task { job, table, start }
    }

    /// A peer's plan and its time, or none at the deadline.
    pub fn by_peer(&self, peer: Peer, until: &Until, pool: &mut [Record]) -> Option<(Ended, Duration)> {
        let raw::Job { n, selection, rules, bound } = self.job;
        let rows = rows(n as usize, &self.table);
        let job = Job { n, rows: &rows, selection, rules, bound };
        let begin = Instant::now();
        let ended = peer(&job, &self.start, until, pool)?;
        Some((ended, begin.elapsed()))
    }

    /// The library's plan and its time.
    pub fn by_library(&self, budget: u64, pool: &mut [Record]) -> (raw::Report, Duration) {
        let begin = Instant::now();
        let report = raw::plan(self.job, &self.table, &self.start, &[], budget, pool.as_flattened_mut());
        (report, begin.elapsed())
    }

    /// Holds a peer to another planner's report and pool, every field and every word. Its time, or none at the
    /// deadline.
    pub fn hold(&self, peer: Peer, until: &Until, report: &raw::Report, pool: &[Record]) -> Option<Duration> {
        let mut own = dirty_pool(pool.len());
        let (ended, time) = self.by_peer(peer, until, &mut own)?;
        assert_eq!(ended.report, *report, "{self:?}");
        assert!(own == pool, "the pools differ: {self:?}");
        Some(time)
    }
}

/// So many records, each of words that no planner leaves.
pub fn dirty_pool(records: usize) -> Vec<Record> {
    vec![[0xA5A5_A5A5; RECORD_WORDS]; records]
}
