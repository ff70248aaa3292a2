//! The peer with simple passes, those of the proved planner up to request A.7: a pass for the least bound, one for the
//! children's rivals, one for the active nodes that go. Each child is written to the slot of its stop and tested there,
//! and a set of stops says which are left; these are copied to the pool once. The active nodes are in place, the
//! branched ones at the far end of the pool.

use gondamuy::RECORD_WORDS;

use super::node::{at, find, passing, Job, Record, Stops, ANY, BOUND, SIZE};
use super::run::{root, run, Ended, Inside, Step, Until};

/// How many of the children's rivals are gathered at a time.
const RIVALS: usize = 64;

/// By the bound, and among equals first the nodes that are not complete.
#[inline(always)]
fn rank(x: &Record, n: u32) -> u32 {
    2 * x[BOUND] + (x[SIZE] == n) as u32
}

/// Goes from one better rank to the next, of which there are few.
#[inline(always)]
fn least(active: &[Record], n: u32, better: impl Fn(u32, u32) -> bool) -> usize {
    let (mut best, mut i) = (0, 0);
    while i < active.len() {
        best = i;
        let least = rank(at(active, best), n);
        i = find(active, i + 1, |x| better(rank(x, n), least));
    }
    best
}

fn latest_open(active: &[Record], n: u32) -> usize {
    let mut i = active.len();
    while i != 0 {
        i -= 1;
        if at(active, i)[SIZE] != n {
            return i;
        }
    }
    active.len() - 1
}

/// Rules 2 and 4: the stops of `alive` whose children none of the records with a bound up to `limit` dominates. One
/// walk gathers the few that can; whenever the place for them is full, and at the end, the children are tested against
/// those.
fn undominated(step: &Step, alive: u32, records: &[Record], limit: u32, rivals: &mut [Record; RIVALS]) -> u32 {
    let kin = step.kin;
    let (mut left, mut i) = (alive, 0);
    while left != 0 && i < records.len() {
        let mut gathered = 0;
        while gathered < RIVALS {
            i = find(records, i, |y| kin.has(y));
            if i == records.len() {
                break;
            }
            // SAFETY: gathered is below RIVALS.
            unsafe { *rivals.get_unchecked_mut(gathered) = *at(records, i) };
            gathered += 1;
            i += 1;
        }
        left = passing(&step.kids, left, |x| !kin.beaten(&rivals[..gathered], x, limit));
    }
    left
}

/// Rules 1 and 8: of the pool's records from `from` on, moves those that stay active to `end` and behind it, a run at a
/// time.
fn squeeze(pool: &mut [Record], from: usize, end: usize, step: &Step, taking: u32) -> usize {
    let (mut from, mut i, mut end) = (from, from, end);
    let (kin, limit) = (step.kin, step.limit);
    loop {
        i = find(pool, i, |x| (x[BOUND] > limit) | kin.has(x));
        if i < pool.len() && at(pool, i)[BOUND] <= limit && !kin.displaced(at(pool, i), &step.kids, taking) {
            i += 1;
            continue;
        }
        if from != end {
            pool.copy_within(from..i, end);
        }
        end += i - from;
        if i == pool.len() {
            return end;
        }
        i += 1;
        from = i;
    }
}

/// The active records stand at the front of the pool, the branched ones at the far end.
struct Simple<'a> {
    pool: &'a mut [Record],
    active: usize,
    held: usize,
    rivals: [Record; RIVALS],
}

impl Inside for Simple<'_> {
    fn active(&self) -> usize {
        self.active
    }

    #[inline(always)]
    fn select(&self, job: &Job) -> usize {
        let active = &self.pool[..self.active];
        match job.selection {
            0 => least(active, job.n, |rank, least| rank < least),
            1 => least(active, job.n, |rank, least| rank <= least),
            2 => 0,
            _ => latest_open(active, job.n),
        }
    }

    #[inline(always)]
    fn node(&self, i: usize) -> Record {
        *at(self.pool, i)
    }

    #[inline(always)]
    fn undominated(&mut self, job: &Job, step: &Step) -> u32 {
        let mut left = step.alive;
        if job.rule(2) {
            left = undominated(step, left, &self.pool[..self.active], step.limit, &mut self.rivals);
        }
        if job.rule(4) {
            let far = self.pool.len() - self.held;
            left = undominated(step, left, &self.pool[far..], ANY, &mut self.rivals);
        }
        left
    }

    #[inline(always)]
    fn replace(&mut self, job: &Job, step: &Step) -> bool {
        let held = if job.rule(4) { self.held + 1 } else { 0 };
        if !step.fits(job, &self.pool[..self.active], self.active, held, self.pool.len()) {
            return false;
        }
        self.active = self.take_out(step, step.taking(job));
        for s in Stops(step.alive) {
            // SAFETY: the survivors fit.
            unsafe { *self.pool.get_unchecked_mut(self.active) = *at(&step.kids, s - 1) };
            self.active += 1;
        }
        if held != 0 {
            self.held = held;
            let place = self.pool.len() - held;
            self.pool[place] = step.b;
        }
        true
    }

    fn settle(&mut self) -> &mut [Record] {
        self.pool
    }
}

impl Simple<'_> {
    /// Takes out b and the active nodes that go; says how many stay.
    #[inline(always)]
    fn take_out(&mut self, step: &Step, taking: u32) -> usize {
        let i = step.i;
        if taking == 0 && !step.cut {
            self.pool.copy_within(i + 1..self.active, i);
            return self.active - 1;
        }
        let before = squeeze(&mut self.pool[..i], 0, 0, step, taking);
        squeeze(&mut self.pool[..self.active], i + 1, before, step, taking)
    }
}

/// Plans in a pool of one record or more; none at the deadline.
pub fn plan(job: &Job, start: &[u8], until: &Until, pool: &mut [Record]) -> Option<Ended> {
    pool[0] = root(job);
    run(job, start, until, &mut Simple { pool, active: 1, held: 0, rivals: [[0; RECORD_WORDS]; RIVALS] })
}
