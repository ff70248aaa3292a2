//! The peer with a lazy pool: a record that leaves the active ones keeps its place, with a bound that no node has, and
//! such gone ones are squeezed out now and then. Chains of records find what can dominate a child or be dominated by
//! it, and minima of blocks of records find the least bound. The size word of a record has its chain's link; the size,
//! which is the number of stops in the set, is put back at the end.

mod blocks;
mod chains;

use super::node::{at, beats, Job, Record, Stops, BOUND, NONE, SET, SIZE};
use super::run::{root, run, Ended, Inside, Step, Until};
use blocks::Blocks;
use chains::{Chains, Walks};

/// The lanes that are walked.
const ACTIVE: usize = 0;
const BRANCHED: usize = 1;

/// The active records stand among the first `used` ones, earliest first; the branched ones from the far end on, the
/// first outermost. Chains are kept under rules that look at them, and minima under selections that do.
struct Lazy<'a, const HEADS: usize, const BLOCKS: usize, const SLACK: i64, const ABREAST: bool> {
    pool: &'a mut [Record],
    active: usize,
    used: usize,
    held: usize,
    linked: bool,
    ranked: bool,
    front: Chains<HEADS>,
    far: Chains<HEADS>,
    blocks: Blocks<BLOCKS>,
    /// Under rule 2, the stops of a step's children that met an active record of their set and last stop.
    met: u32,
}

impl<const HEADS: usize, const BLOCKS: usize, const SLACK: i64, const ABREAST: bool> Inside
    for Lazy<'_, HEADS, BLOCKS, SLACK, ABREAST>
{
    fn active(&self) -> usize {
        self.active
    }

    #[inline(always)]
    fn select(&self, job: &Job) -> usize {
        let places = &self.pool[..self.used];
        match job.selection {
            0 => self.blocks.first_least(places, job.all()),
            1 => self.blocks.last_least(places, job.all()),
            2 => self.blocks.first(places),
            _ => latest_open(places, job.all()),
        }
    }

    #[inline(always)]
    fn node(&self, i: usize) -> Record {
        let mut x = *at(self.pool, i);
        if self.linked {
            x[SIZE] = x[SET].count_ones();
        }
        x
    }

    /// A node above the limit dominates none within it, since the same stops are left: so only gone ones are passed
    /// over. The active ones that a child meets and does not yield to are those that rule 8 looks for.
    #[inline(always)]
    fn undominated(&mut self, job: &Job, step: &Step) -> u32 {
        if !ABREAST {
            return self.one_by_one(job, step);
        }
        let mut walks = Walks::new();
        for s in Stops(if job.rule(2) { step.alive } else { 0 }) {
            walks.begin(ACTIVE, s - 1, self.front.head(at(&step.kids, s - 1)));
        }
        for s in Stops(if job.rule(4) { step.alive } else { 0 }) {
            walks.begin(BRANCHED, s - 1, self.far.head(at(&step.kids, s - 1)));
        }
        let (mut left, mut met) = (step.alive, 0);
        while walks.going != 0 {
            walks.go(self.pool, |lane, k, y| {
                let x = at(&step.kids, k);
                if y[SET] != x[SET] || !step.kin.rivals(y, x) || y[BOUND] == NONE {
                    return false;
                }
                let beaten = beats(y, x);
                left &= !((beaten as u32) << k);
                met |= ((lane == ACTIVE) as u32) << k;
                beaten
            });
        }
        self.met = met;
        left
    }

    #[inline(always)]
    fn replace(&mut self, job: &Job, step: &Step) -> bool {
        let held = if job.rule(4) { self.held + 1 } else { 0 };
        if !step.fits(job, &self.pool[..self.used], self.active, held, self.pool.len()) {
            return false;
        }
        self.kill(step.i);
        for s in Stops(if job.rule(2) { step.taking(job) & self.met } else { step.taking(job) }) {
            self.strike(step, at(&step.kids, s - 1));
        }
        self.trim();
        let crowded = 5 * self.active as i64 + SLACK < 4 * self.used as i64;
        if step.cut || crowded || self.used + step.left + held > self.pool.len() {
            self.squeeze(step.limit);
        }
        if held != 0 {
            self.held = held;
            let (place, mut b) = (self.pool.len() - held, step.b);
            self.far.join(place, &mut b);
            self.pool[place] = b;
        }
        for s in Stops(step.alive) {
            self.join(*at(&step.kids, s - 1));
        }
        self.active += step.left;
        true
    }

    fn settle(&mut self) -> &mut [Record] {
        let mut end = 0;
        for i in 0..self.used {
            if at(self.pool, i)[BOUND] != NONE {
                self.pool[end] = self.node(i);
                end += 1;
            }
        }
        for i in self.pool.len() - self.held..self.pool.len() {
            self.pool[i] = self.node(i);
        }
        self.pool
    }
}

/// The latest record that is neither gone nor complete, or else the latest that is not gone.
#[inline(always)]
fn latest_open(places: &[Record], all: u32) -> usize {
    let mut i = places.len();
    while i != 0 {
        i -= 1;
        if at(places, i)[SET] != all && at(places, i)[BOUND] != NONE {
            return i;
        }
    }
    places.iter().rposition(|x| x[BOUND] != NONE).expect("a node is active")
}

impl<const HEADS: usize, const BLOCKS: usize, const SLACK: i64, const ABREAST: bool>
    Lazy<'_, HEADS, BLOCKS, SLACK, ABREAST>
{
    /// Each child's chains by themselves, up to its first rival; rule 8 then looks along each survivor's.
    #[inline(always)]
    fn one_by_one(&mut self, job: &Job, step: &Step) -> u32 {
        let mut left = step.alive;
        for s in Stops(step.alive) {
            let x = at(&step.kids, s - 1);
            let rivalled = job.rule(2) && self.rivalled(step, self.front.head(x), x)
                || job.rule(4) && self.rivalled(step, self.far.head(x), x);
            left &= !((rivalled as u32) << (s - 1));
        }
        self.met = left;
        left
    }

    /// Whether a record of a chain that is not gone dominates the child x.
    #[inline(always)]
    fn rivalled(&self, step: &Step, head: u32, x: &Record) -> bool {
        let mut link = head;
        while link != 0 {
            let y = at(self.pool, link as usize - 1);
            if step.kin.dominates(y, x) && y[BOUND] != NONE {
                return true;
            }
            link = y[SIZE];
        }
        false
    }

    /// The active record at i is gone.
    #[inline(always)]
    fn kill(&mut self, i: usize) {
        let bound = std::mem::replace(&mut self.pool[i][BOUND], NONE);
        if self.ranked {
            self.blocks.forget(&self.pool[..self.used], i, bound);
        }
        self.active -= 1;
    }

    /// Rule 8: the active records that the child x dominates are gone.
    #[inline(always)]
    fn strike(&mut self, step: &Step, x: &Record) {
        let mut link = self.front.head(x);
        while link != 0 {
            let i = link as usize - 1;
            let y = at(self.pool, i);
            link = y[SIZE];
            if step.kin.dominates(x, y) && y[BOUND] != NONE {
                self.kill(i);
            }
        }
    }

    /// Takes gone records off the end.
    #[inline(always)]
    fn trim(&mut self) {
        while self.used != 0 && at(self.pool, self.used - 1)[BOUND] == NONE {
            self.used -= 1;
            if self.linked {
                self.front.leave(at(self.pool, self.used));
            }
        }
    }

    /// Writes a node that has its size behind the active ones, where there is room.
    #[inline(always)]
    fn join(&mut self, mut x: Record) {
        if self.ranked {
            self.blocks.note(self.used, x[BOUND]);
        }
        if self.linked {
            self.front.join(self.used, &mut x);
        }
        debug_assert!(self.used < self.pool.len());
        // SAFETY: every caller has room for one more.
        unsafe { *self.pool.get_unchecked_mut(self.used) = x };
        self.used += 1;
    }

    /// Moves the active records with a bound up to `limit` to the front: the others are gone.
    #[inline(never)]
    fn squeeze(&mut self, limit: u32) {
        if self.linked {
            self.front.clear();
        }
        if self.ranked {
            self.blocks.clear(self.active);
        }
        let used = std::mem::take(&mut self.used);
        for i in 0..used {
            if at(self.pool, i)[BOUND] <= limit {
                self.join(self.node(i));
            }
        }
        self.active = self.used;
    }
}

/// Plans in a pool of one record or more; none at the deadline. With 8,192 heads to a lane and 512 blocks, squeezed
/// when the gone records are more than a quarter of the active ones and 256, and each child's chains walked by
/// themselves, as the proved planner does.
pub fn plan(job: &Job, start: &[u8], until: &Until, pool: &mut [Record]) -> Option<Ended> {
    plan_with::<8192, 512, 1024, false>(job, start, until, pool)
}

/// The same with the chains of all children walked abreast, so that no walk waits for another's records.
pub fn plan_abreast(job: &Job, start: &[u8], until: &Until, pool: &mut [Record]) -> Option<Ended> {
    plan_with::<8192, 512, 1024, true>(job, start, until, pool)
}

/// With any numbers of heads and blocks, powers of two, and any slack before a squeeze, in quarters of a record.
pub fn plan_with<const HEADS: usize, const BLOCKS: usize, const SLACK: i64, const ABREAST: bool>(
    job: &Job,
    start: &[u8],
    until: &Until,
    pool: &mut [Record],
) -> Option<Ended> {
    const { assert!(HEADS > 1 && HEADS.is_power_of_two() && BLOCKS > 1 && BLOCKS.is_power_of_two()) };
    assert!(pool.len() < NONE as usize, "links have 32 bits");
    let mut lazy = Lazy::<HEADS, BLOCKS, SLACK, ABREAST> {
        pool,
        active: 1,
        used: 0,
        held: 0,
        linked: job.rule(2 | 4 | 8),
        ranked: job.selection < 3,
        front: Chains::new(),
        far: Chains::new(),
        blocks: Blocks::new(),
        met: 0,
    };
    lazy.join(root(job));
    run(job, start, until, &mut lazy)
}
