//! The run, over any inside of the pool: what is branched next, its children, the cheapest order known, the counts and
//! the report.

use std::time::Instant;

use gondamuy::raw::{Report, STOPPED};
use gondamuy::{MOST_STOPS, ORDER_PLACES, RECORD_WORDS};

use super::node::{ahead, at, family, first, order, passing, smaller, Job, Kids, Kin, Record, ANY, BOUND, NONE, SIZE};

/// How the pool is kept while a run works. Its places are the inside's own; what stands there is a node.
pub trait Inside {
    fn active(&self) -> usize;

    /// Where the node stands that is branched next.
    fn select(&self, job: &Job) -> usize;

    fn node(&self, i: usize) -> Record;

    /// Rules 2 and 4: the stops of the step's survivors whose children no node dominates, active and within the limit
    /// or branched.
    fn undominated(&mut self, job: &Job, step: &Step) -> u32;

    /// Parts 6 and 7 of the step; false if the pool is full, and then nothing has changed.
    fn replace(&mut self, job: &Job, step: &Step) -> bool;

    /// Leaves the active nodes at the front, earliest first, and the branched ones at the far end, latest first.
    fn settle(&mut self) -> &mut [Record];
}

/// A step on its way: b, where it stands, its children, the stops of those that survive and their number. Active nodes
/// above the limit go too if it is `cut`.
pub struct Step {
    pub i: usize,
    pub b: Record,
    pub kin: Kin,
    pub kids: Kids,
    pub alive: u32,
    pub left: usize,
    pub limit: u32,
    pub cut: bool,
}

impl Step {
    fn new() -> Step {
        let b = [0; RECORD_WORDS];
        Step { i: 0, b, kin: Kin::of(&b), kids: [b; MOST_STOPS], alive: 0, left: 0, limit: ANY, cut: false }
    }

    /// Survivors that take active nodes' places: under rule 8 all.
    #[inline(always)]
    pub fn taking(&self, job: &Job) -> u32 {
        if job.rule(8) {
            self.alive
        } else {
            0
        }
    }

    /// Whether there is room for as many as stay of the nodes among these records, for the survivors and for the
    /// branched ones. Only where it is short are those counted that stay.
    #[inline(always)]
    pub fn fits(&self, job: &Job, records: &[Record], active: usize, held: usize, room: usize) -> bool {
        let joining = self.left + held;
        active - 1 + joining <= room
            || (self.cut || self.taking(job) != 0) && self.staying(job, records) + joining <= room
    }

    #[cold]
    fn staying(&self, job: &Job, records: &[Record]) -> usize {
        let taking = self.taking(job);
        let stays = |x: &Record| x[BOUND] <= self.limit && !self.kin.displaced(x, &self.kids, taking);
        (0..records.len()).filter(|&i| i != self.i && stays(at(records, i))).count()
    }
}

/// The cheapest order known, four bits a stop, and its cost.
struct Best {
    cost: u32,
    order: u64,
}

impl Best {
    fn of(job: &Job, start: &[u8]) -> Best {
        if start.is_empty() {
            return Best { cost: NONE, order: 0 };
        }
        let order = start.iter().rev().fold(0, |order, &s| order << 4 | (s as u64 - 1));
        Best { cost: job.cost(start), order }
    }

    /// Takes a complete node if it is cheaper, or as cheap and smaller, and says whether it was cheaper.
    fn learn(&mut self, x: &Record) -> bool {
        let cheaper = x[BOUND] < self.cost;
        if cheaper || x[BOUND] == self.cost && smaller(order(x), self.order) {
            (self.cost, self.order) = (x[BOUND], order(x));
        }
        cheaper
    }

    /// The order's n stops, zeros behind.
    fn stops(&self, n: u32) -> [u8; ORDER_PLACES] {
        let mut stops = [0; ORDER_PLACES];
        for (k, stop) in stops[..n as usize].iter_mut().enumerate() {
            *stop = (self.order >> (4 * k)) as u8 % 16 + 1;
        }
        stops
    }
}

/// When a run is given up or stopped, though it has not ended.
#[derive(Clone, Copy)]
pub struct Until {
    pub budget: u64,
    pub deadline: Instant,
}

pub struct Ended {
    pub report: Report,
    /// Records that it needed at most.
    pub records: usize,
}

/// Runs to its end, or gives up at the deadline.
pub fn run(job: &Job, start: &[u8], until: &Until, inside: &mut impl Inside) -> Option<Ended> {
    let mut best = Best::of(job, start);
    let mut step = Step::new();
    let mut report = Report { generated: 1, most: 1, ..Report::default() };
    let mut records = 1;
    loop {
        step.i = inside.select(job);
        step.b = inside.node(step.i);
        if step.b[SIZE] == job.n {
            break;
        }
        if report.branched == until.budget {
            report.mark = STOPPED;
            break;
        }
        if report.branched % 1024 == 0 && Instant::now() > until.deadline {
            return None;
        }
        expand(job, &mut best, &mut step, inside);
        if !inside.replace(job, &step) {
            report.number = 7;
            break;
        }
        report.branched += 1;
        report.generated += (job.n - step.b[SIZE]) as u64;
        report.most = report.most.max(inside.active() as u64);
        records = records.max(inside.active() + held(job, &report));
    }
    finish(job, &best, &mut report, inside);
    Some(Ended { report, records })
}

/// Parts 1 to 5 of a step.
#[inline(always)]
fn expand(job: &Job, best: &mut Best, step: &mut Step, inside: &mut impl Inside) {
    step.kin = Kin::of(&step.b);
    step.alive = family(job, &step.b, &mut step.kids);
    step.cut = step.b[SIZE] + 1 == job.n && best.learn(at(&step.kids, first(step.alive) - 1)) && job.rule(1);
    step.limit = if job.rule(1) { best.cost.min(ANY) } else { ANY };
    step.alive = passing(&step.kids, step.alive, |x| x[BOUND] <= step.limit);
    if job.rule(2 | 4) {
        step.alive = inside.undominated(job, step);
    }
    step.left = step.alive.count_ones() as usize;
}

/// The branched nodes in the pool.
fn held(job: &Job, report: &Report) -> usize {
    if job.rule(4) {
        report.branched as usize
    } else {
        0
    }
}

/// What is left of the report, and the pool as it is returned.
fn finish(job: &Job, best: &Best, report: &mut Report, inside: &mut impl Inside) {
    let (active, held) = (inside.active(), held(job, report));
    let pool = inside.settle();
    if report.mark == STOPPED {
        report.floor = pool[..active].iter().map(|x| x[BOUND]).fold(NONE, u32::min);
    }
    if report.number == 0 && best.cost != NONE {
        (report.cost, report.order) = (best.cost, best.stops(job.n));
    }
    report.active = active as u64;
    report.eliminated = report.generated - report.branched - report.active;
    let far = pool.len() - held;
    pool[far..].reverse();
    pool.copy_within(far.., active);
    pool[active + held..].fill([0; RECORD_WORDS]);
}

/// The record of e.
pub fn root(job: &Job) -> Record {
    let ahead = ahead(job);
    [0, 0, 0, ahead, 0, 0]
}
