//! What the tests share: jobs, and the definitions of document 01 worked out
//! once more from an order alone, legs and landing charges each by themselves,
//! of days that end home and of days that end away, with pairs and without.
#![allow(dead_code)]

pub mod by_hand;
pub mod call;
pub mod carried;
pub mod course;
pub mod paired;

use samples::{Random, KINDS};
use witness::legs::Legs;
use witness::words::record;
use witness::{plan, plan_watched, Report, Request, State, LARGEST_BUDGET, WORDS};

/// A job without its pool.
#[derive(Clone, Debug)]
pub struct Job {
    pub n: usize,
    pub table: Vec<u32>,
    pub selection: u64,
    pub rules: u64,
    pub bound: u64,
    pub start: Vec<u32>,
    pub pairs: Vec<u8>,
    pub budget: u64,
}

impl Job {
    /// Without pairs, with the largest budget.
    pub fn new(n: usize, table: &[u32], choices: [u64; 3], start: &[u32]) -> Job {
        let [selection, rules, bound] = choices;
        let (table, start, pairs) = (table.to_vec(), start.to_vec(), Vec::new());
        Job { n, table, selection, rules, bound, start, pairs, budget: LARGEST_BUDGET }
    }

    /// The same with another budget.
    pub fn within(&self, budget: u64) -> Job {
        Job { budget, ..self.clone() }
    }

    pub fn request(&self) -> Request<'_> {
        Request {
            n: self.n as u64,
            table: &self.table,
            selection: self.selection,
            rules: self.rules,
            bound: self.bound,
            start: &self.start,
            pairs: &self.pairs,
            budget: self.budget,
        }
    }

    pub fn run_in(&self, pool: &mut [u32]) -> Report {
        plan(&self.request(), pool)
    }

    pub fn run(&self, records: usize) -> (Report, Vec<u32>) {
        let mut pool = vec![0; records * WORDS];
        let report = self.run_in(&mut pool);
        (report, pool)
    }

    /// The states that a run with so many records goes through.
    pub fn states(&self, records: usize) -> Vec<State> {
        let mut pool = vec![0; records * WORDS];
        let mut states = Vec::new();
        plan_watched(&self.request(), &mut pool, &mut |s| states.push(s.clone()));
        states
    }

    /// The nodes that each state has the pool keep.
    pub fn keeps(&self) -> Vec<usize> {
        let mut keeps = Vec::new();
        let mut pool = vec![0; ample(self.n) * WORDS];
        plan_watched(&self.request(), &mut pool, &mut |s| {
            keeps.push(s.active.len() + if self.rule(4) { s.branched.len() } else { 0 });
        });
        keeps
    }

    pub fn rule(&self, rule: u64) -> bool {
        self.rules & rule != 0
    }

    /// The day ends at the last stop.
    pub fn is_away(&self) -> bool {
        self.bound >= 2
    }

    pub fn leg(&self, from: u32, to: u32) -> u32 {
        self.table[from as usize * (self.n + 1) + to as usize]
    }

    /// What these places charge together.
    pub fn charges(&self, places: &[u32]) -> u32 {
        places.iter().map(|&place| self.table[place as usize * (self.n + 2)]).sum()
    }

    pub fn legs(&self) -> Legs {
        Legs::new(self.n, &self.table)
    }

    pub fn path(&self, order: &[u32]) -> u32 {
        let places: Vec<u32> = std::iter::once(0).chain(order.iter().copied()).collect();
        places.windows(2).map(|w| self.leg(w[0], w[1])).sum::<u32>() + self.charges(order)
    }

    pub fn cost(&self, order: &[u32]) -> u32 {
        if self.is_away() {
            return self.path(order);
        }
        self.path(order) + self.leg(*order.last().unwrap(), 0) + self.charges(&[0])
    }

    /// The least cost over all orders that respect the pairs, and the smallest
    /// order that has it.
    pub fn best(&self) -> (u32, Vec<u32>) {
        self.orders().into_iter().map(|order| (self.cost(&order), order)).min().unwrap()
    }

    pub fn least_cost(&self) -> u32 {
        self.best().0
    }

    pub fn bound_of(&self, order: &[u32]) -> u32 {
        if order.len() == self.n {
            return self.cost(order);
        }
        if [0, 2].contains(&self.bound) {
            return self.path(order);
        }
        let left: Vec<u32> = (1..=self.n as u32).filter(|s| !order.contains(s)).collect();
        let last = order.last().copied().unwrap_or(0);
        let into = |s: u32| {
            let from = left.iter().copied().chain([last]).filter(|&p| p != s);
            from.map(|p| self.leg(p, s)).min().unwrap()
        };
        let to_stops = self.path(order) + left.iter().map(|&s| into(s)).sum::<u32>() + self.charges(&left);
        if self.is_away() {
            return to_stops;
        }
        to_stops + left.iter().map(|&s| self.leg(s, 0)).min().unwrap() + self.charges(&[0])
    }
}

/// As many records as a run over n stops can ever keep: all its nodes.
pub fn ample(n: usize) -> usize {
    let (mut level, mut sum) = (1, 1);
    for size in 0..n {
        level *= n - size;
        sum += level;
    }
    sum
}

/// All 128 choices of selection, rules and bound for a day that ends home.
pub fn choices() -> Vec<[u64; 3]> {
    choices_of([0, 1])
}

/// As many for a day that ends away.
pub fn away_choices() -> Vec<[u64; 3]> {
    choices_of([2, 3])
}

fn choices_of(bounds: [u64; 2]) -> Vec<[u64; 3]> {
    let mut all = Vec::new();
    for selection in 0..4 {
        for rules in 0..16 {
            for bound in bounds {
                all.push([selection, rules, bound]);
            }
        }
    }
    all
}

/// A table of the kind, with charges as often as without.
pub fn table_of_kind(random: &mut Random, n: usize, kind: usize) -> Vec<u32> {
    let table = random.table_of_kind(n, kind);
    random.maybe_charged(n, table)
}

/// Holds `check` to `tables` tables of each kind.
pub fn for_each_table(random: &mut Random, n: usize, tables: usize, mut check: impl FnMut(&mut Random, &[u32])) {
    for kind in 0..KINDS.len() {
        for _ in 0..tables {
            let table = table_of_kind(random, n, kind);
            check(random, &table);
        }
    }
}

/// Holds `check` to jobs over `tables` tables of each kind: every choice of a
/// day that ends home, with and without a starting order.
pub fn for_each_job(seed: u64, n: usize, tables: usize, check: impl Fn(&Job)) {
    for_each_choice(seed, n, tables, &choices(), check);
}

/// The same of days that end away.
pub fn for_each_away_job(seed: u64, n: usize, tables: usize, check: impl Fn(&Job)) {
    for_each_choice(seed, n, tables, &away_choices(), check);
}

fn for_each_choice(seed: u64, n: usize, tables: usize, choices: &[[u64; 3]], check: impl Fn(&Job)) {
    for_each_table(&mut Random(seed), n, tables, |random, table| {
        let start = random.order(n);
        for &choice in choices {
            check(&Job::new(n, table, choice, &[]));
            check(&Job::new(n, table, choice, &start));
        }
    });
}

/// The counts of a report on the state.
pub fn counts_of(state: &State) -> [u64; 5] {
    let branched = state.branched.len() as u64;
    let active = state.active.len() as u64;
    [branched, state.generated, state.eliminated, active, state.most]
}

/// The pool's words that document 01 gives for a state.
pub fn told_words(job: &Job, state: &State, records: usize) -> Vec<u32> {
    let mut words: Vec<u32> = state.active.iter().flat_map(|y| record(y)).collect();
    if job.rule(4) {
        words.extend(state.branched.iter().flat_map(|y| record(y)));
    }
    assert!(words.len() <= records * WORDS);
    words.resize(records * WORDS, 0);
    words
}

/// The order that a record writes down; the record must be well formed.
pub fn order_of(job: &Job, record: &[u32]) -> Vec<u32> {
    let size = record[0] as usize;
    assert!(size <= job.n);
    let bits = record[4] as u64 | (record[5] as u64) << 32;
    let order: Vec<u32> = (0..size).map(|i| (bits >> (4 * i) & 15) as u32 + 1).collect();
    if size < 16 {
        assert_eq!(bits >> (4 * size), 0, "unused bits of the order");
    }
    let set = order.iter().fold(0, |set, s| set | 1 << (s - 1));
    assert_eq!(record[1], set);
    assert_eq!(record[1].count_ones() as usize, size, "stops are distinct");
    assert_eq!(set >> job.n, 0, "stops are 1 to n");
    assert_eq!(record[2], job.path(&order));
    assert_eq!(record[3], job.bound_of(&order));
    assert!(job.respects(&order));
    order
}

/// The pool's words read back: the active nodes, the branched nodes, and
/// nothing but zeros behind.
pub fn read_pool(job: &Job, report: &Report, pool: &[u32]) -> (Vec<Vec<u32>>, Vec<Vec<u32>>) {
    let active = report.active as usize;
    let branched = if job.rule(4) { report.branched as usize } else { 0 };
    let orders: Vec<Vec<u32>> = pool.chunks(WORDS).take(active + branched).map(|r| order_of(job, r)).collect();
    assert_eq!(orders.len(), active + branched, "the nodes fit the pool");
    assert!(pool[(active + branched) * WORDS..].iter().all(|&w| w == 0));
    let mut distinct = orders.clone();
    distinct.sort();
    distinct.dedup();
    assert_eq!(distinct.len(), orders.len(), "no node stands twice");
    (orders[..active].to_vec(), orders[active..].to_vec())
}

/// The report shows a permutation of 1 to n that respects the pairs, with its
/// cost and zeros behind.
pub fn check_order(job: &Job, report: &Report) {
    let (order, rest) = report.order.split_at(job.n);
    let mut sorted = order.to_vec();
    sorted.sort();
    assert_eq!(sorted, (1..=job.n as u32).collect::<Vec<u32>>(), "{job:?}");
    assert_eq!(job.cost(order), report.cost, "{job:?}");
    assert!(job.respects(order), "{job:?}");
    assert!(rest.iter().all(|&s| s == 0), "{job:?}");
}

/// What every report of a finished run must satisfy, with the least cost and the
/// smallest order that has it.
pub fn check_finished(job: &Job, report: &Report, pool: &[u32], least: u32, smallest: &[u32]) {
    assert_eq!((report.number, report.mark, report.floor), (0, 0, 0), "{job:?}");
    assert_eq!((report.cost, &report.order[..job.n]), (least, smallest), "{job:?}");
    check_order(job, report);
    let parts = report.branched + report.eliminated + report.active;
    assert_eq!(report.generated, parts, "{job:?}");
    assert!(report.active <= report.most, "{job:?}");
    read_pool(job, report, pool);
}
