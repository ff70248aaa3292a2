//! Jobs with pairs (request A.6 of document 02), held against them by places
//! alone: where the pick-up stands in an order and where the drop.

use super::{away_choices, choices, for_each_table, Job};
use samples::{respects, Random};
use witness::enumerate::all_orders;

impl Job {
    /// The same with other pairs.
    pub fn paired(&self, pairs: &[u8]) -> Job {
        Job { pairs: pairs.to_vec(), ..self.clone() }
    }

    /// Each drop of the order, or partial order, stands behind its pick-up.
    pub fn respects(&self, order: &[u32]) -> bool {
        respects(&self.pairs, order)
    }

    /// All orders that respect the pairs.
    pub fn orders(&self) -> Vec<Vec<u32>> {
        let all = all_orders(self.n).into_iter();
        let stops = all.map(|order| order.iter().map(|&s| s as u32).collect::<Vec<u32>>());
        stops.filter(|order| self.respects(order)).collect()
    }
}

/// All 256 choices of selection, rules and bound.
pub fn all_choices() -> Vec<[u64; 3]> {
    [choices(), away_choices()].concat()
}

/// Holds `check` to jobs over `tables` tables of each kind, each with pairs of
/// its own, one at least from two stops on: every choice, with and without a
/// starting order.
pub fn for_each_paired_job(seed: u64, n: usize, tables: usize, mut check: impl FnMut(&Job)) {
    for_each_table(&mut Random(seed), n, tables, |random, table| {
        let pairs = 1 + random.below((n as u64 / 2).max(1)) as usize;
        let pairs = random.pairs(n, pairs.min(n / 2));
        let start = random.order_with(n, &pairs);
        for choice in all_choices() {
            check(&Job::new(n, table, choice, &[]).paired(&pairs));
            check(&Job::new(n, table, choice, &start).paired(&pairs));
        }
    });
}
