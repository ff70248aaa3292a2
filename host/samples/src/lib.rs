//! What the tests and the bench try planners on: a fixed generator with the
//! tables and orders drawn from it, and some that need none. Module `charges`
//! has landing charges on the tables' diagonals, module `away` flights home,
//! module `pairs` pick-ups and drops.

mod away;
mod charges;
mod pairs;

pub use away::free_flights_home;
pub use charges::{charged, charges, folded, uncharged};
pub use pairs::respects;

/// Document 01's table T, of three stops.
pub const T: [u32; 16] = [0, 4, 7, 9, 5, 0, 2, 6, 3, 8, 0, 1, 6, 5, 4, 0];

/// splitmix64, by its seed.
pub struct Random(pub u64);

/// Least and dearest leg, the kinds with many ties first, the widest last.
pub const KINDS: [(u32, u32); 6] = [(0, 2), (1, 1), (0, 0), (0, 1), (1, 12), (0, 1_000_000)];

impl Random {
    pub fn draw(&mut self) -> u64 {
        self.0 = self.0.wrapping_add(0x9E37_79B9_7F4A_7C15);
        let mut z = self.0;
        z = (z ^ (z >> 30)).wrapping_mul(0xBF58_476D_1CE4_E5B9);
        z = (z ^ (z >> 27)).wrapping_mul(0x94D0_49BB_1331_11EB);
        z ^ (z >> 31)
    }

    pub fn below(&mut self, limit: u64) -> u64 {
        self.draw() % limit
    }

    /// From 0 on, below 1.
    pub fn unit(&mut self) -> f64 {
        (self.draw() >> 11) as f64 / (1u64 << 53) as f64
    }

    pub fn pick<T: Clone>(&mut self, from: &[T]) -> T {
        from[self.below(from.len() as u64) as usize].clone()
    }

    pub fn words(&mut self, count: usize) -> Vec<u32> {
        (0..count).map(|_| self.draw() as u32).collect()
    }

    /// Legs from `low` to `high`, both directions by themselves.
    pub fn table(&mut self, n: usize, low: u32, high: u32) -> Vec<u32> {
        table(n, || low + self.below((high - low + 1) as u64) as u32)
    }

    pub fn table_of_kind(&mut self, n: usize, kind: usize) -> Vec<u32> {
        let (low, high) = KINDS[kind];
        self.table(n, low, high)
    }

    /// Legs of 2, but about one in eight free and one in eight 3: the nearest stops run out of free legs, and many
    /// exchanges of two stops gain the same.
    pub fn few_free(&mut self, n: usize) -> Vec<u32> {
        table(n, || self.pick(&[0, 2, 2, 2, 2, 2, 2, 3]))
    }

    /// The stops 1 to n, shuffled.
    pub fn order<S: From<u8>>(&mut self, n: usize) -> Vec<S> {
        let mut order: Vec<S> = (1..=n as u8).map(S::from).collect();
        for i in (1..n).rev() {
            order.swap(i, self.below(i as u64 + 1) as usize);
        }
        order
    }
}

/// No charges on the diagonal, the legs as they come, row by row.
fn table(n: usize, mut leg: impl FnMut() -> u32) -> Vec<u32> {
    (0..(n + 1) * (n + 1)).map(|k| if k % (n + 2) == 0 { 0 } else { leg() }).collect()
}

/// All legs the same.
pub fn level(n: usize, leg: u32) -> Vec<u32> {
    table(n, || leg)
}

/// The nearest-stop order: from each place to the stop left that is cheapest to fly to and land at, the lowest of
/// several.
pub fn nearest(n: usize, table: &[u32]) -> Vec<u8> {
    let flying = |from: usize, to: usize| table[from * (n + 1) + to] + table[to * (n + 2)];
    let mut left: Vec<u8> = (1..=n as u8).collect();
    let mut place = 0;
    let mut order = Vec::new();
    while !left.is_empty() {
        let at = (0..left.len()).min_by_key(|&k| flying(place, left[k] as usize)).unwrap();
        let stop = left.remove(at);
        place = stop as usize;
        order.push(stop);
    }
    order
}
