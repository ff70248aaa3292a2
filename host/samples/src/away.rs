//! Flights home: the legs into home and what a landing there is charged, which a day that ends away does not count
//! (request A.5). They are the first number of each row.

use crate::Random;

impl Random {
    /// The same table with other flights home, of any size that is let pass.
    pub fn other_flights_home(&mut self, n: usize, table: &[u32]) -> Vec<u32> {
        let (leg, charge) = self.pick(&[(0, 0), (9, 3), (1_000_000, 100_000)]);
        flights_home(n, table, |from| self.below(if from == 0 { charge } else { leg } + 1) as u32)
    }
}

/// The same table where the flights home cost nothing.
pub fn free_flights_home(n: usize, table: &[u32]) -> Vec<u32> {
    flights_home(n, table, |_| 0)
}

/// The same table with these numbers: home's charge for place 0, and the legs home from the others.
fn flights_home(n: usize, table: &[u32], mut number: impl FnMut(usize) -> u32) -> Vec<u32> {
    let mut table = table.to_vec();
    for (from, row) in table.chunks_mut(n + 1).enumerate() {
        row[0] = number(from);
    }
    table
}
