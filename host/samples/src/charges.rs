//! Landing charges (request A.4) on the diagonals of tables: put there, read from there, taken away, and put into the
//! legs.

use crate::Random;

/// The dearest landing charge of each kind, those like small legs first.
const KINDS: [u32; 5] = [1, 3, 12, 1_000, 100_000];

impl Random {
    /// The same table with charges, home's too; about one place in four asks for none.
    pub fn with_charges(&mut self, n: usize, table: &[u32]) -> Vec<u32> {
        let most = self.pick(&KINDS);
        let charges: Vec<u32> = (0..=n)
            .map(|_| {
                let charge = self.below(most as u64 + 1) as u32;
                self.pick(&[0, charge, charge, charge])
            })
            .collect();
        charged(table, &charges)
    }

    /// The same table, with charges as often as without.
    pub fn maybe_charged(&mut self, n: usize, table: Vec<u32>) -> Vec<u32> {
        match self.below(2) {
            0 => table,
            _ => self.with_charges(n, &table),
        }
    }
}

/// The same table with these charges, home's first.
pub fn charged(table: &[u32], charges: &[u32]) -> Vec<u32> {
    let mut table = table.to_vec();
    for (place, &charge) in charges.iter().enumerate() {
        table[place * (charges.len() + 1)] = charge;
    }
    table
}

/// The charges of a table, home's first.
pub fn charges(n: usize, table: &[u32]) -> Vec<u32> {
    (0..=n).map(|place| table[place * (n + 2)]).collect()
}

/// The same table without its charges.
pub fn uncharged(n: usize, table: &[u32]) -> Vec<u32> {
    charged(table, &vec![0; n + 1])
}

/// The same table without its charges, each of which is put into the legs that land there.
pub fn folded(n: usize, table: &[u32]) -> Vec<u32> {
    let charges = charges(n, table);
    let flying = |(k, &leg): (usize, &u32)| if k % (n + 2) == 0 { 0 } else { leg + charges[k % (n + 1)] };
    table.iter().enumerate().map(flying).collect()
}
