//! The legs, the landing charges and the cost of an order (document 01, "Legs
//! and orders", and requests A.4 and A.5 of document 02).

/// Stops of a day at most.
pub const MOST_STOPS: usize = 16;

/// Home and the stops.
pub const PLACES: usize = MOST_STOPS + 1;

/// Home is place 0, the stops are places 1 to n.
pub type Place = usize;

/// Where a day ends (request A.5).
#[derive(Clone, Copy, PartialEq, Eq, Debug)]
pub enum Ends {
    Home,
    /// At the last stop.
    Away,
}

/// The table's numbers as rows of seventeen, unused ones 0. The diagonal has
/// the landing charges.
pub struct Legs {
    pub n: usize,
    rows: [[u32; PLACES]; PLACES],
}

impl Legs {
    /// `table` has (n+1) squared numbers, row by row.
    pub fn new(n: usize, table: &[u32]) -> Legs {
        let mut rows = [[0; PLACES]; PLACES];
        for i in 0..=n {
            for j in 0..=n {
                rows[i][j] = table[i * (n + 1) + j];
            }
        }
        Legs { n, rows }
    }

    /// As the table has it, without the landing.
    pub fn leg(&self, from: Place, to: Place) -> u32 {
        self.rows[from][to]
    }

    /// What a landing at the place costs.
    pub fn charge(&self, place: Place) -> u32 {
        self.rows[place][place]
    }

    /// What flying from one place to another costs: the leg and the landing.
    pub fn flying(&self, from: Place, to: Place) -> u32 {
        self.leg(from, to) + self.charge(to)
    }

    /// Home to first, between neighbours, last to home; of a day that ends away
    /// no leg home counts.
    pub fn order_cost(&self, order: &[Place], ends: Ends) -> u32 {
        let mut cost = 0;
        let mut last = 0;
        for &stop in order {
            cost += self.flying(last, stop);
            last = stop;
        }
        match ends {
            Ends::Home => cost + self.flying(last, 0),
            Ends::Away => cost,
        }
    }
}
