//! A node as the six words of its record, its bound and its children.

use gondamuy::{MOST_STOPS, PLACES, RECORD_WORDS};

pub type Rows = [[u32; PLACES]; PLACES];
pub type Record = [u32; RECORD_WORDS];

/// A child for each stop, at the stop's place less one.
pub type Kids = [Record; MOST_STOPS];

pub const SIZE: usize = 0;
pub const SET: usize = 1;
pub const PATH: usize = 2;
pub const BOUND: usize = 3;

/// Above every cost.
pub const NONE: u32 = u32::MAX;

/// A limit that every bound keeps, and NONE does not.
pub const ANY: u32 = NONE - 1;

pub struct Job<'a> {
    pub n: u32,
    pub rows: &'a Rows,
    pub selection: u32,
    pub rules: u32,
    pub bound: u32,
}

impl Job<'_> {
    pub fn rule(&self, rule: u32) -> bool {
        self.rules & rule != 0
    }

    /// The set of all stops.
    pub fn all(&self) -> u32 {
        (1 << self.n) - 1
    }

    /// The cost of an order of all stops.
    pub fn cost(&self, order: &[u8]) -> u32 {
        let (mut cost, mut place) = (0, 0);
        for &s in order {
            cost += self.leg(place, s as usize);
            place = s as usize;
        }
        cost + self.leg(place, 0)
    }

    #[inline(always)]
    fn leg(&self, from: usize, to: usize) -> u32 {
        // SAFETY: home is place 0, and no stop is above MOST_STOPS.
        unsafe { *self.rows.get_unchecked(from).get_unchecked(to) }
    }
}

/// A record that stands there: i is below the number of records.
#[inline(always)]
pub fn at(records: &[Record], i: usize) -> &Record {
    debug_assert!(i < records.len());
    // SAFETY: every caller has an i below the number of records.
    unsafe { records.get_unchecked(i) }
}

/// The first place from `from` on whose record passes the test, or the number of records; four records a turn.
#[inline(always)]
pub fn find(records: &[Record], from: usize, test: impl Fn(&Record) -> bool) -> usize {
    let mut i = from;
    while i + 4 <= records.len()
        && !(test(at(records, i)) || test(at(records, i + 1)) || test(at(records, i + 2)) || test(at(records, i + 3)))
    {
        i += 4;
    }
    while i < records.len() && !test(at(records, i)) {
        i += 1;
    }
    i
}

/// The order, four bits a stop, the first stop lowest.
#[inline(always)]
pub fn order(x: &Record) -> u64 {
    x[4] as u64 | (x[5] as u64) << 32
}

/// Whether the first of two orders of one length is the smaller: at the first stop in which they differ, the lowest of
/// the digits that do.
#[inline(always)]
pub fn smaller(y: u64, z: u64) -> bool {
    let at = (y ^ z).trailing_zeros() & 60;
    (y >> at) % 16 < (z >> at) % 16
}

/// The last stop of a node of this size, or home.
#[inline(always)]
pub fn last(x: &Record, size: u32) -> usize {
    match size {
        0 => 0,
        k => (order(x) >> (4 * (k - 1))) as usize % 16 + 1,
    }
}

/// Whether y dominates z, of two rivals: it is cheaper, or as cheap and smaller.
#[inline(always)]
pub fn beats(y: &Record, z: &Record) -> bool {
    y[PATH] < z[PATH] || y[PATH] == z[PATH] && smaller(order(y), order(z))
}

/// What is common to b's children: their size, and that their sets hold b's. Size and set are tested as one number.
#[derive(Clone, Copy)]
pub struct Kin {
    mask: u64,
    is: u64,
    last: u32,
}

impl Kin {
    pub fn of(b: &Record) -> Kin {
        let set = (b[SET] as u64) << 32;
        Kin { mask: set | NONE as u64, is: set | (b[SIZE] + 1) as u64, last: 4 * b[SIZE] }
    }

    #[inline(always)]
    pub fn has(self, x: &Record) -> bool {
        ((x[SET] as u64) << 32 | x[SIZE] as u64) & self.mask == self.is
    }

    /// Whether one of y and z, a child and another node, dominates the other: where the sets are the same, so are the
    /// sizes.
    #[inline(always)]
    pub fn rivals(self, y: &Record, z: &Record) -> bool {
        y[SET] == z[SET] && (order(y) ^ order(z)) >> self.last == 0 && order(y) != order(z)
    }

    /// Whether y dominates z.
    #[inline(always)]
    pub fn dominates(self, y: &Record, z: &Record) -> bool {
        self.rivals(y, z) && beats(y, z)
    }

    /// Whether one of the records with a bound up to `limit` dominates the child x.
    #[inline(always)]
    pub fn beaten(self, by: &[Record], x: &Record, limit: u32) -> bool {
        for y in by {
            if self.dominates(y, x) && y[BOUND] <= limit {
                return true;
            }
        }
        false
    }

    /// Whether a child by a stop of `alive` dominates x. Only the one by the stop that x has beyond b's can.
    #[inline(always)]
    pub fn displaced(self, x: &Record, kids: &Kids, alive: u32) -> bool {
        let own = (x[SET] ^ (self.is >> 32) as u32) & alive;
        own != 0 && self.dominates(at(kids, first(own) - 1), x)
    }
}

#[inline(always)]
pub fn first(set: u32) -> usize {
    set.trailing_zeros() as usize + 1
}

/// The stops of a set, lowest first.
pub struct Stops(pub u32);

impl Iterator for Stops {
    type Item = usize;
    #[inline(always)]
    fn next(&mut self) -> Option<usize> {
        if self.0 == 0 {
            return None;
        }
        let s = first(self.0);
        self.0 &= self.0 - 1;
        Some(s)
    }
}

/// The stops of `alive` whose children pass the test.
#[inline(always)]
pub fn passing(kids: &Kids, alive: u32, test: impl Fn(&Record) -> bool) -> u32 {
    let mut left = 0;
    for s in Stops(alive) {
        left |= (test(at(kids, s - 1)) as u32) << (s - 1);
    }
    left
}

/// The cheapest leg into `to` from one of some stops, or the largest number.
#[inline(always)]
fn cheapest(job: &Job, stops: u32, to: usize) -> u32 {
    Stops(stops).fold(NONE, |least, s| least.min(job.leg(s, to)))
}

/// What the bound adds to the path cost of e.
pub fn ahead(job: &Job) -> u32 {
    let rest = job.all();
    if job.bound == 0 {
        return 0;
    }
    let sum: u32 = Stops(rest).map(|s| job.leg(0, s).min(cheapest(job, rest & !(1 << (s - 1)), s))).sum();
    sum + cheapest(job, rest, 0)
}

/// What the children of a node share: for each stop left the cheapest leg into it from another one, and their sum; of
/// the legs home the cheapest, who gives it, and the cheapest of the others.
struct Family {
    into: [u32; PLACES],
    total: u32,
    home: u32,
    giver: usize,
    other: u32,
}

impl Family {
    #[inline(always)]
    fn of(job: &Job, rest: u32) -> Family {
        let mut family = Family { into: [0; PLACES], total: 0, home: 0, giver: 0, other: 0 };
        if rest & (rest - 1) == 0 {
            family.total = job.leg(first(rest), 0);
        } else if job.bound != 0 {
            family.share(job, rest);
        }
        family
    }

    #[inline(always)]
    fn share(&mut self, job: &Job, rest: u32) {
        (self.home, self.other) = (NONE, NONE);
        for s in Stops(rest) {
            let into = cheapest(job, rest & !(1 << (s - 1)), s);
            // SAFETY: no stop is above MOST_STOPS.
            unsafe { *self.into.get_unchecked_mut(s) = into };
            self.total += into;
            let home = job.leg(s, 0);
            self.other = if home < self.home { self.home } else { self.other.min(home) };
            if home < self.home {
                (self.home, self.giver) = (home, s);
            }
        }
    }

    /// What the bound adds to the path cost of the child by s.
    #[inline(always)]
    fn ahead(&self, s: usize) -> u32 {
        // SAFETY: no stop is above MOST_STOPS.
        let own = unsafe { *self.into.get_unchecked(s) };
        self.total - own + if s == self.giver { self.other } else { self.home }
    }
}

/// Writes each child of b to the slot of its stop and gives the set of these stops: all that b leaves.
pub fn family(job: &Job, b: &Record, kids: &mut Kids) -> u32 {
    let rest = job.all() - b[SET];
    let place = last(b, b[SIZE]);
    let family = Family::of(job, rest);
    for s in Stops(rest) {
        let path = b[PATH] + job.leg(place, s);
        let order = order(b) | (s as u64 - 1) << (4 * b[SIZE]);
        let bound = path + family.ahead(s);
        // SAFETY: no stop is above MOST_STOPS.
        unsafe {
            *kids.get_unchecked_mut(s - 1) =
                [b[SIZE] + 1, b[SET] | 1 << (s - 1), path, bound, order as u32, (order >> 32) as u32];
        }
    }
    rest
}
