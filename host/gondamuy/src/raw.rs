//! The calls as C has them: plain numbers go in, and plain structs, whose layout is C's, come out. They are safe, and
//! nothing is asked of a number: what does not fit is refused. What they answer is, over all inputs, that of `answer`
//! (crates/answer/specs/Answer.antt), of `first_answer` (crates/first_answer/specs/First.antt), of `read` and of `write`
//! (crates/job_format/specs/Reader.antt and Writer.antt).
//!
//! **Number 0 alone does not say "cheapest"**: a search that its budget stopped has number 0 too, and mark 1. A report
//! is to be read by [`Report::is_finished`], or by [`Planned::try_from`](crate::Planned), which tells the two apart.
//!
//! ```
//! use gondamuy::raw::{plan, Job};
//! use gondamuy::NO_BUDGET;
//!
//! let job = Job { n: 2, selection: 0, rules: 16, bound: 0 };
//! assert_eq!(plan(job, &[0; 9], &[], &[], NO_BUDGET, &mut [0; 6]).number, 4); // rules are 15 at most
//! let job = Job { rules: 15, ..job };
//! assert_eq!(plan(job, &[0; 9], &[], &[2, 1, 2], NO_BUDGET, &mut [0; 6]).number, 11); // no whole number of pairs
//! let stopped = plan(job, &[0; 9], &[], &[2, 1], 0, &mut [0; 6]);
//! assert_eq!((stopped.number, stopped.mark), (0, 1));
//! assert!(!stopped.is_finished());
//! ```

mod border;
mod layout;

use std::slice;

use crate::sizes::{ORDER_PLACES, RECORD_WORDS, TABLE_NUMBERS};

/// What a caller chooses: how many stops, which selection, which rules and which bound.
#[repr(C)]
#[derive(Clone, Copy, Debug, Default, PartialEq, Eq)]
pub struct Job {
    /// How many stops.
    pub n: u32,
    /// 0 to 3: see [`Selection`](crate::Selection).
    pub selection: u32,
    /// A sum of 1, 2, 4 and 8: see [`Rules`](crate::Rules).
    pub rules: u32,
    /// 0 to 3: see [`Bound`](crate::Bound).
    pub bound: u32,
}

/// The mark of a search that finished (beside number 0), and of every refusal.
pub const NOT_STOPPED: u32 = 0;

/// The mark of a search that its budget stopped, beside number 0.
pub const STOPPED: u32 = 1;

/// A cheapest order (number 0, mark 0), what a stopped search knows (number 0, mark 1), or a refusal (number 1 to 7 or
/// 11).
#[repr(C)]
#[derive(Clone, Copy, Debug, Default, PartialEq, Eq)]
pub struct Report {
    /// 0, or the number of the refusal: 1 to 6 and 11 come with zeros, 7 with the counts.
    pub number: u32,
    /// [`STOPPED`] if the budget stopped the search, else [`NOT_STOPPED`].
    pub mark: u32,
    /// The cost of the order.
    pub cost: u32,
    /// What every order that respects the pairs costs at least, if the search was stopped; else 0.
    pub floor: u32,
    /// The stops as they are flown, zeros past n; all zeros if none is known. There are orders that cost 0, so that it
    /// is the order, and not the cost, that tells.
    pub order: [u8; ORDER_PLACES],
    /// See [`Counts`](crate::Counts).
    pub branched: u64,
    /// See [`Counts`](crate::Counts).
    pub generated: u64,
    /// See [`Counts`](crate::Counts).
    pub eliminated: u64,
    /// See [`Counts`](crate::Counts).
    pub active: u64,
    /// See [`Counts`](crate::Counts).
    pub most: u64,
}

impl Report {
    /// Whether the search finished, so that its order is a cheapest one of those that respect the pairs.
    pub fn is_finished(&self) -> bool {
        self.number == 0 && self.mark == NOT_STOPPED
    }
}

/// An order to start from (number 0) or a refusal (number 1 to 4 or 11) and zeros.
#[repr(C)]
#[derive(Clone, Copy, Debug, Default, PartialEq, Eq)]
pub struct FirstOrder {
    /// 0, or the number of the refusal.
    pub number: u32,
    /// The cost of the order.
    pub cost: u32,
    /// The stops as they are flown, zeros past n.
    pub order: [u8; ORDER_PLACES],
}

/// What a file holds (number 0) or a refusal (number 8, 1, 9, 3, 4 or 5) and zeros.
#[repr(C)]
#[derive(Clone, Copy, Debug, PartialEq, Eq)]
pub struct Reading {
    /// 0, or the number of the refusal.
    pub number: u32,
    /// The job.
    pub job: Job,
    /// (n+1) squared numbers, row by row, and zeros behind.
    pub table: [u32; TABLE_NUMBERS],
    /// The starting order, and zeros behind.
    pub start: [u8; ORDER_PLACES],
    /// How many stops the starting order has: 0 or n.
    pub stops: u32,
}

impl Reading {
    /// Legs and landing charges, as `plan` and `write` take them; none of a refusal.
    pub fn table(&self) -> &[u32] {
        let side = if self.number == 0 { self.job.n as usize + 1 } else { 0 };
        &self.table[..side * side]
    }

    /// The starting order, as `plan` and `write` take it.
    pub fn start(&self) -> &[u8] {
        &self.start[..self.stops as usize]
    }
}

/// A file's length (number 0) or a refusal (number 1 to 5 or 10) and 0.
#[repr(C)]
#[derive(Clone, Copy, Debug, PartialEq, Eq)]
pub struct Written {
    /// 0, or the number of the refusal.
    pub number: u32,
    /// The file's length, 0 beside a refusal.
    pub length: usize,
}

/// A record of the pool, six words in a row: a node, the stops that are flown first.
#[repr(C)]
#[derive(Clone, Copy, Debug, Default, PartialEq, Eq)]
pub struct Record {
    /// How many stops.
    pub size: u32,
    /// Stop s adds 2 to the power s-1.
    pub set: u32,
    /// What the legs flown and their landings cost.
    pub path: u32,
    /// What its whole orders cost at least.
    pub bound: u32,
    /// s-1 in four bits each, the first eight stops, first stop lowest.
    pub first: u32,
    /// The others.
    pub second: u32,
}

/// Puts the stops 1 to n into the cheapest order that respects the pairs, within a budget of branchings:
/// [`crate::plan`] of any numbers, with the bytes of a pair file as `pairs`.
pub fn plan(job: Job, table: &[u32], start: &[u8], pairs: &[u8], budget: u64, pool: &mut [u32]) -> Report {
    // SAFETY: the slices are valid for their lengths, and `pool`, lent as mutable, overlaps none of the others.
    unsafe {
        border::gondamuy_plan(
            job,
            table.as_ptr(),
            table.len(),
            start.as_ptr(),
            start.len(),
            pairs.as_ptr(),
            pairs.len(),
            budget,
            pool.as_mut_ptr(),
            pool.len(),
        )
    }
}

/// `plan` with a pool of records: the same call over the same memory. No record is a part record, so number 6 comes
/// from an empty pool alone.
pub fn plan_records(job: Job, table: &[u32], start: &[u8], pairs: &[u8], budget: u64, pool: &mut [Record]) -> Report {
    plan(job, table, start, pairs, budget, words(pool))
}

/// The memory of some records as the pool's words.
pub fn words(pool: &mut [Record]) -> &mut [u32] {
    // SAFETY: a record is six words in a row (`layout`), each of which may hold any number, and the borrow goes over.
    unsafe { slice::from_raw_parts_mut(pool.as_mut_ptr().cast(), pool.len() * RECORD_WORDS) }
}

/// Makes an order of the stops 1 to n to start from: [`crate::first_order`] of any numbers, with the bytes of a pair
/// file as `pairs`.
pub fn first_order(n: u32, bound: u32, table: &[u32], pairs: &[u8]) -> FirstOrder {
    // SAFETY: the slices are valid for their lengths.
    unsafe { border::gondamuy_first_order(n, bound, table.as_ptr(), table.len(), pairs.as_ptr(), pairs.len()) }
}

/// Reads a job file, which has no pairs: [`crate::read`] with its number.
pub fn read(file: &[u8]) -> Reading {
    // SAFETY: the slice is valid for its length.
    unsafe { border::gondamuy_read(file.as_ptr(), file.len()) }
}

/// Writes a job's file at the front of a buffer: [`crate::write`] of any numbers.
pub fn write(job: Job, table: &[u32], start: &[u8], buffer: &mut [u8]) -> Written {
    // SAFETY: as for `plan`, with `buffer` lent as mutable.
    unsafe {
        border::gondamuy_write(
            job,
            table.as_ptr(),
            table.len(),
            start.as_ptr(),
            start.len(),
            buffer.as_mut_ptr(),
            buffer.len(),
        )
    }
}
