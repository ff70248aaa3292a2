//! Refusals 1 to 6, the lowest number that applies (document 01, "Causes and
//! numbers"; number 3 with request A.4 of document 02, number 4 with A.5), and
//! between 5 and 6 request A.6's number 11.

use crate::legs::{Legs, Place, MOST_STOPS};
use crate::node::Bound;
use crate::pairs::Pairs;
use crate::run::{Job, Rules, Selection};
use crate::words::WORDS;

/// What a leg may cost at most.
pub const DEAREST_LEG: u32 = 1_000_000;

/// What a landing may cost at most.
pub const DEAREST_CHARGE: u32 = 100_000;

/// The largest budget, which no run reaches.
pub const LARGEST_BUDGET: u64 = u64::MAX;

/// What a caller hands in beside the pool.
#[derive(Clone, Copy)]
pub struct Request<'a> {
    pub n: u64,
    pub table: &'a [u32],
    pub selection: u64,
    pub rules: u64,
    pub bound: u64,
    pub start: &'a [u32],
    /// The pair file's bytes.
    pub pairs: &'a [u8],
    /// Branchings to be made at most; no check looks at it.
    pub budget: u64,
}

/// A starting order that is a permutation gets number 5 only behind pairs that
/// pass, so that 11 may be asked for first.
pub fn check(request: &Request, pool_words: usize) -> Result<Job, u32> {
    let job = check_job(request)?;
    let pairs = Pairs::read(job.legs.n, request.pairs).ok_or(11u32)?;
    if !pairs.respected_by(&job.start) {
        return Err(5);
    }
    if pool_words == 0 || pool_words % WORDS != 0 {
        return Err(6);
    }
    Ok(Job { pairs, ..job })
}

/// Refusals 1 to 5, which look at neither pairs nor pool. The job has no pairs.
pub fn check_job(request: &Request) -> Result<Job, u32> {
    let legs = check_legs(request.n, request.table)?;
    let selection = selection(request.selection).ok_or(4u32)?;
    let rules = rules(request.rules).ok_or(4u32)?;
    let bound = bound(request.bound).ok_or(4u32)?;
    let start = starting_order(legs.n, request.start).ok_or(5u32)?;
    Ok(Job { legs, selection, rules, bound, start, pairs: Pairs::none(), budget: request.budget })
}

/// Refusals 1 to 4 and 11 of the first order's call (requests A.1, A.5 and
/// A.6), whose number 4 looks at the bound alone.
pub fn check_first(n: u64, bound_number: u64, table: &[u32], pairs: &[u8]) -> Result<(Legs, Bound, Pairs), u32> {
    let legs = check_legs(n, table)?;
    let bound = bound(bound_number).ok_or(4u32)?;
    let pairs = Pairs::read(legs.n, pairs).ok_or(11u32)?;
    Ok((legs, bound, pairs))
}

/// Refusals 1 to 3, which look at n and the table alone.
pub fn check_legs(n: u64, table: &[u32]) -> Result<Legs, u32> {
    if !n_allowed(n) {
        return Err(1);
    }
    let n = n as usize;
    if table.len() != (n + 1) * (n + 1) {
        return Err(2);
    }
    let legs = Legs::new(n, table);
    if !legs_allowed(&legs) {
        return Err(3);
    }
    Ok(legs)
}

pub fn n_allowed(n: u64) -> bool {
    (1..=MOST_STOPS as u64).contains(&n)
}

/// Of each number by itself: a leg and a landing may come to more together.
fn legs_allowed(legs: &Legs) -> bool {
    for i in 0..=legs.n {
        if legs.charge(i) > DEAREST_CHARGE {
            return false;
        }
        for j in (0..=legs.n).filter(|&j| j != i) {
            if legs.leg(i, j) > DEAREST_LEG {
                return false;
            }
        }
    }
    true
}

fn selection(selection: u64) -> Option<Selection> {
    match selection {
        0 => Some(Selection::LeastBoundEarliest),
        1 => Some(Selection::LeastBoundLatest),
        2 => Some(Selection::Fifo),
        3 => Some(Selection::Lifo),
        _ => None,
    }
}

/// The rules that a sum has.
fn rules(sum: u64) -> Option<Rules> {
    if sum > 15 {
        return None;
    }
    Some(Rules {
        upper_cost: sum & 1 != 0,
        active_child: sum & 2 != 0,
        branched_child: sum & 4 != 0,
        child_active: sum & 8 != 0,
    })
}

/// 2 and 3 are of days that end away (request A.5).
fn bound(bound: u64) -> Option<Bound> {
    match bound {
        0 => Some(Bound::Plain),
        1 => Some(Bound::Close),
        2 => Some(Bound::PlainAway),
        3 => Some(Bound::CloseAway),
        _ => None,
    }
}

/// The starting order if it is empty or a permutation of 1 to n.
fn starting_order(n: usize, start: &[u32]) -> Option<Vec<Place>> {
    if start.is_empty() {
        return Some(Vec::new());
    }
    if start.len() != n {
        return None;
    }
    for stop in 1..=n as u32 {
        if !start.contains(&stop) {
            return None;
        }
    }
    Some(start.iter().map(|&s| s as Place).collect())
}
