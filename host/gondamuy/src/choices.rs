//! What a caller chooses, each choice by its name.

use std::ops::BitOr;

use crate::{raw, Refusal};

/// Which active node is branched next.
#[derive(Clone, Copy, Debug, PartialEq, Eq, Hash)]
#[repr(u32)]
pub enum Selection {
    /// 0: the least bound; on ties nodes that are not complete first, of these the earliest generated.
    LeastBoundEarliest = 0,
    /// 1: the least bound; on ties nodes that are not complete first, of these the latest generated.
    LeastBoundLatest = 1,
    /// 2: the earliest generated.
    Fifo = 2,
    /// 3: the latest generated that is not complete, which is depth first.
    Lifo = 3,
}

/// Which nodes are eliminated: a set of the four rules, put together by `|`.
///
/// ```
/// use gondamuy::Rules;
///
/// let dominance = Rules::BY_ACTIVE | Rules::BY_BRANCHED | Rules::BY_CHILD;
/// assert_eq!(dominance | Rules::UPPER_COST, Rules::ALL);
/// assert!(!dominance.has(Rules::UPPER_COST));
/// ```
#[derive(Clone, Copy, Debug, Default, PartialEq, Eq, Hash)]
pub struct Rules(u32);

impl Rules {
    /// No node is eliminated.
    pub const NONE: Rules = Rules(0);
    /// 1: nodes whose bound is above the cost of the cheapest order known go.
    pub const UPPER_COST: Rules = Rules(1);
    /// 2: children that an active node dominates go.
    pub const BY_ACTIVE: Rules = Rules(2);
    /// 4: children that a branched node dominates go. The pool then keeps the branched nodes too.
    pub const BY_BRANCHED: Rules = Rules(4);
    /// 8: active nodes that a child dominates go.
    pub const BY_CHILD: Rules = Rules(8);
    /// All four.
    pub const ALL: Rules = Rules(15);

    /// Whether all of some rules are among these.
    pub const fn has(self, rules: Rules) -> bool {
        self.0 & rules.0 == rules.0
    }
}

impl BitOr for Rules {
    type Output = Rules;

    fn bitor(self, other: Rules) -> Rules {
        Rules(self.0 | other.0)
    }
}

/// How a node's bound, which none of its whole orders costs less than, is reckoned, and where the day ends (request
/// A.5): at home, or at the last stop, where no leg home counts.
#[derive(Clone, Copy, Debug, PartialEq, Eq, Hash)]
#[repr(u32)]
pub enum Bound {
    /// 0: what the flying so far costs, landings included.
    Plain = 0,
    /// 1: what the flying so far costs, and the cheapest legs to come with their landings.
    Close = 1,
    /// 2: plain for a day that ends at the last stop.
    PlainAway = 2,
    /// 3: close for such a day.
    CloseAway = 3,
}

impl Bound {
    /// Whether the day ends at the last stop. Costs and floors of two searches over one table with the same pairs may
    /// be held against each other only where this says the same of both bounds.
    pub const fn ends_away(self) -> bool {
        matches!(self, Bound::PlainAway | Bound::CloseAway)
    }
}

/// The bound of a number; another number is refused as a call refuses it, by [`Refusal::Choice`].
impl TryFrom<u32> for Bound {
    type Error = Refusal;

    fn try_from(number: u32) -> Result<Bound, Refusal> {
        match number {
            0 => Ok(Bound::Plain),
            1 => Ok(Bound::Close),
            2 => Ok(Bound::PlainAway),
            3 => Ok(Bound::CloseAway),
            _ => Err(Refusal::Choice),
        }
    }
}

/// The budget of a search that is not to be stopped: by a theorem no search makes so many branchings.
pub const NO_BUDGET: u64 = u64::MAX;

/// What a caller chooses: how many stops, and how to search.
#[derive(Clone, Copy, Debug, PartialEq, Eq, Hash)]
pub struct Job {
    /// How many stops, 1 to [`MOST_STOPS`](crate::MOST_STOPS); another is refused.
    pub n: u32,
    /// Which active node is branched next.
    pub selection: Selection,
    /// Which nodes are eliminated.
    pub rules: Rules,
    /// How a node's bound is reckoned, and where the day ends.
    pub bound: Bound,
}

impl From<Job> for raw::Job {
    fn from(job: Job) -> raw::Job {
        raw::Job { n: job.n, selection: job.selection as u32, rules: job.rules.0, bound: job.bound as u32 }
    }
}

/// A job whose numbers name choices; others are refused as a call refuses them, by [`Refusal::Choice`].
impl TryFrom<raw::Job> for Job {
    type Error = Refusal;

    fn try_from(job: raw::Job) -> Result<Job, Refusal> {
        let selection = match job.selection {
            0 => Selection::LeastBoundEarliest,
            1 => Selection::LeastBoundLatest,
            2 => Selection::Fifo,
            3 => Selection::Lifo,
            _ => return Err(Refusal::Choice),
        };
        let rules = match job.rules {
            0..=15 => Rules(job.rules),
            _ => return Err(Refusal::Choice),
        };
        Ok(Job { n: job.n, selection, rules, bound: job.bound.try_into()? })
    }
}
