//! What the calls answer.

use std::error::Error;
use std::fmt;

use crate::sizes::ORDER_PLACES;
use crate::{raw, Job, Refusal};

/// What a search did: generated = branched + eliminated + active.
#[derive(Clone, Copy, Debug, Default, PartialEq, Eq)]
pub struct Counts {
    /// Nodes branched.
    pub branched: u64,
    /// The empty node and every child.
    pub generated: u64,
    /// Nodes that a rule took away.
    pub eliminated: u64,
    /// Nodes still active at the end.
    pub active: u64,
    /// The most that were active at once.
    pub most: u64,
}

/// What a search came to, one of two things: only a finished one has a [`Plan`], and only a plan is a cheapest order.
///
/// A stopped search has neither cost nor order of its own, so that what it knows cannot be taken for a plan:
///
/// ```compile_fail,E0609
/// # use gondamuy::*;
/// # let table = [0, 4, 7, 9, 5, 0, 2, 6, 3, 8, 0, 1, 6, 5, 4, 0];
/// # let job = Job { n: 3, selection: Selection::Fifo, rules: Rules::NONE, bound: Bound::Plain };
/// # let mut pool = [Record::default(); 20];
/// let cost = plan_records(job, &table, &[], &[], 5, &mut pool)?.cost; // no such field: of which of the two?
/// # Ok::<(), Refused>(())
/// ```
#[derive(Clone, Copy, Debug, PartialEq, Eq)]
#[must_use = "the search may have been stopped, with no plan"]
pub enum Planned {
    /// The search finished: a cheapest order of those that respect the pairs, of several the smallest.
    Finished(Plan),
    /// The budget was spent before that: what is known up to there.
    Stopped(Stopped),
}

impl Planned {
    /// The plan, or else the stopped search as an error.
    pub fn finished(self) -> Result<Plan, Stopped> {
        match self {
            Planned::Finished(plan) => Ok(plan),
            Planned::Stopped(stopped) => Err(stopped),
        }
    }
}

/// What a report says; one with a number other than 0 is refused.
///
/// # Panics
///
/// Where there is no such number or no such mark. No call answers that, but for one of another version of the library.
impl TryFrom<raw::Report> for Planned {
    type Error = Refused;

    fn try_from(report: raw::Report) -> Result<Planned, Refused> {
        let raw::Report { number, mark, cost, floor, order, branched, generated, eliminated, active, most } = report;
        let counts = Counts { branched, generated, eliminated, active, most };
        Refusal::check(number).map_err(|refusal| Refused { refusal, counts })?;
        match mark {
            raw::NOT_STOPPED => Ok(Planned::Finished(Plan { cost, counts, order })),
            raw::STOPPED => {
                let known = (!flown(&order).is_empty()).then_some(KnownOrder { cost, order });
                Ok(Planned::Stopped(Stopped { floor, known, counts }))
            }
            _ => panic!("no search has the mark {mark}: the library is of another version"),
        }
    }
}

/// The stops of an order without the zeros behind them.
fn flown(order: &[u8; ORDER_PLACES]) -> &[u8] {
    let stops = order.iter().position(|&stop| stop == 0).unwrap_or(ORDER_PLACES);
    &order[..stops]
}

/// A cheapest order of the stops: no order that respects the pairs costs less, and none that costs the same is smaller
/// in comparison stop by stop (request A.8).
#[derive(Clone, Copy, Debug, PartialEq, Eq)]
#[must_use]
pub struct Plan {
    /// What it costs.
    pub cost: u32,
    /// What the search did.
    pub counts: Counts,
    order: [u8; ORDER_PLACES],
}

impl Plan {
    /// The stops as they are flown.
    pub fn order(&self) -> &[u8] {
        flown(&self.order)
    }
}

/// A search that its budget stopped (request A.3). Every order that respects the pairs costs at least `floor`; a
/// cheapest one of them costs at most what the known one does, if one is known. Orders that do not respect them play no
/// part (request A.6).
///
/// A larger budget that stops the same search has no lower floor and, where the smaller one has a known order, one that
/// is no dearer.
#[derive(Clone, Copy, Debug, PartialEq, Eq)]
#[must_use]
pub struct Stopped {
    /// What every order that respects the pairs costs at least: the least bound among the active nodes.
    pub floor: u32,
    /// The cheapest order that is known: the starting order, or one that the search came upon. Another may be cheaper.
    pub known: Option<KnownOrder>,
    /// What the search did; as many branchings as the budget has.
    pub counts: Counts,
}

impl Stopped {
    /// How far off the known order is at most: what it costs above the floor. A cheapest order saves no more than that.
    /// No call answers with a floor above that cost (a theorem); for a made-up report that has one it is 0.
    pub fn far_off(&self) -> Option<u32> {
        self.known.map(|known| known.cost.saturating_sub(self.floor))
    }
}

/// What is known, and that the search was stopped. An order is allowed if it respects the pairs that were handed in.
impl fmt::Display for Stopped {
    fn fmt(&self, out: &mut fmt::Formatter) -> fmt::Result {
        write!(
            out,
            "stopped by its budget of {}: no allowed order costs less than {}",
            self.counts.branched, self.floor
        )?;
        match self.known {
            Some(known) => write!(out, ", and one that costs {} is known", known.cost),
            None => write!(out, ", and no order is known"),
        }
    }
}

impl Error for Stopped {}

/// The cheapest order that a stopped search knows, which respects the pairs and need not be a cheapest order of the
/// stops.
#[derive(Clone, Copy, Debug, PartialEq, Eq)]
pub struct KnownOrder {
    /// What it costs.
    pub cost: u32,
    order: [u8; ORDER_PLACES],
}

impl KnownOrder {
    /// The stops as they are flown, as [`plan`](crate::plan) with the same pairs takes a starting order.
    pub fn order(&self) -> &[u8] {
        flown(&self.order)
    }
}

/// Why there is no answer. Where the pool is full, the search's counts up to there come along; elsewhere they are
/// zeros.
#[derive(Clone, Copy, Debug, PartialEq, Eq)]
pub struct Refused {
    /// Why.
    pub refusal: Refusal,
    /// What the search did before its pool was full.
    pub counts: Counts,
}

impl From<Refused> for Refusal {
    fn from(refused: Refused) -> Refusal {
        refused.refusal
    }
}

impl fmt::Display for Refused {
    fn fmt(&self, out: &mut fmt::Formatter) -> fmt::Result {
        self.refusal.fmt(out)
    }
}

impl Error for Refused {}

/// An order to start from, which respects the pairs. No exchange of two of its stops that respects them makes it
/// cheaper; another order may be.
#[derive(Clone, Copy, Debug, PartialEq, Eq)]
pub struct FirstOrder {
    /// What it costs.
    pub cost: u32,
    order: [u8; ORDER_PLACES],
}

impl FirstOrder {
    /// The stops as they are flown, as [`plan`](crate::plan) with the same pairs and [`write`](crate::write) take a
    /// starting order.
    pub fn order(&self) -> &[u8] {
        flown(&self.order)
    }
}

/// What an answer says; one with a number other than 0 is refused.
///
/// # Panics
///
/// Where there is no such number. No call answers that, but for one of another version of the library.
impl TryFrom<raw::FirstOrder> for FirstOrder {
    type Error = Refusal;

    fn try_from(first: raw::FirstOrder) -> Result<FirstOrder, Refusal> {
        let raw::FirstOrder { number, cost, order } = first;
        Refusal::check(number)?;
        Ok(FirstOrder { cost, order })
    }
}

/// What a job file holds. Pairs are no part of it (request A.6): they are a file of their own.
#[derive(Clone, Copy, Debug, PartialEq, Eq)]
pub struct Contents {
    /// The job.
    pub job: Job,
    reading: raw::Reading,
}

impl Contents {
    /// Legs and landing charges, as [`plan`](crate::plan) and [`write`](crate::write) take them.
    pub fn table(&self) -> &[u32] {
        self.reading.table()
    }

    /// The starting order, as [`plan`](crate::plan) and [`write`](crate::write) take it; empty if the file has none.
    pub fn start(&self) -> &[u8] {
        self.reading.start()
    }

    pub(crate) fn of(reading: raw::Reading) -> Result<Contents, Refusal> {
        Refusal::check(reading.number)?;
        Ok(Contents { job: reading.job.try_into()?, reading })
    }
}
