//! The proved stop-order planner, a first order for it to start from, and the proved reader and writer of job files,
//! safe to call with anything.
//!
//! ```
//! use gondamuy::{plan_records, Bound, Job, Planned, Record, Rules, Selection, NO_BUDGET};
//!
//! // Three stops. Entry j of row i is the leg from place i to place j, and home is place 0. On the diagonal stands
//! // what a landing is charged, here nothing.
//! let table = [0, 4, 7, 9, 5, 0, 2, 6, 3, 8, 0, 1, 6, 5, 4, 0];
//! let selection = Selection::LeastBoundEarliest;
//! let job = Job { n: 3, selection, rules: Rules::UPPER_COST, bound: Bound::Close };
//! let mut pool = vec![Record::default(); 2000];
//! match plan_records(job, &table, &[], &[], NO_BUDGET, &mut pool)? {
//!     Planned::Finished(plan) => assert_eq!((plan.cost, plan.order()), (13, &[1, 2, 3][..])),
//!     Planned::Stopped(_) => unreachable!("there is no budget to stop it"),
//! }
//! # Ok::<(), gondamuy::Refused>(())
//! ```
//!
//! **A search that its budget stopped is no plan.** It is answered too, and not refused: what it knows is a
//! [`Stopped`], and only what comes as [`Planned::Finished`] is a cheapest order.
//!
//! **A job file has no pairs.** They are a file of their own ([`pairs_of`], [`pair_file`]); who plans what was read
//! from a job file hands them in beside it, or plans without them.
//!
//! What is chosen has a type ([`Job`], [`Pair`]); what is refused is an error with its number and its words
//! ([`Refusal`]). Each call is one of module [`raw`], which has the plain numbers.

#![warn(missing_docs)]

mod answers;
mod choices;
mod pairs;
pub mod raw;
mod refusal;
mod sizes;

pub use answers::{Contents, Counts, FirstOrder, KnownOrder, Plan, Planned, Refused, Stopped};
pub use choices::{Bound, Job, Rules, Selection, NO_BUDGET};
pub use pairs::{pair_file, pairs_of, Pair};
pub use raw::{words, Record};
pub use refusal::Refusal;
pub use sizes::*;

/// Puts the stops 1 to n into the cheapest order that respects the pairs, within a budget of branchings. **Only
/// [`Planned::Finished`] is a cheapest order**; a search whose budget was spent before it finished is
/// [`Planned::Stopped`]. Of several cheapest orders it is the smallest in comparison stop by stop (request A.8),
/// whatever the search; the known order of a stopped search need not be.
///
/// `table` has (n+1) squared numbers, row by row: legs, and landing charges on the diagonal (below); `start` is a
/// starting order or empty; `pairs` are [`MOST_PAIRS`] at most, or none (below); `budget` is how many nodes may be
/// branched, 0 included, or [`NO_BUDGET`]; `pool` is lent for whole records of [`RECORD_WORDS`] words each, and what it
/// holds beforehand plays no part. Refused by the first of 1, 2, 3, 5, 11 and 6 that applies, or else by 7.
///
/// Before each branching it is asked first whether the search is finished, then whether the budget is spent, then
/// whether the pool holds what comes of it. So a search that finishes within its budget gives the same as without one,
/// and one whose budget is spent is never refused by 7.
///
/// Beside an answer the pool holds the nodes that were left: `counts.active` active ones, the earliest generated first;
/// with [`Rules::BY_BRANCHED`] behind them `counts.branched` branched ones, the earliest branched first; zeros behind.
/// Where it is full it holds, in the same layout, the nodes before the branching whose nodes did not fit, and the
/// counts are those up to there. Any other refusal leaves it as it was.
///
/// ```
/// # use gondamuy::*;
/// # let table = [0, 4, 7, 9, 5, 0, 2, 6, 3, 8, 0, 1, 6, 5, 4, 0];
/// let job = Job { n: 3, selection: Selection::Lifo, rules: Rules::UPPER_COST, bound: Bound::Close };
/// let mut pool = [0; RECORD_WORDS];
/// let refused = plan(job, &table, &[], &[], NO_BUDGET, &mut pool).unwrap_err();
/// assert_eq!((refused.refusal, refused.counts.branched), (Refusal::Full, 0));
/// // From the order itself one record is enough here.
/// let started = plan(job, &table, &[1, 2, 3], &[], NO_BUDGET, &mut pool)?.finished()?;
/// assert_eq!((started.cost, started.counts.branched), (13, 3));
/// # Ok::<(), Box<dyn std::error::Error>>(())
/// ```
///
/// # Landing charges
///
/// Entry j of row i is the leg from place i to place j, at most [`DEAREST_LEG`]; entry i of row i is the landing charge
/// of place i, home's too, at most [`DEAREST_CHARGE`] (request A.4). Flying from i to j costs the leg and the charge of
/// j, so that an order costs its legs and every landing: one at each stop, and one at home at the end of the day, where
/// it ends there.
///
/// ```
/// # use gondamuy::*;
/// let job = Job { n: 1, selection: Selection::Fifo, rules: Rules::NONE, bound: Bound::Plain };
/// let mut pool = [Record::default(); 1];
/// // 3 out and 5 back; a landing at home is charged 7, one at the stop 20.
/// let plan = plan_records(job, &[7, 3, 5, 20], &[], &[], NO_BUDGET, &mut pool)?.finished()?;
/// assert_eq!(plan.cost, 3 + 20 + 5 + 7);
/// # Ok::<(), Box<dyn std::error::Error>>(())
/// ```
///
/// # A day that ends away
///
/// With [`Bound::PlainAway`] and [`Bound::CloseAway`] the day ends at the last stop (request A.5): neither the leg home
/// nor the landing there is in a cost, a bound or a floor, and the order of a finished search is cheapest without
/// them. The table has them all the same, and a leg home that is too dear is refused as any other.
///
/// ```
/// # use gondamuy::*;
/// # let mut pool = [Record::default(); 1];
/// let job = Job { n: 1, selection: Selection::Fifo, rules: Rules::NONE, bound: Bound::PlainAway };
/// let plan = plan_records(job, &[7, 3, 5, 20], &[], &[], NO_BUDGET, &mut pool)?.finished()?;
/// assert_eq!(plan.cost, 3 + 20);
/// # Ok::<(), Box<dyn std::error::Error>>(())
/// ```
///
/// # Pick-up before drop
///
/// In each of the pairs `pick_up` is flown before `drop`, at once or with other stops between (request A.6). A stop
/// stands in one pair at most. Orders that go the other way are not searched and play no part: cheapest, floor and
/// known order are of those that respect the pairs. A starting order that goes the other way is refused by 5; pairs
/// that do not fit the stops are refused by 11. Costs, floors and counts of two searches are held against each other
/// only where both have the same pairs.
///
/// ```
/// # use gondamuy::*;
/// # let table = [0, 4, 7, 9, 5, 0, 2, 6, 3, 8, 0, 1, 6, 5, 4, 0];
/// # let job = Job { n: 3, selection: Selection::Fifo, rules: Rules::NONE, bound: Bound::Plain };
/// # let mut pool = [Record::default(); 20];
/// let pairs = [Pair { pick_up: 3, drop: 1 }];
/// let plan = plan_records(job, &table, &[], &pairs, NO_BUDGET, &mut pool)?.finished()?;
/// assert_eq!((plan.cost, plan.order()), (18, &[2, 3, 1][..])); // without the pair 1 2 3 costs 13
/// let against = plan_records(job, &table, &[1, 2, 3], &pairs, NO_BUDGET, &mut pool).unwrap_err();
/// assert_eq!(against.refusal, Refusal::Start);
/// let twice = [Pair { pick_up: 3, drop: 1 }, Pair { pick_up: 2, drop: 3 }];
/// let refused = plan_records(job, &table, &[], &twice, NO_BUDGET, &mut pool).unwrap_err();
/// assert_eq!(refused.refusal, Refusal::Pairs);
/// # Ok::<(), Box<dyn std::error::Error>>(())
/// ```
///
/// # Best so far, and how far off
///
/// A stopped search tells what it knows (request A.3): no order that respects the pairs costs less than its floor, so
/// that the known order, if there is one, is off by no more than what it costs above that.
///
/// ```
/// # use gondamuy::*;
/// # let table = [0, 4, 7, 9, 5, 0, 2, 6, 3, 8, 0, 1, 6, 5, 4, 0];
/// let job = Job { n: 3, selection: Selection::Fifo, rules: Rules::NONE, bound: Bound::Plain };
/// let mut pool = [Record::default(); 20];
/// let Planned::Stopped(stopped) = plan_records(job, &table, &[], &[], 5, &mut pool)? else { unreachable!() };
/// let known = stopped.known.unwrap();
/// assert_eq!((known.cost, known.order()), (13, &[1, 2, 3][..]));
/// assert_eq!((stopped.floor, stopped.far_off()), (8, Some(5)));
/// // At once nothing is known but that no order costs less than 0.
/// let Planned::Stopped(stopped) = plan_records(job, &table, &[], &[], 0, &mut pool)? else { unreachable!() };
/// assert_eq!((stopped.floor, stopped.known), (0, None));
/// # Ok::<(), Refused>(())
/// ```
pub fn plan(
    job: Job,
    table: &[u32],
    start: &[u8],
    pairs: &[Pair],
    budget: u64,
    pool: &mut [u32],
) -> Result<Planned, Refused> {
    raw::plan(job.into(), table, start, pair_file(pairs), budget, pool).try_into()
}

/// [`plan`] with a pool of records: the same call over the same memory, and nothing is copied. No record is a part
/// record, so [`Refusal::Pool`] comes from an empty pool alone.
pub fn plan_records(
    job: Job,
    table: &[u32],
    start: &[u8],
    pairs: &[Pair],
    budget: u64,
    pool: &mut [Record],
) -> Result<Planned, Refused> {
    plan(job, table, start, pairs, budget, words(pool))
}

/// Makes an order of the stops 1 to n to start from, where nobody has typed one (request A.1).
///
/// `n`, `table` and `pairs` are as for [`plan`], and `bound` is that of the job that is to start from the order: it
/// says whether the leg home is in what an order costs ([`Bound::ends_away`], request A.5), and nothing else. From each
/// place on, home first, the nearest stop left is flown: of those whose pick-up, if they have one, is flown already
/// (request A.6), the one that is cheapest to fly to and land at, the lowest number of several. Then two stops change
/// places as long as that lowers the cost and the pairs are respected: of all such exchanges the one that lowers it
/// most, of several the one that begins earliest in the order, then the one that ends earliest. The order respects the
/// pairs and costs no more than that of the nearest stops, and no exchange of two of its stops that respects the pairs
/// makes it cheaper; but another order may be cheaper still, and [`plan`] finds one that is cheapest. Refused by the
/// first of 1, 2, 3 and 11 that applies.
///
/// [`plan`] does not make one by itself. As a starting order with the same pairs it is never refused by 5; with other
/// pairs it may be:
///
/// ```
/// # use gondamuy::*;
/// let table = [0, 1, 2, 9, 1, 0, 1, 9, 9, 9, 0, 1, 5, 1, 9, 0];
/// let job = Job { n: 3, selection: Selection::Lifo, rules: Rules::UPPER_COST, bound: Bound::Close };
/// let first = first_order(job.n, job.bound, &table, &[])?;
/// assert_eq!((first.cost, first.order()), (8, &[1, 2, 3][..]));
/// let mut pool = vec![Record::default(); 100];
/// let plan = plan_records(job, &table, first.order(), &[], NO_BUDGET, &mut pool)?.finished()?;
/// assert_eq!((plan.cost, plan.order()), (5, &[2, 3, 1][..]));
/// // Where the day ends away it costs its legs up to stop 3.
/// assert_eq!(first_order(3, Bound::CloseAway, &table, &[])?.cost, 3);
/// // Who is set down at stop 1 is fetched at stop 2.
/// let pairs = [Pair { pick_up: 2, drop: 1 }];
/// assert_eq!(first_order(3, job.bound, &table, &pairs)?.order(), [2, 3, 1]);
/// let refused = plan_records(job, &table, first.order(), &pairs, NO_BUDGET, &mut pool).unwrap_err();
/// assert_eq!(refused.refusal, Refusal::Start);
/// # Ok::<(), Box<dyn std::error::Error>>(())
/// ```
pub fn first_order(n: u32, bound: Bound, table: &[u32], pairs: &[Pair]) -> Result<FirstOrder, Refusal> {
    raw::first_order(n, bound as u32, table, pair_file(pairs)).try_into()
}

/// Reads a job file, which has no pairs ([`pairs_of`] reads those). Refused by the first of 8, 1, 9, 3, 4 and 5 that
/// applies.
pub fn read(file: &[u8]) -> Result<Contents, Refusal> {
    Contents::of(raw::read(file))
}

/// Writes a job's file at the front of `buffer` and gives its length; the bytes behind it stay as they were. `job` with
/// its n, `table` and `start` are as for [`plan`]. Pairs go into no job file ([`pair_file`] has their bytes), and
/// `start` is not held to them. Refused by the first of 1, 2, 3, 5 and 10 that applies, which leaves the whole buffer
/// as it was. [`LONGEST_FILE`] bytes are enough for every job.
///
/// ```
/// # use gondamuy::*;
/// let job = Job { n: 1, selection: Selection::Fifo, rules: Rules::NONE, bound: Bound::Plain };
/// let mut buffer = [0; LONGEST_FILE];
/// let length = write(job, &[0, 3, 5, 0], &[1], &mut buffer)?;
/// let contents = read(&buffer[..length])?;
/// assert_eq!((contents.job, contents.table(), contents.start()), (job, &[0, 3, 5, 0][..], &[1][..]));
/// # Ok::<(), Refusal>(())
/// ```
pub fn write(job: Job, table: &[u32], start: &[u8], buffer: &mut [u8]) -> Result<usize, Refusal> {
    let written = raw::write(job.into(), table, start, buffer);
    Refusal::check(written.number)?;
    Ok(written.length)
}
