//! Calls to be refused.

use samples::T;
use witness::{plan, Report, Request, LARGEST_BUDGET};

/// A call on table T that passes every check, to be spoiled in places.
#[derive(Clone)]
pub struct Call {
    pub n: u64,
    pub table: Vec<u32>,
    pub selection: u64,
    pub rules: u64,
    pub bound: u64,
    pub start: Vec<u32>,
    pub pairs: Vec<u8>,
    pub budget: u64,
    pub pool: Vec<u32>,
}

pub fn good() -> Call {
    let pool = (0..96).map(|i| 0xA5A5_0000 + i).collect();
    let (table, start, pairs) = (T.to_vec(), vec![2, 3, 1], Vec::new());
    Call { n: 3, table, selection: 3, rules: 15, bound: 1, start, pairs, budget: LARGEST_BUDGET, pool }
}

/// The number, beside which a refusal has zeros and leaves the pool.
pub fn number(call: &Call) -> u32 {
    let mut pool = call.pool.clone();
    let Call { n, ref table, selection, rules, bound, ref start, ref pairs, budget, .. } = *call;
    let report = plan(&Request { n, table, selection, rules, bound, start, pairs, budget }, &mut pool);
    if (1..=6).contains(&report.number) || report.number == 11 {
        let bare = Report { number: report.number, ..Report::default() };
        assert_eq!(report, bare, "all else is zero");
        assert_eq!(pool, call.pool, "the pool stays as it was");
    }
    report.number
}

pub fn spoiled(spoil: impl Fn(&mut Call)) -> u32 {
    let mut call = good();
    spoil(&mut call);
    number(&call)
}
