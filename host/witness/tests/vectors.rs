//! The worked calls of host/vectors, for document 01 with requests A.1 to A.8.

use vectors::{fnv1a, Run};
use witness::program::output;
use witness::{first_order, plan, Report, Request};

/// 150 calls.
#[test]
fn worked_first_orders() {
    for call in vectors::first() {
        let first = first_order(call.n.into(), call.bound.into(), &call.table, &call.pairs);
        assert_eq!((first.number, first.cost), (call.number, call.cost), "{call:?}");
        assert_eq!(first.order, call.order.map(u32::from), "{call:?}");
    }
}

/// What a line tells of the report.
fn told(call: &Run) -> Report {
    let Run { number, mark, cost, floor, .. } = *call;
    let [branched, generated, eliminated, active, most] = call.counts;
    let order = call.order.map(u32::from);
    Report { number, mark, cost, floor, order, branched, generated, eliminated, active, most }
}

/// 300 calls.
#[test]
fn worked_runs() {
    for call in vectors::runs() {
        let start: Vec<u32> = call.start.iter().map(|&stop| stop.into()).collect();
        let request = Request {
            n: call.n.into(),
            table: &call.table,
            selection: call.selection.into(),
            rules: call.rules.into(),
            bound: call.bound.into(),
            start: &start,
            pairs: &call.pairs,
            budget: call.budget,
        };
        let mut pool = call.pool();
        assert_eq!(plan(&request, &mut pool), told(&call), "{call:?}");
        assert_eq!(fnv1a(&pool), call.words, "{call:?}");
    }
}

/// 60 inputs.
#[test]
fn worked_files() {
    for file in vectors::files() {
        assert_eq!(output(&file.bytes), file.printed, "{file:?}");
    }
}
