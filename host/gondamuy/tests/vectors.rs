//! The worked calls of host/vectors, for document 01 with requests A.1 to A.8: every field of the answers and, by its
//! hash, every word of the pool. `.ci/jobs` holds the program `plan` to the files.

use gondamuy::raw::{first_order, plan, read, FirstOrder, Job, Report};
use gondamuy::{LONGEST_FILE, NO_BUDGET, RECORD_WORDS};
use vectors::{fnv1a, Run};

/// 150 calls.
#[test]
fn worked_first_orders() {
    for call in vectors::first() {
        let told = FirstOrder { number: call.number, cost: call.cost, order: call.order };
        assert_eq!(first_order(call.n, call.bound, &call.table, &call.pairs), told, "{call:?}");
    }
}

/// 300 calls.
#[test]
fn worked_runs() {
    for call in vectors::runs() {
        let Run { n, selection, rules, bound, number, mark, cost, floor, order, .. } = call;
        let [branched, generated, eliminated, active, most] = call.counts;
        let told = Report { number, mark, cost, floor, order, branched, generated, eliminated, active, most };
        let mut pool = call.pool();
        let job = Job { n, selection, rules, bound };
        let report = plan(job, &call.table, &call.start, &call.pairs, call.budget, &mut pool);
        assert_eq!(report, told, "{call:?}");
        assert_eq!(fnv1a(&pool), call.words, "{call:?}");
    }
}

/// What the program prints of some input, which it does not look into where it is too long.
fn printed(input: &[u8]) -> String {
    let refused = |number| format!("refused {number}\n");
    let reading = match input.len() > LONGEST_FILE {
        true => return refused(9),
        false => read(input),
    };
    if reading.number != 0 {
        return refused(reading.number);
    }
    let mut pool = vec![0; 2_000 * RECORD_WORDS];
    let report = plan(reading.job, reading.table(), reading.start(), &[], NO_BUDGET, &mut pool);
    if !report.is_finished() {
        return refused(report.number);
    }
    let Report { cost, branched, generated, eliminated, active, most, .. } = report;
    let stops: String = report.order[..reading.job.n as usize].iter().map(|stop| format!(" {stop}")).collect();
    let counts = format!("generated {generated}\neliminated {eliminated}\nactive {active}\nmost {most}\n");
    format!("cost {cost}\norder{stops}\nbranched {branched}\n{counts}")
}

/// 60 inputs.
#[test]
fn worked_files() {
    for file in vectors::files() {
        assert_eq!(printed(&file.bytes), file.printed, "{file:?}");
    }
}
