//! The proved planner beside three unverified ones of its method, job by job in one run: ns per branching, records
//! needed, and the ratios of the times.
//!
//!     bench [tables] [seconds] [R, P, Q or F]
//!
//! `tables` to a row (default 5); how many `seconds` one planner may take for a table (default 10); the job to run
//! alone (default all four). A table that the lazy peer does not end in time is left out, and for one that another does
//! not end, that one alone: column `tables` says how many each of the four ended, the library last. Each
//! table is planned three times by each in turn, thirty times where that is short, and the least time counts, so that
//! what else the machine does shows little. The other modes, which their modules describe:
//!
//!     bench [tables] 0 first
//!     bench grow [tables] [seconds]
//!     bench long [branchings] [records] [tables] [seconds]

mod first;
mod grow;
mod long;
mod rows;

use std::time::{Duration, Instant};

use bench::peer::{Record, Until};
use bench::task::Task;
use gondamuy::{raw, RECORD_WORDS};

/// What is asked for, again and again: a selection with rules, by the close bound. P is the office's, Q the pilot's.
struct Kind {
    letter: &'static str,
    selection: u32,
    rules: u32,
}

const KINDS: [Kind; 4] = [
    Kind { letter: "R", selection: 0, rules: 1 },
    Kind { letter: "P", selection: 0, rules: 15 },
    Kind { letter: "Q", selection: 3, rules: 1 },
    Kind { letter: "F", selection: 2, rules: 15 },
];

impl Kind {
    fn task(&self, wind: &str, n: u32, seed: u64) -> Task {
        Task::of(raw::Job { n, selection: self.selection, rules: self.rules, bound: 1 }, wind, seed)
    }
}

/// Records enough for nearly all that ends in time.
fn large_pool() -> Vec<Record> {
    vec![[0; RECORD_WORDS]; 4_000_000]
}

/// No run of the lazy peer takes so many seconds.
const LONG: u64 = 3_600;

/// Within a budget, and so many seconds from now.
fn until(budget: u64, seconds: u64) -> Until {
    Until { budget, deadline: Instant::now() + Duration::from_secs(seconds) }
}

fn main() {
    let words: Vec<String> = std::env::args().skip(1).collect();
    let number = |at: usize, otherwise: u64| words.get(at).and_then(|w| w.parse().ok()).unwrap_or(otherwise);
    match (words.first().map(String::as_str), words.get(2).map(String::as_str)) {
        (Some("grow"), _) => grow::all_rows(number(1, 20), number(2, 20)),
        (Some("long"), _) => long::all_rows(number(1, 10_000), number(2, 100_000) as usize, number(3, 1), number(4, 5)),
        (_, Some("first")) => first::all_rows(number(0, 5)),
        (_, letter) => all_rows(number(0, 5), number(1, 10), letter),
    }
}

fn all_rows(tables: u64, seconds: u64, letter: Option<&str>) {
    let kinds: Vec<&Kind> = KINDS.iter().filter(|kind| letter.is_none_or(|l| l == kind.letter)).collect();
    assert!(!kinds.is_empty(), "the job is R, P, Q or F, or first");
    let mut pool = large_pool();
    rows::heading();
    for wind in ["uniform", "wind"] {
        for n in [12, 14, 16] {
            // Earliest first, sixteen stops are half a million branchings.
            for kind in kinds.iter().filter(|kind| n < 16 || kind.letter != "F") {
                rows::row(wind, n, kind, tables, seconds, &mut pool);
            }
        }
    }
}
