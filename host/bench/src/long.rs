//! Long runs: the library against the simple peer and the lazy one, every field of the report and every word of the pool, over tables of
//! twelve to sixteen stops, all selections and many rules, in pools of so many records, stopped after so many
//! branchings. The simple peer is left out where it takes more than so many seconds.

use std::time::Duration;

use bench::peer;
use bench::task::{dirty_pool, Task};
use gondamuy::raw;

use crate::{until, LONG};

/// Rule 1, all rules, all but rule 1 (by the plain bound), and all but one of the others.
const RULES: [u32; 6] = [1, 15, 14, 13, 11, 7];

pub fn all_rows(branchings: u64, records: usize, tables: u64, seconds: u64) {
    print!("{:<8}{:>3}{:>6}{:>11}{:>7}{:>7}", "table", "n", "seed", "selection", "rules", "bound");
    print!("{:>8}{:>6}{:>10}{:>10}", "number", "mark", "branched", "active");
    println!("{:>11}{:>9}{:>9}", "simple ms", "lazy ms", "ours ms");
    for seed in 0..tables {
        for (wind, n) in ["uniform", "wind"].into_iter().flat_map(|wind| [12, 14, 16].map(|n| (wind, n))) {
            for (selection, rules) in (0..4).flat_map(|selection| RULES.map(|rules| (selection, rules))) {
                let bound = (rules != 14) as u32;
                print!("{wind:<8}{n:>3}{seed:>6}{selection:>11}{rules:>7}{bound:>7}");
                let task = Task::of(raw::Job { n, selection, rules, bound }, wind, seed);
                row(&task, branchings, records, seconds);
            }
        }
    }
    println!("all the same");
}

fn row(task: &Task, branchings: u64, records: usize, seconds: u64) {
    let mut pool = dirty_pool(records);
    let (report, ours) = task.by_library(branchings, &mut pool);
    print!("{:>8}{:>6}{:>10}{:>10}", report.number, report.mark, report.branched, report.active);
    let lazy = task.hold(peer::lazy, &until(branchings, LONG), &report, &pool);
    let simple = task.hold(peer::simple, &until(branchings, seconds), &report, &pool);
    let shown = |time: Option<Duration>| time.map_or("-".to_string(), |t| format!("{:.1}", 1e3 * t.as_secs_f64()));
    println!("{:>11}{:>9}{:>9}", shown(simple), shown(lazy), shown(Some(ours)));
}
