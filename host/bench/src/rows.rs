//! A row of the table: some tables of one kind and size, planned by the four in turn.

use std::time::Duration;

use bench::peer::{self, Record};
use bench::task::{Peer, Task};
use gondamuy::raw::Report;
use gondamuy::NO_BUDGET;

use crate::{until, Kind};

const RUNS: usize = 3;
const SHORT_RUNS: usize = 30;
const SHORT: Duration = Duration::from_millis(20);

/// Times of the simple peer, the lazy one, the one that walks chains abreast and the library, in this order; none
/// where one was left out.
const PLANNERS: usize = 4;
type Times = [Option<Duration>; PLANNERS];
const SIMPLE: usize = 0;
const LAZY: usize = 1;
const ABREAST: usize = 2;
const OURS: usize = 3;

/// A table that was planned.
struct Planned {
    branched: u64,
    records: usize,
    times: Times,
}

pub fn heading() {
    print!("{:<8}{:>3}  {:<26}{:>10}", "table", "n", "job", "tables");
    print!("{:>12}{:>10}{:>12}{:>10}{:>9}{:>9}", "branched", "records", "simple ns", "lazy ns", "abreast", "ours ns");
    println!("{:>7}{:>9}{:>8}", "/lazy", "/abreast", "/simple");
}

pub fn row(wind: &str, n: u32, kind: &Kind, tables: u64, seconds: u64, pool: &mut [Record]) {
    let tasks = (0..tables).map(|seed| kind.task(wind, n, seed));
    let planned: Vec<Planned> = tasks.filter_map(|task| plan(&task, seconds, pool)).collect();
    let name = format!("{}: selection {}, rules {}", kind.letter, kind.selection, kind.rules);
    let ended = [SIMPLE, LAZY, ABREAST, OURS].map(|k| planned.iter().filter(|p| p.times[k].is_some()).count());
    let ended = format!("{}/{}/{}/{}", ended[SIMPLE], ended[LAZY], ended[ABREAST], ended[OURS]);
    let branched: u64 = planned.iter().map(|p| p.branched).sum();
    let records = planned.iter().map(|p| p.records).max().unwrap_or(0);
    print!("{wind:<8}{n:>3}  {name:<26}{ended:>10}{branched:>12}{records:>10}");
    print!("{:>12}{:>10}", each(&planned, SIMPLE), each(&planned, LAZY));
    print!("{:>9}{:>9}", each(&planned, ABREAST), each(&planned, OURS));
    println!("{:>7}{:>9}{:>8}", ratio(&planned, LAZY), ratio(&planned, ABREAST), ratio(&planned, SIMPLE));
}

/// A planner's time for a branching, over the tables that it ended.
fn each(planned: &[Planned], k: usize) -> String {
    let ended: Vec<(u64, Duration)> = planned.iter().filter_map(|p| Some((p.branched, p.times[k]?))).collect();
    let branched: u64 = ended.iter().map(|e| e.0).sum();
    let time: Duration = ended.iter().map(|e| e.1).sum();
    shown(!ended.is_empty(), time.as_nanos() as f64 / branched.max(1) as f64, 0)
}

/// The library's time by a peer's, over the tables that both ended.
fn ratio(planned: &[Planned], k: usize) -> String {
    let both: Vec<[Duration; 2]> = planned.iter().filter_map(|p| Some([p.times[OURS]?, p.times[k]?])).collect();
    let sum = |at: usize| both.iter().map(|times| times[at].as_secs_f64()).sum::<f64>();
    shown(!both.is_empty(), sum(0) / sum(1), 2)
}

fn shown(known: bool, number: f64, digits: usize) -> String {
    if known {
        format!("{number:.digits$}")
    } else {
        "-".to_string()
    }
}

/// All four in a pool of the records needed and, where there are so many, a quarter more; none if the lazy peer does not
/// end.
fn plan(task: &Task, seconds: u64, pool: &mut [Record]) -> Option<Planned> {
    let (lazy, _) = task.by_peer(peer::lazy, &until(NO_BUDGET, seconds), pool)?;
    let (report, records) = (lazy.report, lazy.records);
    if !report.is_finished() {
        return None;
    }
    let enough = pool.len().min(records + records / 4);
    let pool = &mut pool[..enough];
    let simple = by_peer(task, peer::simple, seconds, &report, pool);
    let lazy = by_peer(task, peer::lazy, seconds, &report, pool);
    let abreast = by_peer(task, peer::abreast, seconds, &report, pool);
    let ours = by_library_in_time(task, seconds, simple.is_some(), &report, pool);
    let mut times = [simple, lazy, abreast, ours];
    let short = times.iter().flatten().all(|&time| time < SHORT);
    for _ in 1..if short { SHORT_RUNS } else { RUNS } {
        let again = [
            times[SIMPLE].and_then(|_| by_peer(task, peer::simple, seconds, &report, pool)),
            times[LAZY].and_then(|_| by_peer(task, peer::lazy, seconds, &report, pool)),
            times[ABREAST].and_then(|_| by_peer(task, peer::abreast, seconds, &report, pool)),
            times[OURS].map(|_| by_library(task, &report, pool)),
        ];
        for (time, again) in times.iter_mut().zip(again) {
            *time = (*time).into_iter().chain(again).min();
        }
    }
    Some(Planned { branched: report.branched, records, times })
}

fn by_peer(task: &Task, peer: Peer, seconds: u64, report: &Report, pool: &mut [Record]) -> Option<Duration> {
    let (ended, time) = task.by_peer(peer, &until(NO_BUDGET, seconds), pool)?;
    assert_eq!(ended.report, *report);
    Some(time)
}

fn by_library(task: &Task, report: &Report, pool: &mut [Record]) -> Duration {
    let (ours, time) = task.by_library(NO_BUDGET, pool);
    assert_eq!(ours, *report);
    time
}

/// The library has no deadline. Unless it is `safe`, it is first given budgets that double, and left out where one took
/// a quarter of the time or more.
fn by_library_in_time(task: &Task, seconds: u64, safe: bool, report: &Report, pool: &mut [Record]) -> Option<Duration> {
    let mut budget = 1024;
    while !safe && budget < report.branched {
        if 4 * task.by_library(budget, pool).1 > Duration::from_secs(seconds) {
            return None;
        }
        budget *= 2;
    }
    Some(by_library(task, report, pool))
}
