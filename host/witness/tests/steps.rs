//! Each step of a run held against the text, with nodes as bare orders and
//! each elimination as one condition on the node.

mod common;

use common::paired::for_each_paired_job;
use common::{ample, counts_of, for_each_away_job, for_each_job, Job};
use witness::node::Node;
use witness::State;

type Order = Vec<u32>;

fn bare(nodes: &[std::rc::Rc<Node>]) -> Vec<Order> {
    nodes.iter().map(|y| y.stops.iter().map(|&s| s as u32).collect()).collect()
}

fn dominates(job: &Job, y: &Order, z: &Order) -> bool {
    let (mut a, mut b) = (y.clone(), z.clone());
    a.sort();
    b.sort();
    a == b && y.last() == z.last() && (job.path(y), y) < (job.path(z), z)
}

/// The place of b among the active nodes.
fn selected(job: &Job, active: &[Order]) -> usize {
    let places = 0..active.len();
    let rank = |&i: &usize| (job.bound_of(&active[i]), active[i].len() == job.n);
    match job.selection {
        0 => places.min_by_key(|i| (rank(i), *i)).unwrap(),
        1 => places.min_by_key(|i| (rank(i), active.len() - i)).unwrap(),
        2 => 0,
        _ => places.max_by_key(|&i| (active[i].len() < job.n, i)).unwrap(),
    }
}

struct After {
    active: Vec<Order>,
    branched: Vec<Order>,
    upper: u32,
    best: Order,
    generated: u64,
}

fn upper_of(state: &State) -> (u32, Order) {
    let order = state.upper.order.iter().map(|&s| s as u32).collect();
    (state.upper.cost.unwrap_or(u32::MAX), order)
}

fn after(job: &Job, before: &State, b: usize) -> After {
    let mut rest = bare(&before.active);
    let parent = rest.remove(b);
    let mut branched = bare(&before.branched);
    branched.push(parent.clone());
    let stops = (1..=job.n as u32).filter(|s| !parent.contains(s));
    let extended = stops.map(|s| [&parent[..], &[s]].concat());
    let children: Vec<Order> = extended.filter(|child| job.respects(child)).collect();
    assert!(!children.is_empty(), "{job:?}");
    let (mut upper, mut best) = upper_of(before);
    let complete = children.iter().filter(|c| c.len() == job.n);
    if let Some(c) = complete.min_by_key(|c| (job.cost(c), *c)) {
        if (job.cost(c), c) < (upper, &best) {
            (upper, best) = (job.cost(c), c.clone());
        }
    }
    let above = |z: &Order| job.rule(1) && job.bound_of(z) > upper;
    let child_goes = |c: &Order| {
        above(c)
            || job.rule(2) && rest.iter().any(|a| !above(a) && dominates(job, a, c))
            || job.rule(4) && branched.iter().any(|y| dominates(job, y, c))
    };
    let new: Vec<Order> = children.iter().filter(|c| !child_goes(c)).cloned().collect();
    let active_goes = |a: &Order| above(a) || job.rule(8) && new.iter().any(|c| dominates(job, c, a));
    let kept: Vec<Order> = rest.iter().filter(|a| !active_goes(a)).cloned().collect();
    let active = [kept, new].concat();
    After { active, branched, upper, best, generated: children.len() as u64 }
}

fn check_step(job: &Job, before: &State, next: &State) {
    let active = bare(&before.active);
    let b = selected(job, &active);
    assert!(active[b].len() < job.n, "{job:?}");
    let told = after(job, before, b);
    assert_eq!(bare(&next.active), told.active, "{job:?}");
    assert_eq!(bare(&next.branched), told.branched, "{job:?}");
    assert_eq!(upper_of(next), (told.upper, told.best), "{job:?}");
    assert_eq!(next.generated, before.generated + told.generated, "{job:?}");
    let passed = active.len() as u64 - 1 + told.generated;
    let gone = passed - told.active.len() as u64;
    assert_eq!(next.eliminated, before.eliminated + gone, "{job:?}");
    assert_eq!(next.most, before.most.max(next.active.len() as u64), "{job:?}");
}

fn check_run(job: &Job) {
    let states = job.states(ample(job.n));
    let first = &states[0];
    assert_eq!(bare(&first.active), [Vec::new()]);
    assert!(first.branched.is_empty());
    assert_eq!((first.generated, first.eliminated, first.most), (1, 0, 1));
    let given = if job.start.is_empty() { u32::MAX } else { job.cost(&job.start) };
    assert_eq!(upper_of(first), (given, job.start.clone()));
    for pair in states.windows(2) {
        check_step(job, &pair[0], &pair[1]);
    }
    let last = states.last().unwrap();
    let active = bare(&last.active);
    let b = selected(job, &active);
    assert_eq!(active[b].len(), job.n, "{job:?}");
    check_report(job, last);
}

/// The call reports the last state and leaves it in the pool.
fn check_report(job: &Job, last: &State) {
    let (report, pool) = job.run(ample(job.n));
    let (upper, best) = upper_of(last);
    assert_eq!((report.number, report.mark, report.cost), (0, 0, upper));
    assert_eq!(&report.order[..job.n], best);
    assert_eq!(report.counts(), counts_of(last));
    let (active, branched) = common::read_pool(job, &report, &pool);
    assert_eq!(active, bare(&last.active));
    let kept = if job.rule(4) { bare(&last.branched) } else { Vec::new() };
    assert_eq!(branched, kept);
}

#[test]
fn steps_up_to_three_stops() {
    for_each_job(11, 1, 1, check_run);
    for_each_job(12, 2, 8, check_run);
    for_each_job(13, 3, 16, check_run);
}

#[test]
fn steps_of_four_stops() {
    for_each_job(14, 4, 6, check_run);
}

#[test]
fn steps_of_five_stops() {
    for_each_job(15, 5, 1, check_run);
}

/// Request A.6's pairs, of days with either end.
#[test]
fn steps_with_pairs() {
    for_each_paired_job(101, 1, 1, check_run);
    for_each_paired_job(102, 2, 3, check_run);
    for_each_paired_job(103, 3, 6, check_run);
    for_each_paired_job(104, 4, 3, check_run);
    for_each_paired_job(105, 5, 1, check_run);
}

/// Request A.5's days.
#[test]
fn steps_of_days_that_end_away() {
    for_each_away_job(16, 1, 1, check_run);
    for_each_away_job(17, 2, 8, check_run);
    for_each_away_job(18, 3, 8, check_run);
    for_each_away_job(19, 4, 2, check_run);
}
