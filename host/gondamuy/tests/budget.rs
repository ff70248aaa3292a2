//! Best so far, and how far off (request A.3), through the wrapper: worked jobs, and what a stopped search may say,
//! held to all n! orders: 6,000 jobs of 1 to 5 stops under all choices, half of them with landing charges (request
//! A.4), half of them for days that end away (request A.5) and half of them with pairs (request A.6), within every
//! budget from 0 to one more than they need.

mod common;

use common::{choices, least_cost, order_cost, random_job};
use gondamuy::raw::{self, Report};
use gondamuy::{
    pairs_of, plan, plan_records, words, Bound, Counts, Job, Plan, Planned, Record, Refusal, Rules, Selection,
};
use gondamuy::{Stopped, NO_BUDGET, RECORD_WORDS};
use samples::{respects, Random, T};

const CASE_B: Job = Job { n: 3, selection: Selection::Fifo, rules: Rules::NONE, bound: Bound::Plain };

fn stopped(job: Job, table: &[u32], start: &[u8], budget: u64, pool: &mut [Record]) -> Stopped {
    plan_records(job, table, start, &[], budget, pool).unwrap().finished().unwrap_err()
}

fn counts([branched, generated, eliminated, active, most]: [u64; 5]) -> Counts {
    Counts { branched, generated, eliminated, active, most }
}

#[test]
fn case_b_at_once() {
    let mut pool = [Record::default(); 6];
    let at_once = stopped(CASE_B, &T, &[], 0, &mut pool);
    assert_eq!(at_once, Stopped { floor: 0, known: None, counts: counts([0, 1, 0, 1, 1]) });
    assert_eq!((at_once.far_off(), pool), (None, [Record::default(); 6]));
    assert_eq!(
        at_once.to_string(),
        "stopped by its budget of 0: no allowed order costs less than 0, and no order is known"
    );
}

#[test]
fn case_b_after_five_branchings() {
    let mut pool = [Record::default(); 7];
    let after = stopped(CASE_B, &T, &[], 5, &mut pool);
    let known = after.known.unwrap();
    assert_eq!((known.cost, known.order()), (13, &[1, 2, 3][..]));
    assert_eq!((after.floor, after.far_off(), after.counts), (8, Some(5), counts([5, 11, 0, 6, 6])));
    assert_eq!(pool[5], Record { size: 3, set: 7, path: 7, bound: 13, first: 0x210, second: 0 });
    assert_eq!(pool[6], Record::default());
    assert_eq!(
        after.to_string(),
        "stopped by its budget of 5: no allowed order costs less than 8, and one that costs 13 is known"
    );
}

/// The ninth branching leaves an order that costs the floor, and a node that is not complete: stopped, though off by 0.
#[test]
fn case_b_to_its_finish() {
    let mut pool = [Record::default(); 6];
    let nearly = stopped(CASE_B, &T, &[], 9, &mut pool);
    assert_eq!((nearly.floor, nearly.far_off()), (13, Some(0)));
    for budget in [10, 11, NO_BUDGET] {
        let plan = plan_records(CASE_B, &T, &[], &[], budget, &mut pool).unwrap().finished().unwrap();
        assert_eq!((plan.cost, plan.order()), (13, &[1, 2, 3][..]));
        assert_eq!(plan.counts, counts([10, 16, 0, 6, 6]));
    }
}

/// In five records the fourth branching of case b does not fit: three branchings are stopped, four are refused.
#[test]
fn a_spent_budget_comes_before_a_full_pool() {
    let mut pool = [Record::default(); 5];
    assert_eq!(stopped(CASE_B, &T, &[], 3, &mut pool).counts, counts([3, 8, 0, 5, 5]));
    for budget in [4, 10, NO_BUDGET] {
        let refused = plan_records(CASE_B, &T, &[], &[], budget, &mut pool).unwrap_err();
        assert_eq!((refused.refusal, refused.counts), (Refusal::Full, counts([3, 8, 0, 5, 5])));
    }
}

/// Where every leg is free an order costs 0, and so does knowing none.
#[test]
fn a_free_order_is_known() {
    let job = Job { n: 2, ..CASE_B };
    let mut pool = [Record::default(); 2];
    assert_eq!(stopped(job, &[0; 9], &[], 1, &mut pool).known, None);
    let known = stopped(job, &[0; 9], &[], 2, &mut pool).known.unwrap();
    assert_eq!((known.cost, known.order()), (0, &[1, 2][..]));
}

/// An order that costs what the empty node's bound is, is known to be cheapest and is no plan: a smaller one may cost
/// the same, as it does here, and is found by the fifth branching.
#[test]
fn known_to_be_cheapest() {
    let mut pool = [Record::default(); 6];
    for (budget, order) in [(0, [2, 3, 1]), (4, [2, 3, 1]), (5, [1, 2, 3]), (9, [1, 2, 3])] {
        let answer = stopped(CASE_B, &[0; 16], &[2, 3, 1], budget, &mut pool);
        assert_eq!(
            (answer.floor, answer.far_off(), answer.known.unwrap().order()),
            (0, Some(0), &order[..]),
            "{budget}"
        );
    }
    let plan = plan_records(CASE_B, &[0; 16], &[2, 3, 1], &[], NO_BUDGET, &mut pool).unwrap().finished().unwrap();
    assert_eq!((plan.cost, plan.order(), plan.counts), (0, &[1, 2, 3][..], counts([10, 16, 0, 6, 6])));
}

/// Number 0 is not enough: only number and mark together are read as finished.
#[test]
fn a_stopped_report_is_no_plan() {
    let mut order = [0; 16];
    order[0] = 1;
    let told = Report { cost: 8, order, ..Report::default() };
    let plan: Result<Plan, Stopped> = Planned::try_from(told).unwrap().finished();
    assert!(told.is_finished() && plan.unwrap().cost == 8);
    let told = Report { mark: raw::STOPPED, floor: 5, ..told };
    let plan = Planned::try_from(told).unwrap().finished();
    assert!(!told.is_finished() && plan.unwrap_err().far_off() == Some(3));
    // No call has a floor above the cost, but anybody can make such a report up.
    let told = Report { floor: 9, ..told };
    assert_eq!(Planned::try_from(told).unwrap().finished().unwrap_err().far_off(), Some(0));
    for number in (1..=7).chain([11]) {
        let told = Report { number, ..Report::default() };
        assert!(!told.is_finished());
        assert_eq!(Planned::try_from(told).unwrap_err().refusal.number(), number);
    }
}

#[test]
#[should_panic(expected = "no search has the mark 2")]
fn an_unknown_mark_is_no_plan() {
    let _ = Planned::try_from(Report { mark: 2, ..Report::default() });
}

/// Whether an order has each of n stops once.
fn is_order(order: &[u8], n: u32) -> bool {
    let mut stops = order.to_vec();
    stops.sort();
    stops.into_iter().eq(1..=n as u8)
}

/// A job's answers within ever larger budgets: each is told in the records of `pool`, and the last one is a plan.
struct Told {
    stopped: Vec<Stopped>,
    plan: Plan,
}

fn within_each_budget(text: &jobtext::Job, pool: &mut [u32]) -> Told {
    let job = Job::try_from(choices(text)).unwrap();
    let pairs = pairs_of(&text.pairs).unwrap();
    let mut stopped = Vec::new();
    for budget in 0.. {
        match plan(job, &text.table, &text.start, pairs, budget, pool).unwrap() {
            Planned::Stopped(answer) => stopped.push(answer),
            Planned::Finished(plan) => return Told { stopped, plan },
        }
    }
    unreachable!("every search ends");
}

/// How often a stopped search knew no order, one that is not cheapest, and one that costs the floor.
#[derive(Debug, Default)]
struct Seen {
    unknown: u32,
    off: u32,
    close: u32,
}

/// The known order is one and costs no less than the cheapest, and it is off by no more than it costs above the floor.
fn hold_known(text: &jobtext::Job, answer: &Stopped, least: u32, seen: &mut Seen) {
    let known = answer.known.unwrap();
    assert!(is_order(known.order(), text.n) && respects(&text.pairs, known.order()), "{answer:?} {text:?}");
    assert_eq!(order_cost(text, known.order()), known.cost, "{answer:?} {text:?}");
    assert!(least <= known.cost && known.cost - least <= answer.far_off().unwrap(), "{answer:?} {text:?}");
    seen.off += (known.cost > least) as u32;
    seen.close += (known.cost == answer.floor) as u32;
}

/// The floor is no more than every order costs. With more branchings it never falls, and a known order is never lost
/// for none or for a dearer one.
fn hold_stopped(text: &jobtext::Job, stopped: &[Stopped], least: u32, seen: &mut Seen) {
    let (mut floor, mut cost) = (0, None);
    for (budget, answer) in stopped.iter().enumerate() {
        assert_eq!(answer.counts.branched, budget as u64, "{text:?}");
        assert!(floor <= answer.floor && answer.floor <= least, "{budget} {text:?}");
        floor = answer.floor;
        match answer.known {
            Some(known) => {
                hold_known(text, answer, least, seen);
                assert!(cost.is_none_or(|cost| known.cost <= cost), "{budget} {text:?}");
                cost = Some(known.cost);
            }
            None => {
                assert!(cost.is_none() && text.start.is_empty(), "{budget} {text:?}");
                seen.unknown += 1;
            }
        }
    }
}

#[test]
fn held_to_all_orders() {
    let mut random = Random(91);
    let mut seen = Seen::default();
    for round in 0..6_000 {
        let n = 1 + random.below(if round % 10 == 0 { 5 } else { 4 }) as usize;
        let most = random.pick(&[0, 1, 2, 9, 1_000, 1_000_000]);
        let text = random_job(&mut random, n, most);
        let least = least_cost(&text);
        let mut pool = random.words(400 * RECORD_WORDS);
        let Told { stopped, plan: found } = within_each_budget(&text, &mut pool);
        hold_stopped(&text, &stopped, least, &mut seen);
        assert_eq!((found.cost, found.counts.branched), (least, stopped.len() as u64), "{text:?}");
        for budget in [found.counts.branched + 1, NO_BUDGET] {
            let report = raw::plan(choices(&text), &text.table, &text.start, &text.pairs, budget, &mut pool);
            assert_eq!(Planned::try_from(report), Ok(Planned::Finished(found)), "{text:?}");
        }
    }
    assert!([seen.unknown, seen.off, seen.close].iter().all(|&k| k > 2_000), "{seen:?}");
}

/// What stands in the pool is what a larger budget goes on from: the active nodes, whose least bound is the floor.
#[test]
fn the_floor_is_the_least_active_bound() {
    let mut random = Random(92);
    let mut seen = 0;
    for _ in 0..2_000 {
        let n = 1 + random.below(6) as usize;
        let text = random_job(&mut random, n, 9);
        let job = Job::try_from(choices(&text)).unwrap();
        let pairs = pairs_of(&text.pairs).unwrap();
        let mut pool = vec![Record::default(); 400];
        words(&mut pool).copy_from_slice(&random.words(400 * RECORD_WORDS));
        let budget = random.below(20);
        let Ok(Planned::Stopped(answer)) = plan_records(job, &text.table, &text.start, pairs, budget, &mut pool) else {
            continue;
        };
        let active = &pool[..answer.counts.active as usize];
        assert_eq!(active.iter().map(|record| record.bound).min(), Some(answer.floor), "{text:?}");
        seen += 1;
    }
    assert!(seen > 500, "{seen}");
}
