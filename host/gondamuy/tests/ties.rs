//! Equal costs, one order (request A.8) through the wrapper: days worked by hand. Test file `ties_tables` has random
//! ones.

use gondamuy::{plan_records, Bound, Counts, Job, Pair, Plan, Planned, Record, Refusal, Rules, Selection, NO_BUDGET};
use samples::{charged, level, T};

const SELECTIONS: [Selection; 4] =
    [Selection::LeastBoundEarliest, Selection::LeastBoundLatest, Selection::Fifo, Selection::Lifo];
const BOUNDS: [Bound; 4] = [Bound::Plain, Bound::Close, Bound::PlainAway, Bound::CloseAway];

/// Document 01's case d.
const CASE_D: Job = Job { n: 3, selection: Selection::Lifo, rules: Rules::UPPER_COST, bound: Bound::Close };

fn finished(job: Job, table: &[u32], start: &[u8], pairs: &[Pair], pool: &mut [Record]) -> Plan {
    plan_records(job, table, start, pairs, NO_BUDGET, pool).unwrap().finished().unwrap()
}

/// The order that a search stopped there knows; none is empty.
fn known(job: Job, table: &[u32], start: &[u8], budget: u64) -> Vec<u8> {
    let planned = plan_records(job, table, start, &[], budget, &mut [Record::default(); 20]).unwrap();
    planned.finished().unwrap_err().known.map_or(Vec::new(), |known| known.order().to_vec())
}

fn counts([branched, generated, eliminated, active, most]: [u64; 5]) -> Counts {
    Counts { branched, generated, eliminated, active, most }
}

/// Cases e and f: from 1 2 3, which is the answer, 2, 3 and 1 3 are eliminated and what is left leads to it again.
#[test]
fn cases_e_and_f() {
    for records in [16, 1] {
        let plan = finished(CASE_D, &T, &[1, 2, 3], &[], &mut vec![Record::default(); records]);
        assert_eq!((plan.cost, plan.order(), plan.counts), (13, &[1, 2, 3][..], counts([3, 7, 3, 1, 1])));
    }
    let refused = plan_records(CASE_D, &T, &[], &[], NO_BUDGET, &mut [Record::default(); 1]).unwrap_err();
    assert_eq!((refused.refusal, refused.counts), (Refusal::Full, counts([0, 1, 0, 1, 1])));
}

/// Case i under every selection: nodes 1 and 2 are branched before one of the orders ends the search.
#[test]
fn case_i() {
    for selection in SELECTIONS {
        for start in [&[][..], &[1, 2], &[2, 1]] {
            let job = Job { n: 2, selection, rules: Rules::NONE, bound: Bound::Close };
            let plan = finished(job, &[0; 9], start, &[], &mut [Record::default(); 2]);
            assert_eq!((plan.cost, plan.order(), plan.counts), (0, &[1, 2][..], counts([3, 5, 0, 2, 2])));
        }
    }
}

/// All legs and landings the same: 1 2 3 4 is the smallest of all orders, and of those that two pairs allow 2 1 4 3 is.
#[test]
fn the_smallest_order() {
    let table = charged(&level(4, 5), &[3; 5]);
    for (selection, bound) in SELECTIONS.into_iter().flat_map(|selection| BOUNDS.map(|bound| (selection, bound))) {
        for rules in [Rules::NONE, Rules::UPPER_COST, Rules::ALL] {
            let job = Job { n: 4, selection, rules, bound };
            let mut pool = [Record::default(); 65];
            assert_eq!(finished(job, &table, &[4, 3, 2, 1], &[], &mut pool).order(), [1, 2, 3, 4], "{job:?}");
            let pairs = [Pair { pick_up: 4, drop: 3 }, Pair { pick_up: 2, drop: 1 }];
            assert_eq!(finished(job, &table, &[4, 3, 2, 1], &pairs, &mut pool).order(), [2, 1, 4, 3], "{job:?}");
        }
    }
}

/// All legs 1, depth first: the orders are found from the largest to the smallest. A starting order is known until a
/// smaller one is found.
#[test]
fn known_orders() {
    let job = Job { rules: Rules::NONE, ..CASE_D };
    let found = |start: &[u8]| [2, 3, 4, 6, 7, 9].map(|budget| known(job, &level(3, 1), start, budget));
    let [none, o321, o312, o231] = [vec![], vec![3, 2, 1], vec![3, 1, 2], vec![2, 3, 1]];
    let [o213, o132] = [vec![2, 1, 3], vec![1, 3, 2]];
    assert_eq!(found(&[]), [none, o321, o312, o231.clone(), o213.clone(), o132.clone()]);
    assert_eq!(found(&o231), [&o231, &o231, &o231, &o231, &o213, &o132].map(Vec::clone));
    assert_eq!(found(&o132), [(); 6].map(|()| o132.clone()));
}

/// The order with the lower stop where they first differ is the smaller, whichever words are: 1 2 3 is 0x210 in a
/// record, and 1 3 2 is 0x120. Rule 2 keeps the earlier of two equal nodes if it is the smaller, rule 8 the later.
#[test]
fn nodes_that_tie() {
    for (selection, rules) in [(Selection::Fifo, Rules::BY_ACTIVE), (Selection::Lifo, Rules::BY_CHILD)] {
        let mut pool = [Record::default(); 6];
        let job = Job { n: 3, selection, rules, bound: Bound::Plain };
        let plan = finished(job, &level(3, 1), &[], &[], &mut pool);
        assert_eq!((plan.order(), plan.counts.eliminated, plan.counts.active), (&[1, 2, 3][..], 3, 3));
        let mut left = [0, 1, 2].map(|at: usize| pool[at].first);
        left.sort();
        assert_eq!(left, [0x021, 0x120, 0x210]);
    }
    for (selection, rules) in [(Selection::Fifo, Rules::BY_CHILD), (Selection::Lifo, Rules::BY_ACTIVE)] {
        let job = Job { n: 3, selection, rules, bound: Bound::Plain };
        let plan = finished(job, &level(3, 1), &[], &[], &mut [Record::default(); 6]);
        assert_eq!((plan.order(), plan.counts), (&[1, 2, 3][..], counts([10, 16, 0, 6, 6])));
    }
}

/// Sixteen stops in a free chain, where the first two may be exchanged, and the last two: four orders cost nothing.
#[test]
fn ties_of_sixteen_stops() {
    let mut table = level(16, 1_000_000);
    let chain = (0..=16).map(|from| (from, (from + 1) % 17));
    for (from, to) in chain.chain([(0, 2), (2, 1), (1, 3), (14, 16), (16, 15), (15, 0)]) {
        table[from * 17 + to] = 0;
    }
    let smallest: Vec<u8> = (1..=16).collect();
    let mut largest = smallest.clone();
    largest.swap(0, 1);
    largest.swap(14, 15);
    for selection in SELECTIONS {
        let job = Job { n: 16, selection, rules: Rules::UPPER_COST, bound: Bound::Close };
        let plan = finished(job, &table, &largest, &[], &mut [Record::default(); 20]);
        assert_eq!((plan.cost, plan.order()), (0, &smallest[..]), "{selection:?}");
    }
}

/// Where every leg is free, every node that is not complete is branched: 1 + 8 + 56 and so on to 40,320 of seven stops.
/// The pool has a quarter more records than are needed.
#[test]
fn eight_stops_that_all_tie() {
    let mut pool = vec![Record::default(); 50_400];
    for selection in [Selection::LeastBoundEarliest, Selection::LeastBoundLatest] {
        let job = Job { n: 8, selection, rules: Rules::NONE, bound: Bound::Plain };
        let plan = finished(job, &[0; 81], &[], &[], &mut pool);
        assert_eq!(plan.order(), [1, 2, 3, 4, 5, 6, 7, 8]);
        assert_eq!(plan.counts, counts([69_281, 109_601, 0, 40_320, 40_320]));
    }
}

/// What rules spare of that, as docs/HOSTS.md has it: rule 2 branchings, where smaller orders come first, and rule 8
/// records, where larger ones do.
#[test]
fn rules_where_all_tie() {
    let mut pool = vec![Record::default(); 400];
    let earliest = [Selection::LeastBoundEarliest, Selection::Fifo].map(|s| (s, Rules::BY_ACTIVE, 1_017, 340));
    let latest = [Selection::LeastBoundLatest, Selection::Lifo].map(|s| (s, Rules::BY_CHILD, 69_281, 35));
    for (selection, rules, branched, most) in earliest.into_iter().chain(latest) {
        let plan = finished(Job { n: 8, selection, rules, bound: Bound::Close }, &[0; 81], &[], &[], &mut pool);
        assert_eq!(plan.order(), [1, 2, 3, 4, 5, 6, 7, 8]);
        assert_eq!((plan.counts.branched, plan.counts.most), (branched, most));
    }
}

/// An order that costs the floor is no plan before the search has finished.
#[test]
fn the_floor_is_no_finish() {
    let mut pool = [Record::default(); 3];
    let Planned::Stopped(answer) = plan_records(CASE_D, &level(3, 1), &[3, 2, 1], &[], 0, &mut pool).unwrap() else {
        panic!()
    };
    assert_eq!((answer.floor, answer.far_off()), (4, Some(0)));
    let refused = plan_records(CASE_D, &level(3, 1), &[3, 2, 1], &[], NO_BUDGET, &mut pool).unwrap_err();
    assert_eq!(refused.refusal, Refusal::Full);
}
