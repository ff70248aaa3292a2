//! A08-run.txt is parsed as a whole, and nothing else passes for a line of it.

mod common;

use common::in_front;
use vectors::{fnv1a, runs, Run};

const LINE: &str =
    "n 1 table 0 25 21 0 selection 3 rules 15 bound 1 start 1 pairs 2 3 budget 0 pool 2 and 5 fill 7 => 6 cost 46 \
                    order 1 0 0 0 0 0 0 0 0 0 0 0 0 0 0 0 counts 1 2 3 4 5 mark 1 floor 9 words 00000000000000ff";

fn one_stop() -> Run {
    let mut order = [0; 16];
    order[0] = 1;
    Run {
        n: 1,
        table: vec![0, 25, 21, 0],
        selection: 3,
        rules: 15,
        bound: 1,
        start: vec![1],
        pairs: vec![2, 3],
        budget: 0,
        records: 2,
        extra: 5,
        fill: 7,
        number: 6,
        cost: 46,
        order,
        counts: [1, 2, 3, 4, 5],
        mark: 1,
        floor: 9,
        words: 255,
    }
}

fn changed(old: &str, new: &str) -> Result<Run, String> {
    assert!(LINE.contains(old), "{old}");
    Run::parse(&LINE.replacen(old, new, 1))
}

#[test]
fn a_line_of_run() {
    assert_eq!(Run::parse(LINE), Ok(one_stop()));
    assert_eq!(one_stop().pool(), [7; 17]);
    assert_eq!(changed("start 1", "start none"), Ok(Run { start: Vec::new(), ..one_stop() }));
    assert_eq!(changed("start 1", "start 2 0 255"), Ok(Run { start: vec![2, 0, 255], ..one_stop() }));
    assert_eq!(changed("pairs 2 3", "pairs none"), Ok(Run { pairs: Vec::new(), ..one_stop() }));
    assert_eq!(changed("pairs 2 3", "pairs 0"), Ok(Run { pairs: vec![0], ..one_stop() }));
    assert_eq!(changed("pairs 2 3", "pairs 255 1 1"), Ok(Run { pairs: vec![255, 1, 1], ..one_stop() }));
    assert_eq!(changed("budget 0", "budget most"), Ok(Run { budget: u64::MAX, ..one_stop() }));
    assert_eq!(changed(" and 5", ""), Ok(Run { extra: 0, ..one_stop() }));
    assert_eq!(changed("table 0 25 21 0", "table"), Ok(Run { table: Vec::new(), ..one_stop() }));
    assert_eq!(changed("fill 7", "fill 4294967295"), Ok(Run { fill: u32::MAX, ..one_stop() }));
}

/// The first line of the file, which a budget stopped, the second, whose pool is refused, and the sixth, which has a pair
/// and a starting order that costs the same as the answer.
#[test]
fn lines_of_the_file() {
    let first = &runs()[0];
    assert_eq!((first.n, first.budget, first.records, first.extra, first.fill), (4, 7, 23, 0, u32::MAX));
    assert_eq!((first.selection, first.rules, first.bound), (1, 6, 1));
    assert_eq!((first.start.len(), first.pairs.len()), (0, 0));
    assert_eq!((first.number, first.cost, &first.order[..5]), (0, 26, &[3, 1, 2, 4, 0][..]));
    assert_eq!((first.counts, first.mark, first.floor), ([7, 17, 0, 10, 10], 1, 26));
    assert_eq!(first.words, 0x82ad_fe39_84af_9db4);
    let refused = &runs()[1];
    assert_eq!((refused.number, refused.budget, refused.records, refused.extra), (6, u64::MAX, 87, 1));
    let tied = &runs()[5];
    assert_eq!((&tied.start[..], &tied.pairs[..]), (&[3, 1, 4, 2, 5][..], &[1, 2][..]));
    assert_eq!((tied.cost, &tied.order[..5], tied.counts), (0, &[1, 2, 3, 4, 5][..], [49, 97, 44, 4, 22]));
}

/// Runs over tables with charges, however they end, and charges of one too many.
#[test]
fn charges_of_run() {
    let dearest = |call: &Run| call.table.iter().step_by(call.n as usize + 2).copied().max();
    for (number, mark) in [(0, 0), (0, 1), (7, 0)] {
        let some = |call: &Run| (call.number, call.mark) == (number, mark) && dearest(call) > Some(0);
        assert!(runs().iter().any(some), "{number} {mark}");
    }
    assert!(runs().iter().any(|call| call.number == 3 && dearest(call) == Some(100_001)));
    let passed = |call: &&Run| [0, 7].contains(&call.number);
    assert!(runs().iter().filter(passed).all(|call| dearest(call) <= Some(100_000)));
}

/// Runs with every bound that passes, however they end, and one too many.
#[test]
fn bounds_of_run() {
    for bound in 0..=3 {
        for (number, mark) in [(0, 0), (0, 1), (7, 0)] {
            let some = |call: &Run| (call.bound, call.number, call.mark) == (bound, number, mark);
            assert!(runs().iter().any(some), "{bound} {number} {mark}");
        }
    }
    assert!(runs().iter().any(|call| (call.bound, call.number) == (4, 4)));
    let passed = |call: &&Run| [0, 5, 6, 7, 11].contains(&call.number);
    assert!(runs().iter().filter(passed).all(|call| call.bound <= 3));
}

/// Runs with up to three pairs, however they end, and no order shown that goes against them; a starting order that does;
/// and pairs that number 11 refuses, of odd length.
#[test]
fn pairs_of_run() {
    let calls = runs();
    for (number, mark) in [(0, 0), (0, 1), (7, 0)] {
        for pairs in 0..=2 {
            let some = |call: &Run| (call.number, call.mark, call.pairs.len()) == (number, mark, 2 * pairs);
            assert!(calls.iter().any(some), "{number} {mark} {pairs}");
        }
    }
    assert!(calls.iter().any(|call| call.number == 0 && call.pairs.len() == 6));
    for call in calls.iter().filter(|call| call.order[0] != 0) {
        assert!(in_front(&call.pairs, &call.order), "{call:?}");
    }
    assert!(calls.iter().any(|call| call.number == 5 && !in_front(&call.pairs, &call.start)));
    let refused: Vec<&[u8]> = calls.iter().filter(|call| call.number == 11).map(|call| &call.pairs[..]).collect();
    assert_eq!(refused, [[1, 4, 3, 2, 3]]);
}

/// Finished runs over free legs, where every order ties with the starting one, and the answer is smaller than that.
#[test]
fn ties_of_run() {
    let free = |call: &Run| call.table.iter().all(|&leg| leg == 0) && (call.number, call.mark) == (0, 0);
    let smaller = |call: &Run| call.order[..call.n as usize] < call.start[..];
    assert!(runs().iter().any(|call| free(call) && smaller(call)));
    let larger = |call: &Run| !call.start.is_empty() && call.order[..call.n as usize] > call.start[..];
    assert!(!runs().iter().any(|call| free(call) && larger(call)));
}

/// Answers of every number, every selection, sum of rules and bound up to
/// one too many, and stopped runs with an order and without one.
#[test]
fn the_calls_of_run() {
    let calls = runs();
    let some = |what: &dyn Fn(&Run) -> bool| calls.iter().any(what);
    for number in [0, 1, 2, 3, 4, 5, 6, 7, 11] {
        assert!(some(&|call| call.number == number), "{number}");
    }
    for selection in 0..=4 {
        assert!(some(&|call| call.selection == selection), "{selection}");
    }
    for rules in 0..=16 {
        assert!(some(&|call| call.rules == rules), "{rules}");
    }
    for bound in 0..=4 {
        assert!(some(&|call| call.bound == bound), "{bound}");
    }
    for mark in 0..=1 {
        for start in [true, false] {
            assert!(
                some(&|call| (call.number, call.mark, call.start.is_empty()) == (0, mark, start)),
                "{mark} {start}"
            );
        }
    }
    for shown in [true, false] {
        assert!(some(&|call| call.mark == 1 && (call.order[0] != 0) == shown), "{shown}");
    }
    for budget in [0, 1, u64::MAX] {
        assert!(some(&|call| call.budget == budget), "{budget}");
    }
}

/// What is told of mark, floor and branchings together.
#[test]
fn stopped_runs_of_run() {
    for call in runs() {
        match call.mark {
            0 => assert_eq!(call.floor, 0, "{call:?}"),
            1 => assert_eq!((call.number, call.counts[0]), (0, call.budget), "{call:?}"),
            _ => panic!("{call:?}"),
        }
    }
}

#[test]
fn faulty_lines() {
    let fault = |old, new| changed(old, new).unwrap_err();
    assert_eq!(fault("n 1", "n"), "`table` in the place of a number");
    assert_eq!(fault("25", "x"), "`x` in the place of `selection`");
    assert_eq!(fault("21 0 selection", "21 4294967296 selection"), "`4294967296` in the place of a number");
    assert_eq!(fault("selection 3", "selection -1"), "`-1` in the place of a number");
    assert_eq!(fault("rules 15 ", ""), "`bound` in the place of `rules`");
    assert_eq!(fault("start 1", "start"), "`pairs` in the place of a number");
    assert_eq!(fault("start 1", "start none 1"), "`1` in the place of `pairs`");
    assert_eq!(fault("start 1", "start 1 none"), "`none` in the place of `pairs`");
    assert_eq!(fault("start 1", "start None"), "`None` in the place of a number");
    assert_eq!(fault("start 1", "start 256"), "`256` in the place of a number");
    assert_eq!(fault("pairs 2 3 ", ""), "`budget` in the place of `pairs`");
    assert_eq!(fault("pairs 2 3", "pairs"), "`budget` in the place of a number");
    assert_eq!(fault("pairs 2 3", "pairs none 3"), "`3` in the place of `budget`");
    assert_eq!(fault("pairs 2 3", "pairs 2 none"), "`none` in the place of `budget`");
    assert_eq!(fault("pairs 2 3", "pairs 2 256"), "`256` in the place of a number");
    assert_eq!(fault("budget 0", "budget none"), "`none` in the place of a number");
    assert_eq!(fault("budget 0", "budget most 1"), "`1` in the place of `pool`");
    assert_eq!(fault("budget 0", "budget 18446744073709551616"), "`18446744073709551616` in the place of a number");
    assert_eq!(fault("and 5", "and"), "`fill` in the place of a number");
    assert_eq!(fault("and 5", "and 0"), "0 words in the place of a part of a record");
    assert_eq!(fault("and 5", "and 6"), "6 words in the place of a part of a record");
    assert_eq!(fault("=> 6", "=>"), "`cost` in the place of a number");
}

#[test]
fn faulty_answers() {
    let fault = |old, new| changed(old, new).unwrap_err();
    assert_eq!(fault("order 1", "order"), "15 numbers behind `order`");
    assert_eq!(fault("order 1", "order 1 1"), "17 numbers behind `order`");
    assert_eq!(fault("counts 1", "counts"), "4 numbers behind `counts`");
    assert_eq!(fault("counts 1", "counts 1 1"), "6 numbers behind `counts`");
    assert_eq!(fault("mark 1 ", ""), "`floor` in the place of `mark`");
    assert_eq!(fault("floor 9", "floor 09"), "`09` in the place of a number");
    let digits = "00000000000000ff";
    for wrong in
        ["ff", "00000000000000FF", "000000000000000ff", "+0000000000000ff", "0x000000000000ff", "000000000000000g"]
    {
        assert_eq!(fault(digits, wrong), format!("`{wrong}` in the place of 16 hexadecimal digits"));
    }
    assert_eq!(Run::parse(&format!("{LINE} ")).unwrap_err(), "`` behind the end");
    assert_eq!(Run::parse("").unwrap_err(), "`` in the place of `n`");
}

/// No byte at all, four bytes of the hash's published samples, and the pools that a refusal left alone.
#[test]
fn hashes() {
    assert_eq!(fnv1a(&[]), 0xcbf2_9ce4_8422_2325);
    assert_eq!(fnv1a(&[u32::from_le_bytes(*b"foob")]), 0xdd12_0e79_0c25_12af);
    for call in runs().iter().filter(|call| ![0, 7].contains(&call.number)) {
        assert_eq!(fnv1a(&call.pool()), call.words, "{call:?}");
    }
}
