//! Refusals 1 to 6: each cause, the boundaries, and the lowest number of
//! several (document 01, "Causes and numbers", and requests A.4 and A.5 of
//! document 02), with request A.6's number 11 among them.

mod common;

use common::call::{good, number, spoiled, Call};
use samples::Random;
use witness::LARGEST_BUDGET;

#[test]
fn the_good_call_passes() {
    assert_eq!(number(&good()), 0);
}

#[test]
fn number_1() {
    for n in [0, 17, 18, 255, 256, 1 << 32, (1 << 32) + 3, u64::MAX] {
        assert_eq!(spoiled(|c| c.n = n), 1, "{n}");
    }
    for n in 1..=16usize {
        let table = vec![0; (n + 1) * (n + 1)];
        let start: Vec<u32> = (1..=n as u32).collect();
        let passed = spoiled(|c| {
            (c.n, c.budget) = (n as u64, 0);
            (c.table, c.start) = (table.clone(), start.clone());
        });
        assert_eq!(passed, 0);
    }
    let eighteen = |c: &mut Call| (c.n, c.table) = (17, vec![0; 18 * 18]);
    assert_eq!(spoiled(eighteen), 1);
}

#[test]
fn number_2() {
    for length in [0, 1, 9, 15, 17, 25, 289] {
        assert_eq!(spoiled(|c| c.table.resize(length, 0)), 2, "{length}");
    }
    for n in [1, 2, 4, 16] {
        assert_eq!(spoiled(|c| c.n = n), 2, "{n}");
    }
}

#[test]
fn number_3() {
    for place in 0..16 {
        let on_diagonal = if place % 5 == 0 { 3 } else { 0 };
        for (entry, told) in [(0, 0), (1, 0), (100_000, 0), (100_001, on_diagonal), (1_000_000, on_diagonal)] {
            assert_eq!(spoiled(|c| c.table[place] = entry), told, "{entry} at {place}");
        }
        for entry in [1_000_001, 1 << 31, u32::MAX] {
            assert_eq!(spoiled(|c| c.table[place] = entry), 3, "{entry} at {place}");
        }
    }
}

/// What leg and charge come to is not looked at: the dearest of both pass in
/// every place at once, and one more in a single place doesn't.
#[test]
fn number_3_looks_at_no_sum() {
    let dearest: Vec<u32> = (0..16).map(|place| if place % 5 == 0 { 100_000 } else { 1_000_000 }).collect();
    assert_eq!(spoiled(|c| c.table = dearest.clone()), 0);
    for place in 0..16 {
        let one_more = |c: &mut Call| {
            c.table = dearest.clone();
            c.table[place] += 1;
        };
        assert_eq!(spoiled(one_more), 3, "{place}");
    }
}

#[test]
fn number_4() {
    for big in [4, 5, 256, 1 << 32, u64::MAX] {
        assert_eq!(spoiled(|c| c.selection = big), 4, "{big}");
    }
    for big in [16, 17, 31, 256, 1 << 32, u64::MAX] {
        assert_eq!(spoiled(|c| c.rules = big), 4, "{big}");
    }
    for big in [4, 5, 256, 1 << 32, (1 << 32) + 2, u64::MAX] {
        assert_eq!(spoiled(|c| c.bound = big), 4, "{big}");
    }
    for [selection, rules, bound] in common::choices().into_iter().chain(common::away_choices()) {
        let choose = |c: &mut Call| {
            (c.selection, c.rules, c.bound) = (selection, rules, bound);
        };
        assert_eq!(spoiled(choose), 0);
    }
}

#[test]
fn number_5() {
    let wrong: [&[u32]; 12] = [
        &[1],
        &[1, 2],
        &[1, 2, 3, 1],
        &[1, 2, 3, 4],
        &[1, 2, 2],
        &[1, 1, 1],
        &[0, 1, 2],
        &[1, 2, 4],
        &[1, 2, 0],
        &[1, 2, 259],
        &[0, 0, 0],
        &[1, 2, u32::MAX],
    ];
    for start in wrong {
        assert_eq!(spoiled(|c| c.start = start.to_vec()), 5, "{start:?}");
    }
    let right: [&[u32]; 7] = [&[], &[1, 2, 3], &[1, 3, 2], &[2, 1, 3], &[2, 3, 1], &[3, 1, 2], &[3, 2, 1]];
    for start in right {
        assert_eq!(spoiled(|c| c.start = start.to_vec()), 0, "{start:?}");
    }
}

#[test]
fn number_6() {
    for words in 0..40 {
        let got = spoiled(|c| c.pool.truncate(words));
        if words == 0 || words % 6 != 0 {
            assert_eq!(got, 6, "{words}");
        } else {
            assert!(got == 0 || got == 7, "{words}");
        }
    }
}

/// Spoils a call so that `number` applies, in a way picked at random.
fn spoil(call: &mut Call, number: u32, random: &mut Random) {
    let way = random.below(3) as usize;
    match number {
        1 => call.n = [0, 17, u64::MAX][way],
        2 => {
            let length = [0, 15, 17][way];
            call.table.resize(length, 7);
        }
        3 => {
            if !call.table.is_empty() {
                // Home's charge, a leg, a stop's charge.
                let (place, entry) = [(0, 100_001), (1, 1_000_001), (5, u32::MAX)][way];
                call.table[place] = entry;
            }
        }
        4 => match way {
            0 => call.selection = 4,
            1 => call.rules = 16,
            _ => call.bound = 4,
        },
        5 => call.start = [vec![1], vec![1, 2, 2], vec![0, 1, 2]][way].clone(),
        11 => call.pairs = [vec![2], vec![1, 4], vec![2, 1, 2, 3]][way].clone(),
        _ => {
            let words = [0, 5, 95][way];
            call.pool.truncate(words);
        }
    }
}

/// In which sequence the numbers are asked for.
const SEQUENCE: [u32; 7] = [1, 2, 3, 4, 5, 11, 6];

/// All 127 sets of causes: the first in the sequence is the answer, whatever
/// the budget, wherever the day ends, with pairs and without.
#[test]
fn first_number_of_several() {
    let mut random = Random(41);
    for causes in 1u32..128 {
        for round in 0..40 {
            let mut call = good();
            call.budget = [0, 1, 1 << 32, LARGEST_BUDGET][round % 4];
            call.bound = [0, 1, 2, 3][round / 4 % 4];
            call.pairs = [vec![], vec![2, 1]][round / 16 % 2].clone();
            for (_, &cause) in SEQUENCE.iter().enumerate().filter(|(at, _)| causes >> at & 1 == 1) {
                spoil(&mut call, cause, &mut random);
            }
            assert_eq!(number(&call), SEQUENCE[causes.trailing_zeros() as usize]);
        }
    }
}

/// A pool that is full comes behind all of them.
#[test]
fn number_7_is_the_last() {
    let short = |c: &mut Call| {
        (c.start, c.rules) = (Vec::new(), 0);
        c.pool.truncate(6);
    };
    assert_eq!(spoiled(short), 7);
    for cause in [1, 2, 3, 4, 5, 11] {
        let both = |c: &mut Call| {
            short(c);
            spoil(c, cause, &mut Random(42));
        };
        assert_eq!(spoiled(both), cause);
    }
}
