//! Pair files that get number 11 (request A.6 of document 02), and where it
//! stands among the other refusals.

mod common;

use common::call::{spoiled, Call};
use samples::{level, T};
use witness::{first_order, FirstOrder};

/// Each fault of a pair file for three stops: an odd length; a pair too many
/// for any day, be it empty otherwise; a stop 0 or 4, or far off, as pick-up or
/// drop; the same stop twice; a stop in two pairs, whichever its part in each.
const FAULTY_PAIRS: [&[u8]; 20] = [
    &[1],
    &[0],
    &[1, 2, 3],
    &[1, 2, 3, 1, 2],
    &[0, 1],
    &[1, 0],
    &[0, 0],
    &[4, 1],
    &[1, 4],
    &[255, 1],
    &[1, 255],
    &[17, 3],
    &[2, 2],
    &[3, 3],
    &[1, 2, 3, 4],
    &[1, 2, 1, 3],
    &[1, 2, 2, 3],
    &[1, 2, 3, 1],
    &[1, 2, 3, 2],
    &[1, 2, 1, 2],
];

#[test]
fn number_11() {
    for pairs in FAULTY_PAIRS {
        for start in [&[][..], &[1, 2, 3], &[3, 2, 1]] {
            let faulty = |c: &mut Call| (c.start, c.pairs) = (start.to_vec(), pairs.to_vec());
            assert_eq!(spoiled(faulty), 11, "{pairs:?} {start:?}");
        }
    }
    for pairs in [[1, 2], [2, 1], [1, 3], [3, 1], [2, 3], [3, 2]] {
        let passed = |c: &mut Call| (c.start, c.pairs) = (Vec::new(), pairs.to_vec());
        assert_eq!(spoiled(passed), 0, "{pairs:?}");
    }
}

/// Sixteen stops in eight pairs pass. 17 bytes and more don't, whatever they
/// are, nor does any byte in place of one of the sixteen.
#[test]
fn number_11_of_sixteen_stops() {
    let number = |pairs: &[u8]| {
        spoiled(|c| {
            (c.n, c.table, c.budget) = (16, vec![0; 17 * 17], 0);
            (c.start, c.pairs) = ((1..=16).rev().collect(), pairs.to_vec());
        })
    };
    let eight: Vec<u8> = (1..=16).rev().collect();
    assert_eq!((number(&eight), number(&eight[..14])), (0, 0));
    for length in [1, 3, 15, 17, 18, 32, 255, 256, 272] {
        let mut other = eight.clone();
        other.resize(length, 17);
        assert_eq!(number(&other), 11, "{length}");
    }
    for place in 0..16 {
        for byte in (0..=255).filter(|&byte| byte != eight[place]) {
            let mut other = eight.clone();
            other[place] = byte;
            assert_eq!(number(&other), 11, "{byte} at {place}");
        }
    }
}

/// Number 5 for a permutation is for one that goes against pairs that pass.
#[test]
fn number_5_against_pairs() {
    let orders: [[u32; 3]; 6] = [[1, 2, 3], [1, 3, 2], [2, 1, 3], [2, 3, 1], [3, 1, 2], [3, 2, 1]];
    let told = [([1, 2], [0, 0, 5, 5, 0, 5]), ([3, 1], [5, 5, 5, 0, 0, 0]), ([2, 3], [0, 5, 0, 0, 5, 5])];
    for (pairs, numbers) in told {
        let number = |order: [u32; 3]| spoiled(|c| (c.start, c.pairs) = (order.to_vec(), pairs.to_vec()));
        assert_eq!(orders.map(number), numbers, "{pairs:?}");
    }
}

/// 5 before 11 for what is no permutation, and before 6 for what goes against
/// the pairs; 11 before 5 for a permutation that goes against one of them, and
/// before 6.
#[test]
fn number_11_between_5_and_6() {
    let number = |start: &[u32], pairs: &[u8], words: usize| {
        spoiled(|c| {
            (c.start, c.pairs) = (start.to_vec(), pairs.to_vec());
            c.pool.truncate(words);
        })
    };
    for words in [96, 95, 0] {
        let six = if words == 96 { 0 } else { 6 };
        assert_eq!([number(&[2, 3, 1], &[2, 1], words), number(&[], &[2, 1], words)], [six, six]);
        assert_eq!([number(&[1, 3, 2], &[2, 1], words), number(&[1, 1, 2], &[2, 1], words)], [5, 5]);
        for pairs in FAULTY_PAIRS {
            assert_eq!([number(&[1, 1, 2], pairs, words), number(&[1], pairs, words)], [5, 5]);
            assert_eq!([number(&[], pairs, words), number(&[2, 3, 1], pairs, words)], [11, 11]);
            assert_eq!(number(&[3, 2, 1], pairs, words), 11);
        }
    }
}

/// What a first order's call refuses by, with zeros beside it; 0 if it doesn't.
fn first_number(n: u64, bound: u64, table: &[u32], pairs: &[u8]) -> u32 {
    let first = first_order(n, bound, table, pairs);
    let FirstOrder { number, .. } = first;
    if number != 0 {
        assert_eq!(first, FirstOrder { number, ..FirstOrder::default() });
    }
    number
}

/// With each bound that passes.
#[test]
fn number_11_of_first_orders() {
    for bound in 0..=3 {
        for pairs in FAULTY_PAIRS {
            assert_eq!(first_number(3, bound, &T, pairs), 11, "{pairs:?}");
        }
        for pairs in [&[][..], &[1, 2], &[2, 1], &[1, 3], &[3, 1], &[2, 3], &[3, 2]] {
            assert_eq!(first_number(3, bound, &T, pairs), 0, "{pairs:?}");
        }
        let eight: Vec<u8> = (1..=16).rev().collect();
        assert_eq!(first_number(16, bound, &level(16, 1), &eight), 0);
        assert_eq!(first_number(16, bound, &level(16, 1), &[&eight[..], &[1, 2]].concat()), 11);
        assert_eq!(first_number(15, bound, &level(15, 1), &eight), 11);
    }
}

/// With n at 3, 16 numbers, all legs 7, a bound up to 3 and a pair of two stops, nothing applies; otherwise the first of
/// 1, 2, 3, 4 and 11 that does.
#[test]
fn number_11_is_the_last_of_first_orders() {
    for n in [3, 0, 17, u64::MAX] {
        for length in [16, 0, 15, 17] {
            for leg in [7, 1_000_001] {
                for bound in [0, 1, 2, 3, 4, u64::MAX] {
                    for pairs in [&[3, 1][..], &[3], &[3, 4], &[3, 3], &[3, 1, 1, 2]] {
                        let mut table = level(3, 7);
                        table[1] = leg;
                        table.resize(length, u32::MAX);
                        let causes = [n != 3, length != 16, leg != 7, bound > 3, pairs != [3, 1]];
                        let first = causes.iter().position(|&applies| applies);
                        let told = first.map_or(0, |at| [1, 2, 3, 4, 11][at]);
                        assert_eq!(first_number(n, bound, &table, pairs), told, "{n} {length} {leg} {bound} {pairs:?}");
                    }
                }
            }
        }
    }
}
