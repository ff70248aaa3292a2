//! The first order (request A.1 of document 02), of days that end home: cases
//! worked by hand; and the refusals, with request A.5's number 4.

mod common;

use common::course::course;
use samples::{level, T};
use witness::enumerate::least_cost;
use witness::first_order::{exchanges, first_order};
use witness::legs::{Ends, Legs, Place};

/// All legs the same but those named: from, to, cost.
fn level_but(n: usize, leg: u32, others: &[(Place, Place, u32)]) -> Vec<u32> {
    let mut table = level(n, leg);
    for &(from, to, cost) in others {
        table[from * (n + 1) + to] = cost;
    }
    table
}

/// What each exchange would make of an order's cost, by first and then second
/// position.
fn exchange_costs(n: usize, table: &[u32], order: &[Place]) -> Vec<u32> {
    let legs = Legs::new(n, table);
    exchanges(order).iter().map(|next| legs.order_cost(next, Ends::Home)).collect()
}

#[test]
fn table_t() {
    assert_eq!(exchanges(&[1, 2, 3]), [[2, 1, 3], [3, 2, 1], [1, 3, 2]]);
    let told = [7 + 8 + 6 + 6, 9 + 4 + 8 + 5, 4 + 6 + 4 + 3];
    assert_eq!(exchange_costs(3, &T, &[1, 2, 3]), told);
    assert_eq!(course(3, &T), [(4 + 2 + 1 + 6, vec![1, 2, 3])]);
}

#[test]
fn one_and_two_stops() {
    assert_eq!(course(1, &[0, 3, 5, 0]), [(8, vec![1])]);
    assert_eq!(course(2, &[0, 1, 2, 1, 0, 9, 1, 3, 0]), [(1 + 9 + 1, vec![1, 2]), (2 + 3 + 1, vec![2, 1])]);
    assert_eq!(course(2, &[0, 1, 2, 1, 0, 5, 1, 4, 0]), [(1 + 5 + 1, vec![1, 2])]);
}

#[test]
fn dearest_and_free_legs() {
    let stops: Vec<Place> = (1..=16).collect();
    assert_eq!(course(16, &level(16, 1_000_000)), [(17_000_000, stops.clone())]);
    assert_eq!(course(16, &level(16, 0)), [(0, stops)]);
}

#[test]
fn nearest_stops_that_tie() {
    let from_home = level_but(3, 9, &[(0, 2, 4), (0, 3, 4)]);
    assert_eq!(course(3, &from_home), [(4 + 9 + 9 + 9, vec![2, 1, 3])]);
    let later = level_but(4, 9, &[(0, 3, 1), (3, 2, 2), (3, 4, 2)]);
    assert_eq!(course(4, &later), [(1 + 2 + 9 + 9 + 9, vec![3, 2, 1, 4])]);
    let flown_and_home = level_but(3, 9, &[(0, 2, 1), (2, 0, 4), (2, 3, 5), (3, 2, 3)]);
    assert_eq!(course(3, &flown_and_home), [(1 + 5 + 9 + 9, vec![2, 3, 1])]);
}

#[test]
fn exchanges_that_tie() {
    let all = level_but(3, 1, &[(2, 3, 10)]);
    assert_eq!(exchange_costs(3, &all, &[1, 2, 3]), [4, 4, 4]);
    assert_eq!(course(3, &all), [(13, vec![1, 2, 3]), (4, vec![2, 1, 3])]);
    let same_first = level_but(3, 1, &[(2, 3, 10), (2, 0, 2)]);
    assert_eq!(exchange_costs(3, &same_first, &[1, 2, 3]), [4, 4, 5]);
    assert_eq!(course(3, &same_first), [(13, vec![1, 2, 3]), (4, vec![2, 1, 3])]);
    let same_second = level_but(3, 1, &[(2, 3, 10), (0, 2, 2)]);
    assert_eq!(exchange_costs(3, &same_second, &[1, 2, 3]), [5, 4, 4]);
    assert_eq!(course(3, &same_second), [(13, vec![1, 2, 3]), (4, vec![3, 2, 1])]);
}

/// Positions 1 and 4 come before 2 and 3.
#[test]
fn outer_and_inner_exchange_tie() {
    let cheap = [(0, 1), (0, 4), (1, 0), (1, 2), (1, 3), (2, 3), (2, 4), (3, 1), (3, 2), (4, 0), (4, 2)];
    let mut table = level_but(4, 5, &cheap.map(|(from, to)| (from, to, 1)));
    table[3 * 5 + 4] = 10;
    assert_eq!(exchange_costs(4, &table, &[1, 2, 3, 4]), [22, 17, 5, 5, 17, 13]);
    assert_eq!(course(4, &table), [(14, vec![1, 2, 3, 4]), (5, vec![4, 2, 3, 1])]);
}

#[test]
fn greatest_gain_before_first_gain() {
    let table = level_but(3, 1, &[(2, 3, 10), (0, 2, 3), (0, 3, 2), (2, 1, 3)]);
    assert_eq!(exchange_costs(3, &table, &[1, 2, 3]), [3 + 3 + 1 + 1, 2 + 1 + 3 + 1, 1 + 1 + 1 + 1]);
    assert_eq!(course(3, &table), [(13, vec![1, 2, 3]), (4, vec![1, 3, 2])]);
}

#[test]
fn three_exchanges() {
    let table = [0, 1, 2, 2, 2, 1, 0, 3, 9, 9, 2, 3, 0, 1, 3, 2, 3, 2, 0, 1, 9, 1, 3, 3, 0];
    let told = [
        (1 + 3 + 1 + 1 + 9, vec![1, 2, 3, 4]),
        (2 + 3 + 1 + 3 + 1, vec![4, 2, 3, 1]),
        (2 + 2 + 3 + 1 + 1, vec![3, 2, 4, 1]),
        (2 + 1 + 1 + 1 + 1, vec![2, 3, 4, 1]),
    ];
    assert_eq!(course(4, &table), told);
}

/// The order 2, 3, 1 is cheaper, yet no single exchange leads there.
#[test]
fn ends_above_the_least_cost() {
    let table = level_but(3, 9, &[(0, 1, 1), (0, 2, 2), (1, 0, 1), (1, 2, 1), (2, 3, 1), (3, 0, 5), (3, 1, 1)]);
    assert_eq!(course(3, &table), [(1 + 1 + 1 + 5, vec![1, 2, 3])]);
    assert_eq!(least_cost(&Legs::new(3, &table), Ends::Home), 2 + 1 + 1 + 1);
}

fn number_by(n: u64, bound: u64, table: &[u32]) -> u32 {
    let first = first_order(n, bound, table, &[]);
    if first.number != 0 {
        assert_eq!((first.cost, first.order), (0, [0; 16]), "all else is zero");
    }
    first.number
}

/// Whichever bound of the four.
fn number(n: u64, table: &[u32]) -> u32 {
    let numbers = [0, 1, 2, 3].map(|bound| number_by(n, bound, table));
    assert_eq!(numbers, [numbers[0]; 4]);
    numbers[0]
}

#[test]
fn number_1() {
    for n in [0, 17, 18, 255, 256, 1 << 32, (1 << 32) + 3, u64::MAX] {
        assert_eq!(number(n, &T), 1, "{n}");
    }
    assert_eq!(number(0, &[0]), 1);
    assert_eq!(number(17, &level(17, 1)), 1);
    for n in 1..=16 {
        assert_eq!(number(n, &level(n as usize, 1)), 0, "{n}");
    }
}

#[test]
fn number_2() {
    for length in [0, 1, 9, 15, 17, 25, 289] {
        assert_eq!(number(3, &vec![0; length]), 2, "{length}");
    }
    for n in [1, 2, 4, 16] {
        assert_eq!(number(n, &T), 2, "{n}");
    }
}

#[test]
fn number_3() {
    for place in 0..16 {
        let on_diagonal = if place % 5 == 0 { 3 } else { 0 };
        let entries = [(0, 0), (1, 0), (100_000, 0), (100_001, on_diagonal), (1_000_000, on_diagonal)];
        for (entry, told) in entries.into_iter().chain([(1_000_001, 3), (u32::MAX, 3)]) {
            let mut table = T;
            table[place] = entry;
            assert_eq!(number(3, &table), told, "{entry} at {place}");
        }
    }
}

#[test]
fn number_4() {
    for bound in [4, 5, 255, 256, 1 << 32, (1 << 32) + 3, u64::MAX] {
        assert_eq!(number_by(3, bound, &T), 4, "{bound}");
    }
    for n in 1..=16 {
        for bound in 0..=4 {
            let told = if bound == 4 { 4 } else { 0 };
            assert_eq!(number_by(n, bound, &level(n as usize, 1)), told, "{n} {bound}");
        }
    }
}

/// With n at 3, 16 numbers, all legs 7 and a bound up to 3, nothing applies.
#[test]
fn lowest_number_of_several() {
    for n in [3, 0, 17, u64::MAX] {
        for length in [16, 0, 15, 17] {
            for spoiled in [(1, 7), (0, 100_001), (5, 1_000_000), (1, u32::MAX)] {
                for bound in [0, 1, 2, 3, 4, u64::MAX] {
                    let mut table = level(3, 7);
                    table[spoiled.0] = spoiled.1;
                    table.resize(length, u32::MAX);
                    let causes = [n != 3, length != 16, spoiled != (1, 7), bound > 3];
                    let told = causes.iter().position(|&applies| applies).map_or(0, |at| at as u32 + 1);
                    assert_eq!(number_by(n, bound, &table), told, "{n} {length} {spoiled:?} {bound}");
                }
            }
        }
    }
}
