//! A06-first.txt is parsed as a whole, and nothing else passes for a line of it.

mod common;

use common::in_front;
use vectors::{first, First};

const LINE: &str = "n 1 table 0 25 21 0 bound 1 pairs none => 0 cost 46 order 1 0 0 0 0 0 0 0 0 0 0 0 0 0 0 0";

#[test]
fn a_line_of_first() {
    let mut order = [0; 16];
    order[0] = 1;
    let told = First { n: 1, table: vec![0, 25, 21, 0], bound: 1, pairs: Vec::new(), number: 0, cost: 46, order };
    assert_eq!(First::parse(LINE), Ok(told.clone()));
    let paired = First::parse(&LINE.replace("none", "1 0 255"));
    assert_eq!(paired, Ok(First { pairs: vec![1, 0, 255], ..told }));
}

/// The first and the second line of the file.
#[test]
fn lines_of_the_file() {
    let First { n, table, bound, pairs, number, cost, order } = &first()[0];
    assert_eq!((*n, &table[..4], table.len(), *bound), (3, &[4, 315, 702, 61][..], 16, 1));
    assert_eq!((&pairs[..], *number, *cost, &order[..4]), (&[3, 2][..], 0, 604, &[3, 1, 2, 0][..]));
    let First { n, table, bound, pairs, number, cost, order } = &first()[1];
    assert_eq!((*n, &table[..4], table.len(), *bound), (6, &[0, 543_041, 333_299, 864_896][..], 49, 2));
    assert_eq!((&pairs[..], *number, *cost, &order[..7]), (&[][..], 0, 1_257_009, &[6, 4, 5, 3, 1, 2, 0][..]));
}

/// Answers of every number, and every n from 1 to 17.
#[test]
fn the_calls_of_first() {
    let calls = first();
    for number in [0, 1, 2, 3, 4, 11] {
        assert!(calls.iter().any(|call| call.number == number), "{number}");
    }
    for n in 1..=17 {
        assert!(calls.iter().any(|call| call.n == n), "{n}");
    }
    let sized = |call: &&First| call.table.len() as u32 == (call.n + 1) * (call.n + 1);
    assert!(calls.iter().any(|call| call.number == 2 && !sized(&call)));
    assert!(calls.iter().filter(|call| call.number == 0).all(|call| sized(&call)));
}

/// Orders with every bound that passes, and one too many, also behind a number 2.
#[test]
fn bounds_of_first() {
    let some = |number, bound| first().iter().any(|call| (call.number, call.bound) == (number, bound));
    assert!((0..=3).all(|bound| some(0, bound)) && some(4, 4) && some(2, 4));
    for call in first().iter().filter(|call| [0, 4].contains(&call.number)) {
        assert_eq!(call.number == 4, call.bound > 3, "{call:?}");
    }
}

/// Orders of tables with charges, and legs of one too many.
#[test]
fn charges_of_first() {
    let dearest = |call: &First| call.table.iter().step_by(call.n as usize + 2).copied().max();
    let some = |number, charge| first().iter().any(|call| (call.number, dearest(call)) == (number, Some(charge)));
    assert!(some(0, 0) && some(0, 1) && some(0, 99_881));
    assert!(first().iter().any(|call| call.number == 3 && call.table.contains(&1_000_001)));
    assert!(first().iter().all(|call| call.number != 0 || dearest(call) <= Some(100_000)));
}

/// Orders with up to seven pairs, each pick-up in front of its drop, and the two files that number 11 refuses.
#[test]
fn pairs_of_first() {
    let calls = first();
    for pairs in 0..=7 {
        assert!(calls.iter().any(|call| (call.number, call.pairs.len()) == (0, 2 * pairs)), "{pairs}");
    }
    for call in calls.iter().filter(|call| call.number == 0) {
        assert!(in_front(&call.pairs, &call.order), "{call:?}");
    }
    let refused: Vec<&[u8]> = calls.iter().filter(|call| call.number == 11).map(|call| &call.pairs[..]).collect();
    assert_eq!(refused, [&[3][..], &[2, 1, 0, 2, 2]]);
}

#[test]
fn faulty_lines() {
    let fault = |old, new| First::parse(&LINE.replacen(old, new, 1)).unwrap_err();
    assert_eq!(fault("n 1", "m 1"), "`m` in the place of `n`");
    assert_eq!(fault("n 1", "n  1"), "`` in the place of a number");
    assert_eq!(fault("n 1", "n +1"), "`+1` in the place of a number");
    assert_eq!(fault("25", "025"), "`025` in the place of a number");
    assert_eq!(fault("25", "4294967296"), "`4294967296` in the place of a number");
    assert_eq!(fault("25", "x"), "`x` in the place of `bound`");
    assert_eq!(fault("bound 1 ", ""), "`pairs` in the place of `bound`");
    assert_eq!(fault("bound 1", "bound"), "`pairs` in the place of a number");
    assert_eq!(fault("bound 1", "bound 1 1"), "`1` in the place of `pairs`");
    assert_eq!(fault("pairs none ", ""), "`=>` in the place of `pairs`");
    assert_eq!(fault("pairs none", "pairs"), "`=>` in the place of a number");
    assert_eq!(fault("pairs none", "pairs none 1"), "`1` in the place of `=>`");
    assert_eq!(fault("pairs none", "pairs 1 none"), "`none` in the place of `=>`");
    assert_eq!(fault("pairs none", "pairs 1 256"), "`256` in the place of a number");
    assert_eq!(fault("cost 46", "46"), "`46` in the place of `cost`");
    assert_eq!(fault("order 1", "order 256"), "`256` in the place of a number");
    assert_eq!(fault("order 1", "order"), "15 numbers behind `order`");
    assert_eq!(fault("order 1", "order 1 1"), "17 numbers behind `order`");
    assert_eq!(First::parse(&format!("{LINE} ")).unwrap_err(), "`` behind the end");
    assert_eq!(First::parse("").unwrap_err(), "`` in the place of `n`");
    assert_eq!(First::parse("n").unwrap_err(), "`` in the place of a number");
}
