//! The unit's first order beside an unverified one of the same method: ns a call, exchanges made, and the ratio of the
//! times. Both load the table into rows, try an exchange by making it, reckon the whole cost and undo it. The proved
//! one checks the table too.

use std::hint::black_box;
use std::time::{Duration, Instant};

use bench::peer::Rows;
use bench::tables;
use gondamuy::{raw, Bound, ORDER_PLACES};

/// Calls that are timed together, and how often by each of the two in turn; the least time counts.
const CALLS: u32 = 100;
const RUNS: usize = 20;

struct Found {
    cost: u32,
    order: [u8; ORDER_PLACES],
    exchanges: u32,
}

pub fn all_rows(count: u64) {
    print!("{:<8}{:>3}{:>8}{:>18}", "table", "n", "tables", "exchanges, most");
    println!("{:>12}{:>12}{:>8}", "peer ns", "ours ns", "ratio");
    for wind in ["uniform", "wind"] {
        for n in [4, 8, 12, 16] {
            row(wind, n, count);
        }
    }
}

fn row(wind: &str, n: usize, count: u64) {
    let (mut theirs, mut ours, mut most) = (Duration::ZERO, Duration::ZERO, 0);
    for seed in 0..count {
        let table = tables::table(wind, n, seed);
        let found = first_order(n, &table);
        let answer = ours_of(n, &table);
        assert_eq!((answer.number, answer.cost, answer.order), (0, found.cost, found.order));
        most = most.max(found.exchanges);
        let (mut peer, mut unit) = (Duration::MAX, Duration::MAX);
        for _ in 0..RUNS {
            peer = peer.min(timed(|| first_order(n, black_box(&table)).cost));
            unit = unit.min(timed(|| ours_of(n, black_box(&table)).cost));
        }
        theirs += peer;
        ours += unit;
    }
    let each = |time: Duration| time.as_nanos() as f64 / f64::from(CALLS) / count as f64;
    let ratio = ours.as_secs_f64() / theirs.as_secs_f64();
    println!("{wind:<8}{n:>3}{count:>8}{most:>18}{:>12.0}{:>12.0}{ratio:>8.2}", each(theirs), each(ours));
}

/// By the close bound, which says no more than that the day ends at home, and without pairs.
fn ours_of(n: usize, table: &[u32]) -> raw::FirstOrder {
    raw::first_order(n as u32, Bound::Close as u32, table, &[])
}

fn timed(call: impl Fn() -> u32) -> Duration {
    let begin = Instant::now();
    for _ in 0..CALLS {
        black_box(call());
    }
    begin.elapsed()
}

fn first_order(n: usize, table: &[u32]) -> Found {
    let rows = tables::rows(n, table);
    let mut order = [0; ORDER_PLACES];
    nearest(&rows, &mut order[..n]);
    let (cost, exchanges) = improve(&rows, &mut order[..n]);
    Found { cost, order, exchanges }
}

fn nearest(rows: &Rows, order: &mut [u8]) {
    let mut left = (1u32 << order.len()) - 1;
    let mut place = 0;
    for stop in order {
        let (mut found, mut others) = (left.trailing_zeros(), left & (left - 1));
        while others != 0 {
            let s = others.trailing_zeros();
            others &= others - 1;
            if rows[place][s as usize + 1] < rows[place][found as usize + 1] {
                found = s;
            }
        }
        left &= !(1 << found);
        place = found as usize + 1;
        *stop = place as u8;
    }
}

fn improve(rows: &Rows, order: &mut [u8]) -> (u32, u32) {
    let mut cost = order_cost(rows, order);
    let mut exchanges = 0;
    loop {
        let mut best = (cost, 0, 0);
        for p in 0..order.len() {
            for q in p + 1..order.len() {
                order.swap(p, q);
                let changed = order_cost(rows, order);
                order.swap(p, q);
                if changed < best.0 {
                    best = (changed, p, q);
                }
            }
        }
        if best.0 == cost {
            return (cost, exchanges);
        }
        order.swap(best.1, best.2);
        cost = best.0;
        exchanges += 1;
    }
}

fn order_cost(rows: &Rows, order: &[u8]) -> u32 {
    let (mut sum, mut place) = (0, 0);
    for &stop in order {
        sum += rows[place][stop as usize];
        place = stop as usize;
    }
    sum + rows[place][0]
}
