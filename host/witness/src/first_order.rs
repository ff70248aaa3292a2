//! The first order (request A.1 of document 02): the nearest-stop order, then
//! exchanges of two of its stops as long as one lowers the cost. The bound
//! number says which cost (request A.5): with the leg home or without. The
//! pairs say which stops and exchanges are allowed (request A.6).

use crate::checks::check_first;
use crate::legs::{Ends, Legs, Place, MOST_STOPS};
use crate::pairs::Pairs;
use crate::words::in_places;

#[derive(Clone, Copy, PartialEq, Eq, Debug, Default)]
pub struct FirstOrder {
    pub number: u32,
    pub cost: u32,
    /// Zeros past n.
    pub order: [u32; MOST_STOPS],
}

/// The whole call: number 0 with cost and order, or a number from 1 to 4 or 11
/// and zeros. `pairs` has the pair file's bytes.
pub fn first_order(n: u64, bound: u64, table: &[u32], pairs: &[u8]) -> FirstOrder {
    match check_first(n, bound, table, pairs) {
        Ok((legs, bound, pairs)) => {
            let order = exchanged(&legs, &pairs, bound.ends(), nearest_stop_order(&legs, &pairs));
            FirstOrder { number: 0, cost: legs.order_cost(&order, bound.ends()), order: in_places(&order) }
        }
        Err(number) => FirstOrder { number, ..FirstOrder::default() },
    }
}

/// From each place on to the nearest allowed stop not yet flown, wherever the
/// day ends.
pub fn nearest_stop_order(legs: &Legs, pairs: &Pairs) -> Vec<Place> {
    let mut order = Vec::new();
    let mut place = 0;
    while order.len() < legs.n {
        place = nearest_stop(legs, pairs, place, &order);
        order.push(place);
    }
    order
}

/// Of the stops not yet flown that the pairs allow, the one that is cheapest to
/// fly to and land at, the lowest number of several.
fn nearest_stop(legs: &Legs, pairs: &Pairs, from: Place, flown: &[Place]) -> Place {
    let left = (1..=legs.n).filter(|stop| !flown.contains(stop));
    let allowed: Vec<Place> = left.filter(|&stop| pairs.allow(stop, flown)).collect();
    let cheapest = allowed.iter().map(|&stop| legs.flying(from, stop)).min().expect("an allowed stop is left");
    allowed.into_iter().find(|&stop| legs.flying(from, stop) == cheapest).unwrap()
}

/// The order after all exchanges; each lowers the cost, so they end.
fn exchanged(legs: &Legs, pairs: &Pairs, ends: Ends, start: Vec<Place>) -> Vec<Place> {
    let mut order = start;
    while let Some(next) = best_exchange(legs, pairs, ends, &order) {
        order = next;
    }
    order
}

/// What the allowed exchange that lowers the cost most makes of the order, the
/// first of several such; None if no allowed exchange lowers it.
pub fn best_exchange(legs: &Legs, pairs: &Pairs, ends: Ends, order: &[Place]) -> Option<Vec<Place>> {
    let mut allowed = exchanges(order);
    allowed.retain(|next| pairs.respected_by(next));
    let least = allowed.iter().map(|next| legs.order_cost(next, ends)).min()?;
    if least >= legs.order_cost(order, ends) {
        return None;
    }
    allowed.into_iter().find(|next| legs.order_cost(next, ends) == least)
}

/// The order with the stops at positions p and q in each other's place, for
/// all p < q, by p and then by q.
pub fn exchanges(order: &[Place]) -> Vec<Vec<Place>> {
    let mut all = Vec::new();
    for p in 0..order.len() {
        for q in p + 1..order.len() {
            let mut next = order.to_vec();
            next[p] = order[q];
            next[q] = order[p];
            all.push(next);
        }
    }
    all
}
