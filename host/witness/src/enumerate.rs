//! All n! orders of the n stops.

use crate::legs::{Ends, Legs, Place};

/// Every permutation of 1 to n, in ascending order.
pub fn all_orders(n: usize) -> Vec<Vec<Place>> {
    let mut orders = vec![Vec::new()];
    for _ in 0..n {
        let mut longer = Vec::new();
        for order in &orders {
            for stop in (1..=n).filter(|s| !order.contains(s)) {
                let mut next: Vec<Place> = order.clone();
                next.push(stop);
                longer.push(next);
            }
        }
        orders = longer;
    }
    orders
}

/// The least cost over all orders of a day with this end.
pub fn least_cost(legs: &Legs, ends: Ends) -> u32 {
    let orders = all_orders(legs.n);
    orders.iter().map(|o| legs.order_cost(o, ends)).min().unwrap()
}

/// The orders of least cost, in ascending order.
pub fn cheapest_orders(legs: &Legs, ends: Ends) -> Vec<Vec<Place>> {
    let least = least_cost(legs, ends);
    let mut orders = all_orders(legs.n);
    orders.retain(|o| legs.order_cost(o, ends) == least);
    orders
}
