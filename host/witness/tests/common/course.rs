//! How a first order comes about, exchange by exchange.

use witness::first_order::{best_exchange, nearest_stop_order};
use witness::legs::{Ends, Legs, Place};
use witness::pairs::Pairs;
use witness::words::in_places;
use witness::{first_order, FirstOrder};

/// Cost and stops of the nearest-stop order and after each exchange, of a day
/// that ends home.
pub fn course(n: usize, table: &[u32]) -> Vec<(u32, Vec<Place>)> {
    course_with(n, table, &[], [0, 1])
}

/// The same of a day that ends away.
pub fn course_away(n: usize, table: &[u32]) -> Vec<(u32, Vec<Place>)> {
    course_with(n, table, &[], [2, 3])
}

/// The same with pairs, of a day by its two bounds. With each of these the call
/// for a first order must answer with the last of the course.
pub fn course_with(n: usize, table: &[u32], file: &[u8], bounds: [u64; 2]) -> Vec<(u32, Vec<Place>)> {
    let legs = Legs::new(n, table);
    let pairs = Pairs::read(n, file).unwrap();
    let ends = if bounds[0] < 2 { Ends::Home } else { Ends::Away };
    let mut order = nearest_stop_order(&legs, &pairs);
    let mut course = vec![(legs.order_cost(&order, ends), order.clone())];
    while let Some(next) = best_exchange(&legs, &pairs, ends, &order) {
        course.push((legs.order_cost(&next, ends), next.clone()));
        order = next;
    }
    let told = FirstOrder { number: 0, cost: legs.order_cost(&order, ends), order: in_places(&order) };
    assert_eq!(bounds.map(|bound| first_order(n as u64, bound, table, file)), [told; 2]);
    course
}
