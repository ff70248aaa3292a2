//! Worked calls with what they must give: the files beside this crate (see its README.md) and their strict parser. It
//! needs no library, so that the second planner's tests use it too.

mod files;
mod first;
mod hash;
mod run;
mod words;

pub use files::{files, JobFile};
pub use first::{first, First};
pub use hash::fnv1a;
pub use run::{runs, Run};

/// Places of an order in an answer.
pub const ORDER_PLACES: usize = 16;

/// What each line of a file says, which has so many of them.
fn lines<T>(name: &str, text: &str, count: usize, parse: fn(&str) -> Result<T, String>) -> Vec<T> {
    let told = |(at, line)| parse(line).unwrap_or_else(|fault| panic!("{name}, line {}: {fault}", at + 1));
    let lines: Vec<T> = text.lines().enumerate().map(told).collect();
    assert_eq!(lines.len(), count, "lines of {name}");
    lines
}
