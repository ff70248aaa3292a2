//! The first order (request A.1, with the landing charges of request A.4, the bound number of request A.5 and the pairs of
//! request A.6).

use crate::words::Words;
use crate::{lines, ORDER_PLACES};

/// A call for the first order and its answer.
#[derive(Clone, Debug, PartialEq, Eq)]
pub struct First {
    pub n: u32,
    /// Row by row, of any length.
    pub table: Vec<u32>,
    pub bound: u32,
    /// The pair file's bytes, empty if there are no pairs.
    pub pairs: Vec<u8>,
    pub number: u32,
    pub cost: u32,
    /// Zeros past n.
    pub order: [u8; ORDER_PLACES],
}

impl First {
    /// What a line says, or what is wrong with it.
    pub fn parse(line: &str) -> Result<First, String> {
        let words = &mut Words::of(line);
        let n = words.number_of("n")?;
        let table = words.numbers_of("table")?;
        let bound = words.number_of("bound")?;
        let pairs = words.some_of("pairs")?;
        words.word("=>")?;
        let number = words.number()?;
        let cost = words.number_of("cost")?;
        let order = words.array_of("order")?;
        words.end()?;
        Ok(First { n, table, bound, pairs, number, cost, order })
    }
}

/// The 150 calls of A06-first.txt.
pub fn first() -> Vec<First> {
    lines("A06-first.txt", include_str!("../A06-first.txt"), 150, First::parse)
}
