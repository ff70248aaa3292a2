//! Runs (document 01 with requests A.1 to A.8).

use crate::words::Words;
use crate::{lines, ORDER_PLACES};

/// Words in a record of the pool.
const RECORD: usize = 6;

/// A call of the planner and its answer.
#[derive(Clone, Debug, PartialEq, Eq)]
pub struct Run {
    pub n: u32,
    /// Row by row, of any length.
    pub table: Vec<u32>,
    pub selection: u32,
    pub rules: u32,
    pub bound: u32,
    /// The starting order's stops, empty if there is none.
    pub start: Vec<u8>,
    /// The pair file's bytes, empty if there are no pairs.
    pub pairs: Vec<u8>,
    pub budget: u64,
    /// Whole records in the pool.
    pub records: usize,
    /// Words behind them, too few for another record.
    pub extra: usize,
    /// Every word of the pool before the call.
    pub fill: u32,
    pub number: u32,
    pub cost: u32,
    /// Zeros past n.
    pub order: [u8; ORDER_PLACES],
    /// Branched, generated, eliminated, active, most.
    pub counts: [u64; 5],
    pub mark: u32,
    pub floor: u32,
    /// The pool's words after the call, by `fnv1a`.
    pub words: u64,
}

impl Run {
    /// What a line says, or what is wrong with it.
    pub fn parse(line: &str) -> Result<Run, String> {
        let words = &mut Words::of(line);
        let run = Run {
            n: words.number_of("n")?,
            table: words.numbers_of("table")?,
            selection: words.number_of("selection")?,
            rules: words.number_of("rules")?,
            bound: words.number_of("bound")?,
            start: words.some_of("start")?,
            pairs: words.some_of("pairs")?,
            budget: budget(words)?,
            records: words.number_of("pool")?,
            extra: extra(words)?,
            fill: words.number_of("fill")?,
            number: words.number_of("=>")?,
            cost: words.number_of("cost")?,
            order: words.array_of("order")?,
            counts: words.array_of("counts")?,
            mark: words.number_of("mark")?,
            floor: words.number_of("floor")?,
            words: words.hex_of("words")?,
        };
        words.end()?;
        Ok(run)
    }

    /// The pool before the call.
    pub fn pool(&self) -> Vec<u32> {
        vec![self.fill; self.records * RECORD + self.extra]
    }
}

/// `most` for the largest, or a number.
fn budget(words: &mut Words) -> Result<u64, String> {
    words.word("budget")?;
    match words.take_if("most") {
        true => Ok(u64::MAX),
        false => words.number(),
    }
}

/// Nothing, or `and` and a part of a record.
fn extra(words: &mut Words) -> Result<usize, String> {
    if !words.take_if("and") {
        return Ok(0);
    }
    match words.number()? {
        extra if (1..RECORD).contains(&extra) => Ok(extra),
        extra => Err(format!("{extra} words in the place of a part of a record")),
    }
}

/// The 300 calls of A08-run.txt.
pub fn runs() -> Vec<Run> {
    lines("A08-run.txt", include_str!("../A08-run.txt"), 300, Run::parse)
}
