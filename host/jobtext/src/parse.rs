//! From the text to a job, or to a fault with its line.

use std::fmt;

use crate::names::{by_name, list, Named, ALL_RULES, BOUNDS, RULES, SELECTIONS};
use crate::numbers::{number, numbers};
use crate::pairs::pairs;
use crate::table::{self, Charges, Row};
use crate::Job;

const DEAREST_LEG: u32 = 1_000_000;

/// What is wrong with a text, and on which line, counted from 1.
#[derive(Clone, Debug, PartialEq, Eq)]
pub struct Fault {
    pub line: usize,
    pub what: String,
}

impl fmt::Display for Fault {
    fn fmt(&self, out: &mut fmt::Formatter) -> fmt::Result {
        write!(out, "line {}: {}", self.line, self.what)
    }
}

/// What a keyword says, and the line that it stands on.
pub struct At<T> {
    pub line: usize,
    pub value: T,
}

impl<T> At<T> {
    pub fn fault(&self, what: String) -> Fault {
        Fault { line: self.line, what }
    }
}

/// A job and the lines that it stands on.
pub struct Parsed {
    pub job: Job,
    stops: usize,
    table: usize,
    rows: Vec<usize>,
    charges: usize,
    selection: usize,
    rules: usize,
    bound: usize,
    start: usize,
    pairs: Option<usize>,
}

impl Parsed {
    /// The line that a refusal of the job speaks of.
    pub fn line_of(&self, number: u32) -> usize {
        match number {
            1 => self.stops,
            3 => self.dear_row().unwrap_or(self.charges),
            4 => self.unknown_choice(),
            5 => self.start,
            11 => self.pairs.unwrap_or(self.table),
            _ => self.table,
        }
    }

    /// The line of the pairs, where there is one, though it may say that there are none.
    pub fn line_of_pairs(&self) -> Option<usize> {
        self.pairs
    }

    /// The line that a refusal of its first order speaks of, which looks at no choice but the bound (request A.5).
    pub fn line_of_first(&self, number: u32) -> usize {
        match number {
            4 => self.bound,
            _ => self.line_of(number),
        }
    }

    /// The first row with a leg that is too dear.
    fn dear_row(&self) -> Option<usize> {
        let mut rows = self.job.table.chunks(self.job.n as usize + 1).enumerate();
        let dear = |i, row: &[u32]| row.iter().enumerate().any(|(j, &leg)| i != j && leg > DEAREST_LEG);
        rows.position(|(i, row)| dear(i, row)).map(|i| self.rows[i])
    }

    /// The line of the first choice that is not known.
    fn unknown_choice(&self) -> usize {
        let Job { selection, rules, .. } = self.job;
        if selection as usize >= SELECTIONS.len() {
            self.selection
        } else if rules > ALL_RULES {
            self.rules
        } else {
            self.bound
        }
    }
}

/// What the lines have said so far.
#[derive(Default)]
struct Lines {
    stops: Option<At<u32>>,
    table: Option<At<Vec<At<Row>>>>,
    charges: Option<At<Charges>>,
    selection: Option<At<u32>>,
    rules: Option<At<u32>>,
    bound: Option<At<u32>>,
    start: Option<At<Vec<u8>>>,
    pairs: Option<At<Vec<u8>>>,
    /// A number at the front of a line opens a row of the table.
    in_table: bool,
}

pub fn parse(text: &str) -> Result<Parsed, Fault> {
    let mut lines = Lines::default();
    let mut count = 0;
    for (at, text) in text.lines().enumerate() {
        count = at + 1;
        let bare = text.split('#').next().unwrap_or("");
        let words: Vec<&str> = bare.split_whitespace().collect();
        lines.take(count, &words).map_err(|what| Fault { line: count, what })?;
    }
    lines.job(count.max(1))
}

impl Lines {
    fn take(&mut self, line: usize, words: &[&str]) -> Result<(), String> {
        let Some((&first, rest)) = words.split_first() else {
            return Ok(());
        };
        if self.in_table && table::opens_row(first) {
            let value = table::row(words)?;
            self.table.as_mut().expect("in_table").value.push(At { line, value });
            return Ok(());
        }
        self.in_table = first == "table";
        match first {
            "stops" => set(&mut self.stops, line, first, single(rest, "the number of stops")?),
            "table" if rest.is_empty() => set(&mut self.table, line, first, Vec::new()),
            "table" => Err("the table's rows begin on the line behind `table`".to_string()),
            "charges" => set(&mut self.charges, line, first, table::charges(rest)?),
            "pairs" => set(&mut self.pairs, line, first, pairs(rest)?),
            "selection" => set(&mut self.selection, line, first, choice(rest, &SELECTIONS)?),
            "rules" => set(&mut self.rules, line, first, rules(rest)?),
            "bound" => set(&mut self.bound, line, first, choice(rest, &BOUNDS)?),
            "start" if rest == ["none"] => set(&mut self.start, line, first, Vec::new()),
            "start" => set(&mut self.start, line, first, numbers(rest, "stop")?),
            _ => Err(format!("`{first}` is none of stops, table, charges, pairs, selection, rules, bound, start")),
        }
    }

    /// `end` is the text's last line, where what is missing is missed.
    fn job(self, end: usize) -> Result<Parsed, Fault> {
        let stops = there(self.stops, "stops", end)?;
        let rows = there(self.table, "table", end)?;
        let charges = self.charges.unwrap_or(At { line: rows.line, value: None });
        let selection = there(self.selection, "selection", end)?;
        let rules = there(self.rules, "rules", end)?;
        let bound = there(self.bound, "bound", end)?;
        let start = self.start.unwrap_or(At { line: end, value: Vec::new() });
        let table = table::table(stops.value, &rows, &charges)?;
        Ok(Parsed {
            stops: stops.line,
            table: rows.line,
            rows: rows.value.iter().map(|row| row.line).collect(),
            charges: charges.line,
            selection: selection.line,
            rules: rules.line,
            bound: bound.line,
            start: start.line,
            pairs: self.pairs.as_ref().map(|pairs| pairs.line),
            job: Job {
                n: stops.value,
                table,
                selection: selection.value,
                rules: rules.value,
                bound: bound.value,
                start: start.value,
                pairs: self.pairs.map_or(Vec::new(), |pairs| pairs.value),
            },
        })
    }
}

fn set<T>(place: &mut Option<At<T>>, line: usize, keyword: &str, value: T) -> Result<(), String> {
    if let Some(earlier) = place {
        return Err(format!("`{keyword}` stands on line {} already", earlier.line));
    }
    *place = Some(At { line, value });
    Ok(())
}

fn there<T>(place: Option<At<T>>, keyword: &str, end: usize) -> Result<At<T>, Fault> {
    place.ok_or_else(|| Fault { line: end, what: format!("the text ends without `{keyword}`") })
}

fn single(words: &[&str], what: &str) -> Result<u32, String> {
    match words {
        [word] => number(word).ok_or_else(|| format!("`{word}` is not {what}")),
        _ => Err(format!("{what} is one number")),
    }
}

/// One of some names, or a number.
fn choice(words: &[&str], named: &[Named]) -> Result<u32, String> {
    let names = list(named);
    match words {
        [word] => {
            by_name(named, word).or_else(|| number(word)).ok_or(format!("`{word}` is none of {names}, and no number"))
        }
        _ => Err(format!("one of {names}, or a number")),
    }
}

/// `none`, names of rules, or their sum.
fn rules(words: &[&str]) -> Result<u32, String> {
    match words {
        ["none"] => return Ok(0),
        [word] => return choice(&[word], &RULES),
        [] => return Err(format!("none, some of {}, or a number", list(&RULES))),
        _ => {}
    }
    let mut sum = 0;
    for word in words {
        let rule = by_name(&RULES, word).ok_or(format!("`{word}` is none of {}", list(&RULES)))?;
        if sum & rule != 0 {
            return Err(format!("`{word}` stands twice"));
        }
        sum += rule;
    }
    Ok(sum)
}
