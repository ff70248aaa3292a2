//! Jobs as plain text, for people. A line is a keyword and what it says; the
//! lines come in any sequence, each keyword once, and `#` opens a comment:
//!
//! ```text
//! stops 3                 # n
//! table                   # n+1 rows of n+1 legs, each row a line; on the diagonal - or 0
//! - 4 7 9
//! 5 - 2 6
//! 3 8 - 1
//! 6 5 4 -
//! charges 5 10 20 30      # home's landing charge, then each stop's; or none, or no such line
//! pairs 1 3               # the first stop before the second, a comma between pairs; or none, or no such line
//! selection LLB-FIFO      # or LLB-LIFO, FIFO, LIFO, or 0 to 3
//! rules U/DBAS            # and AS/DB, BFS/DB, DB/AS, or none, or their sum
//! bound close             # or plain, plain-away, close-away, or 0 to 3
//! start 1 2 3             # or none, or no such line
//! ```
//!
//! The table's rows stand behind `table` with no other line between them;
//! comments and blank lines may. Numbers stand in plain digits and are only
//! held to their widths: what a job may hold is for its reader, its writer and
//! the planner to say.

mod names;
mod numbers;
mod pairs;
mod parse;
mod table;

pub use numbers::number;
pub use parse::{parse, Fault, Parsed};

#[derive(Clone, Debug, PartialEq, Eq)]
pub struct Job {
    pub n: u32,
    /// Row by row, with the landing charges on the diagonal.
    pub table: Vec<u32>,
    pub selection: u32,
    pub rules: u32,
    pub bound: u32,
    /// The starting order, or nothing.
    pub start: Vec<u8>,
    /// The bytes of the pair file (request A.6), the pick-up and the drop of each pair in turn; or nothing. They are no
    /// part of the job file.
    pub pairs: Vec<u8>,
}

impl Job {
    /// What a landing is charged at each place, home first (request A.4).
    pub fn charges(&self) -> impl Iterator<Item = u32> + '_ {
        let rows = self.table.chunks(self.n as usize + 1);
        rows.enumerate().filter_map(|(place, row)| row.get(place).copied())
    }

    /// Whether the day ends at the last stop, so that no leg home counts (request A.5).
    pub fn ends_away(&self) -> bool {
        names::ends_away(self.bound)
    }

    /// What the day's landings cost, the same in every order: one at each stop, and one at home if the day ends there.
    pub fn landings(&self) -> u64 {
        let home = usize::from(self.ends_away());
        self.charges().skip(home).map(u64::from).sum()
    }
}

/// The text of a job, with the choices in words.
pub fn text(job: &Job) -> String {
    let mut text = format!("stops {}\ntable\n{}{}", job.n, table::text(job), pairs::text(&job.pairs));
    let (selection, words) = names::selection(job.selection);
    text += &format!("selection {selection} # {words}\n");
    let (rules, words) = names::rules(job.rules);
    text += &format!("rules {rules} # {words}\n");
    let (bound, words) = names::bound(job.bound);
    text += &format!("bound {bound} # {words}\n");
    let stops: Vec<String> = job.start.iter().map(|stop| stop.to_string()).collect();
    let start = if stops.is_empty() { "none".to_string() } else { stops.join(" ") };
    text + &format!("start {start}\n")
}
