//! Reads a job as plain text (see `jobtext`) from standard input and prints
//! the report and the pool's words, six to a line. On the command line stands
//! the number of records in the pool; behind it there may be `pairs` and the
//! bytes of a pair file (without it those of the text, if it has any), then
//! `budget` and a number of branchings (without it the largest), then `trace`:
//! the state at the start and after each step is printed first.

use std::io::{Read, Write};
use std::process::ExitCode;

use jobtext::number;
use witness::job_file::Contents;
use witness::node::Node;
use witness::{plan_watched, Report, Request, State, LARGEST_BUDGET, WORDS};

const MOST_RECORDS: usize = 1_000_000;

fn main() -> ExitCode {
    match answer() {
        Ok(()) => ExitCode::SUCCESS,
        Err(fault) => {
            eprintln!("{fault}");
            ExitCode::FAILURE
        }
    }
}

/// What the command line asks for.
struct Asked {
    records: usize,
    pairs: Option<Vec<u8>>,
    budget: u64,
    traced: bool,
}

impl Asked {
    fn parse(words: &[&str]) -> Option<Asked> {
        let (records, rest) = words.split_first()?;
        let records = number(records).filter(|&records| records <= MOST_RECORDS)?;
        let (pairs, rest) = match rest {
            ["pairs", rest @ ..] => {
                let (bytes, rest) = leading_bytes(rest);
                (Some(bytes), rest)
            }
            _ => (None, rest),
        };
        let (budget, rest) = match rest {
            ["budget", budget, rest @ ..] => (number(budget)?, rest),
            _ => (LARGEST_BUDGET, rest),
        };
        match rest {
            [] => Some(Asked { records, pairs, budget, traced: false }),
            ["trace"] => Some(Asked { records, pairs, budget, traced: true }),
            _ => None,
        }
    }
}

/// The bytes in front, and what stands behind them.
fn leading_bytes<'a, 'b>(words: &'a [&'b str]) -> (Vec<u8>, &'a [&'b str]) {
    let bytes: Vec<u8> = words.iter().map_while(|word| number(word)).collect();
    let rest = &words[bytes.len()..];
    (bytes, rest)
}

fn answer() -> Result<(), String> {
    let arguments: Vec<String> = std::env::args().skip(1).collect();
    let words: Vec<&str> = arguments.iter().map(String::as_str).collect();
    let Some(Asked { records, pairs, budget, traced }) = Asked::parse(&words) else {
        let usage = "usage: witness RECORDS [pairs BYTES..] [budget BRANCHINGS] [trace]";
        return Err(format!("{usage}, with {MOST_RECORDS} records at most"));
    };
    let mut input = String::new();
    std::io::stdin().read_to_string(&mut input).map_err(|fault| fault.to_string())?;
    let parsed = jobtext::parse(&input).map_err(|fault| fault.to_string())?;
    let job = Contents::from(&parsed.job);
    let mut pool = vec![0u32; records * WORDS];
    let mut lines = Vec::new();
    let pairs = pairs.as_ref().unwrap_or(&parsed.job.pairs);
    let request = Request { pairs, budget, ..job.request() };
    let report = plan_watched(&request, &mut pool, &mut |state| {
        if traced {
            lines.push(state_text(state));
        }
    });
    lines.push(report_text(&report));
    lines.push(pool_text(&pool));
    let output = lines.concat();
    std::io::stdout().write_all(output.as_bytes()).map_err(|fault| fault.to_string())
}

fn report_text(report: &Report) -> String {
    let Report { number, mark, cost, floor, order, branched, generated, eliminated, active, most } = report;
    let order = joined(order);
    format!(
        "number {number}\nmark {mark}\ncost {cost}\nfloor {floor}\norder {order}\nbranched {branched}\n\
         generated {generated}\neliminated {eliminated}\nactive {active}\nmost {most}\n"
    )
}

fn pool_text(pool: &[u32]) -> String {
    let records = pool.chunks(WORDS).map(|record| joined(record) + "\n");
    "pool\n".to_string() + &records.collect::<String>()
}

fn state_text(state: &State) -> String {
    let active: Vec<String> = state.active.iter().map(|y| shown(y)).collect();
    let branched: Vec<String> = state.branched.iter().map(|y| shown(y)).collect();
    let upper = match state.upper.cost {
        Some(cost) => format!("{} {:?}", cost, state.upper.order),
        None => "none".to_string(),
    };
    format!(
        "after step {}\n  active   {}\n  branched {}\n  U        {}\n  \
         generated {} eliminated {} most {}\n",
        state.branched.len(),
        active.join("  "),
        branched.join("  "),
        upper,
        state.generated,
        state.eliminated,
        state.most
    )
}

/// Stops, path cost and bound of a node, such as 1.3(path 10, bound 14).
fn shown(node: &Node) -> String {
    let stops: Vec<String> = node.stops.iter().map(|s| s.to_string()).collect();
    let name = if stops.is_empty() { "e".to_string() } else { stops.join(".") };
    format!("{}(path {}, bound {})", name, node.path, node.bound)
}

fn joined(numbers: &[u32]) -> String {
    let words: Vec<String> = numbers.iter().map(|w| w.to_string()).collect();
    words.join(" ")
}
