//! Job files and pair files from plain text (see `jobtext`) and back, a first order for a text, and plans of either.
//! What is written, read, made and planned goes through the proved writer and reader, the proved first order and the
//! proved planner; this tool is not proved.
//!
//! ```text
//! jobtool write [pairs PAIR-FILE] < TEXT > FILE
//!                                 the job file of a text, and its pair file
//! jobtool show [pairs PAIR-FILE] < FILE
//!                                 the text of a job file with its pairs, or why it is refused
//! jobtool first < TEXT            `first cost` and `first order`: what it costs, and its stops; the pairs, if there
//!                                 are any; and that the day ends away, if it does
//! jobtool first start < TEXT      the job anew as text, with that order as its starting order
//! jobtool plan [pairs PAIR-FILE] [budget N] [records R] < TEXT-OR-FILE
//!                                 the plan of a job in words, or what a search stopped after N branchings knows
//! jobtool refusal NUMBER          what a refusal's number says
//! ```
//!
//! A job file has no pairs (request A.6). So that none is lost unsaid, `write` refuses a text with pairs where no pair
//! file is named. Of what stands in the text beside its stops, table and pairs `first` looks at the bound alone, which
//! says whether the day ends at home or at the last stop (request A.5). The status is one of failure where something is
//! refused or amiss; then all that is said goes to standard error. A search that its budget stopped is neither: it is
//! told on standard output, by the word `stopped`.

mod pairs;
mod plan;

use std::io::{self, Read, Write};
use std::process::ExitCode;

use gondamuy::{raw, read, Contents, FirstOrder, Refusal, LONGEST_FILE};
use jobtext::{number, parse, text, Job, Parsed};

const USAGE: &str = "\
jobtool write [pairs PAIR-FILE] < TEXT > FILE
jobtool show [pairs PAIR-FILE] < FILE
jobtool first [start] < TEXT
jobtool plan [pairs PAIR-FILE] [budget N] [records R] < TEXT-OR-FILE
jobtool refusal NUMBER";

/// Told of a day that ends away (request A.5), whose costs and floor have no flight home.
const ENDS_AWAY: &str = "the day ends at the last stop, and no flight home is counted";

fn main() -> ExitCode {
    let arguments: Vec<String> = std::env::args().skip(1).collect();
    let words: Vec<&str> = arguments.iter().map(String::as_str).collect();
    let answer = match words[..] {
        ["write"] => input().and_then(|text| file_of(&text, None)),
        ["write", "pairs", path] => input().and_then(|text| file_of(&text, Some(path))),
        ["show"] => input().and_then(|file| text_of(&file, None)),
        ["show", "pairs", path] => input().and_then(|file| text_of(&file, Some(path))),
        ["first"] => input().and_then(|text| first_of(&text)),
        ["first", "start"] => input().and_then(|text| started(&text)),
        ["plan", ref words @ ..] => {
            plan::Asked::of(words).and_then(|asked| input().and_then(|job| plan::planned(&job, &asked)))
        }
        ["refusal", word] => number(word).map(in_words).ok_or(USAGE.to_string()),
        _ => Err(USAGE.to_string()),
    };
    let written = answer.and_then(|bytes| io::stdout().write_all(&bytes).map_err(|fault| fault.to_string()));
    match written {
        Ok(()) => ExitCode::SUCCESS,
        Err(fault) => {
            eprintln!("{fault}");
            ExitCode::FAILURE
        }
    }
}

fn input() -> Result<Vec<u8>, String> {
    let mut bytes = Vec::new();
    io::stdin().read_to_end(&mut bytes).map_err(|fault| fault.to_string())?;
    Ok(bytes)
}

fn parsed(bytes: &[u8]) -> Result<Parsed, String> {
    let text = std::str::from_utf8(bytes).map_err(|_| "the input is no text".to_string())?;
    parse(text).map_err(|fault| fault.to_string())
}

/// A refusal of a text's job, with the line that it speaks of.
fn at_line(line: usize, refusal: Refusal) -> String {
    format!("line {line}: {refusal}")
}

/// The numbers of a job as the calls take them.
fn choices(job: &Job) -> raw::Job {
    raw::Job { n: job.n, selection: job.selection, rules: job.rules, bound: job.bound }
}

/// The job file of a text. Its pairs go into the pair file, which is empty if there are none; where pairs have no file
/// to go to, nothing is written.
fn file_of(bytes: &[u8], pair_file: Option<&str>) -> Result<Vec<u8>, String> {
    let parsed = parsed(bytes)?;
    let job = &parsed.job;
    let mut file = vec![0; LONGEST_FILE];
    let written = raw::write(choices(job), &job.table, &job.start, &mut file);
    Refusal::check(written.number)
        .and_then(|()| pairs::check(job))
        .map_err(|refusal| at_line(parsed.line_of(refusal.number()), refusal))?;
    file.truncate(written.length);
    match (pair_file, parsed.line_of_pairs()) {
        (Some(path), _) => pairs::write(path, &job.pairs)?,
        (None, Some(line)) if !job.pairs.is_empty() => {
            let apart = "a job file has no pairs: `jobtool write pairs PAIR-FILE` writes them to a file of their own";
            return Err(format!("line {line}: {apart}"));
        }
        _ => {}
    }
    Ok(file)
}

/// The job of a text, and its first order.
fn with_first(bytes: &[u8]) -> Result<(Job, FirstOrder), String> {
    let parsed = parsed(bytes)?;
    let Job { n, bound, ref table, ref pairs, .. } = parsed.job;
    let first = FirstOrder::try_from(raw::first_order(n, bound, table, pairs))
        .map_err(|refusal| at_line(parsed.line_of_first(refusal.number()), refusal))?;
    Ok((parsed.job, first))
}

/// Two lines, and behind them what is said of the day. Each begins with `first`, so that nobody takes it for a line
/// that `plan` prints.
fn first_of(bytes: &[u8]) -> Result<Vec<u8>, String> {
    let (job, first) = with_first(bytes)?;
    let cost = with_landings(first.cost, &job);
    let day: String = of_the_day(&job).iter().map(|line| format!("first: {line}\n")).collect();
    Ok(format!("first cost {cost}\nfirst order{}\n{day}", flown(first.order())).into_bytes())
}

/// What is said of a day beside its costs: the pairs, and that it ends away.
fn of_the_day(job: &Job) -> Vec<String> {
    let ends = job.ends_away().then(|| ENDS_AWAY.to_string());
    pairs::told(&job.pairs).into_iter().chain(ends).collect()
}

/// What an order costs, and where landings are charged, what of it they are (request A.4).
fn with_landings(cost: u32, job: &Job) -> String {
    match job.landings() {
        0 => cost.to_string(),
        landings => format!("{cost}, {landings} of it landings"),
    }
}

/// The stops of an order, a space in front of each.
fn flown(order: &[u8]) -> String {
    order.iter().map(|stop| format!(" {stop}")).collect()
}

fn started(bytes: &[u8]) -> Result<Vec<u8>, String> {
    let (job, first) = with_first(bytes)?;
    Ok(text(&Job { start: first.order().to_vec(), ..job }).into_bytes())
}

fn text_of(file: &[u8], pair_file: Option<&str>) -> Result<Vec<u8>, String> {
    let contents = read(file).map_err(|refusal| refusal.to_string())?;
    let job = match pair_file {
        Some(path) => {
            let job = job_of(&contents, pairs::read(path)?);
            pairs::check(&job).map_err(|refusal| pairs::refusal(path, refusal))?;
            job
        }
        None => job_of(&contents, Vec::new()),
    };
    Ok(text(&job).into_bytes())
}

/// The job of a file with some pairs, as `jobtext` has it.
fn job_of(contents: &Contents, pairs: Vec<u8>) -> Job {
    let raw::Job { n, selection, rules, bound } = contents.job.into();
    Job { n, table: contents.table().to_vec(), selection, rules, bound, start: contents.start().to_vec(), pairs }
}

fn in_words(number: u32) -> Vec<u8> {
    let words = match Refusal::of(number) {
        Some(refusal) => refusal.words(),
        None if number == 0 => "not refused",
        None => "no such number",
    };
    format!("{number}: {words}\n").into_bytes()
}
