//! Pairs in the tool (request A.6): pair files, what is said of pairs, and the planner's own checks of them.

use std::fs::{self, File};
use std::io::Read;
use std::os::unix::fs::MetadataExt;

use gondamuy::{raw, Record, Refusal, MOST_PAIR_BYTES};
use jobtext::Job;

use crate::choices;

/// The bytes of a pair file; of one that is too long as many as show that.
pub fn read(path: &str) -> Result<Vec<u8>, String> {
    let mut bytes = Vec::new();
    let file = File::open(path).and_then(|file| file.take(MOST_PAIR_BYTES as u64 + 1).read_to_end(&mut bytes));
    file.map_err(|fault| format!("the pair file {path} cannot be read: {fault}"))?;
    Ok(bytes)
}

/// Where the job file goes to the same file, it would take the pairs' place: then nothing is written.
pub fn write(path: &str, pairs: &[u8]) -> Result<(), String> {
    if same_file(path, "/dev/stdout") {
        return Err(format!("the pair file {path} is where the job file goes"));
    }
    fs::write(path, pairs).map_err(|fault| format!("the pair file {path} cannot be written: {fault}"))
}

/// Whether both are there and are one.
fn same_file(one: &str, other: &str) -> bool {
    match (fs::metadata(one), fs::metadata(other)) {
        (Ok(one), Ok(other)) => (one.dev(), one.ino()) == (other.dev(), other.ino()),
        _ => false,
    }
}

/// A refusal of a job whose pairs stand in a file: that of the pairs with the file's name.
pub fn refusal(path: &str, refusal: Refusal) -> String {
    match refusal {
        Refusal::Pairs => format!("the pair file {path}: {refusal}"),
        _ => refusal.to_string(),
    }
}

/// What the planner says of a job with its pairs before the first branching. Neither writer nor reader looks at pairs.
pub fn check(job: &Job) -> Result<(), Refusal> {
    let mut pool = [Record::default(); 1];
    Refusal::check(raw::plan_records(choices(job), &job.table, &job.start, &job.pairs, 0, &mut pool).number)
}

/// Which stop is flown before which, if there are pairs.
pub fn told(pairs: &[u8]) -> Option<String> {
    let each: Vec<String> = pairs.chunks_exact(2).map(|pair| format!("{} before {}", pair[0], pair[1])).collect();
    (!each.is_empty()).then(|| format!("pick-up before drop: {}", each.join(", ")))
}

/// Which orders are spoken of.
pub fn orders(job: &Job) -> &'static str {
    match job.pairs.is_empty() {
        true => "order",
        false => "order that respects the pairs",
    }
}
