//! A second reader and writer of job files (document 01, "Job file and
//! program").

use crate::checks::{check_job, n_allowed, Request, LARGEST_BUDGET};

const TRAILER: usize = 13;

/// The length of the longest file.
pub const LONGEST: usize = 1_185;

/// What a job file holds.
#[derive(Clone, PartialEq, Eq, Debug)]
pub struct Contents {
    pub n: u64,
    pub table: Vec<u32>,
    pub selection: u64,
    pub rules: u64,
    pub bound: u64,
    pub start: Vec<u32>,
}

impl Contents {
    /// Without pairs and with the largest budget, as a file holds neither.
    pub fn request(&self) -> Request<'_> {
        Request {
            n: self.n,
            table: &self.table,
            selection: self.selection,
            rules: self.rules,
            bound: self.bound,
            start: &self.start,
            pairs: &[],
            budget: LARGEST_BUDGET,
        }
    }
}

/// Without the job's pairs, which no file holds.
impl From<&jobtext::Job> for Contents {
    fn from(job: &jobtext::Job) -> Contents {
        Contents {
            n: job.n.into(),
            table: job.table.clone(),
            selection: job.selection.into(),
            rules: job.rules.into(),
            bound: job.bound.into(),
            start: job.start.iter().map(|&s| s.into()).collect(),
        }
    }
}

/// The job of a file, or the first number of 8, 1, 9, 3, 4, 5 that applies.
pub fn read(file: &[u8]) -> Result<Contents, u32> {
    if file.len() < TRAILER {
        return Err(8);
    }
    let (body, trailer) = file.split_at(file.len() - TRAILER);
    let [n, length, selection, rules, bound] = [8, 9, 10, 11, 12].map(|at| trailer[at]);
    if !n_allowed(n.into()) {
        return Err(1);
    }
    let side = n as usize + 1;
    let start_place = 4 * side * side;
    let places = [word(&trailer[..4]), word(&trailer[4..8])];
    if places != [0, start_place as u32]
        || file.len() != start_place + length as usize + TRAILER
        || file.len() > LONGEST
    {
        return Err(9);
    }
    let (table, start) = body.split_at(start_place);
    let contents = Contents {
        n: n.into(),
        table: table.chunks(4).map(word).collect(),
        selection: selection.into(),
        rules: rules.into(),
        bound: bound.into(),
        start: start.iter().map(|&s| s.into()).collect(),
    };
    check_job(&contents.request())?;
    Ok(contents)
}

/// Writes a job's file at the front of the buffer and returns its length, or
/// the first number of 1 to 5 and 10 that applies. Pairs and budget are neither
/// looked at nor written.
pub fn write(job: &Request, buffer: &mut [u8]) -> Result<usize, u32> {
    check_job(job)?;
    let file = bytes(job);
    if buffer.len() < file.len() {
        return Err(10);
    }
    buffer[..file.len()].copy_from_slice(&file);
    Ok(file.len())
}

/// The table, the starting order, the trailer.
fn bytes(job: &Request) -> Vec<u8> {
    let mut file: Vec<u8> = job.table.iter().flat_map(|leg| leg.to_le_bytes()).collect();
    let start_place = file.len() as u32;
    file.extend(job.start.iter().map(|&s| s as u8));
    file.extend(0u32.to_le_bytes());
    file.extend(start_place.to_le_bytes());
    let length = job.start.len() as u64;
    file.extend([job.n, length, job.selection, job.rules, job.bound].map(|x| x as u8));
    file
}

/// Least byte first.
fn word(bytes: &[u8]) -> u32 {
    bytes.iter().rev().fold(0, |sum, &byte| sum << 8 | u32::from(byte))
}
