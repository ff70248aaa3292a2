//! What document 01's program `plan` prints, by the second reader and the
//! second planner. A file's job comes without pairs and with the largest budget,
//! which stops no run: there is neither mark nor floor to print.

use crate::job_file::{read, LONGEST};
use crate::{plan, Report, WORDS};

const RECORDS: usize = 2_000;

/// Seven lines, or `refused` and the number.
pub fn output(input: &[u8]) -> String {
    match answer(input) {
        Ok(lines) => lines,
        Err(number) => format!("refused {number}\n"),
    }
}

fn answer(input: &[u8]) -> Result<String, u32> {
    if input.len() > LONGEST {
        return Err(9);
    }
    let job = read(input)?;
    let mut pool = vec![0; RECORDS * WORDS];
    let report = plan(&job.request(), &mut pool);
    match (report.number, report.mark) {
        (0, 0) => Ok(lines(&report, job.n as usize)),
        (0, _) => unreachable!("the largest budget stops no run"),
        (number, _) => Err(number),
    }
}

fn lines(report: &Report, n: usize) -> String {
    let stops: String = report.order[..n].iter().map(|s| format!(" {s}")).collect();
    let mut lines = format!("cost {}\norder{stops}\n", report.cost);
    let names = ["branched", "generated", "eliminated", "active", "most"];
    for (name, count) in names.iter().zip(report.counts()) {
        lines += &format!("{name} {count}\n");
    }
    lines
}
