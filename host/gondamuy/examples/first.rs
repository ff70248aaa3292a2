//! Reads a job file from standard input and, if one is named on the command line, its pair file; prints the first order
//! of its table by its bound, which says where the day ends, and by the pairs; and plans it with the pairs in a pool of
//! few records: from no order, from the file's own, if it has one, and from the first order. A refusal ends it with a
//! status other than 0.

use std::env;
use std::error::Error;
use std::fs;
use std::io::{self, Read};
use std::process::ExitCode;

use gondamuy::{first_order, pairs_of, plan_records, read, Record, NO_BUDGET};

const RECORDS: usize = 150;

fn main() -> ExitCode {
    match answer() {
        Ok(()) => ExitCode::SUCCESS,
        Err(fault) => {
            eprintln!("{fault}");
            ExitCode::FAILURE
        }
    }
}

fn answer() -> Result<(), Box<dyn Error>> {
    let mut file = Vec::new();
    io::stdin().read_to_end(&mut file)?;
    let contents = read(&file)?;
    let pair_file = env::args().nth(1).map_or(Ok(Vec::new()), fs::read)?;
    let pairs = pairs_of(&pair_file)?;
    let first = first_order(contents.job.n, contents.job.bound, contents.table(), pairs)?;
    let stops: String = first.order().iter().map(|stop| format!(" {stop}")).collect();
    println!("first cost {}\nfirst order{stops}", first.cost);
    let mut pool = [Record::default(); RECORDS];
    let starts = [("none", &[][..]), ("the file's order", contents.start()), ("the first order", first.order())];
    for (from, start) in starts {
        let plan = plan_records(contents.job, contents.table(), start, pairs, NO_BUDGET, &mut pool)?.finished()?;
        println!("plan from {from}: cost {}, branched {}, most {}", plan.cost, plan.counts.branched, plan.counts.most);
    }
    Ok(())
}
