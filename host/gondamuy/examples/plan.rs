//! Writes the job file of document 01's case a (three stops, least bound first, rule 1, close), reads it back and plans
//! it; plans case b (earliest first, no rules, plain) within three budgets, of which the first two stop it; plans case
//! a with a landing charge at each place, for a day that ends at home and for one that ends at the last stop; and plans
//! it with a passenger who is fetched at stop 3 and set down at stop 1. A refusal ends it with a status other than 0.

use std::error::Error;
use std::process::ExitCode;

use gondamuy::{
    plan, read, write, Bound, Job, Pair, Planned, Refused, Rules, Selection, LONGEST_FILE, NO_BUDGET, RECORD_WORDS,
};

const RECORDS: usize = 2_000;
const PLACES: usize = 4;
const TABLE: [u32; PLACES * PLACES] = [0, 4, 7, 9, 5, 0, 2, 6, 3, 8, 0, 1, 6, 5, 4, 0];
const CASE_A: Job =
    Job { n: 3, selection: Selection::LeastBoundEarliest, rules: Rules::UPPER_COST, bound: Bound::Close };

fn main() -> ExitCode {
    match answer() {
        Ok(()) => ExitCode::SUCCESS,
        Err(fault) => {
            eprintln!("{fault}");
            ExitCode::FAILURE
        }
    }
}

fn answer() -> Result<(), Box<dyn Error>> {
    let mut file = [0; LONGEST_FILE];
    let length = write(CASE_A, &TABLE, &[], &mut file)?;
    let contents = read(&file[..length])?;
    let mut pool = vec![0; RECORDS * RECORD_WORDS];
    let plan = plan(contents.job, contents.table(), contents.start(), &[], NO_BUDGET, &mut pool)?.finished()?;
    println!("bytes {length}");
    println!("cost {}", plan.cost);
    println!("order {}", flown(plan.order()));
    println!("branched {}", plan.counts.branched);
    for budget in [0, 5, 10] {
        println!("budget {budget}: {}", within(budget, &mut pool)?);
    }
    println!("with charges: {}", with_charges(Bound::Close, &mut pool)?);
    println!("ending away: {}", with_charges(Bound::CloseAway, &mut pool)?);
    println!("fetched at 3, set down at 1: {}", with_pair(Pair { pick_up: 3, drop: 1 }, &mut pool)?);
    Ok(())
}

/// What is known of case b after so many branchings, in words.
fn within(budget: u64, pool: &mut [u32]) -> Result<String, Refused> {
    let case_b = Job { n: 3, selection: Selection::Fifo, rules: Rules::NONE, bound: Bound::Plain };
    let words = match plan(case_b, &TABLE, &[], &[], budget, pool)? {
        Planned::Finished(plan) => format!("finished, cost {}, order {}", plan.cost, flown(plan.order())),
        Planned::Stopped(stopped) => match stopped.known {
            Some(known) => {
                format!("stopped, at least {}, at most {}: order {}", stopped.floor, known.cost, flown(known.order()))
            }
            None => format!("stopped, at least {}, no order known", stopped.floor),
        },
    };
    Ok(words)
}

/// Case a by some bound where landings are charged, home's first: the charges go onto the table's diagonal. Home's is
/// paid only where the day ends there.
fn with_charges(bound: Bound, pool: &mut [u32]) -> Result<String, Box<dyn Error>> {
    let charges = [5, 10, 20, 30];
    let mut table = TABLE;
    for (place, charge) in charges.into_iter().enumerate() {
        table[place * PLACES + place] = charge;
    }
    let landings: u32 = charges.iter().skip(usize::from(bound.ends_away())).sum();
    let plan = plan(Job { bound, ..CASE_A }, &table, &[], &[], NO_BUDGET, pool)?.finished()?;
    Ok(format!("cost {}, {landings} of it landings, order {}", plan.cost, flown(plan.order())))
}

/// Case a with a pair: the cheapest order of those that fly its first stop before its second.
fn with_pair(pair: Pair, pool: &mut [u32]) -> Result<String, Box<dyn Error>> {
    let plan = plan(CASE_A, &TABLE, &[], &[pair], NO_BUDGET, pool)?.finished()?;
    Ok(format!("cost {}, order {}", plan.cost, flown(plan.order())))
}

fn flown(order: &[u8]) -> String {
    let stops: Vec<String> = order.iter().map(|stop| stop.to_string()).collect();
    stops.join(" ")
}
