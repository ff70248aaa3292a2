//! Runs of days that end home, under all 128 choices, against full enumeration.

mod common;

use common::{ample, check_finished, choices, for_each_table, table_of_kind, Job};
use samples::Random;
use witness::enumerate::cheapest_orders;
use witness::legs::Ends;

/// No starting order, 1 to n, a random one, and one of least cost.
fn starts(random: &mut Random, job: &Job) -> Vec<Vec<u32>> {
    let identity = (1..=job.n as u32).collect();
    let cheapest = cheapest_orders(&job.legs(), Ends::Home);
    let optimal = random.pick(&cheapest).iter().map(|&s| s as u32).collect();
    vec![Vec::new(), identity, random.order(job.n), optimal]
}

fn all_choices(random: &mut Random, n: usize, table: &[u32]) {
    let blank = Job::new(n, table, [0, 0, 0], &[]);
    let best = blank.best();
    for start in starts(random, &blank) {
        for choice in choices() {
            run_one(&Job::new(n, table, choice, &start), &best);
        }
    }
}

/// The least cost is found, and of the orders that have it the smallest.
fn run_one(job: &Job, (least, smallest): &(u32, Vec<u32>)) {
    let (report, pool) = job.run(ample(job.n));
    check_finished(job, &report, &pool, *least, smallest);
}

#[test]
fn up_to_four_stops() {
    let mut random = Random(1);
    for n in 1..=4 {
        for_each_table(&mut random, n, 12, |random, table| all_choices(random, n, table));
    }
}

#[test]
fn five_stops() {
    for_each_table(&mut Random(2), 5, 4, |random, table| all_choices(random, 5, table));
}

#[test]
fn six_stops() {
    let mut random = Random(3);
    for kind in [0, 1, 2, 5] {
        let table = table_of_kind(&mut random, 6, kind);
        all_choices(&mut random, 6, &table);
    }
}

/// All choices once, each with one of the starting orders.
#[test]
fn seven_stops() {
    let mut random = Random(4);
    for kind in [0, 4, 5] {
        let table = table_of_kind(&mut random, 7, kind);
        let blank = Job::new(7, &table, [0, 0, 0], &[]);
        let best = blank.best();
        let starts = starts(&mut random, &blank);
        for choice in choices() {
            run_one(&Job::new(7, &table, choice, &random.pick(&starts)), &best);
        }
    }
}
