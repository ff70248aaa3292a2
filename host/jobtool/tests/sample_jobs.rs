//! The sample jobs of jobs/samples: the text and the job file of each agree,
//! the second planner prints what is expected, and the proved one finds the
//! same.

mod common;

use std::fs;

use common::{bytes, folder, string, NAMES, PAIRED};
use gondamuy::raw::{self, plan, read, write};
use gondamuy::{LONGEST_FILE, NO_BUDGET, RECORD_WORDS};
use jobtext::{parse, Job};

fn of_text(name: &str) -> Job {
    parse(&string(name, "txt")).map_err(|fault| fault.to_string()).unwrap().job
}

/// The job of the text, its table and its starting order.
fn job(name: &str) -> (raw::Job, Vec<u32>, Vec<u8>) {
    let Job { n, table, selection, rules, bound, start, .. } = of_text(name);
    (raw::Job { n, selection, rules, bound }, table, start)
}

/// Three for each, and a fourth with its pairs.
#[test]
fn files_for_each() {
    let mut found: Vec<String> =
        fs::read_dir(folder()).unwrap().map(|entry| entry.unwrap().file_name().into_string().unwrap()).collect();
    found.sort();
    let mut told: Vec<String> =
        NAMES.iter().flat_map(|name| ["expected", "job", "txt"].map(|kind| format!("{name}.{kind}"))).collect();
    told.extend(PAIRED.iter().map(|name| format!("{name}.pairs")));
    told.sort();
    assert_eq!(found, told);
}

#[test]
fn text_and_file_agree() {
    for name in NAMES {
        let (job, table, start) = job(name);
        let mut file = vec![0; LONGEST_FILE];
        let written = write(job, &table, &start, &mut file);
        assert_eq!(written.number, 0, "{name}");
        assert_eq!(file[..written.length], bytes(name, "job"), "{name}");
        let reading = read(&bytes(name, "job"));
        assert_eq!((reading.job, reading.table(), reading.start()), (job, &table[..], &start[..]), "{name}");
    }
}

/// A text with pairs has a pair file, and no other has one.
#[test]
fn text_and_pair_file_agree() {
    for name in NAMES {
        let pairs = if PAIRED.contains(&name) { bytes(name, "pairs") } else { Vec::new() };
        assert_eq!(of_text(name).pairs, pairs, "{name}");
        assert_eq!(pairs.is_empty(), !PAIRED.contains(&name), "{name}");
    }
}

/// What the program prints, which plans without pairs.
#[test]
fn both_planners_give_what_is_expected() {
    for name in NAMES {
        let expected = string(name, "expected");
        assert_eq!(witness::program::output(&bytes(name, "job")), expected, "{name}");
        let (job, table, start) = job(name);
        let report = plan(job, &table, &start, &[], NO_BUDGET, &mut vec![0; 2_000 * RECORD_WORDS]);
        let first = match report.is_finished() {
            true => format!("cost {}", report.cost),
            false => format!("refused {}", report.number),
        };
        assert_eq!(expected.lines().next(), Some(&first[..]), "{name}");
    }
}

/// Names and numbers of the texts mean what they should.
#[test]
fn choices_of_each() {
    let choices = |name| {
        let (job, _, start) = job(name);
        (job.n, job.selection, job.rules, job.bound, start.len())
    };
    assert_eq!(choices("case-a"), (3, 0, 1, 1, 0));
    assert_eq!(choices("pilot"), (16, 3, 1, 1, 16));
    assert_eq!(choices("pilot-first"), (16, 3, 1, 1, 16));
    assert_eq!(choices("office"), (12, 0, 15, 1, 0));
    assert_eq!(choices("office-full"), (16, 0, 15, 1, 0));
    assert_eq!(choices("strips"), (11, 3, 1, 1, 11));
    assert_eq!(choices("camps"), (10, 3, 1, 3, 10));
    assert_eq!(choices("lakes"), (9, 3, 1, 1, 9));
    assert_eq!(choices("taxi"), (12, 3, 1, 1, 12));
    assert_eq!(string("office-full", "expected"), "refused 7\n");
}

/// The day of `lakes` costs the same flown the other way round, and the smaller of the two orders comes back (request A.8).
#[test]
fn the_other_way_round() {
    let (job, table, start) = job("lakes");
    let report = plan(job, &table, &start, &[], NO_BUDGET, &mut vec![0; 2_000 * RECORD_WORDS]);
    let flown: Vec<u8> = start.iter().rev().copied().collect();
    assert!(report.is_finished() && flown < start);
    assert_eq!(report.order[..9], flown);
}
