//! This crate's own command: its arguments and the lines it prints.

use std::io::Write;
use std::process::{Command, Stdio};

/// Document 01's case b.
const TEXT: &str = "stops 3\ntable\n0 4 7 9\n5 0 2 6\n3 8 0 1\n6 5 4 0\nselection FIFO\nrules none\nbound plain\n";

/// What it writes, or what it complains of with a status of failure.
fn run(arguments: &str) -> Result<String, String> {
    run_on(TEXT, arguments)
}

fn run_on(text: &str, arguments: &str) -> Result<String, String> {
    let mut command = Command::new(env!("CARGO_BIN_EXE_witness"))
        .args(arguments.split_whitespace())
        .stdin(Stdio::piped())
        .stdout(Stdio::piped())
        .stderr(Stdio::piped())
        .spawn()
        .unwrap();
    // Faulty arguments end it before it reads.
    let _ = command.stdin.take().unwrap().write_all(text.as_bytes());
    let output = command.wait_with_output().unwrap();
    let told = |bytes| String::from_utf8(bytes).unwrap();
    if output.status.success() {
        return Ok(told(output.stdout));
    }
    assert!(output.stdout.is_empty());
    Err(told(output.stderr))
}

fn lines(front: [u32; 4], stops: &str, counts: [u64; 5], pool: &str) -> String {
    let [number, mark, cost, floor] = front;
    let [branched, generated, eliminated, active, most] = counts;
    format!(
        "number {number}\nmark {mark}\ncost {cost}\nfloor {floor}\norder {stops}\nbranched {branched}\n\
         generated {generated}\neliminated {eliminated}\nactive {active}\nmost {most}\npool\n{pool}"
    )
}

const NO_STOPS: &str = "0 0 0 0 0 0 0 0 0 0 0 0 0 0 0 0";
const ORDER_123: &str = "1 2 3 0 0 0 0 0 0 0 0 0 0 0 0 0";

#[test]
fn report_and_pool() {
    let nodes = "2 5 10 10 32 0\n2 3 15 15 1 0\n2 6 8 8 33 0\n2 5 14 14 2 0\n2 6 13 13 18 0\n3 7 7 13 528 0\n";
    assert_eq!(run("6 budget 5"), Ok(lines([0, 1, 13, 8], ORDER_123, [5, 11, 0, 6, 6], nodes)));
    let e = "0 0 0 0 0 0\n";
    assert_eq!(run("1 budget 0"), Ok(lines([0, 1, 0, 0], NO_STOPS, [0, 1, 0, 1, 1], e)));
    assert_eq!(run("1"), Ok(lines([7, 0, 0, 0], NO_STOPS, [0, 1, 0, 1, 1], e)));
    let largest = run("6 budget 18446744073709551615");
    assert!(largest.as_ref().unwrap().starts_with("number 0\nmark 0\ncost 13\nfloor 0\n"), "{largest:?}");
    assert_eq!(run("6"), largest);
}

/// With 2 before 1: e and 2 branched, 3, 21 and 23 left. A file of one byte is refused.
#[test]
fn pairs() {
    let nodes = "1 4 9 9 2 0\n2 3 15 15 1 0\n2 6 8 8 33 0\n";
    assert_eq!(run("3 pairs 2 1 budget 2"), Ok(lines([0, 1, 0, 8], NO_STOPS, [2, 5, 0, 3, 3], nodes)));
    assert_eq!(run("1 pairs 2"), Ok(lines([11, 0, 0, 0], NO_STOPS, [0; 5], "0 0 0 0 0 0\n")));
    assert!(run("3 pairs 2 1").unwrap().starts_with("number 0\nmark 0\ncost 18\nfloor 0\norder 2 3 1 0"));
    assert_eq!((run("6 pairs"), run("6 pairs budget 5 trace")), (run("6"), run("6 budget 5 trace")));
}

/// A text's own pairs are taken where the command line has none, and others there take their place.
#[test]
fn pairs_of_the_text() {
    let text = format!("{TEXT}pairs 2 1\n");
    assert_eq!(run_on(&text, "3"), run("3 pairs 2 1"));
    assert_eq!(run_on(&text, "3 pairs 3 2"), run("3 pairs 3 2"));
    assert_eq!(run_on(&text, "6 pairs"), run("6"));
}

/// A trace has the start and as many steps as there are branchings.
#[test]
fn trace() {
    let steps = |arguments: &str| run(arguments).unwrap().matches("after step ").count();
    assert_eq!([steps("6 trace"), steps("6 budget 5 trace"), steps("6 budget 0 trace"), steps("6")], [11, 6, 1, 0]);
    let (traced, bare) = (run("6 budget 5 trace").unwrap(), run("6 budget 5").unwrap());
    assert!(traced.starts_with("after step 0\n") && traced.ends_with(&bare));
}

#[test]
fn faulty_arguments() {
    let usage = run("").unwrap_err();
    assert!(usage.starts_with("usage: "), "{usage}");
    let numbers = ["x", "+6", "1000001", "6 budget x", "6 budget +5", "6 budget -1", "6 budget 18446744073709551616"];
    let words = ["6 budget", "6 budget 5 traces", "6 trace budget 5", "6 5", "6 trace trace"];
    let pairs = ["6 pairs x", "6 pairs 2 256", "6 pairs -1", "6 budget 5 pairs 2 1", "6 pairs 2 1 pairs 2 1"];
    for arguments in numbers.into_iter().chain(words).chain(pairs) {
        assert_eq!(run(arguments).unwrap_err(), usage, "{arguments}");
    }
}
