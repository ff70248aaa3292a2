//! Pairs (request A.6) in the tool run as a program: a line of the text, a pair file beside the job file, and what is
//! said of them; none is lost unsaid.

mod common;

use std::fs::{self, File};
use std::path::Path;
use std::process::Command;

use common::{bytes, run, string};
use gondamuy::{raw, Refusal};

/// Document 01's table T in case a's way, with 3 before 1: without the pair 1 2 3 costs 13.
const PAIRED: &str = "stops 3\ntable\n0 4 7 9\n5 0 2 6\n3 8 0 1\n6 5 4 0\npairs 3 1\n\
                      selection LLB-FIFO\nrules U/DBAS\nbound close\n";

const TOLD: &str = "pick-up before drop: 3 before 1\n";

/// The same without.
fn unpaired() -> String {
    PAIRED.replace("pairs 3 1\n", "")
}

/// What the tool prints, or complains of.
fn told(words: &[&str], input: &[u8]) -> Result<String, String> {
    run(words, input).map(|output| String::from_utf8(output).unwrap())
}

/// A file of a test's own, which is not there yet.
fn scratch(name: &str) -> String {
    let path = Path::new(env!("CARGO_TARGET_TMPDIR")).join(format!("{name}.pairs"));
    let _ = fs::remove_file(&path);
    path.into_os_string().into_string().unwrap()
}

/// A pair file with these bytes.
fn pair_file(name: &str, pairs: &[u8]) -> String {
    let path = scratch(name);
    fs::write(&path, pairs).unwrap();
    path
}

#[test]
fn text_to_files_and_back() {
    let path = scratch("back");
    let file = run(&["write", "pairs", &path], PAIRED.as_bytes()).unwrap();
    assert_eq!((&file, fs::read(&path).unwrap()), (&bytes("case-a", "job"), vec![3, 1]));
    let shown = told(&["show", "pairs", &path], &file).unwrap();
    assert!(shown.contains("\npairs 3 1 # in each the first stop is flown before the second\n"), "{shown}");
    assert_eq!(run(&["write", "pairs", &path], shown.as_bytes()).unwrap(), file);
    assert_eq!(fs::read(&path).unwrap(), [3, 1]);
    assert!(!told(&["show"], &file).unwrap().contains("pairs"));
    // A text without pairs has a pair file of no bytes.
    for without in [unpaired(), PAIRED.replace("pairs 3 1", "pairs none")] {
        assert_eq!(run(&["write", "pairs", &path], without.as_bytes()).unwrap(), file);
        assert_eq!(fs::read(&path).unwrap(), []);
        assert_eq!(told(&["show", "pairs", &path], &file), told(&["show"], &file));
        assert_eq!(run(&["write"], without.as_bytes()).unwrap(), file);
    }
}

#[test]
fn no_pair_is_lost_unsaid() {
    let said = "line 7: a job file has no pairs: `jobtool write pairs PAIR-FILE` writes them to a file of their own\n";
    assert_eq!(told(&["write"], PAIRED.as_bytes()).unwrap_err(), said);
}

/// The job file would stand where the pairs were.
#[test]
fn one_file_for_both() {
    let (path, text) = (scratch("one"), scratch("text"));
    fs::write(&text, PAIRED).unwrap();
    let mut tool = Command::new(env!("CARGO_BIN_EXE_jobtool"));
    tool.args(["write", "pairs", &path]).stdin(File::open(&text).unwrap()).stdout(File::create(&path).unwrap());
    let output = tool.output().unwrap();
    assert!(!output.status.success());
    assert_eq!(output.stderr, format!("the pair file {path} is where the job file goes\n").into_bytes());
    assert_eq!(fs::read(&path).unwrap(), []);
}

const OF_A: &str = "finished after 3 branchings\na cheapest order that respects the pairs costs 18: 2 3 1\n\
                    pick-up before drop: 3 before 1\nbranched 3, generated 5, eliminated 1, active 1, most 2\n";

#[test]
fn finished() {
    assert_eq!(told(&["plan"], PAIRED.as_bytes()).unwrap(), OF_A);
    let path = pair_file("finished", &[3, 1]);
    let words = ["plan", "pairs", &path];
    assert_eq!(told(&words, &bytes("case-a", "job")).unwrap(), OF_A);
    assert_eq!(told(&words, unpaired().as_bytes()).unwrap(), OF_A);
    assert_eq!(told(&["plan", "records", "9", "pairs", &path, "budget", "9"], unpaired().as_bytes()).unwrap(), OF_A);
    for without in [unpaired(), PAIRED.replace("pairs 3 1", "pairs none")] {
        let said = told(&["plan"], without.as_bytes()).unwrap();
        assert!(said.contains("\na cheapest order costs 13: 1 2 3\n") && !said.contains("pick-up"), "{said}");
    }
}

/// The floor, and what another order saves, are of the orders that respect the pairs.
#[test]
fn stopped() {
    let counts = "branched 0, generated 1, eliminated 0, active 1, most 1\n";
    let spent =
        "stopped after 0 branchings: the budget is spent\nno order that respects the pairs costs less than 10\n";
    let words = ["plan", "budget", "0"];
    assert_eq!(told(&words, PAIRED.as_bytes()).unwrap(), format!("{spent}no order is known so far\n{TOLD}{counts}"));
    let known = "the order known so far costs 26: 3 2 1\nanother order that respects the pairs saves 16 at most\n";
    let started = format!("{PAIRED}start 3 2 1\n");
    assert_eq!(told(&words, started.as_bytes()).unwrap(), format!("{spent}{known}{TOLD}{counts}"));
}

/// With the pairs first, then where the day ends.
#[test]
fn first_orders() {
    let said = format!("first cost 18\nfirst order 2 3 1\nfirst: {TOLD}");
    assert_eq!(told(&["first"], PAIRED.as_bytes()).unwrap(), said);
    assert_eq!(told(&["first"], unpaired().as_bytes()).unwrap(), "first cost 13\nfirst order 1 2 3\n");
    let started = told(&["first", "start"], PAIRED.as_bytes()).unwrap();
    assert!(started.contains("\npairs 3 1 #") && started.ends_with("\nstart 2 3 1\n"), "{started}");
    assert!(told(&["plan"], started.as_bytes()).is_ok());
    let away = PAIRED.replace("bound close", "bound close-away");
    let said = format!("first cost 13\nfirst order 2 3 1\nfirst: {TOLD}first: {}", common::ENDS_AWAY);
    assert_eq!(told(&["first"], away.as_bytes()).unwrap(), said);
    let plan = told(&["plan"], away.as_bytes()).unwrap();
    assert!(plan.contains(&format!("\n{TOLD}{}branched ", common::ENDS_AWAY)), "{plan}");
}

/// Two pairs and more are told one behind the other.
#[test]
fn the_pairs_of_the_taxi() {
    let text = string("taxi", "txt");
    let told_pairs = "pick-up before drop: 3 before 12, 2 before 6, 8 before 4, 10 before 1, 5 before 11\n";
    let said = told(&["plan"], text.as_bytes()).unwrap();
    let order = "\na cheapest order that respects the pairs costs 387: 3 5 10 2 12 6 8 4 9 7 11 1\n";
    assert!(said.contains(order) && said.contains(told_pairs), "{said}");
    let known = told(&["plan", "budget", "0"], text.as_bytes()).unwrap();
    assert!(known.contains("\nthe order known so far costs 495: 3 7 9 10 2 12 8 6 4 1 5 11\n"), "{known}");
    let first = told(&["first"], text.as_bytes()).unwrap();
    assert!(first.starts_with("first cost 469\n") && first.ends_with(told_pairs), "{first}");
    let without = told(&["plan"], &bytes("taxi", "job")).unwrap();
    assert!(without.contains("\na cheapest order costs 351: ") && !without.contains("pick-up"), "{without}");
}

/// Refused by 11 at their line, and by 5 at that of a starting order that goes against them; then no file is written.
#[test]
fn refused_texts() {
    let path = scratch("refused");
    let nine = ["1 2"; 9].join(", ");
    let commands = [&["write"][..], &["write", "pairs", &path], &["plan"], &["plan", "budget", "0"]];
    for words in commands.into_iter().chain([&["first"][..], &["first", "start"]]) {
        for bad in ["0 1", "4 1", "1 255", "2 2", "1 2, 2 3", "1 2, 3 1", &nine] {
            let text = PAIRED.replace("3 1\n", &format!("{bad}\n"));
            assert_eq!(told(words, text.as_bytes()).unwrap_err(), format!("line 7: {}\n", Refusal::Pairs), "{words:?}");
        }
    }
    let started = format!("{PAIRED}start 1 2 3\n");
    for words in commands {
        let said = told(words, started.as_bytes()).unwrap_err();
        assert_eq!(said, format!("line 11: {}\n", Refusal::Start), "{words:?}");
        // No permutation is 5 whatever the pairs are, and bad pairs are 11 beside any permutation.
        let both = started.replace("pairs 3 1", "pairs 3 3");
        assert_eq!(told(words, both.as_bytes()).unwrap_err(), format!("line 7: {}\n", Refusal::Pairs));
        let twice = both.replace("start 1 2 3", "start 1 1 3");
        assert_eq!(told(words, twice.as_bytes()).unwrap_err(), format!("line 11: {}\n", Refusal::Start));
    }
    assert!(!Path::new(&path).exists());
    assert!(told(&["first"], started.as_bytes()).is_ok(), "the first order looks at no starting order");
}

/// Refused by 11 with the file's name, and by 5.
#[test]
fn refused_pair_files() {
    let file = bytes("case-a", "job");
    for (k, bad) in [&[3][..], &[3, 1, 2], &[0, 1], &[4, 1], &[2, 2], &[1, 2, 2, 3]].into_iter().enumerate() {
        let path = pair_file(&format!("bad-{k}"), bad);
        let said = format!("the pair file {path}: {}\n", Refusal::Pairs);
        assert_eq!(told(&["show", "pairs", &path], &file).unwrap_err(), said);
        assert_eq!(told(&["plan", "pairs", &path], &file).unwrap_err(), said);
        assert_eq!(told(&["plan", "pairs", &path], unpaired().as_bytes()).unwrap_err(), said);
    }
    let started = format!("{}start 1 2 3\n", unpaired());
    let path = pair_file("against", &[3, 1]);
    let said = told(&["plan", "pairs", &path], started.as_bytes()).unwrap_err();
    assert_eq!(said, format!("line 10: {}\n", Refusal::Start));
    let started = run(&["write"], started.as_bytes()).unwrap();
    for command in ["show", "plan"] {
        assert_eq!(told(&[command, "pairs", &path], &started).unwrap_err(), format!("{}\n", Refusal::Start));
    }
    let full = told(&["plan", "pairs", &path, "records", "1"], &file).unwrap_err();
    assert!(full.starts_with("refused 7: the pool is full\nbranched 0,"), "{full}");
}

/// A file that is too long is not cut to the eight pairs in front, which would pass.
#[test]
fn long_pair_files() {
    let file = bytes("pilot-first", "job");
    let mut pairs = raw::read(&file).start().to_vec();
    let path = pair_file("long", &pairs);
    assert!(told(&["show", "pairs", &path], &file).is_ok());
    for stop in 1..=4 {
        pairs.push(stop);
        fs::write(&path, &pairs).unwrap();
        for command in ["show", "plan"] {
            let said = told(&[command, "pairs", &path], &file).unwrap_err();
            assert_eq!(said, format!("the pair file {path}: {}\n", Refusal::Pairs));
        }
    }
}

#[test]
fn faulty_pair_files() {
    let missing = scratch("missing");
    for command in ["show", "plan"] {
        let said = told(&[command, "pairs", &missing], &bytes("case-a", "job")).unwrap_err();
        assert!(said.starts_with(&format!("the pair file {missing} cannot be read: ")), "{said}");
    }
    let nowhere = format!("{missing}/none");
    let said = told(&["write", "pairs", &nowhere], PAIRED.as_bytes()).unwrap_err();
    assert!(said.starts_with(&format!("the pair file {nowhere} cannot be written: ")), "{said}");
    let path = pair_file("both", &[3, 1]);
    for line in ["pairs 3 1", "pairs none"] {
        let said = told(&["plan", "pairs", &path], PAIRED.replace("pairs 3 1", line).as_bytes()).unwrap_err();
        assert_eq!(said, format!("line 7: pairs here, and in the pair file {path} too\n"));
    }
}
