//! `jobtool plan` run as a program: what it says of searches that finish, that a budget stops and that are refused.

mod common;

use common::{bytes, ends_away, landings_of, run, string, told_of_pairs, with_pairs, ENDS_AWAY, NAMES};
use jobtext::{parse, Job};
use witness::job_file::Contents;
use witness::{Report, Request, LARGEST_BUDGET, WORDS};

/// Document 01's table T.
const T: &str = "stops 3\ntable\n0 4 7 9\n5 0 2 6\n3 8 0 1\n6 5 4 0\n";

/// Document 01's case b: earliest first, no rules, plain.
fn case_b() -> String {
    format!("{T}selection FIFO\nrules none\nbound plain\n")
}

/// What `plan` prints, or complains of, with some words behind it.
fn plan(words: &[&str], job: &[u8]) -> Result<String, String> {
    let output = run(&[&["plan"], words].concat(), job)?;
    Ok(String::from_utf8(output).unwrap())
}

const OF_B: &str = "finished after 10 branchings\na cheapest order costs 13: 1 2 3\n\
                    branched 10, generated 16, eliminated 0, active 6, most 6\n";

#[test]
fn finished() {
    let largest = LARGEST_BUDGET.to_string();
    for words in [&[][..], &["budget", "10"], &["budget", &largest], &["records", "6"]] {
        assert_eq!(plan(words, case_b().as_bytes()).unwrap(), OF_B, "{words:?}");
    }
    let one = "stops 1\ntable\n0 3\n5 0\nselection 0\nrules 0\nbound 0\n";
    let told = "finished after 1 branching\na cheapest order costs 8: 1\n\
                branched 1, generated 2, eliminated 0, active 1, most 1\n";
    assert_eq!(plan(&[], one.as_bytes()).unwrap(), told);
}

#[test]
fn stopped() {
    let after = |budget| plan(&["budget", budget], case_b().as_bytes()).unwrap();
    assert_eq!(
        after("0"),
        "stopped after 0 branchings: the budget is spent\nno order costs less than 0\n\
         no order is known so far\nbranched 0, generated 1, eliminated 0, active 1, most 1\n"
    );
    assert_eq!(
        after("5"),
        "stopped after 5 branchings: the budget is spent\nno order costs less than 8\n\
         the order known so far costs 13: 1 2 3\nanother order saves 5 at most\n\
         branched 5, generated 11, eliminated 0, active 6, most 6\n"
    );
    assert!(after("1").starts_with("stopped after 1 branching: the budget is spent\n"));
    assert!(after("9").contains("\nanother order saves 0 at most\n"));
}

/// Nobody reads that an order is the best of all from a search that did not finish.
#[test]
fn a_stopped_search_calls_no_order_cheapest() {
    for budget in 0..10 {
        let text = plan(&["budget", &budget.to_string()], case_b().as_bytes()).unwrap();
        assert!(text.starts_with("stopped after "), "{text}");
        assert!(["finished", "cheapest", "best"].iter().all(|word| !text.contains(word)), "{text}");
    }
}

#[test]
fn a_full_pool_with_its_counts() {
    let told = "refused 7: the pool is full\nbranched 3, generated 8, eliminated 0, active 5, most 5\n";
    for words in [&["records", "5"][..], &["records", "5", "budget", "4"], &["budget", "9", "records", "5"]] {
        assert_eq!(plan(words, case_b().as_bytes()).unwrap_err(), told, "{words:?}");
    }
    // The budget is looked at first.
    let spent = plan(&["budget", "3", "records", "5"], case_b().as_bytes()).unwrap();
    assert!(spent.starts_with("stopped after 3 branchings"), "{spent}");
}

/// The pool is no line of the text's, and is looked at last.
#[test]
fn refused_texts() {
    let refused = |old, new, words: &[&str]| plan(words, case_b().replace(old, new).as_bytes()).unwrap_err();
    let no_pool = "refused 6: the pool has no whole record, or a part record\n";
    assert_eq!(plan(&["records", "0"], case_b().as_bytes()).unwrap_err(), no_pool);
    for words in [&[][..], &["budget", "0"], &["records", "0"]] {
        let leg = "line 3: refused 3: a leg is above 1,000,000 or a landing charge is above 100,000\n";
        assert_eq!(refused("0 4 7 9", "0 4 7 1000001", words), leg);
        assert!(refused("FIFO", "4", words).starts_with("line 7: refused 4:"));
        assert!(refused("plain\n", "plain\nstart 2 2 1\n", words).starts_with("line 10: refused 5:"));
        assert_eq!(refused("5 0 2 6", "5 0 x 6", words), "line 4: `x` is no number of a leg\n");
        let none = "stops 0\ntable\n0\nselection 4\nrules 0\nbound 0\n";
        assert!(plan(words, none.as_bytes()).unwrap_err().starts_with("line 1: refused 1:"));
    }
    assert_eq!(plan(&[], b"").unwrap_err(), "line 1: the text ends without `stops`\n");
    assert_eq!(plan(&[], &[0xff]).unwrap_err(), "the input is no text\n");
}

#[test]
fn files() {
    let file = run(&["write"], case_b().as_bytes()).unwrap();
    assert_eq!(plan(&[], &file).unwrap(), OF_B);
    let words = ["budget", "5", "records", "6"];
    assert_eq!(plan(&words, &file), plan(&words, case_b().as_bytes()));
    assert!(plan(&["records", "0"], &file).unwrap_err().starts_with("refused 6:"));
    assert!(plan(&["records", "5"], &file).unwrap_err().starts_with("refused 7: the pool is full\nbranched 3,"));
    assert!(plan(&[], &[&file[..], &[0]].concat()).unwrap_err().starts_with("refused 1:"));
    assert!(plan(&[], &[&[0], &file[..]].concat()).unwrap_err().starts_with("refused 9:"));
}

/// What is refused is no text either, if somebody meant one: so it says what it was taken for.
#[test]
fn a_zero_byte_makes_a_job_file() {
    let taken = "the input was taken for a job file, since it holds a zero byte\n";
    let short = format!("refused 8: the file is shorter than 13 bytes\n{taken}");
    assert_eq!(plan(&[], &[0; 12]).unwrap_err(), short);
    let text = case_b().replace("0 4 7 9", "0 4 7 9\0");
    let told = format!("refused 1: the number of stops is 0 or above 16\n{taken}");
    assert_eq!(plan(&[], text.as_bytes()).unwrap_err(), told);
}

/// What the second planner says of a sample's job, in 2,000 records.
fn told(name: &str, budget: u64) -> (Report, Job) {
    let job = parse(&string(name, "txt")).unwrap().job;
    let contents = Contents::from(&job);
    let request = Request { pairs: &job.pairs, budget, ..contents.request() };
    (witness::plan(&request, &mut vec![0; 2_000 * WORDS]), job)
}

/// Texts and files, without a budget and stopped, as the second planner has them.
#[test]
fn samples() {
    for name in NAMES {
        for budget in [0, 1, 60, LARGEST_BUDGET] {
            let (report, job) = told(name, budget);
            let landings = landings_of(&job);
            let number = budget.to_string();
            let words = if budget == LARGEST_BUDGET { vec![] } else { vec!["budget", &number] };
            let pair_file = with_pairs(name);
            let with: Vec<&str> = pair_file.iter().map(String::as_str).chain(words.iter().copied()).collect();
            let said = plan(&with, &bytes(name, "job"));
            assert_eq!(plan(&words, &bytes(name, "txt")), said, "{name} {budget}");
            let stops: String = report.order[..job.n as usize].iter().map(|stop| format!(" {stop}")).collect();
            let Report { cost, floor, branched, .. } = report;
            let orders = if job.pairs.is_empty() { "order" } else { "order that respects the pairs" };
            let begins = match (report.number, report.mark) {
                (0, 0) => {
                    format!(
                        "finished after {branched} branchings\na cheapest {orders} costs {cost}{landings}:{stops}\n"
                    )
                }
                (0, _) => format!(": the budget is spent\nno {orders} costs less than {floor}\n"),
                _ => format!("refused {}", report.number),
            };
            let text = match report.number {
                0 => said.unwrap(),
                _ => said.unwrap_err(),
            };
            assert!(text.contains(&begins), "{name} {budget}: {text}");
            let shown = format!("\nthe order known so far costs {cost}{landings}:{stops}\n");
            assert_eq!(text.contains(&shown), report.mark == 1 && report.order[0] != 0, "{name} {budget}: {text}");
            let [branched, generated, eliminated, active, most] = report.counts();
            let counts = format!(
                "branched {branched}, generated {generated}, eliminated {eliminated}, active {active}, most {most}\n"
            );
            let end = if ends_away(&job) { ENDS_AWAY } else { "" };
            let pairs = if report.number == 0 { told_of_pairs(&job) } else { String::new() };
            assert!(text.ends_with(&format!("\n{pairs}{end}{counts}")), "{name} {budget}: {text}");
            assert_eq!(text.contains(ENDS_AWAY), !end.is_empty(), "{name} {budget}: {text}");
        }
    }
}

#[test]
fn arguments() {
    let told = [
        (&["budget"][..], "`budget` without its number\n"),
        (&["records"], "`records` without its number\n"),
        (&["records", "6", "budget"], "`budget` without its number\n"),
        (&["budget", "5", "budget", "5"], "`budget` twice\n"),
        (&["records", "6", "budget", "5", "records", "6"], "`records` twice\n"),
        (&["pairs"], "`pairs` without its file\n"),
        (&["pairs", "day.pairs", "pairs", "day.pairs"], "`pairs` twice\n"),
        (&["5"], "`5` in the place of `budget`, `records` or `pairs`\n"),
        (&["pool", "6"], "`pool` in the place of `budget`, `records` or `pairs`\n"),
        (&["budget", "5", "6"], "`6` in the place of `budget`, `records` or `pairs`\n"),
    ];
    for (words, fault) in told {
        assert_eq!(plan(words, b"").unwrap_err(), fault, "{words:?}");
    }
}

/// The word and the range are named, and the largest numbers are taken: then it is the empty text that is at fault.
#[test]
fn numbers() {
    for (name, largest, above) in
        [("budget", "18446744073709551615", "18446744073709551616"), ("records", "10000000", "10000001")]
    {
        for word in
            [above, "99999999999999999999999", "+5", "-1", "x", "5x", "0x5", "1_000", " 5", "5.0", "\u{663}", ""]
        {
            let told = format!("`{word}` behind `{name}` is no number from 0 to {largest} in plain digits\n");
            assert_eq!(plan(&[name, word], b"").unwrap_err(), told);
        }
        for word in [largest, "0", "007"] {
            assert_eq!(
                plan(&[name, word], b"").unwrap_err(),
                "line 1: the text ends without `stops`\n",
                "{name} {word}"
            );
        }
    }
}
