//! Pairs in texts (request A.6), both ways, and the line that is at fault.

use jobtext::{parse, text, Job};

const LINES: [&str; 9] = [
    "stops 4",
    "table",
    "0 1 1 1 1\n1 0 1 1 1\n1 1 0 1 1\n1 1 1 0 1\n1 1 1 1 0",
    "selection LIFO",
    "rules U/DBAS",
    "bound close",
    "start 3 1 2 4",
    "# the last",
    "# but one",
];

fn lines() -> String {
    LINES.join("\n")
}

/// The lines, and one more in front.
fn behind(line: &str) -> String {
    format!("{line}\n{}", lines())
}

fn job(pairs: &[u8]) -> Job {
    let table = (0..25).map(|k| u32::from(k % 6 != 0)).collect();
    Job { n: 4, table, selection: 3, rules: 1, bound: 1, start: vec![3, 1, 2, 4], pairs: pairs.to_vec() }
}

fn parsed(text: &str) -> Job {
    parse(text).map_err(|fault| fault.to_string()).unwrap().job
}

fn fault(text: &str) -> String {
    parse(text).map(|parsed| parsed.job).unwrap_err().to_string()
}

#[test]
fn pairs_with_commas_between() {
    assert_eq!(parsed(&behind("pairs 3 1")), job(&[3, 1]));
    for line in ["pairs 3 1, 2 4", "pairs 3 1,2 4", "pairs 3 1 ,2 4", "pairs  3\t1 , 2 4 # two", "pairs 003 1, 2 4"] {
        assert_eq!(parsed(&behind(line)), job(&[3, 1, 2, 4]), "{line}");
    }
    for none in ["pairs none", ""] {
        assert_eq!(parsed(&behind(none)), job(&[]));
    }
    // Whatever stops they are: the calls refuse them.
    assert_eq!(parsed(&behind("pairs 0 255, 5 5, 0 0")), job(&[0, 255, 5, 5, 0, 0]));
    let many = ["1 2"; 9].join(", ");
    assert_eq!(parsed(&behind(&format!("pairs {many}"))).pairs.len(), 18);
}

#[test]
fn the_text_of_a_job_says_its_pairs() {
    for pairs in [&[][..], &[3, 1], &[3, 1, 2, 4], &[0, 255]] {
        assert_eq!(parsed(&text(&job(pairs))), job(pairs));
    }
    let shown = text(&job(&[3, 1, 2, 4]));
    assert!(
        shown.contains("\n1 1 1 1 0\npairs 3 1, 2 4 # in each the first stop is flown before the second\nselection")
    );
    assert!(!text(&job(&[])).contains("pairs"));
}

#[test]
fn faults_name_their_lines() {
    let no_pair = |told: &str| format!("line 1: `{told}` is no pair: two stops each, with commas between the pairs");
    for (line, told) in [
        ("pairs", ""),
        ("pairs 3", "3"),
        ("pairs 3 1 2", "3 1 2"),
        ("pairs 3 1 2 4", "3 1 2 4"),
        ("pairs 3 1, 2", "2"),
        ("pairs 3 1,", ""),
        ("pairs , 3 1", ""),
        ("pairs 3 1,, 2 4", ""),
    ] {
        assert_eq!(fault(&behind(line)), no_pair(told), "{line}");
    }
    for word in ["x", "+3", "-3", "256", "3-1", "none"] {
        let line = format!("pairs 3 1, {word} 2");
        assert_eq!(fault(&behind(&line)), format!("line 1: `{word}` is no number of a stop"));
    }
    assert_eq!(fault(&behind("pairs none\npairs 3 1")), "line 2: `pairs` stands on line 1 already");
}

/// Of refusal 11 the pairs; and whether a text speaks of pairs at all.
#[test]
fn the_line_of_the_pairs() {
    let lines = |text: &str| {
        let parsed = parse(text).map_err(|fault| fault.to_string()).unwrap();
        (parsed.line_of_pairs(), parsed.line_of(11), parsed.line_of_first(11), parsed.line_of(5))
    };
    assert_eq!(lines(&format!("{}\npairs 3 1", self::lines())), (Some(14), 14, 14, 11));
    assert_eq!(lines(&behind("\n\npairs none")), (Some(3), 3, 3, 14));
    assert_eq!(lines(&self::lines()), (None, 2, 2, 11));
}
