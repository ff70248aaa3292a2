//! Texts of jobs: what they say, and the line of each fault.

use jobtext::{parse, text, Job};

const LINES: [&str; 9] = [
    "# two stops",
    "stops 2 # n",
    "table",
    "0 3 4",
    "5 0 6",
    "7 8 0",
    "selection LLB-FIFO",
    "rules AS/DB BFS/DB",
    "bound plain",
];

fn job() -> Job {
    Job {
        n: 2,
        table: vec![0, 3, 4, 5, 0, 6, 7, 8, 0],
        selection: 0,
        rules: 6,
        bound: 0,
        start: Vec::new(),
        pairs: Vec::new(),
    }
}

/// The lines with one of them replaced, counted from 1.
fn with(line: usize, new: &str) -> String {
    let mut lines = LINES;
    lines[line - 1] = new;
    lines.join("\n")
}

fn parsed(text: &str) -> Job {
    parse(text).map_err(|fault| fault.to_string()).unwrap().job
}

fn fault(text: &str) -> String {
    parse(text).map(|parsed| parsed.job).unwrap_err().to_string()
}

#[test]
fn names_numbers_and_comments() {
    assert_eq!(parsed(&LINES.join("\n")), job());
    for (number, name) in ["LLB-FIFO", "LLB-LIFO", "FIFO", "LIFO"].iter().enumerate() {
        let selection = number as u32;
        assert_eq!(parsed(&with(7, &format!("selection {name}"))), Job { selection, ..job() });
        assert_eq!(parsed(&with(7, &format!("selection {number}"))), Job { selection, ..job() });
    }
    for (rules, says) in
        [(0, "none"), (0, "0"), (1, "U/DBAS"), (15, "15"), (15, "DB/AS U/DBAS AS/DB BFS/DB"), (16, "16")]
    {
        assert_eq!(parsed(&with(8, &format!("rules {says}"))), Job { rules, ..job() });
    }
    for (number, name) in ["plain", "close", "plain-away", "close-away"].iter().enumerate() {
        let bound = number as u32;
        assert_eq!(parsed(&with(9, &format!("bound {name}"))), Job { bound, ..job() });
        assert_eq!(parsed(&with(9, &format!("bound {number}"))), Job { bound, ..job() });
    }
    assert_eq!(parsed(&with(9, "bound 7")), Job { bound: 7, ..job() });
    for (start, says) in
        [(vec![2, 1], "start 2 1"), (vec![], "start none"), (vec![], "start"), (vec![0, 255], "start 0 255")]
    {
        assert_eq!(parsed(&with(1, says)), Job { start, ..job() });
    }
}

#[test]
fn text_of_a_job_says_the_job() {
    for rules in 0..17 {
        for (selection, bound) in [(0, 0), (1, 1), (2, 2), (3, 3), (4, 4)] {
            for start in [vec![], vec![2, 1]] {
                let job = Job { selection, rules, bound, start, ..job() };
                assert_eq!(parsed(&text(&job)), job);
            }
        }
    }
}

#[test]
fn faults_name_their_lines() {
    assert_eq!(fault(""), "line 1: the text ends without `stops`");
    assert_eq!(fault(&with(2, "stops two")), "line 2: `two` is not the number of stops");
    assert_eq!(fault(&with(2, "stops")), "line 2: the number of stops is one number");
    assert_eq!(
        fault(&with(2, "stop 2")),
        "line 2: `stop` is none of stops, table, charges, pairs, selection, rules, bound, start"
    );
    assert_eq!(fault(&with(1, "stops 2")), "line 2: `stops` stands on line 1 already");
    assert_eq!(fault(&with(3, "table 0 3 4")), "line 3: the table's rows begin on the line behind `table`");
    assert_eq!(
        fault(&with(1, "0 3 4")),
        "line 1: `0` is none of stops, table, charges, pairs, selection, rules, bound, start"
    );
    assert_eq!(fault(&with(5, "5 0")), "line 5: a row of 2 entries, and 2 stops have 3");
    assert_eq!(fault(&with(6, "")), "line 3: a table of 2 rows, and 2 stops have 3");
    assert_eq!(fault(&with(4, "0 3 4294967296")), "line 4: `4294967296` is no number of a leg");
    assert_eq!(fault(&with(4, "0 3 -4")), "line 4: `-4` is no number of a leg");
    assert_eq!(
        fault(&with(7, "selection best")),
        "line 7: `best` is none of LLB-FIFO, LLB-LIFO, FIFO, LIFO, and no number"
    );
    assert_eq!(fault(&with(7, "selection 0 1")), "line 7: one of LLB-FIFO, LLB-LIFO, FIFO, LIFO, or a number");
    assert_eq!(fault(&with(8, "rules AS/DB 1")), "line 8: `1` is none of U/DBAS, AS/DB, BFS/DB, DB/AS");
    assert_eq!(fault(&with(8, "rules AS/DB AS/DB")), "line 8: `AS/DB` stands twice");
    assert_eq!(fault(&with(8, "rules")), "line 8: none, some of U/DBAS, AS/DB, BFS/DB, DB/AS, or a number");
    assert_eq!(fault(&with(9, "")), "line 8: the text ends without `bound`");
    assert_eq!(
        fault(&with(9, "bound away")),
        "line 9: `away` is none of plain, close, plain-away, close-away, and no number"
    );
    assert_eq!(fault(&with(9, "bound plain away")), "line 9: one of plain, close, plain-away, close-away, or a number");
    assert_eq!(fault(&with(1, "start 1 256")), "line 1: `256` is no number of a stop");
}

/// No sign in front, not even where it changes nothing, and no digits but 0 to 9.
#[test]
fn numbers_stand_in_plain_digits() {
    for word in ["+2", "-2", "2.0", "0x2", "\u{662}"] {
        assert_eq!(fault(&with(2, &format!("stops {word}"))), format!("line 2: `{word}` is not the number of stops"));
        assert_eq!(fault(&with(4, &format!("0 3 {word}"))), format!("line 4: `{word}` is no number of a leg"));
        assert_eq!(fault(&with(1, &format!("start 1 {word}"))), format!("line 1: `{word}` is no number of a stop"));
        for (line, keyword) in [(7, "selection"), (8, "rules"), (9, "bound")] {
            let told = fault(&with(line, &format!("{keyword} {word}")));
            assert!(told.starts_with(&format!("line {line}: `{word}` is none of ")), "{told}");
        }
    }
    assert_eq!(fault(&with(5, "+5 0 6")), "line 5: `+5` is no number of a leg");
    assert_eq!(parsed(&with(5, "005 0 6")), job());
}

#[test]
fn no_other_line_between_the_rows() {
    assert_eq!(parsed(&with(5, "\n5 0 6 # from the first stop\n# the second\n")), job());
    assert_eq!(
        fault(&with(5, "5 0 6\nstart 2 1")),
        "line 7: `7` is none of stops, table, charges, pairs, selection, rules, bound, start"
    );
}

#[test]
fn one_of_a_kind() {
    let of_one = |table: &str| fault(&format!("stops 1\n{table}\nselection 0\nrules 0\nbound 0\n"));
    assert_eq!(of_one("table\n0 1\n2"), "line 4: a row of 1 entry, and 1 stop has 2");
    assert_eq!(of_one("table\n0 1"), "line 2: a table of 1 row, and 1 stop has 2");
    assert_eq!(of_one("table"), "line 2: a table of 0 rows, and 1 stop has 2");
    assert_eq!(of_one("table\n0 1\n2 0\ncharges 1"), "line 5: 1 charge, and home and 1 stop have 2");
}
