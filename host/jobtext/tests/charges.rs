//! Landing charges in texts (request A.4): apart from the legs, both ways.

use jobtext::{parse, text, Job};

const LINES: [&str; 8] =
    ["stops 2", "table", "- 3 4", "5 - 6", "7 8 -", "selection LLB-FIFO", "rules none", "bound plain"];

fn job(charges: [u32; 3]) -> Job {
    let [home, first, second] = charges;
    let table = vec![home, 3, 4, 5, first, 6, 7, 8, second];
    Job { n: 2, table, selection: 0, rules: 0, bound: 0, start: Vec::new(), pairs: Vec::new() }
}

/// The lines, and one more in front.
fn behind(line: &str) -> String {
    format!("{line}\n{}", LINES.join("\n"))
}

fn parsed(text: &str) -> Job {
    parse(text).map_err(|fault| fault.to_string()).unwrap().job
}

fn fault(text: &str) -> String {
    parse(text).map(|parsed| parsed.job).unwrap_err().to_string()
}

#[test]
fn charges_are_taken_home_first() {
    assert_eq!(parsed(&behind("charges 10 20 30")), job([10, 20, 30]));
    for none in ["charges none", "charges 0 0 0", ""] {
        assert_eq!(parsed(&behind(none)), job([0, 0, 0]));
    }
    // Of any size: the calls refuse them.
    assert_eq!(parsed(&behind("charges 0 100001 4294967295")), job([0, 100_001, u32::MAX]));
    let at_the_end = format!("{}\ncharges 1 2 3\n", LINES.join("\n"));
    assert_eq!(parsed(&at_the_end), job([1, 2, 3]));
}

/// A diagonal of `-`, of 0 or of both says the same, with charges and without.
#[test]
fn the_diagonal_says_nothing() {
    for charges in ["charges 10 20 30", "charges none"] {
        let told = parsed(&behind(charges));
        let mixed = behind(charges).replace("5 - 6", "5 0 6");
        assert_eq!(parsed(&mixed), told);
        assert_eq!(parsed(&mixed.replace("- 3 4", "0 3 4").replace("7 8 -", "7 8 0")), told);
    }
}

#[test]
fn charges_are_shown_apart() {
    let shown = text(&job([10, 0, 100_000]));
    assert!(
        shown.starts_with("stops 2\ntable\n- 3 4\n5 - 6\n7 8 -\ncharges 10 0 100000\nselection LLB-FIFO #"),
        "{shown}"
    );
    let shown = text(&job([0, 0, 1]));
    assert!(shown.contains("\ncharges 0 0 1\n"), "{shown}");
}

/// As before the request, to the last byte.
#[test]
fn no_charges_are_not_shown() {
    let shown = text(&job([0, 0, 0]));
    let told = "stops 2\ntable\n0 3 4\n5 0 6\n7 8 0\n\
                selection LLB-FIFO # least bound first, the earliest incomplete node on ties\n\
                rules none # no node is eliminated\nbound plain # the path cost\nstart none\n";
    assert_eq!(shown, told);
    let wide = Job { table: vec![0, 12, 345, 0], n: 1, ..job([0; 3]) };
    assert!(text(&wide).starts_with("stops 1\ntable\n  0  12\n345   0\nselection"), "{}", text(&wide));
}

#[test]
fn the_text_of_a_job_says_its_charges() {
    for charges in [[0, 0, 0], [1, 0, 0], [0, 7, 0], [0, 0, 100_000], [10, 20, 30], [u32::MAX; 3]] {
        let job = job(charges);
        assert_eq!(parsed(&text(&job)), job);
        assert_eq!(job.charges().collect::<Vec<u32>>(), charges);
        assert_eq!(job.landings(), charges.iter().map(|&charge| u64::from(charge)).sum());
    }
}

#[test]
fn faults_name_their_lines() {
    let with = |old: &str, new: &str| fault(&LINES.join("\n").replace(old, new));
    for (count, told) in [(0, "0 charges"), (1, "1 charge"), (2, "2 charges"), (4, "4 charges")] {
        let line = format!("charges{}", " 1".repeat(count));
        assert_eq!(fault(&behind(&line)), format!("line 1: {told}, and home and 2 stops have 3"));
    }
    assert_eq!(fault(&behind("charges 1 x 3")), "line 1: `x` is no number of a charge");
    assert_eq!(fault(&behind("charges 1 - 3")), "line 1: `-` is no number of a charge");
    assert_eq!(fault(&behind("charges +1 2 3")), "line 1: `+1` is no number of a charge");
    assert_eq!(fault(&behind("charges none 1 2")), "line 1: `none` is no number of a charge");
    let twice = "charges none\ncharges 1 2 3";
    assert_eq!(fault(&behind(twice)), "line 2: `charges` stands on line 1 already");
    let apart = "on the diagonal, which has `-` or 0: landing charges stand behind `charges`";
    assert_eq!(with("- 3 4", "9 3 4"), format!("line 3: `9` {apart}"));
    assert_eq!(with("7 8 -", "7 8 100000"), format!("line 5: `100000` {apart}"));
    let a_leg = "`-` in the place of a leg: it stands on the diagonal alone";
    assert_eq!(with("- 3 4", "- - 4"), format!("line 3: {a_leg}"));
    assert_eq!(with("5 - 6", "- - 6"), format!("line 4: {a_leg}"));
    assert_eq!(with("- 3 4", "-1 3 4"), "line 3: `-1` is no number of a leg");
    // A row too few is told as such, though the diagonals of those behind it are not theirs.
    assert_eq!(with("- 3 4\n", ""), "line 2: a table of 2 rows, and 2 stops have 3");
}

/// Of a leg that is too dear the first such row, else the charges.
#[test]
fn the_line_of_refusal_3() {
    let line = |text: String| parse(&text).map_err(|fault| fault.to_string()).unwrap().line_of(3);
    assert_eq!(line(behind("charges 0 100001 0")), 1);
    assert_eq!(line(behind("charges 0 4294967295 0")), 1);
    assert_eq!(line(behind("charges 0 100001 0").replace("7 8 -", "1000001 8 -")), 6);
    assert_eq!(line(behind("charges 0 100000 0").replace("5 - 6", "5 - 1000001")), 5);
    assert_eq!(line(behind("").replace("- 3 4", "- 1000001 4").replace("7 8 -", "1000001 8 -")), 4);
}
