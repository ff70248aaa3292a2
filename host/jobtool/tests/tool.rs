//! The tool run as a program: both ways, first orders, and what it says of faults.

mod common;

use common::{ends_away, landings_of, run, string, told_of_pairs, ENDS_AWAY, NAMES};
use jobtext::{parse, Job};

const TEXT: &str = "stops 2\ntable\n0 3 4\n5 0 6\n7 8 0\nselection LIFO\nrules U/DBAS DB/AS\nbound close\nstart 2 1\n";

fn write(text: &str) -> Result<Vec<u8>, String> {
    run(&["write"], text.as_bytes())
}

#[test]
fn text_to_file_and_back() {
    let file = write(TEXT).unwrap();
    assert_eq!(file.len(), 4 * 9 + 2 + 13);
    assert_eq!(file[36..], [2, 1, 0, 0, 0, 0, 36, 0, 0, 0, 2, 2, 3, 9, 1]);
    let text = String::from_utf8(run(&["show"], &file).unwrap()).unwrap();
    assert!(text.contains("selection LIFO # latest generated first\n"), "{text}");
    assert!(text.contains("rules U/DBAS DB/AS #"), "{text}");
    assert_eq!(write(&text).unwrap(), file);
}

/// The proved writer's refusals, each at the line that it speaks of.
#[test]
fn refused_jobs() {
    let refused = |old, new| write(&TEXT.replace(old, new)).unwrap_err();
    assert_eq!(
        refused("0 3 4", "0 3 1000001"),
        "line 3: refused 3: a leg is above 1,000,000 or a landing charge is above 100,000\n"
    );
    assert!(refused("7 8 0", "7 1000001 0").starts_with("line 5: refused 3:"));
    assert!(refused("LIFO", "4").starts_with("line 6: refused 4:"));
    assert!(refused("U/DBAS DB/AS", "16").starts_with("line 7: refused 4:"));
    assert!(refused("close", "4").starts_with("line 8: refused 4:"));
    assert!(refused("start 2 1", "start 2 2").starts_with("line 9: refused 5:"));
    let none = "stops 0\ntable\n0\nselection 0\nrules 0\nbound 0\n";
    assert!(write(none).unwrap_err().starts_with("line 1: refused 1:"));
}

/// What `first` prints, with or without a word behind it.
fn first(more: &[&str], text: &str) -> Result<String, String> {
    let output = run(&[&["first"], more].concat(), text.as_bytes())?;
    Ok(String::from_utf8(output).unwrap())
}

#[test]
fn first_order_of_a_text() {
    let told = "first cost 16\nfirst order 1 2\n";
    assert_eq!(first(&[], TEXT).unwrap(), told);
    let started = first(&["start"], TEXT).unwrap();
    assert_eq!(write(&started), write(&TEXT.replace("start 2 1", "start 1 2")));
    // Neither the text's own starting order nor its choices are looked at, but for the bound.
    for (old, new) in [("start 2 1", "start 2 2"), ("start 2 1", ""), ("LIFO", "4"), ("U/DBAS DB/AS", "16")] {
        let other = TEXT.replace(old, new);
        assert_eq!(first(&[], &other).unwrap(), told);
        assert!(first(&["start"], &other).unwrap().ends_with("\nstart 1 2\n"));
    }
}

/// Refused by 1, 3 and 4 at the line that they speak of, where 4 speaks of the bound, whatever the other choices are. A
/// text's table always fits its stops, so that 2 never comes.
#[test]
fn refused_first_orders() {
    let rows = ("0 ".repeat(18) + "\n").repeat(18);
    let many = format!("stops 17\ntable\n{rows}selection 0\nrules 0\nbound 0\n");
    for more in [&[][..], &["start"]] {
        let refused = |old, new| first(more, &TEXT.replace(old, new)).unwrap_err();
        assert_eq!(refused("5 0 6", "5 0 1000001"), format!("line 4: {}\n", gondamuy::Refusal::Leg));
        assert!(refused("7 8 0", "7 1000001 0").starts_with("line 5: refused 3:"));
        assert_eq!(first(more, &many).unwrap_err(), format!("line 1: {}\n", gondamuy::Refusal::Stops));
        assert_eq!(refused("5 0 6", "5 0"), "line 4: a row of 2 entries, and 2 stops have 3\n");
        assert_eq!(refused("close", "4"), format!("line 8: {}\n", gondamuy::Refusal::Choice));
        let unknown = TEXT.replace("LIFO", "4").replace("U/DBAS DB/AS", "16").replace("close", "4294967295");
        assert!(first(more, &unknown).unwrap_err().starts_with("line 8: refused 4:"));
        assert!(first(more, &unknown.replace("5 0 6", "5 0 1000001")).unwrap_err().starts_with("line 4: refused 3:"));
    }
}

/// As the second planner has them.
#[test]
fn first_orders_of_the_samples() {
    for name in NAMES {
        let text = string(name, "txt");
        let job = parse(&text).unwrap().job;
        let told = witness::first_order(job.n.into(), job.bound.into(), &job.table, &job.pairs);
        let stops = &told.order[..job.n as usize];
        let line: String = stops.iter().map(|stop| format!(" {stop}")).collect();
        let landings = landings_of(&job);
        let end = if ends_away(&job) { ENDS_AWAY.to_string() } else { String::new() };
        let day: String =
            [told_of_pairs(&job), end].iter().filter(|l| !l.is_empty()).map(|l| format!("first: {l}")).collect();
        let lines = format!("first cost {}{landings}\nfirst order{line}\n{day}", told.cost);
        assert_eq!(first(&[], &text).unwrap(), lines, "{name}");
        let started = first(&["start"], &text).unwrap();
        let start = stops.iter().map(|&stop| stop as u8).collect();
        assert_eq!(parse(&started).unwrap().job, Job { start, ..job }, "{name}");
    }
}

/// The sample that starts from the unit's order is what the tool makes of the pilot's, behind a comment.
#[test]
fn the_pilot_from_the_first_order() {
    let sample = string("pilot-first", "txt");
    let (comment, text) = sample.split_once('\n').unwrap();
    assert!(comment.starts_with('#'));
    assert_eq!(first(&["start"], &string("pilot", "txt")).unwrap(), text);
}

#[test]
fn faulty_texts() {
    for word in ["x", "+6"] {
        let told = format!("line 4: `{word}` is no number of a leg\n");
        assert_eq!(write(&TEXT.replace("5 0 6", &format!("5 0 {word}"))).unwrap_err(), told);
    }
    assert_eq!(run(&["write"], &[0xff]).unwrap_err(), "the input is no text\n");
    assert_eq!(run(&["first"], &[0xff]).unwrap_err(), "the input is no text\n");
}

#[test]
fn refused_files() {
    assert_eq!(run(&["show"], &[0; 12]).unwrap_err(), "refused 8: the file is shorter than 13 bytes\n");
    let mut file = write(TEXT).unwrap();
    file.insert(0, 0);
    assert!(run(&["show"], &file).unwrap_err().starts_with("refused 9:"));
}

#[test]
fn numbers_in_words() {
    assert_eq!(run(&["refusal", "7"], b"").unwrap(), b"7: the pool is full\n");
    assert_eq!(run(&["refusal", "12"], b"").unwrap(), b"12: no such number\n");
    let words = [&["refusal"][..], &["first", "order"], &["read"], &["write", "pairs"], &["show", "pairs"], &[]];
    let numbers = ["x", "+7", "-7", "7.0", "4294967296", ""].map(|word| ["refusal", word]);
    for arguments in numbers.iter().map(|pair| &pair[..]).chain(words) {
        assert!(run(arguments, b"").unwrap_err().starts_with("jobtool write"), "{arguments:?}");
    }
}
