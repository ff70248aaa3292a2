//! The header and the wrapper name the same numbers, say the same words and assert the same layout.

use std::collections::HashMap;
use std::fs;
use std::path::Path;

use gondamuy::{raw, Bound, Job, Refusal, Rules, Selection};
use gondamuy::{DEAREST_CHARGE, DEAREST_LEG, MOST_PAIRS, MOST_STOPS, NO_BUDGET, RECORD_WORDS, VERSION};

/// The lines of a file, by its way from the wrapper's folder.
fn lines(file: &str) -> Vec<String> {
    let path = Path::new(env!("CARGO_MANIFEST_DIR")).join(file);
    fs::read_to_string(path).unwrap().lines().map(|line| line.trim().to_string()).collect()
}

fn header() -> Vec<String> {
    lines("../../include/gondamuy.h")
}

/// A name with a number: `#define NAME 7` or `NAME = 7,` of an enum.
fn named(line: &str) -> Option<(String, u32)> {
    let words: Vec<&str> = line.split_whitespace().collect();
    let (name, digits) = match words[..] {
        ["#define", name, digits, ..] => (name, digits),
        [name, "=", digits, ..] => (name, digits.trim_end_matches(',')),
        _ => return None,
    };
    Some((name.strip_prefix("GONDAMUY_")?.to_string(), digits.parse().ok()?))
}

/// The refusals by their names in the header.
fn refusals() -> [(&'static str, u32); 12] {
    [
        ("NOT_REFUSED", 0),
        ("REFUSED_STOPS", Refusal::Stops as u32),
        ("REFUSED_TABLE_LENGTH", Refusal::TableLength as u32),
        ("REFUSED_LEG", Refusal::Leg as u32),
        ("REFUSED_CHOICE", Refusal::Choice as u32),
        ("REFUSED_START", Refusal::Start as u32),
        ("REFUSED_POOL", Refusal::Pool as u32),
        ("REFUSED_FULL", Refusal::Full as u32),
        ("REFUSED_SHORT_FILE", Refusal::ShortFile as u32),
        ("REFUSED_LAYOUT", Refusal::Layout as u32),
        ("REFUSED_SHORT_BUFFER", Refusal::ShortBuffer as u32),
        ("REFUSED_PAIRS", Refusal::Pairs as u32),
    ]
}

#[test]
fn the_same_numbers() {
    let rules = |rules| raw::Job::from(Job { n: 1, selection: Selection::Fifo, rules, bound: Bound::Plain }).rules;
    let told = [
        ("VERSION", VERSION),
        ("MOST_STOPS", MOST_STOPS as u32),
        ("DEAREST_LEG", DEAREST_LEG),
        ("DEAREST_CHARGE", DEAREST_CHARGE),
        ("RECORD_WORDS", RECORD_WORDS as u32),
        ("MOST_PAIRS", MOST_PAIRS as u32),
        ("SELECTION_LEAST_BOUND_EARLIEST", Selection::LeastBoundEarliest as u32),
        ("SELECTION_LEAST_BOUND_LATEST", Selection::LeastBoundLatest as u32),
        ("SELECTION_FIFO", Selection::Fifo as u32),
        ("SELECTION_LIFO", Selection::Lifo as u32),
        ("RULES_NONE", rules(Rules::NONE)),
        ("RULE_UPPER_COST", rules(Rules::UPPER_COST)),
        ("RULE_BY_ACTIVE", rules(Rules::BY_ACTIVE)),
        ("RULE_BY_BRANCHED", rules(Rules::BY_BRANCHED)),
        ("RULE_BY_CHILD", rules(Rules::BY_CHILD)),
        ("RULES_ALL", rules(Rules::ALL)),
        ("BOUND_PLAIN", Bound::Plain as u32),
        ("BOUND_CLOSE", Bound::Close as u32),
        ("BOUND_PLAIN_AWAY", Bound::PlainAway as u32),
        ("BOUND_CLOSE_AWAY", Bound::CloseAway as u32),
        ("NOT_STOPPED", raw::NOT_STOPPED),
        ("STOPPED", raw::STOPPED),
    ];
    let told: HashMap<String, u32> =
        told.into_iter().chain(refusals()).map(|(name, number)| (name.to_string(), number)).collect();
    let found: HashMap<String, u32> = header().iter().filter_map(|line| named(line)).collect();
    assert_eq!(found, told);
}

/// The header's is too large for `named`, and stands there by its name in C.
#[test]
fn the_same_budget_for_none() {
    let header = header();
    let values = header.iter().filter_map(|line| line.strip_prefix("#define GONDAMUY_NO_BUDGET "));
    let found: Vec<u64> =
        values.map(|value| if value == "UINT64_MAX" { u64::MAX } else { panic!("{value}") }).collect();
    assert_eq!(found, [NO_BUDGET]);
}

/// What a refusal says opens the comment above its name.
#[test]
fn the_same_words() {
    let header = header();
    for number in 1..=11 {
        let refusal = Refusal::of(number).unwrap();
        let is_it = |line: &String| named(line).is_some_and(|(name, k)| name.starts_with("REFUSED_") && k == number);
        let at = header.iter().position(is_it).unwrap();
        let comment = header[..at].iter().rfind(|line| line.starts_with("/* ")).unwrap();
        assert!(comment.starts_with(&format!("/* {}.", refusal.words())), "{refusal}: {comment}");
    }
}

/// What stands between some opening words and `);`.
fn asserted<'a>(line: &'a str, opening: &str) -> Option<&'a str> {
    line.strip_prefix(opening)?.strip_suffix(");")
}

/// `GONDAMUY_SIZE(job, 16);` and a `GONDAMUY_FIELD(job, n, 0);` for each field, as `layout!(Job, 16: n 0, ..);` has it.
#[test]
fn the_same_layout() {
    let header = header();
    let sizes = header.iter().filter_map(|line| asserted(line, "GONDAMUY_SIZE("));
    let found: Vec<String> = sizes
        .map(|size| {
            let opening = format!("GONDAMUY_FIELD({}, ", size.split(',').next().unwrap());
            let fields = header.iter().filter_map(|line| asserted(line, &opening));
            format!("{size}: {}", fields.map(|field| field.replace(',', "")).collect::<Vec<String>>().join(", "))
        })
        .collect();
    let wrapper = lines("src/raw/layout.rs").join(" ");
    let told = wrapper.split("layout!(").skip(1).filter_map(|rest| rest.split(");").next());
    let told: Vec<String> = told.map(|layout| layout.replace("FirstOrder", "first").to_lowercase()).collect();
    assert_eq!(found, told);
    assert_eq!(told.len(), 6);
}
