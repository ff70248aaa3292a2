//! The choices of document 01 and request A.5 in words.

/// What stands in a job, its name, and what it means.
pub type Named = (u32, &'static str, &'static str);

pub const SELECTIONS: [Named; 4] = [
    (0, "LLB-FIFO", "least bound first, the earliest incomplete node on ties"),
    (1, "LLB-LIFO", "least bound first, the latest incomplete node on ties"),
    (2, "FIFO", "earliest generated first"),
    (3, "LIFO", "latest generated first"),
];

pub const RULES: [Named; 4] = [
    (1, "U/DBAS", "nodes whose bound is above the upper cost go"),
    (2, "AS/DB", "children dominated by an active node go"),
    (4, "BFS/DB", "children dominated by a branched node go"),
    (8, "DB/AS", "active nodes dominated by a child go"),
];

/// The sum of all rules.
pub const ALL_RULES: u32 = 15;

pub const BOUNDS: [Named; 4] = [
    (0, "plain", "the path cost"),
    (1, "close", "the path cost, and the cheapest legs to come with their landings"),
    (2, "plain-away", "the path cost; the day ends at the last stop"),
    (
        3,
        "close-away",
        "the path cost, and the cheapest legs to come with their landings; the day ends at the last stop",
    ),
];

/// Whether a bound is one for a day that ends at the last stop.
pub fn ends_away(bound: u32) -> bool {
    matches!(bound, 2 | 3)
}

/// The choice that a name among some stands for.
pub fn by_name(named: &[Named], name: &str) -> Option<u32> {
    named.iter().find(|entry| entry.1 == name).map(|entry| entry.0)
}

/// The names among some, as a list.
pub fn list(named: &[Named]) -> String {
    let names: Vec<&str> = named.iter().map(|entry| entry.1).collect();
    names.join(", ")
}

/// The name of a choice, and what it means; its digits where it has no name.
fn words(named: &[Named], choice: u32) -> (String, String) {
    match named.iter().find(|entry| entry.0 == choice) {
        Some((_, name, words)) => (name.to_string(), words.to_string()),
        None => (choice.to_string(), "not known".to_string()),
    }
}

pub fn selection(selection: u32) -> (String, String) {
    words(&SELECTIONS, selection)
}

pub fn bound(bound: u32) -> (String, String) {
    words(&BOUNDS, bound)
}

/// The rules that a sum has.
pub fn rules(sum: u32) -> (String, String) {
    if sum == 0 {
        return ("none".to_string(), "no node is eliminated".to_string());
    }
    if sum > ALL_RULES {
        return words(&RULES, sum);
    }
    let on: Vec<&Named> = RULES.iter().filter(|entry| sum & entry.0 != 0).collect();
    let names: Vec<&str> = on.iter().map(|entry| entry.1).collect();
    let words: Vec<&str> = on.iter().map(|entry| entry.2).collect();
    (names.join(" "), words.join("; "))
}
