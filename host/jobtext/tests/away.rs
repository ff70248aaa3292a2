//! Days that end away in texts (request A.5): the names of their bounds, both ways, and what their landings cost.

use jobtext::{parse, text, Job};

const LINES: [&str; 7] = ["stops 1", "table", "- 3", "4 -", "selection LIFO", "rules U/DBAS", "bound close"];

fn parsed(text: &str) -> Job {
    parse(text).map_err(|fault| fault.to_string()).unwrap().job
}

/// A day of one stop with home's charge, the stop's, and this bound.
fn job(home: u32, stop: u32, bound: u32) -> Job {
    Job { n: 1, table: vec![home, 3, 4, stop], selection: 3, rules: 1, bound, start: Vec::new(), pairs: Vec::new() }
}

#[test]
fn bounds_by_name() {
    for (bound, name) in [(0, "plain"), (1, "close"), (2, "plain-away"), (3, "close-away")] {
        let told = LINES.join("\n").replace("close", name);
        assert_eq!(parsed(&told), job(0, 0, bound));
        assert_eq!(parsed(&text(&job(5, 10, bound))), job(5, 10, bound));
        assert_eq!(job(5, 10, bound).ends_away(), name.ends_with("-away"));
    }
}

#[test]
fn bounds_in_words() {
    let line = |bound| {
        let text = text(&job(0, 0, bound));
        text.lines().find(|line| line.starts_with("bound ")).unwrap().to_string()
    };
    assert_eq!(line(0), "bound plain # the path cost");
    assert_eq!(line(1), "bound close # the path cost, and the cheapest legs to come with their landings");
    assert_eq!(line(2), "bound plain-away # the path cost; the day ends at the last stop");
    let close = "the path cost, and the cheapest legs to come with their landings";
    assert_eq!(line(3), format!("bound close-away # {close}; the day ends at the last stop"));
    assert_eq!(line(4), "bound 4 # not known");
}

/// Home's is paid where the day ends there alone, and stands in the text all the same.
#[test]
fn landings() {
    for (bound, landings) in [(0, 15), (1, 15), (2, 10), (3, 10)] {
        let job = job(5, 10, bound);
        assert_eq!(job.landings(), landings);
        assert_eq!(job.charges().collect::<Vec<u32>>(), [5, 10]);
        assert!(text(&job).contains("\ncharges 5 10\n"));
    }
    assert_eq!(job(5, 0, 3).landings(), 0);
}

/// Of a plan the first choice that is not known; of a first order, which looks at no other, the bound.
#[test]
fn the_line_of_refusal_4() {
    let lines = |text: String| {
        let parsed = parse(&text).map_err(|fault| fault.to_string()).unwrap();
        (parsed.line_of(4), parsed.line_of_first(4))
    };
    let unknown = LINES.join("\n").replace("close", "4");
    assert_eq!(lines(unknown.clone()), (7, 7));
    assert_eq!(lines(unknown.replace("U/DBAS", "16")), (6, 7));
    assert_eq!(lines(unknown.replace("LIFO", "4").replace("U/DBAS", "16")), (5, 7));
    let other = |number| {
        let parsed = parse(&unknown).map_err(|fault| fault.to_string()).unwrap();
        assert_eq!(parsed.line_of_first(number), parsed.line_of(number));
        parsed.line_of(number)
    };
    assert_eq!([1, 2, 3].map(other), [1, 2, 2]);
}
