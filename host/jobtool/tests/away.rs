//! Days that end away (request A.5) in the tool run as a program: bounds by name, and costs without a flight home, which
//! it says.

mod common;

use common::{bytes, run, string, ENDS_AWAY};
use gondamuy::Refusal;

/// Document 01's table T with charges, in case a's way but for the end of the day: every order pays 60 for its
/// landings, as nobody lands at home.
const AWAY: &str = "stops 3\ntable\n- 4 7 9\n5 - 2 6\n3 8 - 1\n6 5 4 -\ncharges 5 10 20 30\n\
                    selection LLB-FIFO\nrules U/DBAS\nbound close-away\n";

/// What the tool prints, or complains of.
fn told(words: &[&str], input: &str) -> Result<String, String> {
    run(words, input.as_bytes()).map(|output| String::from_utf8(output).unwrap())
}

#[test]
fn text_to_file_and_back() {
    for (name, number) in [("plain-away", 2), ("close-away", 3)] {
        let text = AWAY.replace("close-away", name);
        let file = run(&["write"], text.as_bytes()).unwrap();
        assert_eq!((file.len(), file.last()), (77, Some(&number)));
        assert_eq!(run(&["write"], text.replace(name, &number.to_string()).as_bytes()).unwrap(), file);
        let shown = String::from_utf8(run(&["show"], &file).unwrap()).unwrap();
        assert!(shown.contains(&format!("\nbound {name} # the path cost")), "{shown}");
        assert!(shown.contains("; the day ends at the last stop\n"), "{shown}");
        assert_eq!(run(&["write"], shown.as_bytes()).unwrap(), file);
    }
}

#[test]
fn finished() {
    let counts = "branched 3, generated 7, eliminated 3, active 1, most 4\n";
    let said = format!(
        "finished after 3 branchings\na cheapest order costs 67, 60 of it landings: 1 2 3\n{ENDS_AWAY}{counts}"
    );
    assert_eq!(told(&["plan"], AWAY).unwrap(), said);
    let file = run(&["write"], AWAY.as_bytes()).unwrap();
    assert_eq!(run(&["plan"], &file).unwrap(), said.as_bytes());
    let without = AWAY.replace("charges 5 10 20 30", "charges 5 0 0 0");
    let said = format!("finished after 3 branchings\na cheapest order costs 7: 1 2 3\n{ENDS_AWAY}{counts}");
    assert_eq!(told(&["plan"], &without).unwrap(), said);
}

/// The floor has no flight home, and neither has the order known.
#[test]
fn stopped() {
    let started = format!("{AWAY}start 1 3 2\n");
    let counts = "branched 0, generated 1, eliminated 0, active 1, most 1\n";
    let said = format!(
        "stopped after 0 branchings: the budget is spent\nno order costs less than 67\n\
         the order known so far costs 74, 60 of it landings: 1 3 2\nanother order saves 7 at most\n{ENDS_AWAY}{counts}"
    );
    assert_eq!(told(&["plan", "budget", "0"], &started).unwrap(), said);
    let said = format!(
        "stopped after 0 branchings: the budget is spent\nno order costs less than 67\nno order is known so far\n\
         {ENDS_AWAY}{counts}"
    );
    assert_eq!(told(&["plan", "budget", "0"], AWAY).unwrap(), said);
}

/// A day that ends at home is told as it was before the request.
#[test]
fn at_home() {
    for bound in ["plain", "close"] {
        let text = AWAY.replace("close-away", bound);
        for words in [&["plan"][..], &["plan", "budget", "0"], &["first"], &["first", "start"]] {
            let said = told(words, &text).unwrap();
            assert!(!said.contains("last stop") && !said.contains("flight home"), "{said}");
        }
        assert!(told(&["plan"], &text).unwrap().contains("\na cheapest order costs 78, 65 of it landings: 1 2 3\n"));
    }
}

/// Two stops, and a dear leg home from the second: where the day ends is seen in the first order too, and the text that
/// starts from it keeps its bound.
#[test]
fn first_orders() {
    let text = "stops 2\ntable\n0 1 2\n0 0 1\n1000 1 0\nselection LIFO\nrules none\nbound plain-away\n";
    let away = format!("first cost 2\nfirst order 1 2\nfirst: {ENDS_AWAY}");
    for bound in ["plain-away", "close-away"] {
        let text = text.replace("plain-away", bound);
        assert_eq!(told(&["first"], &text).unwrap(), away);
        let started = told(&["first", "start"], &text).unwrap();
        assert!(started.contains(&format!("\nbound {bound} #")) && started.ends_with("\nstart 1 2\n"), "{started}");
    }
    for bound in ["plain", "close"] {
        let text = text.replace("plain-away", bound);
        assert_eq!(told(&["first"], &text).unwrap(), "first cost 3\nfirst order 2 1\n");
    }
    assert_eq!(
        told(&["first"], AWAY).unwrap(),
        format!("first cost 67, 60 of it landings\nfirst order 1 2 3\nfirst: {ENDS_AWAY}")
    );
}

/// Bound 4 is refused at its line; a leg home that is too dear, or home's charge, as on any other day.
#[test]
fn refused() {
    for words in [&["write"][..], &["first"], &["first", "start"], &["plan"], &["plan", "budget", "0"]] {
        let of = |old: &str, new: &str| told(words, &AWAY.replace(old, new)).unwrap_err();
        assert_eq!(of("close-away", "4"), format!("line 10: {}\n", Refusal::Choice));
        assert_eq!(of("6 5 4 -", "1000001 5 4 -"), format!("line 6: {}\n", Refusal::Leg));
        assert_eq!(of("charges 5 ", "charges 100001 "), format!("line 7: {}\n", Refusal::Leg));
        let names = "`away` is none of plain, close, plain-away, close-away, and no number\n";
        assert_eq!(of("close-away", "away"), format!("line 10: {names}"));
    }
}

/// What the sample's comment says of the pilot's own order, and what the day would cost from home and back.
#[test]
fn the_pilot_of_the_camps() {
    let text = string("camps", "txt");
    let known = "\nthe order known so far costs 734, 210 of it landings: 10 4 8 6 7 1 9 2 5 3\n";
    for kind in ["txt", "job"] {
        let said = String::from_utf8(run(&["plan", "budget", "0"], &bytes("camps", kind)).unwrap()).unwrap();
        assert!(said.contains(known), "{said}");
    }
    let home = told(&["plan"], &text.replace("close-away", "close")).unwrap();
    assert!(home.contains("\na cheapest order costs 1009, 240 of it landings: 8 6 7 9 2 3 5 1 4 10\n"), "{home}");
}
