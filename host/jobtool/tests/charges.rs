//! Landing charges (request A.4) in the tool run as a program: taken and shown apart from the legs, told as a part of
//! what an order costs, and refused at their line.

mod common;

use common::{bytes, run, string};
use gondamuy::Refusal;

/// Document 01's table T with charges, in case a's way: every order pays 65 for its landings.
const CHARGED: &str = "stops 3\ntable\n- 4 7 9\n5 - 2 6\n3 8 - 1\n6 5 4 -\ncharges 5 10 20 30\n\
                       selection LLB-FIFO\nrules U/DBAS\nbound close\n";

/// The same without.
fn uncharged() -> String {
    CHARGED.replace("charges 5 10 20 30", "charges none")
}

/// What the tool prints, or complains of.
fn told(words: &[&str], input: &[u8]) -> Result<String, String> {
    run(words, input).map(|output| String::from_utf8(output).unwrap())
}

/// The file's table has the charges on its diagonal, and the text of the file has them on their line again.
#[test]
fn text_to_file_and_back() {
    let file = run(&["write"], CHARGED.as_bytes()).unwrap();
    let diagonal = [0, 5, 10, 15].map(|k| u32::from_le_bytes(file[4 * k..4 * k + 4].try_into().unwrap()));
    assert_eq!((file.len(), diagonal), (77, [5, 10, 20, 30]));
    let text = told(&["show"], &file).unwrap();
    assert!(text.starts_with("stops 3\ntable\n- 4 7 9\n5 - 2 6\n3 8 - 1\n6 5 4 -\ncharges 5 10 20 30\n"), "{text}");
    assert_eq!(run(&["write"], text.as_bytes()).unwrap(), file);
}

/// Without charges files are as they were before the request, and so is what is shown of them.
#[test]
fn no_charges() {
    let file = run(&["write"], uncharged().as_bytes()).unwrap();
    assert_eq!(file, bytes("case-a", "job"));
    let text = told(&["show"], &file).unwrap();
    assert!(text.starts_with("stops 3\ntable\n0 4 7 9\n5 0 2 6\n3 8 0 1\n6 5 4 0\nselection LLB-FIFO #"), "{text}");
    for words in [&["plan"][..], &["plan", "budget", "2"], &["first"]] {
        let said = told(words, uncharged().as_bytes()).unwrap();
        assert!(!said.contains("landings"), "{said}");
    }
}

#[test]
fn plans_tell_the_landings() {
    let finished = "finished after 3 branchings\na cheapest order costs 78, 65 of it landings: 1 2 3\n\
                    branched 3, generated 7, eliminated 3, active 1, most 4\n";
    let file = run(&["write"], CHARGED.as_bytes()).unwrap();
    for job in [CHARGED.as_bytes(), &file] {
        assert_eq!(told(&["plan"], job).unwrap(), finished);
    }
    // Stopped at once, from an order that is known: the floor is case k's bound of the empty node and the landings.
    let stopped = "stopped after 0 branchings: the budget is spent\nno order costs less than 75\n\
                   the order known so far costs 82, 65 of it landings: 1 3 2\nanother order saves 7 at most\n\
                   branched 0, generated 1, eliminated 0, active 1, most 1\n";
    let started = format!("{CHARGED}start 1 3 2\n");
    assert_eq!(told(&["plan", "budget", "0"], started.as_bytes()).unwrap(), stopped);
    let unknown = told(&["plan", "budget", "0"], CHARGED.as_bytes()).unwrap();
    assert!(unknown.contains("\nno order costs less than 75\nno order is known so far\n"), "{unknown}");
}

/// And the text that starts from one keeps the charges.
#[test]
fn first_orders_tell_the_landings() {
    assert_eq!(told(&["first"], uncharged().as_bytes()).unwrap(), "first cost 13\nfirst order 1 2 3\n");
    assert_eq!(told(&["first"], CHARGED.as_bytes()).unwrap(), "first cost 78, 65 of it landings\nfirst order 1 2 3\n");
    let started = told(&["first", "start"], CHARGED.as_bytes()).unwrap();
    assert!(started.contains("\ncharges 5 10 20 30\n") && started.ends_with("\nstart 1 2 3\n"), "{started}");
}

/// Refused by 3 at the line of a leg that is too dear, else at the charges; each number by itself.
#[test]
fn refused_charges() {
    let refused = |line: usize| format!("line {line}: {}\n", Refusal::Leg);
    for words in [&["write"][..], &["first"], &["first", "start"], &["plan"], &["plan", "budget", "0"]] {
        let of = |text: &str| run(words, text.as_bytes());
        let charged = |charges: &str| CHARGED.replace("5 10 20 30", charges);
        assert!(of(&charged("100000 100000 100000 100000").replace("4 7 9", "1000000 7 9")).is_ok());
        for dear in ["100001 0 0 0", "0 100001 0 0", "0 0 0 100001", "0 0 4294967295 0"] {
            assert_eq!(of(&charged(dear)).unwrap_err(), refused(7), "{words:?} {dear}");
            let leg = charged(dear).replace("3 8 - 1", "1000001 8 - 1");
            assert_eq!(of(&leg).unwrap_err(), refused(5), "{words:?} {dear}");
        }
        assert!(of(&charged("5 10 20")).unwrap_err().starts_with("line 7: 3 charges, "));
        assert!(of(&CHARGED.replace("5 - 2 6", "5 10 2 6")).unwrap_err().starts_with("line 4: `10` on the diagonal, "));
    }
}

/// What the sample's comment says of the pilot's own order.
#[test]
fn the_pilot_of_the_strips() {
    let known = "\nthe order known so far costs 989, 310 of it landings: 2 7 3 8 5 6 9 10 1 4 11\n";
    for kind in ["txt", "job"] {
        let said = told(&["plan", "budget", "0"], &bytes("strips", kind)).unwrap();
        assert!(said.contains(known), "{said}");
    }
    let shown = told(&["show"], &bytes("strips", "job")).unwrap();
    assert!(shown.contains("\ncharges 25 45 30 40 18 40 12 0 0 0 60 40\n"), "{shown}");
    assert!(string("strips", "txt").contains("\ncharges 25 45 30 40 18 40 12 0 0 0 60 40\n"));
}
