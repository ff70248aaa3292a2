//! Prints document 01's cases a to i: what each is, and cost, order and the
//! counts branched, generated, eliminated, active, most as the second planner
//! finds them.

use witness::{plan, Request, LARGEST_BUDGET, WORDS};

const T: [u32; 16] = [0, 4, 7, 9, 5, 0, 2, 6, 3, 8, 0, 1, 6, 5, 4, 0];

struct Case {
    name: &'static str,
    n: u64,
    table: &'static [u32],
    /// Selection, rules, bound.
    choices: [u64; 3],
    start: &'static [u32],
    records: usize,
}

const fn on_t(name: &'static str, choices: [u64; 3], start: &'static [u32], records: usize) -> Case {
    Case { name, n: 3, table: &T, choices, start, records }
}

const CASES: [Case; 11] = [
    on_t("a  selection 0, rules 1, close", [0, 1, 1], &[], 16),
    on_t("b  FIFO, no rules, plain", [2, 0, 0], &[], 16),
    on_t("c  LIFO, rules 1, plain", [3, 1, 0], &[], 16),
    on_t("d  LIFO, rules 1, close", [3, 1, 1], &[], 16),
    on_t("e  as d, starting from 123", [3, 1, 1], &[1, 2, 3], 16),
    on_t("f  as e, pool of one record", [3, 1, 1], &[1, 2, 3], 1),
    on_t("f  as d, pool of one record", [3, 1, 1], &[], 1),
    on_t("g  FIFO, rules 2, plain", [2, 2, 0], &[], 16),
    Case { name: "h  n = 1, out 3, back 5", n: 1, table: &[0, 3, 5, 0], choices: [0, 0, 0], start: &[], records: 16 },
    Case { name: "i  n = 2, all 0, selection 0", n: 2, table: &[0; 9], choices: [0, 0, 1], start: &[], records: 16 },
    Case { name: "i  n = 2, all 0, selection 1", n: 2, table: &[0; 9], choices: [1, 0, 1], start: &[], records: 16 },
];

fn main() {
    for case in &CASES {
        let mut pool = vec![0; case.records * WORDS];
        let [selection, rules, bound] = case.choices;
        let (table, start, budget) = (case.table, case.start, LARGEST_BUDGET);
        let request = Request { n: case.n, table, selection, rules, bound, start, pairs: &[], budget };
        let report = plan(&request, &mut pool);
        let found = match (report.number, report.mark) {
            (0, 0) => {
                let stops = &report.order[..case.n as usize];
                let order: String = stops.iter().map(|s| s.to_string()).collect();
                format!("{}, {}", report.cost, order)
            }
            (0, _) => unreachable!("the largest budget stops no run"),
            (number, _) => format!("refused {number}"),
        };
        let counts: Vec<String> = report.counts().iter().map(|k| k.to_string()).collect();
        println!("{:<34}{}; {}", case.name, found, counts.join(", "));
    }
}
