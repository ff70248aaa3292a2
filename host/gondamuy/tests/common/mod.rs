//! What the tests share: random jobs, what their orders cost, and ways to spoil them.
#![allow(dead_code)]

use gondamuy::{raw, LONGEST_FILE, NO_BUDGET, RECORD_WORDS};
use jobtext::Job;
use samples::{respects, Random};
use witness::enumerate::all_orders;

/// The numbers of a job as the calls take them.
pub fn choices(job: &Job) -> raw::Job {
    raw::Job { n: job.n, selection: job.selection, rules: job.rules, bound: job.bound }
}

/// The bytes of a job's file, whatever the job holds.
pub fn bytes(job: &Job) -> Vec<u8> {
    let mut file: Vec<u8> = job.table.iter().flat_map(|leg| leg.to_le_bytes()).collect();
    let place = file.len() as u32;
    file.extend(&job.start);
    file.extend([0; 4]);
    file.extend(place.to_le_bytes());
    let length = job.start.len() as u32;
    file.extend([job.n, length, job.selection, job.rules, job.bound].map(|x| x as u8));
    file
}

/// What each call says of a job of few stops without pairs: `plan`, `first_order`, `write`, and `read` of its file.
pub fn numbers(job: raw::Job, table: &[u32], start: &[u8]) -> [u32; 4] {
    let raw::Job { n, selection, rules, bound } = job;
    let (table_of, start_of) = (table.to_vec(), start.to_vec());
    let file = bytes(&Job { n, table: table_of, selection, rules, bound, start: start_of, pairs: Vec::new() });
    let planned = raw::plan(job, table, start, &[], NO_BUDGET, &mut [0; 600]).number;
    let written = raw::write(job, table, start, &mut [0; LONGEST_FILE]).number;
    [planned, raw::first_order(n, bound, table, &[]).number, written, raw::read(&file).number]
}

/// The report of a job with its pairs, and the words of a pool of so many records.
pub fn planned(job: &Job, budget: u64, records: usize) -> (raw::Report, Vec<u32>) {
    let mut pool = vec![1; records * RECORD_WORDS];
    let report = raw::plan(choices(job), &job.table, &job.start, &job.pairs, budget, &mut pool);
    (report, pool)
}

/// What the second planner reports, field by field as the library does.
pub fn told(report: &witness::Report) -> raw::Report {
    let witness::Report { number, mark, cost, floor, order, branched, generated, eliminated, active, most } = *report;
    let order = order.map(|stop| u8::try_from(stop).unwrap());
    raw::Report { number, mark, cost, floor, order, branched, generated, eliminated, active, most }
}

/// A budget for a search that makes `own` branchings without one: 0, a few, any that stops it, about as many as it
/// makes, or so many that no search reaches them.
pub fn some_budget(random: &mut Random, own: u64) -> u64 {
    match random.below(6) {
        0 => 0,
        1 => 1 + random.below(4),
        2 => random.below(own + 1),
        3 => own.saturating_sub(1),
        4 => own,
        _ => random.pick(&[own + 1, own + 2, u64::MAX - 1, u64::MAX]),
    }
}

/// The first order of n stops, as `plan` with the same pairs takes a starting order.
pub fn first_stops(n: usize, bound: u32, table: &[u32], pairs: &[u8]) -> Vec<u8> {
    raw::first_order(n as u32, bound, table, pairs).order[..n].to_vec()
}

/// A job of n stops that every check lets pass: in half of the cases with landing charges, in half of them for a day
/// that ends away, in half of them with pairs, and in half of them from the first order, else from none or from any
/// that respects the pairs.
pub fn random_job(random: &mut Random, n: usize, most: u32) -> Job {
    let table = random.table(n, 0, most);
    let table = random.maybe_charged(n, table);
    let bound = random.below(4) as u32;
    let pairs = random.maybe_paired(n);
    let start = match random.below(4) {
        0 => Vec::new(),
        1 => random.order_with(n, &pairs),
        _ => first_stops(n, bound, &table, &pairs),
    };
    Job { n: n as u32, table, selection: random.below(4) as u32, rules: random.below(16) as u32, bound, start, pairs }
}

/// What an order costs on the job's day, by the table alone: its legs with their landings, and the flight home only
/// where the day ends there (request A.5).
pub fn order_cost(job: &Job, order: &[u8]) -> u32 {
    let side = job.n as usize + 1;
    let end: &[u8] = if job.bound < 2 { &[0] } else { &[] };
    let places: Vec<usize> = [&[0], order, end].concat().into_iter().map(usize::from).collect();
    places.windows(2).map(|pair| job.table[pair[0] * side + pair[1]] + job.table[pair[1] * (side + 1)]).sum()
}

/// Of all n! orders those that respect the pairs and cost the least, the smallest first.
pub fn cheapest_orders(job: &Job) -> Vec<Vec<u8>> {
    let stops = |order: Vec<usize>| order.into_iter().map(|stop| stop as u8).collect::<Vec<u8>>();
    let allowed = all_orders(job.n as usize).into_iter().map(stops).filter(|order| respects(&job.pairs, order));
    let mut orders: Vec<(u32, Vec<u8>)> = allowed.map(|order| (order_cost(job, &order), order)).collect();
    orders.sort();
    let least = orders[0].0;
    orders.into_iter().filter(|(cost, _)| *cost == least).map(|(_, order)| order).collect()
}

/// The least that one of all n! orders costs, of those that respect the pairs.
pub fn least_cost(job: &Job) -> u32 {
    order_cost(job, &cheapest_orders(job)[0])
}

/// As `random_job`, over 1 to 16 stops and legs of every size.
pub fn any_job(random: &mut Random) -> Job {
    let n = 1 + random.below(16) as usize;
    let most = random.pick(&[0, 1, 255, 256, 65_536, 1_000_000]);
    random_job(random, n, most)
}

/// Jobs of 1 to 16 stops, each without and with a starting order.
pub fn each_size(random: &mut Random, mut check: impl FnMut(&mut Random, &Job)) {
    for n in 1..=16 {
        for start in [Vec::new(), random.order(n)] {
            let job = Job { start, ..random_job(random, n, 1_000_000) };
            check(random, &job);
        }
    }
}

/// Those of some numbers that the bits of a round name: all mixtures in turn.
pub fn some_of(numbers: &[u32], round: u64) -> Vec<u32> {
    let named = numbers.iter().enumerate().filter(|(bit, _)| round >> bit & 1 == 1);
    named.map(|(_, &number)| number).collect()
}

/// Number 1: no stop, or more than sixteen.
pub fn spoil_stops(random: &mut Random, job: &mut Job) {
    job.n = random.pick(&[0, 17, 18, 256 + job.n, u32::MAX]);
}

/// Number 2: a table too short or too long.
pub fn spoil_length(random: &mut Random, job: &mut Job) {
    let legs = job.table.len();
    job.table.resize(random.pick(&[0, 1, legs - 1, legs + 1, 2 * legs]), 0);
}

/// Number 3: a number too dear for a leg, or a landing charge that is, home's or a stop's.
pub fn spoil_table(random: &mut Random, job: &mut Job) {
    let side = job.n as usize + 1;
    if random.below(2) == 0 {
        let at = random.below((side * side) as u64) as usize;
        job.table[at] = random.pick(&[1_000_001, 1 << 24, u32::MAX]);
    } else {
        let at = random.below(side as u64) as usize;
        job.table[at * (side + 1)] = random.pick(&[100_001, 100_002, 1 << 17, 1_000_000]);
    }
}

/// Those of numbers 1 to 3 that are among some causes. What else is to be spoilt goes first, as it looks at n.
pub fn spoil_day(random: &mut Random, job: &mut Job, causes: &[u32]) {
    if causes.contains(&3) {
        spoil_table(random, job);
    }
    if causes.contains(&2) {
        spoil_length(random, job);
    }
    if causes.contains(&1) {
        spoil_stops(random, job);
    }
}

/// Number 4: a selection, rules or a bound that are not known; `more` are added to 4, 16 and 4.
pub fn spoil_choice(random: &mut Random, job: &mut Job, more: &[u32]) {
    let more = random.pick(more);
    match random.below(3) {
        0 => job.selection = 4 + more,
        1 => job.rules = 16 + more,
        _ => job.bound = 4 + more,
    }
}

/// Number 11: pairs that do not pass. A starting order becomes any order of the stops.
pub fn spoil_pairs(random: &mut Random, job: &mut Job) {
    let n = job.n as usize;
    job.pairs = random.bad_pairs(n);
    if !job.start.is_empty() {
        job.start = random.order(n);
    }
}

/// Number 5: a starting order cut short or too long (though its file is not), with a stop twice, or with one that is
/// not there.
pub fn spoil_start(random: &mut Random, job: &mut Job) {
    let n = job.n as usize;
    job.start = random.order(n);
    let at = random.below(n as u64) as usize;
    match random.below(5) {
        0 if n > 1 => job.start.truncate(1 + random.below(n as u64 - 1) as usize),
        1 if n > 1 => job.start[at] = job.start[(at + 1) % n],
        2 => job.start[at] = 0,
        3 if n < 16 => job.start.extend((0..=random.below(100)).map(|_| at as u8 + 1)),
        _ => job.start[at] = random.pick(&[n as u8 + 1, 17, 255]),
    }
}
