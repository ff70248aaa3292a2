//! The pool as records and as words: one memory, the same jobs over both views, equal reports and equal memory.

use gondamuy::raw::{plan, plan_records, words, Job, Record};
use gondamuy::{NO_BUDGET, RECORD_WORDS};
use samples::Random;

/// Records whose fields are given six words at a time, in their sequence.
fn records(words: &[u32]) -> Vec<Record> {
    assert_eq!(words.len() % RECORD_WORDS, 0);
    let record = |w: &[u32]| Record { size: w[0], set: w[1], path: w[2], bound: w[3], first: w[4], second: w[5] };
    words.chunks_exact(RECORD_WORDS).map(record).collect()
}

#[test]
fn the_fields_are_the_words() {
    let mut random = Random(11);
    for capacity in [0, 1, 2, 17, 400] {
        let mut numbers = random.words(capacity * RECORD_WORDS);
        let mut pool = records(&numbers);
        assert_eq!(words(&mut pool), numbers);
        // A word written through one view is read through the other.
        for k in 0..numbers.len() {
            let word = random.draw() as u32;
            words(&mut pool)[k] = word;
            numbers[k] = word;
            assert_eq!(pool, records(&numbers));
        }
    }
}

/// Every choice, with pairs and without, jobs that finish, that a budget stops, that fill the pool and that are
/// refused.
#[test]
fn the_same_plan_over_both_views() {
    let mut random = Random(12);
    let mut seen = [0; 12];
    let mut stopped = 0;
    for _ in 0..20_000 {
        let n = 1 + random.below(5) as usize;
        let (low, high) = random.pick(&[(0, 0), (0, 1), (0, 9), (0, 1_000_000)]);
        let table = random.table(n, low, high);
        let mut table = random.maybe_charged(n, table);
        match random.below(100) {
            0 => table[n] = 1_000_001,
            1 => table[n + 2] = 100_001,
            _ => {}
        }
        if random.below(50) == 0 {
            table.pop();
        }
        let stops = random.pick(&[n as u32, n as u32, n as u32, n as u32, n as u32, n as u32, 0, 17]);
        let choices = [random.below(4), random.below(16), random.below(4) + random.below(20) / 19 * 4];
        let [selection, rules, bound] = choices.map(|k| k as u32);
        let pairs = random.maybe_paired(n);
        let order = random.order_with(n, &pairs);
        let start = random.pick(&[Vec::new(), order, vec![1, 1]]);
        let pairs = if random.below(20) == 0 { random.bad_pairs(n) } else { pairs };
        let job = Job { n: stops, selection, rules, bound };
        let capacity = random.pick(&[0, 1, 2, 5, 40, 400, 400, 400]);
        let mut flat = random.words(capacity * RECORD_WORDS);
        let mut pool = records(&flat);
        let budget = random.pick(&[0, 3, 20, NO_BUDGET, NO_BUDGET, NO_BUDGET]);
        let of_words = plan(job, &table, &start, &pairs, budget, &mut flat);
        let of_records = plan_records(job, &table, &start, &pairs, budget, &mut pool);
        assert_eq!(of_words, of_records);
        assert_eq!(flat, words(&mut pool));
        assert_eq!(pool, records(&flat));
        seen[of_records.number as usize] += 1;
        stopped += of_records.mark;
    }
    assert!([0, 1, 2, 3, 4, 5, 6, 7, 11].iter().all(|&k| seen[k] > 100) && stopped > 1_000, "{seen:?} {stopped}");
}
