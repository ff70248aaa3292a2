//! The typed calls beside the plain ones: the same answers, in other words.

mod common;

use common::{any_job, choices, some_budget};
use common::{spoil_choice, spoil_length, spoil_pairs, spoil_start, spoil_stops, spoil_table};
use gondamuy::{first_order, pair_file, pairs_of, plan, plan_records, raw, read, words, write};
use gondamuy::{Bound, Counts, Job, Pair, Planned, Record, Refusal, Refused, LONGEST_FILE, NO_BUDGET};
use samples::Random;

#[test]
fn every_choice_has_a_type() {
    let mut known = 0;
    for selection in [0, 1, 2, 3, 4, u32::MAX] {
        for rules in (0..=16).chain([u32::MAX]) {
            for bound in [0, 1, 2, 3, 4, u32::MAX] {
                let numbers = raw::Job { n: 5, selection, rules, bound };
                match Job::try_from(numbers) {
                    Ok(job) => assert_eq!(raw::Job::from(job), numbers),
                    Err(refusal) => assert_eq!(refusal, Refusal::Choice),
                }
                let inside = selection < 4 && rules < 16 && bound < 4;
                assert_eq!(Job::try_from(numbers).is_ok(), inside);
                known += inside as u32;
            }
        }
    }
    assert_eq!(known, 256);
    let bounds = [Bound::Plain, Bound::Close, Bound::PlainAway, Bound::CloseAway];
    assert_eq!([0, 1, 2, 3].map(|number| Bound::try_from(number).unwrap()), bounds);
    assert_eq!([4, u32::MAX].map(Bound::try_from), [Err(Refusal::Choice); 2]);
    assert_eq!(bounds.map(Bound::ends_away), [false, false, true, true]);
}

#[test]
fn every_number_has_words() {
    let refusals: Vec<Refusal> = (1..=11).map(|number| Refusal::of(number).unwrap()).collect();
    for (number, refusal) in (1..).zip(&refusals) {
        assert_eq!((refusal.number(), Refusal::check(number)), (number, Err(*refusal)));
        assert_eq!(refusal.to_string(), format!("refused {number}: {}", refusal.words()));
    }
    let words: std::collections::HashSet<&str> = refusals.iter().map(|refusal| refusal.words()).collect();
    assert_eq!(words.len(), 11);
    assert_eq!((Refusal::check(0), Refusal::of(0), Refusal::of(12), Refusal::of(u32::MAX)), (Ok(()), None, None, None));
}

/// Pairs and the bytes of their file are the same memory, either way; no pairs make a file of odd length.
#[test]
fn pairs_are_their_bytes() {
    let mut random = Random(74);
    for length in (0..300).chain([65_535, 65_536]) {
        let file: Vec<u8> = (0..length).map(|_| random.draw() as u8).collect();
        let told: Vec<Pair> = file.chunks_exact(2).map(|two| Pair { pick_up: two[0], drop: two[1] }).collect();
        match pairs_of(&file) {
            Ok(pairs) => {
                assert_eq!((pairs, pair_file(pairs)), (&told[..], &file[..]));
                assert_eq!(pair_file(pairs).as_ptr(), file.as_ptr());
            }
            Err(refusal) => assert_eq!((refusal, length % 2), (Refusal::Pairs, 1)),
        }
        assert_eq!(pair_file(&told), &file[..length & !1]);
    }
}

/// Cost and order.
type Order = (u32, Vec<u8>);

/// What an answer says, told from the plain fields and from the types.
#[derive(Debug, PartialEq)]
enum Said {
    Finished(Order),
    /// The floor, and the order if one is known.
    Stopped(u32, Option<Order>),
    Refused(u32),
}

/// Of a report.
fn plain(report: &raw::Report, n: u32) -> (Said, [u64; 5]) {
    let raw::Report { number, mark, cost, floor, order, branched, generated, eliminated, active, most } = *report;
    let shown = || (cost, order[..n as usize].to_vec());
    let said = match (number, mark) {
        (0, 0) => Said::Finished(shown()),
        (0, 1) => Said::Stopped(floor, (order[0] != 0).then(shown)),
        _ => Said::Refused(number),
    };
    (said, [branched, generated, eliminated, active, most])
}

/// Of a typed answer.
fn typed(answer: Result<Planned, Refused>) -> (Said, [u64; 5]) {
    let (said, counts) = match answer {
        Ok(Planned::Finished(plan)) => (Said::Finished((plan.cost, plan.order().to_vec())), plan.counts),
        Ok(Planned::Stopped(stopped)) => {
            let known = stopped.known.map(|known| (known.cost, known.order().to_vec()));
            (Said::Stopped(stopped.floor, known), stopped.counts)
        }
        Err(refused) => (Said::Refused(refused.refusal.number()), refused.counts),
    };
    let Counts { branched, generated, eliminated, active, most } = counts;
    (said, [branched, generated, eliminated, active, most])
}

/// Every refusal of `plan`, finished and stopped runs and full pools.
#[test]
fn the_same_plans() {
    let mut random = Random(71);
    let mut seen = [0; 12];
    let mut stopped = [0; 2];
    for _ in 0..4_000 {
        let mut job = any_job(&mut random);
        match random.below(7) {
            0 => job.n = 17,
            1 => drop(job.table.pop()),
            2 => spoil_table(&mut random, &mut job),
            3 => spoil_start(&mut random, &mut job),
            4 => spoil_pairs(&mut random, &mut job),
            _ => {}
        }
        let Ok(pairs) = pairs_of(&job.pairs) else { continue };
        let in_types = Job::try_from(choices(&job)).unwrap();
        let budget = if random.below(2) == 0 { NO_BUDGET } else { some_budget(&mut random, 5) };
        let mut ours = vec![Record::default(); random.pick(&[0, 1, 9, 20])];
        let mut theirs = ours.clone();
        let report = raw::plan_records(choices(&job), &job.table, &job.start, &job.pairs, budget, &mut theirs);
        let answer = plan_records(in_types, &job.table, &job.start, pairs, budget, &mut ours);
        assert_eq!(typed(answer), plain(&report, job.n));
        assert_eq!(ours, theirs);
        let part = &mut words(&mut ours)[report.branched.min(1) as usize..];
        let of_part = raw::plan(choices(&job), &job.table, &job.start, &job.pairs, budget, &mut part.to_vec());
        assert_eq!(typed(plan(in_types, &job.table, &job.start, pairs, budget, part)), plain(&of_part, job.n));
        seen[report.number as usize] += 1;
        if report.mark == raw::STOPPED {
            stopped[(report.order[0] != 0) as usize] += 1;
        }
    }
    assert!([0, 1, 2, 3, 5, 6, 7, 11].iter().all(|&number| seen[number] > 10), "{seen:?}");
    assert!(stopped.iter().all(|&k| k > 10), "{stopped:?}");
}

#[test]
fn the_same_first_orders() {
    let mut random = Random(73);
    let mut seen = [0; 12];
    for _ in 0..4_000 {
        let mut job = any_job(&mut random);
        match random.below(7) {
            0 => spoil_stops(&mut random, &mut job),
            1 => spoil_length(&mut random, &mut job),
            2 => spoil_table(&mut random, &mut job),
            3 => spoil_pairs(&mut random, &mut job),
            _ => {}
        }
        let Ok(pairs) = pairs_of(&job.pairs) else { continue };
        let plain = raw::first_order(job.n, job.bound, &job.table, &job.pairs);
        match first_order(job.n, job.bound.try_into().unwrap(), &job.table, pairs) {
            Ok(first) => {
                assert_eq!((plain.number, first.cost), (0, plain.cost));
                assert_eq!(first.order(), &plain.order[..job.n as usize]);
            }
            Err(refusal) => assert_eq!(refusal.number(), plain.number),
        }
        seen[plain.number as usize] += 1;
    }
    assert!([0, 1, 2, 3, 11].iter().all(|&number| seen[number] > 400), "{seen:?}");
}

#[test]
fn the_same_files() {
    let mut random = Random(72);
    for _ in 0..4_000 {
        let mut job = any_job(&mut random);
        let in_types = Job::try_from(choices(&job)).unwrap();
        if random.below(4) == 0 {
            spoil_start(&mut random, &mut job);
        }
        let mut ours = vec![0; random.pick(&[13, LONGEST_FILE])];
        let mut theirs = ours.clone();
        let written = raw::write(choices(&job), &job.table, &job.start, &mut theirs);
        let length = write(in_types, &job.table, &job.start, &mut ours);
        assert_eq!((length, &ours), (Refusal::check(written.number).map(|()| written.length), &theirs));
        let file = &mut ours[..written.length];
        if written.number == 0 && random.below(4) == 0 {
            spoil_choice(&mut random, &mut job, &[0, 1, 100, 239]);
            let trailer = [job.selection, job.rules, job.bound].map(|x| x as u8);
            file[written.length - trailer.len()..].copy_from_slice(&trailer);
        }
        let reading = raw::read(file);
        match read(file) {
            Ok(contents) => {
                assert_eq!((reading.number, contents.job), (0, in_types));
                assert_eq!((contents.table(), contents.start()), (&job.table[..], &job.start[..]));
            }
            Err(refusal) => assert_eq!(refusal.number(), reading.number),
        }
    }
}
