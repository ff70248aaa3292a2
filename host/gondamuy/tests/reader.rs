//! The proved reader against the second reader, every field and every place
//! of what it hands back, over 337,000 files. All but the random bytes are made
//! from jobs, half of which have landing charges (request A.4) and half of
//! which end away (request A.5):
//!
//! - 16,000 valid ones, 1 to 16 stops, half of them with a starting order;
//! - 29,600 cut, at every length and from either end;
//! - 24,600 one byte longer, by each byte in front, behind the table or at the end;
//! - 106,000 with one byte of the trailer changed to each other value;
//! - 80,000 of random bytes, half of them before the trailer of a job;
//! - 80,000 with n, places or length, table, choices or starting order wrong,
//!   each in half of them and in every mixture, where the number is known
//!   beforehand;
//! - 560 of the longest jobs, and 800 longer than they are.
//!
//! Each file that is accepted, the proved writer writes again, byte for byte.

mod common;

use common::{any_job, bytes, choices, each_size, some_of, spoil_choice, spoil_start, spoil_table};
use gondamuy::raw::{self, read, write, Reading, Written};
use gondamuy::{LONGEST_FILE, ORDER_PLACES, TABLE_NUMBERS};
use jobtext::Job;
use samples::Random;
use witness::job_file::{self, Contents};

/// What is to be handed back for the second reader's answer.
fn laid_out(answer: Result<Contents, u32>) -> Reading {
    let (table, start) = ([0; TABLE_NUMBERS], [0; ORDER_PLACES]);
    let zeros = Reading { number: 0, job: raw::Job::default(), table, start, stops: 0 };
    let job = match answer {
        Ok(job) => job,
        Err(number) => return Reading { number, ..zeros },
    };
    let [n, selection, rules, bound] = [job.n, job.selection, job.rules, job.bound].map(|x| x as u32);
    let stops = job.start.len() as u32;
    let mut reading = Reading { job: raw::Job { n, selection, rules, bound }, stops, ..zeros };
    reading.table[..job.table.len()].copy_from_slice(&job.table);
    for (place, stop) in reading.start.iter_mut().zip(job.start) {
        *place = stop as u8;
    }
    reading
}

/// Holds both readers to each other, and the writer to a file that is accepted. Returns the number.
fn compare(file: &[u8]) -> u32 {
    let reading = read(file);
    assert_eq!(reading, laid_out(job_file::read(file)), "{file:?}");
    if reading.number == 0 {
        let mut again = vec![0; file.len()];
        let written = write(reading.job, reading.table(), reading.start(), &mut again);
        assert_eq!(written, Written { number: 0, length: file.len() });
        assert_eq!(again, file);
    }
    reading.number
}

#[test]
fn valid_files() {
    let mut random = Random(51);
    for _ in 0..500 {
        each_size(&mut random, |_, job| {
            let file = bytes(job);
            assert_eq!(compare(&file), 0);
            let reading = read(&file);
            assert_eq!((reading.table(), reading.start()), (&job.table[..], &job.start[..]));
            assert_eq!(reading.job, choices(job));
        });
    }
}

#[test]
fn cut_at_every_length() {
    each_size(&mut Random(52), |_, job| {
        let file = bytes(job);
        for length in 0..file.len() {
            let number = compare(&file[..length]);
            assert!(number != 0 && (number == 8) == (length < 13));
            let number = compare(&file[file.len() - length..]);
            assert_eq!(number, if length < 13 { 8 } else { 9 });
        }
    });
}

#[test]
fn one_byte_longer() {
    each_size(&mut Random(53), |_, job| {
        let file = bytes(job);
        for byte in 0..=255 {
            for at in [0, 4 * job.table.len(), file.len()] {
                let mut longer = file.clone();
                longer.insert(at, byte);
                let number = compare(&longer);
                assert!(number != 0 && (number == 9 || at == file.len()));
            }
        }
    });
}

#[test]
fn each_trailer_byte_changed() {
    let mut seen = [0; 10];
    each_size(&mut Random(54), |_, job| {
        let file = bytes(job);
        for at in file.len() - 13..file.len() {
            for change in 1..=255 {
                let mut changed = file.clone();
                changed[at] ^= change;
                seen[compare(&changed) as usize] += 1;
            }
        }
    });
    // The choices alone can change to others that are known.
    assert_eq!(
        seen,
        [32 * (3 + 15 + 3), 32 * 240, 0, 0, 32 * (252 + 240 + 252), 0, 0, 0, 0, 32 * (8 * 255 + 15 + 255)]
    );
}

#[test]
fn random_bytes() {
    let mut random = Random(55);
    for _ in 0..40_000 {
        let length = random.below(1_300) as usize;
        let mut file: Vec<u8> = (0..length).map(|_| random.draw() as u8).collect();
        compare(&file);
        let job = any_job(&mut random);
        let trailer = bytes(&job).split_off(4 * job.table.len() + job.start.len());
        file.resize(4 * job.table.len() + random.pick(&[job.start.len(), job.start.len(), 0, 1]), 1);
        file.extend(trailer);
        compare(&file);
    }
}

/// Number 9: a place, the length of the starting order, or the file's length wrong.
fn misplace(random: &mut Random, file: &mut Vec<u8>) {
    let trailer = file.len() - 13;
    let change = 1 + random.below(255) as u8;
    match random.below(5) {
        0 => file[trailer + random.below(4) as usize] ^= change,
        1 => file[trailer + 4 + random.below(4) as usize] ^= change,
        2 => file[trailer + 9] ^= change,
        3 => drop(file.remove(random.below(trailer as u64) as usize)),
        _ => file.insert(random.below(trailer as u64) as usize, change),
    }
}

#[test]
fn every_mixture_of_faults() {
    let mut random = Random(56);
    for round in 0..80_000 {
        let mut job = any_job(&mut random);
        let faults = some_of(&[1, 9, 3, 4, 5], round);
        if faults.contains(&3) {
            spoil_table(&mut random, &mut job);
        }
        if faults.contains(&4) {
            spoil_choice(&mut random, &mut job, &[0, 1, 100, 239]);
        }
        if faults.contains(&5) {
            spoil_start(&mut random, &mut job);
        }
        let mut file = bytes(&job);
        if faults.contains(&9) {
            misplace(&mut random, &mut file);
        }
        if faults.contains(&1) {
            let at = file.len() - 5;
            file[at] = random.pick(&[0, 17, 18, 255]);
        }
        let number = compare(&file);
        assert_eq!(number, faults.first().copied().unwrap_or(0), "{faults:?}");
    }
}

/// A job of sixteen stops with any choices, from this order.
fn of_sixteen(random: &mut Random, start: Vec<u8>) -> Job {
    let table = random.table(16, 0, 1_000_000);
    Job { n: 16, table: random.maybe_charged(16, table), start, ..any_job(random) }
}

#[test]
fn longer_than_the_longest_job() {
    let mut random = Random(57);
    for length in 17..=255 {
        let stops = (0..length).map(|k| 1 + k % 16).collect();
        let job = of_sixteen(&mut random, stops);
        assert_eq!(compare(&bytes(&job)), 9, "its trailer fits it");
    }
    for more in 1..=560 {
        let order = random.order(16);
        let longest = bytes(&of_sixteen(&mut random, order));
        assert_eq!((longest.len(), compare(&longest)), (LONGEST_FILE, 0));
        let mut file = vec![0; more * more / 8 + 1];
        file.extend(&longest);
        assert_eq!(compare(&file), 9);
    }
}
