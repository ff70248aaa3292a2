//! The proved writer against the second writer: the number, the length and
//! every byte of the buffer, over 112,000 calls, half of whose jobs have landing
//! charges (request A.4) and half of which end away (request A.5):
//!
//! - 48,000 with a job of 1 to 16 stops, half of them with a starting order,
//!   in a buffer empty, too short by one, exact, longer by one and by more; what
//!   was written, the proved reader reads as the same job;
//! - 64,000 with causes 1 to 5 and 10, each in half of them and in every
//!   mixture, where the number is known beforehand.

mod common;

use common::{any_job, choices, each_size, some_of};
use common::{spoil_choice, spoil_length, spoil_start, spoil_stops, spoil_table};
use gondamuy::raw::{read, write, Written};
use jobtext::Job;
use samples::Random;
use witness::job_file::{self, Contents};

/// Holds both writers to each other in a buffer of random bytes. Returns what the proved one answers and leaves.
fn compare(random: &mut Random, job: &Job, length: usize) -> (Written, Vec<u8>) {
    let before: Vec<u8> = (0..length).map(|_| random.draw() as u8).collect();
    let (mut ours, mut theirs) = (before.clone(), before.clone());
    let written = write(choices(job), &job.table, &job.start, &mut ours);
    let expected = match job_file::write(&Contents::from(job).request(), &mut theirs) {
        Ok(length) => Written { number: 0, length },
        Err(number) => Written { number, length: 0 },
    };
    assert_eq!(written, expected, "{job:?}");
    assert_eq!(ours, theirs, "{job:?}");
    assert_eq!(ours[written.length..], before[written.length..], "what is behind the file stays");
    (written, ours)
}

fn file_length(job: &Job) -> usize {
    4 * job.table.len() + job.start.len() + 13
}

#[test]
fn buffers_of_every_kind() {
    let mut random = Random(61);
    for _ in 0..250 {
        each_size(&mut random, |random, job| {
            let length = file_length(job);
            for short in [0, length - 1, random.below(length as u64) as usize] {
                assert_eq!(compare(random, job, short).0.number, 10);
            }
            for enough in [length, length + 1, length + random.below(300) as usize] {
                let (written, buffer) = compare(random, job, enough);
                assert_eq!(written, Written { number: 0, length });
                read_back(job, &buffer[..length]);
            }
        });
    }
}

fn read_back(job: &Job, file: &[u8]) {
    let reading = read(file);
    assert_eq!((reading.number, reading.job), (0, choices(job)));
    assert_eq!((reading.table(), reading.start()), (&job.table[..], &job.start[..]));
}

#[test]
fn every_mixture_of_causes() {
    let mut random = Random(62);
    for round in 0..64_000 {
        let mut job = any_job(&mut random);
        let causes = some_of(&[1, 2, 3, 4, 5, 10], round);
        if causes.contains(&3) {
            spoil_table(&mut random, &mut job);
        }
        if causes.contains(&4) {
            spoil_choice(&mut random, &mut job, &[0, 1, 252, 256, 65_536, u32::MAX - 16]);
        }
        if causes.contains(&5) {
            spoil_start(&mut random, &mut job);
        }
        let mut length = file_length(&job);
        if causes.contains(&2) {
            spoil_length(&mut random, &mut job);
        }
        if causes.contains(&1) {
            spoil_stops(&mut random, &mut job);
        }
        if causes.contains(&10) {
            length = random.below(length as u64) as usize;
        }
        let number = compare(&mut random, &job, length).0.number;
        assert_eq!(number, causes.first().copied().unwrap_or(0), "{causes:?} {job:?}");
    }
}
