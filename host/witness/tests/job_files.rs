//! Job files: document 01's case l, the bytes of a file one by one, and what
//! the program prints.

use samples::T;
use witness::job_file::{read, write, Contents, LONGEST};
use witness::program::output;
use witness::Request;

fn a() -> Contents {
    Contents { n: 3, table: T.to_vec(), selection: 0, rules: 1, bound: 1, start: Vec::new() }
}

fn file(job: &Contents) -> Vec<u8> {
    let mut buffer = vec![0; LONGEST];
    let length = write(&job.request(), &mut buffer).unwrap();
    buffer.truncate(length);
    buffer
}

#[test]
fn case_l() {
    let file = file(&a());
    assert_eq!(file.len(), 77);
    assert_eq!(file[64..], [0, 0, 0, 0, 0x40, 0, 0, 0, 3, 0, 0, 1, 1]);
    assert_eq!(read(&file), Ok(a()));
    let lines = "cost 13\norder 1 2 3\nbranched 3\ngenerated 7\neliminated 3\nactive 1\nmost 4\n";
    assert_eq!(output(&file), lines);
}

/// A file holds no budget: it is the same whatever the budget is, and its job comes with the largest.
#[test]
fn no_budget_in_a_file() {
    let mut buffer = vec![0; LONGEST];
    let job = a();
    for budget in [0, 5, u64::MAX] {
        let length = write(&Request { budget, ..job.request() }, &mut buffer).unwrap();
        assert_eq!(buffer[..length], file(&job));
        assert_eq!(read(&buffer[..length]).unwrap().request().budget, u64::MAX);
    }
}

/// A file holds no pairs: it is the same whatever the pairs are, faulty ones and those that the starting order goes against
/// among them, and its job comes without.
#[test]
fn no_pairs_in_a_file() {
    let mut buffer = vec![0; LONGEST];
    let job = Contents { start: vec![3, 1, 2], ..a() };
    for pairs in [&[][..], &[3, 1], &[2, 3], &[1], &[4, 4], &[0; 18]] {
        let length = write(&Request { pairs, ..job.request() }, &mut buffer).unwrap();
        assert_eq!(buffer[..length], file(&job), "{pairs:?}");
        assert!(read(&buffer[..length]).unwrap().request().pairs.is_empty());
        assert!(output(&buffer[..length]).starts_with("cost 13\norder 1 2 3\n"));
    }
}

/// One stop, a million out and 258 back, with its order.
#[test]
fn bytes_one_by_one() {
    let job = Contents { n: 1, table: vec![0, 1_000_000, 258, 0], selection: 2, rules: 9, bound: 0, start: vec![1] };
    let told = [
        0, 0, 0, 0, 0x40, 0x42, 0x0f, 0, 2, 1, 0, 0, 0, 0, 0, 0, // the table
        1, // the starting order
        0, 0, 0, 0, 16, 0, 0, 0, 1, 1, 2, 9, 0, // the trailer
    ];
    assert_eq!(file(&job), told);
    assert_eq!(read(&told), Ok(job));
}

/// Landing charges of 100,000 at home and 3 at the stop.
#[test]
fn charges_on_the_diagonal() {
    let table = vec![100_000, 1_000_000, 258, 3];
    let job = Contents { n: 1, table, selection: 2, rules: 9, bound: 0, start: Vec::new() };
    let bytes = file(&job);
    assert_eq!(bytes[..16], [0xa0, 0x86, 1, 0, 0x40, 0x42, 0x0f, 0, 2, 1, 0, 0, 3, 0, 0, 0]);
    assert_eq!(read(&bytes), Ok(job));
    let lines = "cost 1100261\norder 1\nbranched 1\ngenerated 2\neliminated 0\nactive 1\nmost 1\n";
    assert_eq!(output(&bytes), lines);
}

/// Reader, writer and program refuse 100,001, at home and at a stop, in front
/// of a bound and an order that are no better, and behind a wrong place.
#[test]
fn charge_of_one_too_many() {
    let table = vec![100_000, 3, 5, 100_000];
    let good = Contents { n: 1, table, selection: 0, rules: 0, bound: 0, start: vec![1] };
    for entry in [0, 3] {
        let mut job = good.clone();
        job.table[entry] += 1;
        assert_eq!(write(&job.request(), &mut [0; LONGEST]), Err(3));
        let mut bad = file(&good);
        bad[4 * entry] += 1;
        assert_eq!((read(&bad), output(&bad).as_str()), (Err(3), "refused 3\n"));
        (bad[16], bad[29]) = (2, 4);
        assert_eq!(read(&bad), Err(3));
        bad[17] = 1;
        assert_eq!(read(&bad), Err(9));
    }
}

/// Job a with the bounds of a day that ends away (request A.5): the last byte is 2 or 3, and order 123 costs 4 + 2 + 1.
/// Under plain, node 2 has path cost 7 as well and is branched before 123 ends the run; both its children go.
#[test]
fn days_that_end_away() {
    let counted = [(2, "branched 4\ngenerated 9\neliminated 4"), (3, "branched 3\ngenerated 7\neliminated 3")];
    for (bound, counts) in counted {
        let job = Contents { bound, ..a() };
        let bytes = file(&job);
        assert_eq!(bytes[..76], file(&a())[..76]);
        assert_eq!((bytes[76], bytes.len()), (bound as u8, 77));
        assert_eq!(read(&bytes), Ok(job));
        let lines = format!("cost 7\norder 1 2 3\n{counts}\nactive 1\nmost 4\n");
        assert_eq!(output(&bytes), lines);
        let started = Contents { bound, start: vec![3, 1, 2], ..a() };
        assert_eq!(read(&file(&started)), Ok(started));
    }
}

/// Reader, writer and program refuse bound 4, behind a leg of one too many and in front of an order that is none.
#[test]
fn bound_of_one_too_many() {
    let mut buffer = [7; LONGEST];
    for bound in [4, 5, 255] {
        let mut bad = file(&Contents { start: vec![2, 1, 3], ..a() });
        bad[79] = bound;
        assert_eq!((read(&bad), output(&bad).as_str()), (Err(4), "refused 4\n"));
        bad[64] = 3;
        assert_eq!(read(&bad), Err(4));
        bad[7] = 1;
        assert_eq!(read(&bad), Err(3));
        for start in [vec![], vec![3, 3, 3]] {
            let job = Contents { bound: bound.into(), start, ..a() };
            assert_eq!(write(&job.request(), &mut buffer), Err(4));
            assert_eq!(write(&job.request(), &mut []), Err(4));
        }
    }
    assert_eq!(buffer, [7; LONGEST]);
}

#[test]
fn program_refuses() {
    let good = file(&a());
    assert_eq!(output(&[]), "refused 8\n");
    assert_eq!(output(&[0; 13]), "refused 1\n");
    assert_eq!(output(&good[1..]), "refused 9\n");
    // Longer than the longest job: 9, where the reader looks at n first.
    assert_eq!((output(&[0; LONGEST + 1]), read(&[0; LONGEST + 1])), ("refused 9\n".to_string(), Err(1)));
    for (at, byte, number) in [(3, 1, 3), (76, 4, 4)] {
        let mut bad = good.clone();
        bad[at] = byte;
        assert_eq!(output(&bad), format!("refused {number}\n"));
    }
    let mut started = good.clone();
    started.splice(64..64, [1, 2, 2]);
    started[76] = 3;
    assert_eq!(output(&started), "refused 5\n");
}
