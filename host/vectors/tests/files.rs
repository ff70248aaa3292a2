//! A08-files.txt is parsed as a whole, and nothing else passes for a line of it.

use vectors::{files, JobFile};

const LINE: &str = "file 00ff1a => cost 3/order 1 2/most 1/";

fn three_bytes() -> JobFile {
    JobFile { bytes: vec![0, 255, 26], printed: "cost 3\norder 1 2\nmost 1\n".to_string() }
}

fn changed(old: &str, new: &str) -> Result<JobFile, String> {
    assert!(LINE.contains(old), "{old}");
    JobFile::parse(&LINE.replacen(old, new, 1))
}

#[test]
fn a_line_of_files() {
    assert_eq!(JobFile::parse(LINE), Ok(three_bytes()));
    assert_eq!(changed("00ff1a", "-"), Ok(JobFile { bytes: Vec::new(), ..three_bytes() }));
    assert_eq!(changed("00ff1a", "0f"), Ok(JobFile { bytes: vec![15], ..three_bytes() }));
    let refused = JobFile { printed: "refused 8\n".to_string(), ..three_bytes() };
    assert_eq!(changed("cost 3/order 1 2/most 1/", "refused 8/"), Ok(refused));
}

/// The 60th line: one stop, 15 out and 11 back, a landing of 2 at home, on a day that ends away. The 58th: two stops, all
/// legs free, from order 21, whose place the equal and smaller 12 takes.
#[test]
fn lines_of_the_file() {
    let job = &files()[59];
    let table = [2, 0, 0, 0, 15, 0, 0, 0, 11, 0, 0, 0, 0, 0, 0, 0];
    let trailer = [0, 0, 0, 0, 16, 0, 0, 0, 1, 0, 0, 15, 2];
    assert_eq!(job.bytes, [&table[..], &trailer[..]].concat());
    let lines = ["cost 15", "order 1", "branched 1", "generated 2", "eliminated 0", "active 1", "most 1"];
    assert_eq!(job.printed, lines.map(|line| format!("{line}\n")).concat());
    let tied = &files()[57];
    assert_eq!(tied.bytes[36..], [2, 1, 0, 0, 0, 0, 36, 0, 0, 0, 2, 2, 1, 13, 0]);
    assert!(tied.printed.starts_with("cost 173432\norder 1 2\nbranched 3\n"));
}

/// Orders with every bound that passes; a file's last byte is the bound.
#[test]
fn bounds_of_files() {
    for bound in 0..=3 {
        let some = |file: &JobFile| file.bytes.last() == Some(&bound) && file.printed.starts_with("cost");
        assert!(files().iter().any(some), "{bound}");
    }
}

/// Seven lines or a refusal, and the numbers of the refusals.
#[test]
fn the_lines_printed() {
    let mut refusals = Vec::new();
    for JobFile { printed, .. } in files() {
        match printed.strip_prefix("refused ") {
            Some(number) => refusals.push(number.trim_end().parse::<u32>().unwrap()),
            None => assert_eq!(printed.lines().count(), 7, "{printed}"),
        }
    }
    refusals.sort();
    refusals.dedup();
    assert_eq!(refusals, [1, 3, 4, 7, 9]);
}

#[test]
fn faulty_lines() {
    let fault = |old, new| changed(old, new).unwrap_err();
    assert_eq!(fault("file", "job"), "`job` in the place of `file`");
    for wrong in ["", "0", "00f", "00FF1A", "0x00", "+0", "0g", "--", "é"] {
        assert_eq!(fault("00ff1a", wrong), format!("`{wrong}` in the place of bytes"));
    }
    assert_eq!(fault("00ff1a", "00 ff"), "`ff` in the place of `=>`");
    assert_eq!(fault("=> ", ""), "`cost` in the place of `=>`");
    assert_eq!(fault("most 1/", "most 1"), "no `/` at the end of `cost 3/order 1 2/most 1`");
    assert_eq!(fault("most 1/", "most 1/ "), "no `/` at the end of `cost 3/order 1 2/most 1/ `");
    assert_eq!(fault("order 1 2", ""), "an empty line in `cost 3//most 1/`");
    assert_eq!(fault("cost 3/order 1 2/most 1/", "/"), "an empty line in `/`");
    assert_eq!(JobFile::parse("").unwrap_err(), "`` in the place of `file`");
    assert_eq!(JobFile::parse("file - =>").unwrap_err(), "no `/` at the end of ``");
}
