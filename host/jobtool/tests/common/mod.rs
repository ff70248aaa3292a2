//! The sample jobs of jobs/samples and the tool run as a program, for the tests that share them.
#![allow(dead_code)]

use std::fs;
use std::io::Write;
use std::path::{Path, PathBuf};
use std::process::{Command, Stdio};

use jobtext::Job;

pub const NAMES: [&str; 9] =
    ["camps", "case-a", "lakes", "office", "office-full", "pilot", "pilot-first", "strips", "taxi"];

/// Those that have a pair file too.
pub const PAIRED: [&str; 1] = ["taxi"];

pub fn folder() -> PathBuf {
    Path::new(env!("CARGO_MANIFEST_DIR")).join("../../jobs/samples")
}

/// A file of a sample: its job file (`job`), its pair file (`pairs`), its text (`txt`), or what `plan` prints
/// (`expected`).
pub fn path(name: &str, kind: &str) -> PathBuf {
    folder().join(format!("{name}.{kind}"))
}

pub fn bytes(name: &str, kind: &str) -> Vec<u8> {
    fs::read(path(name, kind)).unwrap()
}

pub fn string(name: &str, kind: &str) -> String {
    String::from_utf8(bytes(name, kind)).unwrap()
}

/// What is told of a day that ends away.
pub const ENDS_AWAY: &str = "the day ends at the last stop, and no flight home is counted\n";

/// Whether the day is one that ends away, by the number of its bound.
pub fn ends_away(job: &Job) -> bool {
    [2, 3].contains(&job.bound)
}

/// What is told behind a cost: the part of it that is landings, where any are charged, home's only if it is flown to.
pub fn landings_of(job: &Job) -> String {
    match job.charges().skip(usize::from(ends_away(job))).sum() {
        0u32 => String::new(),
        landings => format!(", {landings} of it landings"),
    }
}

/// What is told of pairs.
pub fn told_of_pairs(job: &Job) -> String {
    let each: Vec<String> = job.pairs.chunks(2).map(|pair| format!("{} before {}", pair[0], pair[1])).collect();
    match each.is_empty() {
        true => String::new(),
        false => format!("pick-up before drop: {}\n", each.join(", ")),
    }
}

/// The words behind a command for the job file of a sample: its pair file, if it has one.
pub fn with_pairs(name: &str) -> Vec<String> {
    match PAIRED.contains(&name) {
        true => vec!["pairs".to_string(), path(name, "pairs").into_os_string().into_string().unwrap()],
        false => Vec::new(),
    }
}

/// What the tool writes, or what it complains of with a status of failure.
pub fn run(arguments: &[&str], input: &[u8]) -> Result<Vec<u8>, String> {
    let mut tool = Command::new(env!("CARGO_BIN_EXE_jobtool"))
        .args(arguments)
        .stdin(Stdio::piped())
        .stdout(Stdio::piped())
        .stderr(Stdio::piped())
        .spawn()
        .unwrap();
    tool.stdin.take().unwrap().write_all(input).unwrap();
    let output = tool.wait_with_output().unwrap();
    if output.status.success() {
        assert!(output.stderr.is_empty());
        return Ok(output.stdout);
    }
    assert!(output.stdout.is_empty());
    Err(String::from_utf8(output.stderr).unwrap())
}
