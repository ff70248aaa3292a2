//! Job files and what `plan` prints (document 01, "Job file and program").

use crate::lines;
use crate::words::Words;

/// What stands for the end of a printed line.
const LINE_END: char = '/';

/// Input of the program, a job file or anything else, and its output.
#[derive(Clone, Debug, PartialEq, Eq)]
pub struct JobFile {
    pub bytes: Vec<u8>,
    /// Each line with the end that it has in print.
    pub printed: String,
}

impl JobFile {
    /// What a line says, or what is wrong with it.
    pub fn parse(line: &str) -> Result<JobFile, String> {
        let words = &mut Words::of(line);
        let bytes = words.bytes_of("file")?;
        words.word("=>")?;
        let printed = printed(&words.rest())?;
        Ok(JobFile { bytes, printed })
    }
}

/// One printed line or several, none of them empty.
fn printed(text: &str) -> Result<String, String> {
    let lines = text.strip_suffix(LINE_END).ok_or_else(|| format!("no `{LINE_END}` at the end of `{text}`"))?;
    match lines.split(LINE_END).any(str::is_empty) {
        true => Err(format!("an empty line in `{text}`")),
        false => Ok(text.replace(LINE_END, "\n")),
    }
}

/// The 60 files of A08-files.txt.
pub fn files() -> Vec<JobFile> {
    lines("A08-files.txt", include_str!("../A08-files.txt"), 60, JobFile::parse)
}
