//! Document 01's program by the second planner: a job file on standard input,
//! the report on standard output.

use std::io::Read;

fn main() -> std::io::Result<()> {
    let mut input = Vec::new();
    std::io::stdin().read_to_end(&mut input)?;
    print!("{}", witness::program::output(&input));
    Ok(())
}
