//! The table of a text. Its rows have the legs; the landing charges (request A.4) have a line of their own, and the
//! rows' diagonal says nothing.

use crate::numbers::{counted, number, numbers};
use crate::parse::{At, Fault};
use crate::Job;

/// What stands on the diagonal where charges are told. Where none are, a 0 does.
const NO_LEG: &str = "-";

/// A row's numbers, none of them where `-` stands.
pub type Row = Vec<Option<u32>>;

/// Home's charge and each stop's, or none at all.
pub type Charges = Option<Vec<u32>>;

/// Whether a line that begins so is a row. A sign is no part of a number, but who writes one means a row.
pub fn opens_row(word: &str) -> bool {
    word.starts_with(|c: char| c.is_ascii_digit() || "+-".contains(c))
}

pub fn row(words: &[&str]) -> Result<Row, String> {
    let entry = |&word: &&str| match word {
        NO_LEG => Ok(None),
        _ => number(word).map(Some).ok_or_else(|| format!("`{word}` is no number of a leg")),
    };
    words.iter().map(entry).collect()
}

pub fn charges(words: &[&str]) -> Result<Charges, String> {
    match words {
        ["none"] => Ok(None),
        _ => numbers(words, "charge").map(Some),
    }
}

/// The table of so many stops, row by row, with its charges on the diagonal; or what does not fit, and where.
pub fn table(stops: u32, rows: &At<Vec<At<Row>>>, charges: &At<Charges>) -> Result<Vec<u32>, Fault> {
    let n = stops as usize;
    let side = n + 1;
    let stops_have = counted(n, "stop has", "stops have");
    if let Some(row) = rows.value.iter().find(|row| row.value.len() != side) {
        let entries = counted(row.value.len(), "entry", "entries");
        return Err(row.fault(format!("a row of {entries}, and {stops_have} {side}")));
    }
    if rows.value.len() != side {
        let lines = counted(rows.value.len(), "row", "rows");
        return Err(rows.fault(format!("a table of {lines}, and {stops_have} {side}")));
    }
    let mut table = Vec::new();
    for (place, row) in rows.value.iter().enumerate() {
        table.extend(legs(place, &row.value).map_err(|what| row.fault(what))?);
    }
    if let Some(each) = &charges.value {
        if each.len() != side {
            let (told, stops) = (counted(each.len(), "charge", "charges"), counted(n, "stop", "stops"));
            return Err(charges.fault(format!("{told}, and home and {stops} have {side}")));
        }
        for (place, &charge) in each.iter().enumerate() {
            table[place * (side + 1)] = charge;
        }
    }
    Ok(table)
}

/// The legs from a place, and 0 to itself.
fn legs(place: usize, row: &Row) -> Result<Vec<u32>, String> {
    let leg = |(to, entry): (usize, &Option<u32>)| match (to == place, *entry) {
        (true, None | Some(0)) => Ok(0),
        (true, Some(number)) => {
            Err(format!("`{number}` on the diagonal, which has `-` or 0: landing charges stand behind `charges`"))
        }
        (false, Some(leg)) => Ok(leg),
        (false, None) => Err("`-` in the place of a leg: it stands on the diagonal alone".to_string()),
    };
    row.iter().enumerate().map(leg).collect()
}

/// The rows, and behind them the charges, if there are any.
pub fn text(job: &Job) -> String {
    let side = job.n as usize + 1;
    let charged = job.charges().any(|charge| charge != 0);
    let diagonal = if charged { NO_LEG } else { "0" };
    let entry = |(k, leg): (usize, &u32)| if k % (side + 1) == 0 { diagonal.to_string() } else { leg.to_string() };
    let entries: Vec<String> = job.table.iter().enumerate().map(entry).collect();
    let width = entries.iter().map(String::len).max().unwrap_or(1);
    let mut text = String::new();
    for row in entries.chunks(side) {
        let row: Vec<String> = row.iter().map(|entry| format!("{entry:>width$}")).collect();
        text += &format!("{}\n", row.join(" "));
    }
    if charged {
        let charges: String = job.charges().map(|charge| format!(" {charge}")).collect();
        text += &format!("charges{charges}\n");
    }
    text
}
