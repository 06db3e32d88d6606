//! What the desk asks of a table and of a run beside its three lines, as text. All answers are the
//! proved library's.

mod accepted;
pub mod account;
mod asked;
mod band;
mod caption;
mod drawing;
mod faulty;
pub mod json;
pub mod library;
pub mod limits;
pub mod lines;
pub mod names;
pub mod place;
mod recording_refused;
mod refused;
pub mod report;
pub mod sentences;
pub mod show;
pub mod svg;
mod table_refused;
mod violated;
pub mod why;
pub mod window;
pub mod words;

use ccsl::{Record, Refusal};

/// What is printed, and the exit status, as `./ccsl` has it.
#[derive(Debug, PartialEq, Eq)]
pub struct Answer {
    pub text: String,
    pub status: u8,
}

const LISTED: u8 = 0;
const REFUSED: u8 = 2;

/// The definitions of a table in working order, a line each: the record's number, its table line's
/// number, and that line as it is written. Where they lie in a circle, the refusal, and below it the
/// record at its place in the same form; of a refused table the refusal alone.
pub fn order(text: &[u8]) -> Answer {
    let table = match ccsl::read_table(text) {
        Ok(table) => table,
        Err(refusal) => return refused(refusal, String::new()),
    };
    let shown = |number: usize| shown(text, number, &table.records[number - 1]);
    match ccsl::definition_order(&table.records, table.counts()) {
        Ok(numbers) => Answer {
            text: numbers.into_iter().map(shown).collect(),
            status: LISTED,
        },
        // The records of a table that was read pass 59, so that the place is a record's number.
        Err(refusal) => refused(refusal, shown(refusal.place as usize)),
    }
}

/// A record of a table by its number, its line's number and that line.
fn shown(text: &[u8], number: usize, record: &Record) -> String {
    let line = record.line;
    format!("{number} {line} {}\n", lines::text(text, line))
}

fn refused(refusal: Refusal, below: String) -> Answer {
    Answer {
        text: format!("{refusal}\n{below}"),
        status: REFUSED,
    }
}
