//! The lines of a table: their text, their records and the clocks that stand in them.

use crate::account::{defines, Account};
use crate::names;
use ccsl::{Record, Table};
use std::ops::Range;

/// Where a line of a text stands, by its number from 1, without its line end.
pub fn range(text: &[u8], number: u64) -> Option<Range<usize>> {
    let mut begin = 0;
    for (i, line) in text.split(|byte| *byte == b'\n').enumerate() {
        if i as u64 + 1 == number {
            return Some(begin..begin + line.len());
        }
        begin += line.len() + 1;
    }
    None
}

/// A line of a table as it is written.
pub fn text(table: &[u8], number: u64) -> String {
    let line = range(table, number).map_or(&b""[..], |range| &table[range]);
    String::from_utf8_lossy(line).into_owned()
}

/// The lines that have a constraint, each with the places of its records: first those of its
/// expressions in parentheses, and last its own.
pub fn with_records(table: &Table) -> Vec<(u64, Range<usize>)> {
    let mut lines: Vec<(u64, Range<usize>)> = Vec::new();
    for (i, record) in table.records.iter().enumerate() {
        match lines.last_mut() {
            Some((line, places)) if *line == record.line => places.end = i + 1,
            _ => lines.push((record.line, i..i + 1)),
        }
    }
    lines
}

/// The clocks of a line: the named ones in the order in which they stand in it, then the implicit ones
/// in the order of their records.
pub fn clocks(account: &Account, places: Range<usize>) -> Vec<u64> {
    let records = &account.table.records[places];
    let mut clocks = Vec::new();
    if !records.is_empty() {
        named(account, records, records.len() - 1, &mut clocks);
    }
    let implicit = records.iter().filter(|record| account.is_implicit(record));
    clocks.extend(implicit.map(|record| record.defined));
    clocks
}

/// The named clocks of a record of a line, an expression in it giving way to its own.
fn named(account: &Account, records: &[Record], place: usize, into: &mut Vec<u64>) {
    let record = &records[place];
    for clock in names::clocks(record) {
        if account.is_named(clock) {
            into.push(clock);
        } else if let Some(inner) = records[..place]
            .iter()
            .position(|above| defines(above.kind) && above.defined == clock)
        {
            named(account, records, inner, into);
        }
    }
}
