//! Clocks and records as text: a named clock by its name, an implicit one by its expression.

use crate::account::defines;
use ccsl::{Kind, Record, Table};

/// A clock as a line of the table has it: its name, or its expression in parentheses.
pub fn clock(table: &Table, number: u64) -> String {
    if let Some(clock) = table.clocks.get(number as usize) {
        return clock.name.clone();
    }
    let defined = |record: &&Record| defines(record.kind) && record.defined == number;
    match table.records.iter().find(defined) {
        Some(record) => format!("({})", right_side(table, record)),
        None => format!("clock {number}"),
    }
}

/// What stands behind `clockDef`.
pub fn right_side(table: &Table, record: &Record) -> String {
    let a = clock(table, record.first);
    if record.kind == Kind::Await {
        return format!("await {} {a}", record.number);
    }
    let b = clock(table, record.second);
    let mut text = format!("{a} {} {b}", form(record.kind));
    if record.kind == Kind::Deferred {
        text.push_str(" for");
        for number in delays(record) {
            text.push_str(&format!(" {number}"));
        }
    }
    text
}

/// The numbers of a delay.
pub fn delays(record: &Record) -> &[u8] {
    &record.delays.numbers[..record.delays.count.min(8) as usize]
}

/// The clocks that a constraint names, in the order in which its line has them.
pub fn clocks(record: &Record) -> Vec<u64> {
    let mut numbers = Vec::new();
    if defines(record.kind) {
        numbers.push(record.defined);
    }
    numbers.push(record.first);
    if record.kind != Kind::Await {
        numbers.push(record.second);
    }
    numbers
}

/// The words of a form that stand between its operands, or before the one that it has.
pub fn form(kind: Kind) -> &'static str {
    match kind {
        Kind::Empty => "",
        Kind::Coincides => "=",
        Kind::Excludes => "#",
        Kind::SubClock => "isSubClockOf",
        Kind::StrictlyPrecedes => "strictly precedes",
        Kind::Precedes => "precedes",
        Kind::Union => "clockUnion",
        Kind::Inter => "clockInter",
        Kind::Lub => "lub",
        Kind::Glb => "glb",
        Kind::Await => "await",
        Kind::StrictlySampled => "strictly sampled",
        Kind::Sampled => "sampled",
        Kind::Upto => "upto",
        Kind::Deferred => "deferred",
    }
}
