//! What is known of a refused table line beside the line itself: the lines above it are asked of the
//! library, which has passed them.

use crate::account::{defines, Account};
use crate::json::Json;
use crate::refused::Detail;
use crate::{faulty, lines, names};
use ccsl::Table;
use std::ops::Range;

/// What else is known of a refused line.
pub fn details(account: &Account, number: u64, place: u64) -> Vec<Detail> {
    let table = account.input.table;
    let Some(range) = lines::range(table, place) else {
        return Vec::new();
    };
    let line = &table[range.clone()];
    let part = faulty::part(number, line);
    let detail = match number {
        11 => line
            .get(part.start)
            .map(|byte| Detail::of(format!("the byte is {byte}"), "byte", Json::number(*byte))),
        13 => {
            let bytes = part.len();
            let says = format!("the name has {bytes} bytes");
            Some(Detail::of(says, "bytes", Json::number(bytes as u64)))
        }
        15 => faulty::twice(line).map(|(first, _)| {
            let column = first.start + 1;
            let name = String::from_utf8_lossy(&line[first]);
            let says = format!("{name} stands first at column {column}");
            let first = Json::Object(vec![("column", Json::number(column as u64))]);
            Detail::of(says, "first", first)
        }),
        16 => defined_above(account, range, part),
        17 | 18 => counts(account, number, range),
        22 => faulty::list_length(line).map(|count| {
            let says = match count {
                0 => "its list has no number".to_string(),
                _ => format!("its list has {count} numbers"),
            };
            Detail::of(says, "numbers", Json::number(count as u64))
        }),
        _ => None,
    };
    detail.into_iter().collect()
}

/// The earlier line that defines the clock.
fn defined_above(account: &Account, line: Range<usize>, clock: Range<usize>) -> Option<Detail> {
    let text = account.input.table;
    let above = account.library().read_table(&text[..line.start]).ok()?;
    let name = String::from_utf8_lossy(&text[line][clock]).into_owned();
    let defined = |record: &&ccsl::Record| {
        defines(record.kind) && names::clock(&above, record.defined) == name
    };
    let number = above.records.iter().find(defined)?.line;
    let first = lines::text(text, number);
    let says = format!("line {number} defines {name} already: {first}");
    let field = vec![("line", Json::number(number)), ("text", Json::text(first))];
    Some(Detail::of(says, "first", Json::Object(field)))
}

/// How many clocks or constraints the lines above have, and how many the line adds.
fn counts(account: &Account, number: u64, line: Range<usize>) -> Option<Detail> {
    let text = account.input.table;
    let library = account.library();
    let above = library.read_table(&text[..line.start]).ok()?;
    let (what, count) = match number {
        17 => ("clocks", above.counts().count as usize),
        _ => ("constraints", above.records.len()),
    };
    let own = library.read_table(&text[line]).ok()?;
    let adds = match number {
        17 => new_names(&above, &own) + own.implicit as usize,
        _ => own.records.len(),
    };
    let says = format!("the lines above have {count} {what}, and this line adds {adds}");
    let counts = vec![
        ("above", Json::number(count as u64)),
        ("adds", Json::number(adds as u64)),
    ];
    Some(Detail::of(says, what, Json::Object(counts)))
}

/// How many names of a line the lines above lack.
fn new_names(above: &Table, own: &Table) -> usize {
    let known = |name: &str| above.clocks.iter().any(|clock| clock.name == name);
    own.clocks
        .iter()
        .filter(|clock| !known(&clock.name))
        .count()
}
