//! What several test files share.
#![allow(dead_code)]

use compare::case::{Answer, Case};
use compare::compare;
use compare::monitors::library;
use compare::Mismatch;
use second_opinion::{read_table, Refusal};
use std::collections::BTreeMap;

/// What came up, by words for it.
pub type Seen = BTreeMap<String, u64>;

pub fn count(seen: &mut Seen, words: &str, is_there: bool) {
    *seen.entry(words.to_string()).or_default() += u64::from(is_there);
}

/// What is found when a wrong monitor is compared with the library.
#[track_caller]
pub fn found(wrong: fn(&Case) -> Answer) -> Mismatch {
    *compare(21, 0..20_000, &library, &wrong, &mut |_| {})
        .expect_err("the wrong monitor was not found")
}

/// The names of a table's clocks.
pub fn names_of(table: &[u8]) -> Vec<String> {
    read_table(table).map_or(Vec::new(), |table| table.names)
}

/// The words of a recording from an offset on, each with its own.
pub fn words_from(recording: &[u8], from: usize) -> impl Iterator<Item = (usize, &[u8])> {
    let mut at = from;
    recording[from..]
        .split(u8::is_ascii_whitespace)
        .map(move |word| {
            let start = at;
            at += word.len() + 1;
            (start, word)
        })
        .filter(|(_, word)| !word.is_empty())
}

/// Whether a mark is refused. A place inside a word, or behind it, is one in a mark.
pub fn refused_mark(recording: &[u8], refusal: Option<Refusal>) -> bool {
    refusal.is_some_and(|Refusal { number, place }| {
        let inside = |place: usize| place > 0 && !recording[place - 1].is_ascii_whitespace();
        number == 41 || number == 40 && inside(place as usize)
    })
}
