//! What the library is asked about a refused recording, so that nothing of it is read here: each
//! question is a recording that begins as the refused one does.

use crate::account::Account;
use crate::place::{word_at, words};
use ccsl::{Refusal, Time, Verdict};
use std::collections::HashSet;
use std::ops::Range;

/// The most bytes that a recording has.
pub const LONGEST: usize = 65_536;

/// The six words of a variable from an offset on, as far as they are there.
pub fn six_words(recording: &[u8], from: usize) -> Option<[Range<usize>; 6]> {
    let words: Vec<Range<usize>> = words(recording, from).take(6).collect();
    words.try_into().ok()
}

/// Whether the library refuses a recording as one with a variable declared before, at this place.
fn declared_before(account: &Account, recording: &[u8], place: usize) -> bool {
    let input = account.input;
    let report = account.library().run(input.table, recording, input.unknown);
    let place = place as u64;
    report.verdict == Verdict::Refused(Refusal { number: 34, place })
}

/// The clocks of the table that the header up to a place does not declare: those that it could declare
/// there, under an id of its own. None where a header with one more variable is too long to ask.
pub fn undeclared(account: &Account, place: usize) -> Option<Vec<String>> {
    let header = &account.input.recording[..place];
    let id = fresh_id(header);
    let mut names = Vec::new();
    for clock in &account.table.clocks {
        let variable = format!("$var event 1 {id} {} $end", clock.name);
        let recording = [header, variable.as_bytes()].concat();
        if recording.len() > LONGEST {
            return None;
        }
        if !declared_before(account, &recording, place) {
            names.push(clock.name.clone());
        }
    }
    Some(names)
}

/// An id that is no word of a text. Three bytes are enough: a text has fewer words than such ids.
fn fresh_id(text: &[u8]) -> String {
    let taken: HashSet<&[u8]> = words(text, 0).map(|word| &text[word]).collect();
    let byte = |n: usize| char::from(33 + (n % 94) as u8);
    (0..94 * 94 * 94)
        .map(|n| String::from_iter([byte(n), byte(n / 94), byte(n / 94 / 94)]))
        .find(|id| !taken.contains(id.as_bytes()))
        .unwrap_or_default()
}

/// The first declaration of what a variable declares again.
pub struct First {
    pub offset: usize,
    pub same_id: bool,
    pub same_name: bool,
}

/// The first declaration of what the variable at a place declares again: up to the end of which a
/// recording has to go, so that this variable behind it is refused.
pub fn first_declaration(account: &Account, place: usize) -> Option<First> {
    let recording = account.input.recording;
    let second = six_words(recording, place)?;
    let variable = &recording[place..second[5].end];
    let commands = words(&recording[..place], 0).filter(|word| &recording[word.clone()] == b"$var");
    let mut variables = commands.filter_map(|word| six_words(&recording[..place], word.start));
    variables.find_map(|first| {
        let same = |i: usize| recording[first[i].clone()] == recording[second[i].clone()];
        let (same_id, same_name) = (same(3), same(4));
        let asked = [&recording[..first[5].end], b" ", variable].concat();
        let again = || declared_before(account, &asked, first[5].end + 1);
        ((same_id || same_name) && again()).then(|| First {
            offset: first[0].start,
            same_id,
            same_name,
        })
    })
}

/// The clock whose tick stands at a place, and the time of the step that it stands in: the tick is
/// asked for in a step of its own, behind the latest mark that there can be. None where that is no
/// recording that can be read.
pub fn ticked_again(account: &Account, place: usize) -> Option<(String, Time)> {
    let input = account.input;
    let mark = format!(" #{} ", u64::MAX);
    let tick = &input.recording[word_at(input.recording, place)];
    let asked = [&input.recording[..place], mark.as_bytes(), tick].concat();
    let library = account.library();
    let reading = library.read_recording(input.table, &asked, input.unknown);
    match (&reading.steps[..], reading.refusal) {
        ([.., open, alone], None) => {
            let clock = alone.ticks.trailing_zeros() as usize;
            Some((account.table.clocks.get(clock)?.name.clone(), open.time))
        }
        _ => None,
    }
}

/// The clock of the table whose name is nearest to a word: with the fewest bytes to put in, to take
/// out or to change. Of several the first.
pub fn nearest(account: &Account, word: &[u8]) -> Option<String> {
    let clocks = account.table.clocks.iter();
    let nearest = clocks.min_by_key(|clock| changes(clock.name.as_bytes(), word));
    nearest.map(|clock| clock.name.clone())
}

/// How many bytes have to be put in, taken out or changed to make one word of the other.
fn changes(from: &[u8], to: &[u8]) -> usize {
    let mut row: Vec<usize> = (0..=from.len()).collect();
    for (i, byte) in to.iter().enumerate() {
        let mut slant = std::mem::replace(&mut row[0], i + 1);
        for j in 0..from.len() {
            let kept = slant + usize::from(from[j] != *byte);
            slant = row[j + 1];
            row[j + 1] = kept.min(slant + 1).min(row[j] + 1);
        }
    }
    row[from.len()]
}
