//! What a refusal of the recording means in it, and what else is known: the byte or the word at its
//! place, and what the library answers about it.

use crate::account::Account;
use crate::asked;
use crate::json::Json;
use crate::place::{brief, is_parting, position, shown, word_at, words};
use crate::refused::Detail;
use crate::words::and;
use std::ops::Range;

/// The part of a recording that a refusal means: a byte, of a mark that is spoilt the byte that spoils
/// it, of a header that is cut off the last word, and else the word. An empty recording has none.
pub fn part(recording: &[u8], number: u64, place: usize) -> Option<Range<usize>> {
    let word = word_at(recording, place);
    match number {
        36 => words(recording, 0).last(),
        31 => Some(place..place + 1),
        _ if word.start < place => Some(place..place + 1),
        _ => Some(word),
    }
}

/// What else is known of a refused recording.
pub fn details(account: &Account, number: u64, place: usize) -> Vec<Detail> {
    let recording = account.input.recording;
    let word = word_at(recording, place);
    let detail = match number {
        31 => recording.get(place).map(|byte| {
            let says = format!("the byte is {byte}");
            Detail::of(says, "byte", Json::number(*byte))
        }),
        34 => Some(first(account, place)),
        35 => Some(undeclared(account, place)),
        36 => Some(length(recording)),
        38 => Some(nearest(account, place)),
        40 | 41 if word.start < place => Some(spoilt(recording, number, place)),
        41 => last_time(account),
        43 => {
            let id = brief(recording.get(word.start + 1..word.end).unwrap_or_default());
            Some(Detail::of(format!("the id is {id}"), "id", Json::text(id)))
        }
        44 => again(account, place),
        _ => None,
    };
    detail.into_iter().collect()
}

/// Where a recording ends.
fn length(recording: &[u8]) -> Detail {
    let says = match recording.len() {
        0 => "the recording is empty".to_string(),
        bytes => format!("the recording ends after {bytes} bytes"),
    };
    Detail::of(says, "bytes", Json::number(recording.len() as u64))
}

/// The time that a mark has to be above.
fn last_time(account: &Account) -> Option<Detail> {
    let time = account.steps.last()?.time;
    let says = format!("the mark before it has the time {time}");
    Some(Detail::of(says, "last_time", Json::number(time.0)))
}

/// Which clock ticks for the second time.
fn again(account: &Account, place: usize) -> Option<Detail> {
    let (clock, time) = asked::ticked_again(account, place)?;
    let says = format!("{clock} ticked already in this step, at time {time}");
    let tick = vec![("clock", Json::text(clock)), ("time", Json::number(time.0))];
    Some(Detail::of(says, "again", Json::Object(tick)))
}

/// Which byte spoils a mark.
fn spoilt(recording: &[u8], number: u64, place: usize) -> Detail {
    let mark = brief(&recording[word_at(recording, place)]);
    let says = match recording.get(place) {
        Some(byte) if number == 41 => {
            let digit = shown(&[*byte]);
            format!("with this {digit} the time of {mark} is above {}", u64::MAX)
        }
        Some(byte) if !is_parting(*byte) => {
            format!("this {} spoils the mark {mark}", shown(&[*byte]))
        }
        _ => "no digit stands behind the #".to_string(),
    };
    Detail::of(says, "word", Json::text(mark))
}

/// Where the first declaration stands.
fn first(account: &Account, place: usize) -> Detail {
    let Some(first) = asked::first_declaration(account, place) else {
        let says = "where it is declared first could not be found out".to_string();
        return Detail::of(says, "first", Json::Null);
    };
    let (line, column) = position(account.input.recording, first.offset);
    let same = match (first.same_id, first.same_name) {
        (true, true) => "id and name",
        (true, false) => "id",
        _ => "name",
    };
    let says = format!("the first with this {same} stands at line {line}, column {column}");
    let field = Json::Object(vec![
        ("line", Json::number(line as u64)),
        ("column", Json::number(column as u64)),
        ("same", Json::text(same)),
    ]);
    Detail::of(says, "first", field)
}

/// Which clocks are not declared.
fn undeclared(account: &Account, place: usize) -> Detail {
    let names = asked::undeclared(account, place).filter(|names| !names.is_empty());
    let says = match &names {
        Some(names) => format!("not declared: {}", and(names)),
        None => "which clocks are not declared could not be found out".to_string(),
    };
    let field = names.map_or(Json::Null, |names| {
        Json::list(names.into_iter().map(Json::Text))
    });
    Detail::of(says, "undeclared", field)
}

/// The clock whose name is nearest to that of a variable.
fn nearest(account: &Account, place: usize) -> Detail {
    let recording = account.input.recording;
    let variable = asked::six_words(recording, place);
    let name = variable.map_or(&b""[..], |words| &recording[words[4].clone()]);
    match asked::nearest(account, name) {
        Some(clock) => {
            let says = format!(
                "{} is no clock of the table; the nearest is {clock}",
                brief(name)
            );
            Detail::of(says, "nearest", Json::text(clock))
        }
        None => Detail::of("the table has no clock".to_string(), "nearest", Json::Null),
    }
}
