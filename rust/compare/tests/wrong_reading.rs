//! A monitor that reads recordings wrongly is found, and what is reported is small.

mod common;

use ccsl::UnknownNames;
use common::{found, names_of, refused_mark, words_from};
use compare::case::{Answer, Case};
use compare::monitors::{defines, second};
use second_opinion::{
    judge, read_recording, read_table, run, start_word, Reading, RecordedStep, Refusal, Verdict,
};
use std::ops::RangeInclusive;

/// A monitor whose reading of a recording by a table is changed.
fn changed(case: &Case, change: impl Fn(&[u8], &[u8], &mut Reading)) -> Answer {
    let mut answer = second(case);
    if let (
        Case::Reading {
            table, recording, ..
        },
        Answer::Reading(reading),
    ) = (case, &mut answer)
    {
        change(table, recording, reading);
    }
    answer
}

/// A monitor whose steps are changed one by one.
fn changed_steps(case: &Case, change: impl Fn(&[u8], &[u8], &mut RecordedStep)) -> Answer {
    changed(case, |table, recording, reading| {
        for step in &mut reading.steps {
            change(table, recording, step);
        }
    })
}

/// A monitor that drops the last step, because no mark follows.
fn last_step_dropped(case: &Case) -> Answer {
    changed(case, |_, _, reading| {
        if reading.refusal.is_none() {
            reading.steps.pop();
        }
    })
}

/// A monitor that gives the offset of the word behind the mark.
fn mark_at_the_next_word(case: &Case) -> Answer {
    changed_steps(case, |_, recording, step| {
        let next = words_from(recording, step.mark as usize).nth(1);
        step.mark = next.map_or(recording.len(), |(at, _)| at) as u64;
    })
}

/// A monitor that gives the offset of the digits.
fn mark_at_its_digits(case: &Case) -> Answer {
    changed_steps(case, |_, _, step| step.mark += 1)
}

/// A monitor that gives the step's number for its time.
fn number_for_time(case: &Case) -> Answer {
    changed(case, |_, _, reading| {
        for (step, number) in reading.steps.iter_mut().zip(0..) {
            step.time = number;
        }
    })
}

/// A monitor that does not close the step before a mark that is refused.
fn open_before_a_refused_mark(case: &Case) -> Answer {
    changed(case, |_, recording, reading| {
        if refused_mark(recording, reading.refusal) {
            reading.steps.pop();
        }
    })
}

/// A monitor that keeps an open step in which a word is refused.
fn open_step_kept(case: &Case) -> Answer {
    changed(case, |table, recording, reading| {
        let change = reading
            .refusal
            .filter(|refusal| refusal.number >= 40 && !refused_mark(recording, reading.refusal));
        if let Some(Refusal { place, .. }) = change {
            let before = &recording[..place as usize];
            let unknown = second_opinion::UnknownNames::Ignored;
            reading.steps = read_recording(table, before, unknown).steps;
        }
    })
}

/// A monitor that gives no step where something is refused.
fn no_step_with_a_refusal(case: &Case) -> Answer {
    changed(case, |_, _, reading| {
        if reading.refusal.is_some() {
            reading.steps.clear();
        }
    })
}

/// A monitor that reads nothing behind the first step that is violated.
fn stops_behind_a_violated_step(case: &Case) -> Answer {
    changed(case, |table, recording, reading| {
        let report = run(table, recording, second_opinion::UnknownNames::Ignored);
        let steps = report.steps as usize;
        if matches!(report.verdict, Verdict::Violated { .. }) && reading.steps.len() > steps {
            reading.steps.truncate(steps + 1);
            reading.refusal = None;
        }
    })
}

/// A monitor that drops empty steps.
fn empty_steps_dropped(case: &Case) -> Answer {
    changed(case, |_, _, reading| {
        reading.steps.retain(|step| step.ticks != 0);
    })
}

/// A monitor that has empty steps behind all others.
fn empty_steps_last(case: &Case) -> Answer {
    changed(case, |_, _, reading| {
        reading.steps.sort_by_key(|step| step.ticks == 0);
    })
}

/// The ids and the names of all variables.
fn variables(recording: &[u8]) -> Vec<(&[u8], &[u8])> {
    let words: Vec<&[u8]> = words_from(recording, 0).map(|(_, word)| word).collect();
    let variables = words.windows(6).filter(|six| six[0] == b"$var");
    variables.map(|six| (six[3], six[4])).collect()
}

/// A monitor for which an ignored variable ticks clock 0.
fn ignored_variable_ticks(case: &Case) -> Answer {
    changed_steps(case, |table, recording, step| {
        let names = names_of(table);
        let is_known = |name: &[u8]| names.iter().any(|known| known.as_bytes() == name);
        let mut ignored = variables(recording);
        ignored.retain(|(_, name)| !is_known(name));
        let mut changes = words_from(recording, step.mark as usize)
            .skip(1)
            .take_while(|(_, word)| !word.starts_with(b"#"));
        if changes.any(|(_, word)| ignored.iter().any(|(id, _)| *id == &word[1..])) {
            step.ticks |= 1;
        }
    })
}

/// A monitor that numbers the clocks as the header has them.
fn numbered_as_declared(case: &Case) -> Answer {
    changed_steps(case, |table, recording, step| {
        let names = names_of(table);
        let number = |name: &[u8]| names.iter().position(|known| known.as_bytes() == name);
        let declared = variables(recording).into_iter();
        let declared = declared.filter_map(|(_, name)| number(name));
        step.ticks = (0..32)
            .zip(declared)
            .fold(0, |set, (new, old)| set | (step.ticks >> old & 1) << new);
    })
}

/// A monitor that records implicit clocks too, as they tick by the start words.
fn implicit_clocks_recorded(case: &Case) -> Answer {
    changed_steps(case, |table, _, step| {
        let table = read_table(table).unwrap_or_default();
        for record in table.records {
            let implicit = defines(record.kind) && record.defined >= table.named;
            let with = step.ticks | 1u32.checked_shl(record.defined as u32).unwrap_or(0);
            if implicit && judge(&record, start_word(&record), with).0 {
                step.ticks = with;
            }
        }
    })
}

/// A monitor that reads a recording by a refused table as by an empty one.
fn refused_table_is_empty(case: &Case) -> Answer {
    changed(case, |table, recording, reading| {
        if read_table(table).is_err() {
            *reading = read_recording(b"", recording, second_opinion::UnknownNames::Ignored);
        }
    })
}

/// A monitor that reads with this choice alone.
fn by_choice(case: &Case, choice: second_opinion::UnknownNames) -> Answer {
    changed(case, |table, recording, reading| {
        *reading = read_recording(table, recording, choice);
    })
}

/// A monitor that never refuses an unknown name.
fn always_ignores(case: &Case) -> Answer {
    by_choice(case, second_opinion::UnknownNames::Ignored)
}

/// A monitor that always refuses an unknown name.
fn always_refuses(case: &Case) -> Answer {
    by_choice(case, second_opinion::UnknownNames::Refused)
}

/// The end of the header.
const END: &str = "$enddefinitions $end";

/// What is found is a reading with this choice, by a table of so many lines, of a recording of so many
/// variables. What stands behind these has as many words as one of the texts.
#[track_caller]
fn assert_found(
    wrong: fn(&Case) -> Answer,
    choice: UnknownNames,
    lines: usize,
    variables: RangeInclusive<usize>,
    behind: &[String],
) {
    let mismatch = found(wrong);
    let Case::Reading {
        table,
        recording,
        unknown,
    } = &mismatch.case
    else {
        panic!("{mismatch}")
    };
    let records = read_table(table).map_or(Vec::new(), |table| table.records);
    let last = records.last().map_or(0, |record| record.line as usize);
    assert_eq!((*unknown, last), (choice, lines), "{mismatch}");
    let words = |text: &[u8]| words_from(text, 0).count();
    let as_long = |variables: usize| {
        let left = words(recording).checked_sub(6 * variables);
        let mut behind = behind.iter();
        behind.any(|text| Some(words(text.as_bytes())) == left)
    };
    assert!({ variables }.any(as_long), "{mismatch}");
}

/// What is found is a reading by no table, of a recording with such a body.
#[track_caller]
fn assert_body(wrong: fn(&Case) -> Answer, body: &str) {
    let behind = [format!("{END} {body}")];
    assert_found(wrong, UnknownNames::Refused, 0, 0..=0, &behind);
}

/// What is found is a reading by one line, of a recording of its clocks with one of these bodies.
#[track_caller]
fn assert_body_by_a_line(wrong: fn(&Case) -> Answer, bodies: &[&str]) {
    let behind = bodies.iter().map(|body| format!("{END} {body}"));
    let behind: Vec<String> = behind.collect();
    assert_found(wrong, UnknownNames::Refused, 1, 2..=5, &behind);
}

#[test]
fn a_last_step_that_is_dropped_is_found_with_one_mark() {
    assert_body(last_step_dropped, "#0");
}

#[test]
fn a_wrong_offset_or_time_is_found_with_one_mark() {
    assert_body(mark_at_the_next_word, "#0");
    assert_body(mark_at_its_digits, "#0");
    assert_body(number_for_time, "#1");
}

#[test]
fn a_wrong_end_of_the_open_step_is_found_with_a_mark_and_a_word() {
    assert_body(open_before_a_refused_mark, "#0 #");
    assert_body(open_step_kept, "#0 x");
    assert_body(no_step_with_a_refusal, "#0 #");
}

#[test]
fn a_reading_that_stops_behind_a_violated_step_is_found_with_two_marks() {
    assert_body_by_a_line(stops_behind_a_violated_step, &["#0 1! #", "#0 1! 1\" #"]);
}

#[test]
fn empty_steps_at_a_wrong_place_or_at_none_are_found_with_one_or_two() {
    assert_body(empty_steps_dropped, "#0");
    assert_body_by_a_line(empty_steps_last, &["#0 #1 1!"]);
}

#[test]
fn an_ignored_variable_that_ticks_is_found_with_one_tick() {
    let behind = [format!("{END} #0 1!")];
    assert_found(
        ignored_variable_ticks,
        UnknownNames::Ignored,
        0,
        1..=1,
        &behind,
    );
}

#[test]
fn wrong_numbers_of_clocks_are_found_with_one_tick() {
    assert_body_by_a_line(numbered_as_declared, &["#0 1!"]);
    assert_body_by_a_line(implicit_clocks_recorded, &["#0 1!"]);
}

#[test]
fn a_refused_table_that_is_read_by_is_found_with_no_recording() {
    let nothing = [String::new()];
    assert_found(
        refused_table_is_empty,
        UnknownNames::Refused,
        0,
        0..=0,
        &nothing,
    );
}

#[test]
fn the_other_choice_is_found_with_one_variable() {
    let nothing = [String::new()];
    assert_found(always_ignores, UnknownNames::Refused, 0, 1..=1, &nothing);
    assert_found(always_refuses, UnknownNames::Ignored, 0, 1..=1, &nothing);
}
