//! The meaning of the forms: readings 10 to 13, and "Tempting, and wrong".

mod common;

use common::*;
use second_opinion::*;

/// The tick sets of {a, b, c} on which the form holds at a word, written from
/// the column "Holds when", with the word after.
fn accepted(record: &Record, word: i64) -> Vec<(u32, i64)> {
    (0..8)
        .filter_map(|ticks| match judged(record, word, ticks) {
            (true, after) => Some((ticks, after)),
            (false, _) => None,
        })
        .collect()
}

/// For a relation: c is a stranger.
fn accepted_without_c(record: &Record, word: i64) -> Vec<(u32, i64)> {
    let mut accepted = accepted(record, word);
    accepted.retain(|&(ticks, _)| ticks & C == 0);
    accepted
}

const NONE: u32 = 0;
const AB: u32 = A | B;
const AC: u32 = A | C;
const BC: u32 = B | C;
const ABC: u32 = A | B | C;

#[test]
fn coincidence_both_or_neither() {
    let rows = accepted_without_c(&record(Kind::Coincides), 0);
    assert_eq!(rows, [(NONE, 0), (AB, 0)]);
}

#[test]
fn exclusion_not_both() {
    let rows = accepted_without_c(&record(Kind::Excludes), 0);
    assert_eq!(rows, [(NONE, 0), (A, 0), (B, 0)]);
}

#[test]
fn subclock_a_only_with_b() {
    let rows = accepted_without_c(&record(Kind::SubClock), 0);
    assert_eq!(rows, [(NONE, 0), (B, 0), (AB, 0)]);
}

#[test]
fn strict_precedence() {
    let record = record(Kind::StrictlyPrecedes);
    assert_eq!(accepted_without_c(&record, 0), [(NONE, 0), (A, 1)]);
    let rows = [(NONE, 3), (A, 4), (B, 2), (AB, 3)];
    assert_eq!(accepted_without_c(&record, 3), rows);
}

#[test]
fn precedence() {
    let record = record(Kind::Precedes);
    assert_eq!(accepted_without_c(&record, 0), [(NONE, 0), (A, 1), (AB, 0)]);
    let rows = [(NONE, 1), (A, 2), (B, 0), (AB, 1)];
    assert_eq!(accepted_without_c(&record, 1), rows);
}

#[test]
fn union_c_exactly_when_a_or_b() {
    let rows = accepted(&record(Kind::Union), 0);
    assert_eq!(rows, [(NONE, 0), (AC, 0), (BC, 0), (ABC, 0)]);
}

#[test]
fn intersection_c_exactly_when_a_and_b() {
    let rows = accepted(&record(Kind::Inter), 0);
    assert_eq!(rows, [(NONE, 0), (A, 0), (B, 0), (ABC, 0)]);
}

#[test]
fn lub_ticks_with_the_clock_behind() {
    let record = record(Kind::Lub);
    let ahead = [(NONE, 2), (A, 3), (BC, 1), (ABC, 2)];
    assert_eq!(accepted(&record, 2), ahead);
    let level = [(NONE, 0), (A, 1), (B, -1), (ABC, 0)];
    assert_eq!(accepted(&record, 0), level);
    let behind = [(NONE, -2), (B, -3), (AC, -1), (ABC, -2)];
    assert_eq!(accepted(&record, -2), behind);
}

#[test]
fn glb_ticks_with_the_clock_ahead_and_not_when_the_other_catches_up() {
    let record = record(Kind::Glb);
    let ahead = [(NONE, 1), (B, 0), (AC, 2), (ABC, 1)];
    assert_eq!(accepted(&record, 1), ahead);
    let level = [(NONE, 0), (AC, 1), (BC, -1), (ABC, 0)];
    assert_eq!(accepted(&record, 0), level);
    let behind = [(NONE, -1), (A, 0), (BC, -2), (ABC, -1)];
    assert_eq!(accepted(&record, -1), behind);
}

/// Judged with b a stranger.
#[test]
fn await_ticks_with_the_last_awaited_tick_alone() {
    let rows = |word| {
        let mut rows = accepted(&awaiting(6), word);
        rows.retain(|&(ticks, _)| ticks & B == 0);
        rows
    };
    assert_eq!(rows(6), [(NONE, 6), (A, 5)]);
    assert_eq!(rows(2), [(NONE, 2), (A, 1)]);
    assert_eq!(rows(1), [(NONE, 1), (AC, 0)]);
    assert_eq!(rows(0), [(NONE, 0), (A, 0)]);
}

#[test]
fn reading_12_strict_sampling_at_1_does_not_look_at_a() {
    let record = record(Kind::StrictlySampled);
    let waiting = [(NONE, 2), (A, 1), (B, 2), (AB, 1)];
    assert_eq!(accepted(&record, 2), waiting);
    let armed = [(NONE, 1), (A, 1), (BC, 0), (ABC, 0)];
    assert_eq!(accepted(&record, 1), armed);
    let done = [(NONE, 0), (A, 0), (B, 0), (AB, 0)];
    assert_eq!(accepted(&record, 0), done);
}

#[test]
fn reading_12_sampling_from_2_on_b_alone_stays_at_2() {
    let record = record(Kind::Sampled);
    let waiting = [(NONE, 2), (A, 1), (B, 2), (ABC, 0)];
    assert_eq!(accepted(&record, 2), waiting);
    let armed = [(NONE, 1), (A, 1), (BC, 0), (ABC, 0)];
    assert_eq!(accepted(&record, 1), armed);
    let done = [(NONE, 0), (A, 0), (B, 0), (AB, 0)];
    assert_eq!(accepted(&record, 0), done);
}

#[test]
fn reading_12_upto_on_a_and_b_ends_without_c() {
    let record = record(Kind::Upto);
    let running = [(NONE, 1), (B, 0), (AB, 0), (AC, 1)];
    assert_eq!(accepted(&record, 1), running);
    let over = [(NONE, 0), (A, 0), (B, 0), (AB, 0)];
    assert_eq!(accepted(&record, 0), over);
}

#[test]
fn an_empty_record_names_no_clock_and_always_holds() {
    for ticks in 0..8 {
        assert_eq!(judged(&record(Kind::Empty), 0, ticks), (true, 0));
        let handed_in = judge(&record(Kind::Empty), [5, -5], ticks);
        assert_eq!(handed_in, (true, [0, 0]));
    }
}

#[test]
fn reading_10_the_record_that_stands_first_is_named() {
    let records = [Kind::SubClock, Kind::Coincides, Kind::StrictlyPrecedes].map(record);
    let ask = |ticks| stepped(&records, 3, words(&[]), ticks).0;
    assert_eq!(ask(B), StepAnswer::Violated(2));
    assert_eq!(ask(A), StepAnswer::Violated(1));
    assert_eq!(ask(A | B), StepAnswer::Violated(3));
}

#[test]
fn reading_11_the_empty_tick_set_holds_in_every_form_and_moves_nothing() {
    for kind in KINDS {
        for word in [-7, -1, 0, 1, 2, 7] {
            let expected = if kind == Kind::Empty { 0 } else { word };
            assert_eq!(judged(&record(kind), word, 0), (true, expected), "{kind:?}");
        }
    }
}

#[test]
fn reading_13_51_comes_after_all_constraints_held_and_names_the_lowest() {
    let records = [Kind::Precedes, Kind::StrictlyPrecedes, Kind::Excludes].map(record);
    let full = words(&[MILLION, MILLION, 0]);
    let ask = |ticks| stepped(&records, 3, full, ticks);
    assert_eq!(ask(A), (refused(51, 1), full));
    assert_eq!(ask(A | B), (StepAnswer::Violated(3), full));
    let second = words(&[MILLION - 1, MILLION, 0]);
    assert_eq!(stepped(&records, 3, second, A), (refused(51, 2), second));
}

#[test]
fn reading_13_lub_and_glb_leave_their_million_either_way() {
    let lub = [record(Kind::Lub)];
    let glb = [record(Kind::Glb)];
    for (records, ticks, word) in [
        (&lub, A, MILLION),
        (&lub, B, -MILLION),
        (&glb, A | C, MILLION),
        (&glb, B | C, -MILLION),
    ] {
        let given = words(&[word]);
        assert_eq!(stepped(records, 3, given, ticks), (refused(51, 1), given));
        let before = words(&[word - word.signum()]);
        let answer = stepped(records, 3, before, ticks);
        assert_eq!(answer, (StepAnswer::Accepted, given));
    }
}

#[test]
fn reading_13_a_precedence_never_falls_below_0() {
    for kind in [Kind::StrictlyPrecedes, Kind::Precedes] {
        let answer = stepped(&[record(kind)], 3, words(&[0]), B);
        assert_eq!(answer, (StepAnswer::Violated(1), words(&[0])));
    }
}

#[test]
fn constraints_are_judged_with_the_words_from_before_the_step() {
    // The same pair three times: a word moved within the step would let b pass.
    let records = [record(Kind::StrictlyPrecedes); 3];
    let answer = stepped(&records, 3, words(&[1, 1, 0]), A | B);
    assert_eq!(answer, (StepAnswer::Violated(3), words(&[1, 1, 0])));
    let answer = stepped(&records, 3, words(&[1, 1, 1]), B);
    assert_eq!(answer, (StepAnswer::Accepted, words(&[0, 0, 0])));
}

#[test]
fn non_strict_sampling_waits_for_the_base_clock_after_a_trigger() {
    let records = [record(Kind::Sampled)];
    let mut configuration = words(&[2]);
    for (ticks, after) in [(B, 2), (A, 1), (A, 1), (B | C, 0), (A | B, 0), (B, 0)] {
        let answer = step(&records, 3, 3, &mut configuration, ticks);
        assert_eq!(
            (answer, configuration),
            (StepAnswer::Accepted, words(&[after]))
        );
    }
}

#[test]
fn strict_sampling_fires_once() {
    let records = [record(Kind::StrictlySampled)];
    let mut configuration = words(&[2]);
    for (ticks, after) in [(A | B, 1), (A | B | C, 0), (A, 0), (B, 0)] {
        let answer = step(&records, 3, 3, &mut configuration, ticks);
        assert_eq!(
            (answer, configuration),
            (StepAnswer::Accepted, words(&[after]))
        );
    }
}
