//! The single step and the same-place question: readings 14 to 20.

mod common;

use common::*;
use second_opinion::*;

/// A definition over clocks 0 and 1 of clock c.
fn defining(kind: Kind, c: u64) -> Record {
    Record {
        defined: c,
        ..record(kind)
    }
}

fn place_of(
    records: &[Record],
    clocks: u64,
    one: Configuration,
    other: Configuration,
) -> SamePlace {
    same_place(records, clocks, clocks, &one, &other)
}

/// The 59 of a list, which both questions, the start words and the order must
/// give.
fn list_refusal(records: &[Record], clocks: u64) -> Option<u64> {
    let start = [[0, 0]; WORDS];
    let stepped = stepped(records, clocks, start, 0).0;
    let place = place_of(records, clocks, start, start);
    let refused = start_words(records, clocks, clocks).err();
    assert_eq!(refused.map(StepAnswer::Refused), refusal_of(stepped));
    assert_eq!(order_refusal(records, clocks, clocks), refused);
    match (stepped, place) {
        (StepAnswer::Refused(one), SamePlace::Refused(other)) => {
            assert_eq!(one, other);
            assert_eq!(one.number, 59);
            Some(one.place)
        }
        (StepAnswer::Accepted, SamePlace::Same) => None,
        answers => panic!("the two questions differ: {answers:?}"),
    }
}

/// A step's answer, where it is a refusal.
fn refusal_of(answer: StepAnswer) -> Option<StepAnswer> {
    matches!(answer, StepAnswer::Refused(_)).then_some(answer)
}

#[test]
fn single_steps_begin_with_a_start_word_for_each_record() {
    let records = KINDS.map(|kind| match kind {
        Kind::Await => awaiting(7),
        _ => record(kind),
    });
    let records: Vec<Record> = (0..)
        .zip(records)
        .map(|(defined, record)| Record {
            defined: defined + 2,
            ..record
        })
        .collect();
    let starts = [0, 0, 0, 0, 0, 0, 0, 0, 0, 0, 7, 2, 2, 1, 0];
    assert_eq!(start_words(&records, 32, 32), Ok(words(&starts)));
    assert_eq!(start_words(&[], 0, 0), Ok([[0, 0]; WORDS]));
}

#[test]
fn reading_14_the_lowest_place_of_all_59s_is_given() {
    let bad = Record {
        first: 7,
        ..record(Kind::Excludes)
    };
    let mut records = [record(Kind::Excludes); 66];
    assert_eq!(list_refusal(&records[..64], 3), None);
    assert_eq!(list_refusal(&records[..65], 3), Some(65));
    records[65] = bad;
    assert_eq!(list_refusal(&records, 3), Some(65));
    records[2] = bad;
    assert_eq!(list_refusal(&records, 3), Some(3));
    assert_eq!(list_refusal(&records[..3], 3), Some(3));
    assert_eq!(list_refusal(&records, 33), Some(0));
    assert_eq!(list_refusal(&[], 33), Some(0));
    records[64] = bad;
    records[2] = record(Kind::Excludes);
    assert_eq!(list_refusal(&records[..65], 3), Some(65));
}

#[test]
fn a_clock_number_not_below_the_clock_count_is_59() {
    for kind in KINDS.into_iter().skip(1) {
        let good = record(kind);
        let defines = !matches!(
            kind,
            Kind::Coincides
                | Kind::Excludes
                | Kind::SubClock
                | Kind::StrictlyPrecedes
                | Kind::Precedes
        );
        for far in [3, 32, 64, 1 << 32, u64::MAX] {
            let first = Record { first: far, ..good };
            assert_eq!(list_refusal(&[first], 3), Some(1), "{kind:?}");
            let second = Record {
                second: far,
                ..good
            };
            let expected = (kind != Kind::Await).then_some(1);
            assert_eq!(list_refusal(&[second], 3), expected, "{kind:?}");
            let defined = Record {
                defined: far,
                ..good
            };
            let expected = defines.then_some(1);
            assert_eq!(list_refusal(&[defined], 3), expected, "{kind:?}");
        }
    }
}

#[test]
fn a_clock_twice_in_a_record_is_59() {
    for kind in [Kind::Coincides, Kind::Precedes, Kind::Lub, Kind::Upto] {
        let twice = Record {
            second: 0,
            ..record(kind)
        };
        assert_eq!(list_refusal(&[record(Kind::Excludes), twice], 3), Some(2));
    }
    assert_eq!(list_refusal(&[defining(Kind::Lub, 0)], 3), Some(1));
    assert_eq!(list_refusal(&[defining(Kind::Lub, 1)], 3), Some(1));
    assert_eq!(list_refusal(&[defining(Kind::Await, 0)], 3), Some(1));
    // Await has no second operand, so its number there may be that of c.
    assert_eq!(list_refusal(&[defining(Kind::Await, 1)], 3), None);
}

#[test]
fn a_defined_clock_that_an_earlier_record_defines_is_59() {
    let lub = defining(Kind::Lub, 2);
    let other = defining(Kind::Union, 3);
    assert_eq!(list_refusal(&[lub, other], 4), None);
    assert_eq!(list_refusal(&[lub, other, lub], 4), Some(3));
    assert_eq!(list_refusal(&[lub, defining(Kind::Await, 2)], 4), Some(2));
}

#[test]
fn reading_15_a_relation_defines_nothing_and_unused_fields_are_free() {
    let relation = Record {
        defined: u64::MAX,
        number: u64::MAX,
        line: u64::MAX,
        ..record(Kind::Precedes)
    };
    assert_eq!(list_refusal(&[relation, relation], 2), None);
    let lub = record(Kind::Lub);
    let excludes = Record {
        defined: 2,
        ..record(Kind::Excludes)
    };
    assert_eq!(list_refusal(&[excludes, lub, excludes], 3), None);
    let numberless = Record { number: 0, ..lub };
    assert_eq!(list_refusal(&[numberless], 3), None);
    let waits = Record {
        second: u64::MAX,
        ..awaiting(1)
    };
    assert_eq!(list_refusal(&[waits], 3), None);
    let empty = Record {
        kind: Kind::Empty,
        defined: 0,
        first: 0,
        second: u64::MAX,
        number: 0,
        delays: Delays::default(),
        line: 0,
    };
    assert_eq!(list_refusal(&[lub, empty, empty], 3), None);
}

#[test]
fn reading_16_a_clock_count_of_0_is_fine_with_no_or_empty_records() {
    assert_eq!(list_refusal(&[], 0), None);
    assert_eq!(list_refusal(&[record(Kind::Empty); 64], 0), None);
    assert_eq!(list_refusal(&[record(Kind::Excludes)], 0), Some(1));
}

/// Both questions must refuse a word with 60, or neither.
fn word_refusal(records: &[Record], configuration: Configuration) -> Option<u64> {
    let (answer, after) = stepped(records, 3, configuration, 0);
    assert_eq!(after, configuration);
    let place = place_of(records, 3, configuration, configuration);
    match (answer, place) {
        (StepAnswer::Refused(one), SamePlace::Refused(other)) => {
            assert_eq!(one, other);
            assert_eq!(one.number, 60);
            Some(one.place)
        }
        (StepAnswer::Accepted, SamePlace::Same) => None,
        answers => panic!("the two questions differ: {answers:?}"),
    }
}

#[test]
fn the_ranges_of_the_words() {
    for (kind, low, high) in [
        (Kind::Empty, 0, 0),
        (Kind::Coincides, 0, 0),
        (Kind::Excludes, 0, 0),
        (Kind::SubClock, 0, 0),
        (Kind::StrictlyPrecedes, 0, MILLION),
        (Kind::Precedes, 0, MILLION),
        (Kind::Union, 0, 0),
        (Kind::Inter, 0, 0),
        (Kind::Lub, -MILLION, MILLION),
        (Kind::Glb, -MILLION, MILLION),
        (Kind::Await, 0, 6),
        (Kind::StrictlySampled, 0, 2),
        (Kind::Sampled, 0, 2),
        (Kind::Upto, 0, 1),
        (Kind::Deferred, 0, 4_294_967_295),
    ] {
        let ask = |word| word_refusal(&[record(kind)], words(&[word]));
        assert_eq!((ask(low), ask(high)), (None, None), "{kind:?}");
        assert_eq!(
            (ask(low - 1), ask(high + 1)),
            (Some(1), Some(1)),
            "{kind:?}"
        );
        assert_eq!(
            (ask(i64::MIN), ask(i64::MAX)),
            (Some(1), Some(1)),
            "{kind:?}"
        );
    }
}

#[test]
fn reading_17_empty_records_and_words_beyond_the_records_must_be_0() {
    let records = [record(Kind::Precedes), record(Kind::Empty)];
    assert_eq!(word_refusal(&records, words(&[5, 0])), None);
    assert_eq!(word_refusal(&records, words(&[5, 1])), Some(2));
    assert_eq!(word_refusal(&records, words(&[5, 0, -1])), Some(3));
    let mut last = words(&[5]);
    last[63] = [1, 0];
    assert_eq!(word_refusal(&records, last), Some(64));
    assert_eq!(word_refusal(&[], words(&[1])), Some(1));
    // The lowest place is given.
    assert_eq!(word_refusal(&records, words(&[-1, 1, 1])), Some(1));
}

#[test]
fn reading_18_the_first_configuration_goes_before_the_second() {
    let records = [record(Kind::Precedes); 4];
    let good = words(&[1, 1, 1, 1]);
    let late = words(&[1, 1, 1, -1]);
    let early = words(&[-1, 1, 1, 1]);
    let refused = |place| SamePlace::Refused(refusal(60, place));
    assert_eq!(place_of(&records, 3, late, early), refused(4));
    assert_eq!(place_of(&records, 3, early, late), refused(1));
    assert_eq!(place_of(&records, 3, good, late), refused(4));
    assert_eq!(place_of(&records, 3, good, early), refused(1));
}

#[test]
fn the_tick_set_must_lie_below_the_clock_count() {
    let ask = |clocks, ticks| stepped(&[], clocks, words(&[]), ticks).0;
    assert_eq!(ask(0, 0), StepAnswer::Accepted);
    assert_eq!(ask(0, 1), refused(61, 0));
    assert_eq!(ask(3, 7), StepAnswer::Accepted);
    assert_eq!(ask(3, 8), refused(61, 0));
    assert_eq!(ask(31, 1 << 31), refused(61, 0));
    assert_eq!(ask(32, u32::MAX), StepAnswer::Accepted);
}

#[test]
fn reading_19_the_order_is_59_60_61_violation_51() {
    let records = [record(Kind::Precedes), record(Kind::Excludes)];
    let bad_record = [Record {
        first: 9,
        ..record(Kind::Precedes)
    }];
    let out = words(&[-1]);
    assert_eq!(stepped(&bad_record, 3, out, 64), (refused(59, 1), out));
    assert_eq!(stepped(&records, 3, out, 64), (refused(60, 1), out));
    let full = words(&[MILLION]);
    assert_eq!(
        stepped(&records, 3, full, 64 | A | B),
        (refused(61, 0), full)
    );
    let answer = stepped(&records, 3, full, A | B);
    assert_eq!(answer, (StepAnswer::Violated(2), full));
    assert_eq!(stepped(&records, 3, full, A), (refused(51, 1), full));
}

#[test]
fn reading_20_a_record_is_judged_by_itself() {
    let sub = Record {
        first: 1,
        second: 2,
        ..record(Kind::SubClock)
    };
    let never = Record {
        first: 1,
        second: 2,
        ..record(Kind::Excludes)
    };
    let records = [sub, never, record(Kind::Precedes)];
    // b can never tick here: without c `sub` fails, with c `never` does. The
    // continuations of `precedes` by itself don't ask them.
    let one = words(&[0, 0, 4]);
    let other = words(&[0, 0, 5]);
    assert_eq!(place_of(&records, 3, one, other), SamePlace::Different);
    assert_eq!(place_of(&records, 3, one, one), SamePlace::Same);
}

#[test]
fn a_configuration_moves_only_on_an_accepted_step() {
    let records = [record(Kind::Precedes), record(Kind::SubClock)];
    let mut configuration = words(&[1]);
    assert_eq!(
        step(&records, 3, 3, &mut configuration, B),
        StepAnswer::Accepted
    );
    assert_eq!(configuration, words(&[0]));
    let answer = step(&records, 3, 3, &mut configuration, A);
    assert_eq!(answer, StepAnswer::Violated(2));
    assert_eq!(configuration, words(&[0]));
}

#[test]
fn equal_places_reached_by_different_totals_are_the_same() {
    let records = [record(Kind::Precedes), record(Kind::Lub)];
    let walk = |sets: &[u32]| {
        let mut configuration = words(&[0, 0]);
        for &ticks in sets {
            let answer = step(&records, 3, 3, &mut configuration, ticks);
            assert_eq!(answer, StepAnswer::Accepted);
        }
        configuration
    };
    let short = walk(&[A]);
    let long = walk(&[A, A, B | C, A | B | C]);
    assert_eq!(place_of(&records, 3, short, long), SamePlace::Same);
    let other = walk(&[A, A]);
    assert_eq!(place_of(&records, 3, short, other), SamePlace::Different);
}
