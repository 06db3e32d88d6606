//! Delays, `c clockDef a deferred b for 2 3`: as they are read and as they are made by hand, their pairs
//! stepped, refused and compared. The answers are those that document 02 gives, M-105.

use ccsl::{
    raw, Clocks, Configuration, Delays, Kind, Monitor, Pair, Record, Refusal, SamePlace,
    StepAnswer, KINDS, PAIRS,
};

/// The clocks of `c clockDef a deferred b for …`, in the order in which they are numbered.
const C: u32 = 1 << 0;
const A: u32 = 1 << 1;
const B: u32 = 1 << 2;

const THREE: Clocks = Clocks::all_named(3);

/// The largest pending word.
const ALL: i64 = (1 << 32) - 1;

/// A record on the clocks c, a and b, with the await number 1 and the list 1.
fn of_kind(kind: Kind) -> Record {
    Record {
        kind,
        defined: 0,
        first: 1,
        second: 2,
        number: 1,
        delays: Delays::of(&[1]),
        line: 1,
    }
}

/// `c clockDef a deferred b for` these numbers.
fn deferred(list: &[u8]) -> Record {
    Record {
        delays: Delays::of(list),
        ..of_kind(Kind::Deferred)
    }
}

/// The configuration that begins with these pairs.
fn pairs(given: &[Pair]) -> Configuration {
    let mut all = [[0; 2]; PAIRS];
    all[..given.len()].copy_from_slice(given);
    all
}

fn refusal(number: u64, place: usize) -> Refusal {
    let place = place as u64;
    Refusal { number, place }
}

#[test]
fn a_delay_is_read_as_its_eight_numbers() {
    let cases: [(&[u8], [u64; 3], &[u64]); 4] = [
        (
            b"c clockDef a deferred b for 2 3",
            [1, 3, 3],
            &[14, 0, 1, 2, 0, 1, 2 + 3 * 256, 2],
        ),
        (
            b"\nc clockDef a deferred b for 0032 1 2 3 4 5 6 7",
            [1, 3, 3],
            &[14, 0, 1, 2, 0, 2, 0x0706_0504_0302_0120, 8],
        ),
        (
            b"(a deferred b for 1)= c",
            [2, 4, 3],
            &[14, 3, 0, 1, 0, 1, 1, 1, 1, 0, 3, 2, 0, 1, 0, 0],
        ),
        (
            b"c clockDef(await 9 a)deferred b for 5",
            [2, 4, 3],
            &[10, 3, 1, 0, 9, 1, 0, 0, 14, 0, 3, 2, 0, 1, 5, 1],
        ),
    ];
    for (text, counts, numbers) in cases {
        let mut answer = [u64::MAX; raw::READ_ANSWER];
        let mut records = [u64::MAX; 512];
        let mut names = [u64::MAX; 64];
        assert_eq!(
            raw::read_table(text, &mut answer, &mut records, &mut names),
            raw::DONE
        );
        assert_eq!((&answer[..3], &answer[3..]), (&[0; 3][..], &counts[..]));
        let (written, rest) = records.split_at(numbers.len());
        assert_eq!(written, numbers);
        assert!(rest.iter().all(|number| *number == 0));
    }
    let table = ccsl::read_table(b"c clockDef a deferred b for 2 3").unwrap();
    let read = Record {
        number: 0,
        ..deferred(&[2, 3])
    };
    assert_eq!(table.records, [read]);
    assert_eq!(ccsl::numbers(&[read]), [14, 0, 1, 2, 0, 1, 770, 2]);
}

#[test]
fn a_list_out_of_range_is_22_behind_14_and_before_15() {
    let nines = format!("c clockDef a deferred b for 1 {}", "9".repeat(100));
    let cases = [
        ("c clockDef a deferred b for", 22),
        ("(a deferred b for) = c", 22),
        ("c clockDef a deferred b for 0", 22),
        ("c clockDef a deferred b for 1 000", 22),
        ("c clockDef a deferred b for 33", 22),
        ("c clockDef a deferred b for 257", 22),
        ("c clockDef a deferred b for 4294967297", 22),
        (&nines, 22),
        ("c clockDef a deferred b for 1 1 1 1 1 1 1 1 1", 22),
        ("c clockDef a deferred a for 0", 22),
        ("c clockDef a deferred a for 1", 15),
        ("(a deferred b for 0) = (await 0 c)", 14),
        ("c clockDef abcdefghijklmnopq deferred b for 0", 13),
        ("c clockDef a deferred b", 12),
        ("c clockDef a deferred b 2 3", 12),
        ("c clockDef a deferred b for 2,3", 12),
        ("c clockDef a deferred b for x", 12),
        ("c clockDef a deferred b for 2 d", 12),
        ("c clockDef a deferred b for (2)", 12),
        ("deferred = b", 12),
        ("a = for", 12),
    ];
    for (line, number) in cases {
        assert_eq!(
            ccsl::read_table(line.as_bytes()),
            Err(refusal(number, 1)),
            "{line}"
        );
    }
    let long = ccsl::read_table(b"c clockDef a deferred b for 1 1 1 1 1 1 1 1").unwrap();
    assert_eq!(long.records[0].delays, Delays::of(&[1; 8]));
}

/// What the four calls on records say of 59, which is the same.
fn place_of_59(records: &[u64]) -> Option<u64> {
    let zeros = [0; raw::WORDS];
    let [mut start, mut step, mut place] = [[u64::MAX; 3]; 3];
    let (mut order, mut listed) = ([u64::MAX; 4], [0; 32]);
    let mut words = zeros;
    let statuses = [
        raw::start_words(records, 3, 3, &mut words, &mut start),
        raw::step(records, 3, 3, &mut words, 0, &mut step),
        raw::same_place(records, 3, 3, &zeros, &zeros, &mut place),
        raw::definition_order(records, 3, 3, &mut order, &mut listed),
    ];
    assert_eq!(statuses, [raw::DONE; 4]);
    assert_eq!([start, step, place], [[order[0], order[1], order[2]]; 3]);
    match start {
        [2, 59, place] => Some(place),
        [0, 0, 0] => None,
        other => panic!("{other:?}"),
    }
}

/// The numbers of a delay made by hand.
fn by_hand(numbers: u64, count: u64) -> [u64; 8] {
    [14, 0, 1, 2, 0, 1, numbers, count]
}

#[test]
fn by_hand_a_list_of_none_or_over_eight_is_59() {
    let ones = 0x0101_0101_0101_0101;
    for count in 1..=8 {
        assert_eq!(place_of_59(&by_hand(ones, count)), None, "{count}");
    }
    let others = [0, 9, 10, 32, 33, 255, 256, 256 + 1, 256 + 8, 1 << 16 | 2];
    for count in others.into_iter().chain([
        1 << 32 | 1,
        1 << 63 | 8,
        u64::from(u32::MAX),
        u64::MAX - 255,
        u64::MAX,
    ]) {
        for numbers in [ones, 0, 2 + 3 * 256, u64::MAX] {
            assert_eq!(place_of_59(&by_hand(numbers, count)), Some(1), "{count}");
        }
    }
}

#[test]
fn by_hand_a_number_outside_1_to_32_is_59_where_it_counts() {
    for at in 0..8 {
        for number in 0..=255 {
            let mut list = [32; 8];
            list[at] = number;
            let allowed = (1..=32).contains(&number);
            for count in 1..=8 {
                let passes = allowed || count <= at as u64;
                assert_eq!(
                    place_of_59(&by_hand(u64::from_le_bytes(list), count)),
                    (!passes).then_some(1),
                    "{number} at {at} of {count}"
                );
            }
        }
    }
}

#[test]
fn by_hand_the_first_bad_record_is_named() {
    let good = [2, 0, 1, 2, 0, 1, 0, 0];
    let cases: [(&[[u64; 8]], u64); 4] = [
        (&[good, by_hand(0, 1)], 2),
        (&[good, good, by_hand(1, 0), by_hand(1, 9)], 3),
        (&[by_hand(2, 1), by_hand(2, 1)], 2),
        (&[by_hand(2, 1), [10, 2, 1, 0, 0, 0, 0, 0]], 2),
    ];
    for (records, place) in cases {
        assert_eq!(place_of_59(records.as_flattened()), Some(place));
    }
    let clocks = [
        [14, 0, 1, 1, 0, 1, 1, 1],
        [14, 0, 0, 2, 0, 1, 1, 1],
        [14, 2, 1, 2, 0, 1, 1, 1],
        [14, 3, 1, 2, 0, 1, 1, 1],
        [14, 0, 256, 2, 0, 1, 1, 1],
        [14, 0, 1, u64::MAX, 0, 1, 1, 1],
    ];
    for record in clocks {
        assert_eq!(place_of_59(&record), Some(1), "{record:?}");
    }
}

#[test]
fn what_a_kind_does_not_name_is_free() {
    for n in [0, 1, 1_000_001, u64::MAX] {
        for line in [0, u64::MAX] {
            assert_eq!(place_of_59(&[14, 0, 1, 2, n, line, 32, 1]), None);
        }
    }
    for kind in 0..14 {
        for numbers in [0, 33, u64::MAX] {
            for count in [0, 1, 9, u64::MAX] {
                let record = [kind, 0, 1, 2, 1, 1, numbers, count];
                assert_eq!(place_of_59(&record), None, "{record:?}");
            }
        }
    }
}

/// Steps a delay with this list: the ticks, the answer, and the pair behind them.
fn stepped(list: &[u8], steps: &[(u32, bool, Pair)]) {
    let mut monitor = Monitor::of_records(&[deferred(list)], THREE).unwrap();
    assert_eq!(*monitor.words(), pairs(&[[0, 0]]));
    for (at, (ticks, accepted, pair)) in steps.iter().enumerate() {
        let answer = match accepted {
            true => StepAnswer::Accepted,
            false => StepAnswer::Violated(1),
        };
        assert_eq!(monitor.step(*ticks), answer, "{list:?}, step {at}");
        assert_eq!(*monitor.words(), pairs(&[*pair]), "{list:?}, step {at}");
    }
}

#[test]
fn a_delay_is_stepped_through() {
    stepped(
        &[2, 3],
        &[
            (0, true, [0, 0]),
            (B, true, [0, 0]),
            (C, false, [0, 0]),
            (B | C, false, [0, 0]),
            (A | C, false, [0, 0]),
            (A, true, [0b10, 1]),
            (C, false, [0b10, 1]),
            (0, true, [0b10, 1]),
            (B | C, false, [0b10, 1]),
            (B, true, [0b01, 1]),
            // c is due with b alone, never without.
            (C, false, [0b01, 1]),
            (B, false, [0b01, 1]),
            (A | B, false, [0b01, 1]),
            (A | C, false, [0b01, 1]),
            (A, true, [0b101, 2]),
            (B | C, true, [0b10, 2]),
            // With the list used up, a plans nothing.
            (A, true, [0b10, 2]),
            (A | B, true, [0b01, 2]),
            (A | B | C, true, [0, 2]),
            (B | C, false, [0, 2]),
            (A | B, true, [0, 2]),
            (0, true, [0, 2]),
        ],
    );
}

#[test]
fn a_tick_of_b_beside_a_is_not_counted() {
    stepped(
        &[1, 1, 2],
        &[
            (A | B, true, [0b1, 1]),
            (B, false, [0b1, 1]),
            (A | B | C, true, [0b1, 2]),
            (A | B | C, true, [0b10, 3]),
            (B, true, [0b1, 3]),
            (B | C, true, [0, 3]),
        ],
    );
}

#[test]
fn delays_that_fall_on_one_tick_of_b_make_one_tick_of_c() {
    stepped(
        &[2, 1, 1],
        &[
            (A, true, [0b10, 1]),
            (B, true, [0b01, 1]),
            (A, true, [0b01, 2]),
            (A, true, [0b01, 3]),
            (B | C, true, [0, 3]),
            (B | C, false, [0, 3]),
            (B, true, [0, 3]),
        ],
    );
}

#[test]
fn numbers_need_not_come_due_in_order() {
    stepped(
        &[3, 1],
        &[
            (A, true, [0b100, 1]),
            (A, true, [0b101, 2]),
            (B | C, true, [0b10, 2]),
            (B, true, [0b1, 2]),
            (B | C, true, [0, 2]),
        ],
    );
}

#[test]
fn thirty_two_ticks_can_be_waited_for() {
    let mut steps = vec![(A, true, [1 << 31, 1])];
    steps.extend((1..32).map(|k| (B, true, [1 << (31 - k), 1])));
    steps.extend([(B, false, [1, 1]), (B | C, true, [0, 1]), (B, true, [0, 1])]);
    stepped(&[32], &steps);
}

#[test]
fn pending_ticks_are_never_too_many() {
    let records = [deferred(&[32, 1])];
    for (ticks, before, after) in [
        (A, [ALL, 0], [ALL, 1]),
        (A, [ALL, 2], [ALL, 2]),
        (B | C, [ALL, 0], [ALL >> 1, 0]),
        (A | B | C, [ALL, 0], [ALL, 1]),
        (A | B | C, [ALL, 1], [ALL >> 1, 2]),
        (A | B | C, [1, 0], [1 << 31, 1]),
        (A | B, [1 << 31, 1], [1 << 30 | 1, 2]),
    ] {
        let mut words = pairs(&[before]);
        assert_eq!(
            ccsl::step(&records, THREE, &mut words, ticks),
            StepAnswer::Accepted,
            "{before:?}"
        );
        assert_eq!(words, pairs(&[after]), "{before:?}");
    }
}

#[test]
fn a_run_prints_two_numbers_a_constraint() {
    let header = "$var event 1 ! a $end $var event 1 % b $end $var event 1 & c $end \
        $enddefinitions $end";
    let run = |table: &str, body: &str| {
        let recording = format!("{header} {body}");
        ccsl::run(table.as_bytes(), recording.as_bytes()).to_string()
    };
    let flat = "a # c\nc clockDef a deferred b for 2 3";
    assert_eq!(
        run(flat, "#0 1! #1 1% #2 1% 1& #5 1!"),
        "accepted\nsteps 4\nconfig 0 0 4 2\n"
    );
    assert_eq!(
        run(flat, "#0 1! #1 1% #7 1% #8 1&"),
        "violated 2 7\nsteps 2\nconfig 0 0 1 1\n"
    );
    assert_eq!(run(flat, ""), "accepted\nsteps 0\nconfig 0 0 0 0\n");
    let nested = "(a deferred b for 32) isSubClockOf c";
    assert_eq!(
        run(nested, "#0 1!"),
        "accepted\nsteps 1\nconfig 2147483648 1 0 0\n"
    );
    assert_eq!(
        run("c clockDef a deferred b for 33", ""),
        "refused 22 1\nsteps 0\nconfig\n"
    );
}

#[test]
fn a_delay_in_parentheses_is_worked_out() {
    let table = ccsl::read_table(b"(a deferred b for 1 2) = c").unwrap();
    assert_eq!((table.implicit, table.records.len()), (1, 2));
    let [a, b, c] = [1 << 0, 1 << 1, 1 << 2];
    let mut monitor = Monitor::of_table(&table).unwrap();
    let steps = [
        (a | b, StepAnswer::Accepted, [0b1, 1]),
        (c, StepAnswer::Violated(2), [0b1, 1]),
        (b, StepAnswer::Violated(2), [0b1, 1]),
        (a | b | c, StepAnswer::Accepted, [0b10, 2]),
        (b | c, StepAnswer::Violated(2), [0b10, 2]),
        (b, StepAnswer::Accepted, [0b1, 2]),
        (a | b | c, StepAnswer::Accepted, [0, 2]),
        (a | b, StepAnswer::Accepted, [0, 2]),
        (1 << 3, StepAnswer::Refused(refusal(61, 0)), [0, 2]),
    ];
    for (ticks, answer, pair) in steps {
        assert_eq!(monitor.step(ticks), answer, "{ticks:#b}");
        assert_eq!(*monitor.words(), pairs(&[pair]), "{ticks:#b}");
    }
}

/// What a step and the same-place question say of 60, of either configuration.
fn place_of_60(records: &[Record], words: &Configuration) -> Option<u64> {
    let clocks = THREE;
    let start = ccsl::start_words(records, clocks).unwrap();
    let mut moved = *words;
    let answer = ccsl::step(records, clocks, &mut moved, 0);
    assert_eq!(moved, *words);
    for (first, second) in [(words, &start), (&start, words), (words, words)] {
        let same = ccsl::same_place(records, clocks, first, second);
        let refused = matches!(answer, StepAnswer::Refused(_));
        assert_eq!(matches!(same, SamePlace::Refused(_)), refused);
        if let (StepAnswer::Refused(one), SamePlace::Refused(other)) = (answer, same) {
            assert_eq!(one, other);
        }
    }
    match answer {
        StepAnswer::Refused(refusal) => {
            assert_eq!(refusal.number, 60);
            Some(refusal.place)
        }
        other => {
            assert_eq!(other, StepAnswer::Accepted);
            None
        }
    }
}

#[test]
fn a_pair_of_a_delay_out_of_range_is_60() {
    for length in 1..=8 {
        let records = [deferred(&vec![7; length])];
        let length = length as i64;
        for pending in [0, 1, 1 << 31, ALL - 1, ALL] {
            for used in [0, 1, length] {
                assert_eq!(place_of_60(&records, &pairs(&[[pending, used]])), None);
            }
            for used in [i64::MIN, -1, length + 1, 9, 256, 1 << 32, i64::MAX] {
                let words = pairs(&[[pending, used]]);
                assert_eq!(place_of_60(&records, &words), Some(1), "{used}");
            }
        }
        for pending in [i64::MIN, -1, ALL + 1, ALL + 2, 1 << 33, i64::MAX] {
            for used in [0, length] {
                let words = pairs(&[[pending, used]]);
                assert_eq!(place_of_60(&records, &words), Some(1), "{pending}");
            }
        }
    }
}

#[test]
fn the_second_word_of_every_other_kind_is_0() {
    for kind in KINDS {
        let records = [of_kind(kind)];
        let mut words = ccsl::start_words(&records, THREE).unwrap();
        assert_eq!(place_of_60(&records, &words), None, "{kind:?}");
        for second in [1, -1, 2, 1 << 32, i64::MIN, i64::MAX] {
            words[0][1] = second;
            let in_range = kind == Kind::Deferred && second == 1;
            let place = (!in_range).then_some(1);
            assert_eq!(place_of_60(&records, &words), place, "{kind:?} {second}");
        }
    }
}

#[test]
fn the_place_of_60_is_the_pairs() {
    let empty = of_kind(Kind::Empty);
    let records = [vec![empty; 5], vec![deferred(&[2, 3])]].concat();
    let delay = |pair| {
        let mut words = pairs(&[]);
        words[5] = pair;
        words
    };
    assert_eq!(place_of_60(&records, &delay([ALL, 2])), None);
    for pair in [[-1, 0], [0, -1], [ALL + 1, 0], [0, 3], [-1, 3]] {
        assert_eq!(place_of_60(&records, &delay(pair)), Some(6), "{pair:?}");
    }
    for place in (0..PAIRS).filter(|place| *place != 5) {
        for half in 0..2 {
            for word in [1, -1] {
                let mut words = delay([5, 1]);
                words[place][half] = word;
                let place = Some(place as u64 + 1);
                assert_eq!(place_of_60(&records, &words), place);
            }
        }
    }
    let mut words = delay([0, 3]);
    (words[3][1], words[63][0]) = (1, 1);
    assert_eq!(place_of_60(&records, &words), Some(4));
}

#[test]
fn of_two_configurations_the_first_is_tested_first() {
    let records = [deferred(&[2, 3]), of_kind(Kind::Excludes)];
    let place = |first: &[Pair], second: &[Pair]| {
        ccsl::same_place(&records, THREE, &pairs(first), &pairs(second))
    };
    let refused = |at| SamePlace::Refused(refusal(60, at));
    assert_eq!(place(&[[0, 0], [0, 1]], &[[0, 3]]), refused(2));
    assert_eq!(place(&[[0, 3]], &[[0, 0], [0, 1]]), refused(1));
    assert_eq!(place(&[[0, 2]], &[[0, 0], [0, 1]]), refused(2));
}

#[test]
fn a_bad_record_comes_before_a_pair_and_a_pair_before_a_tick() {
    let words = pairs(&[[-1, 9]]);
    let step = |record| ccsl::step(&[record], THREE, &mut words.clone(), 1 << 3);
    let refused = |number, place| StepAnswer::Refused(refusal(number, place));
    assert_eq!(step(deferred(&[])), refused(59, 1));
    assert_eq!(step(deferred(&[2, 3])), refused(60, 1));
    let mut words = pairs(&[[0, 2]]);
    let answer = ccsl::step(&[deferred(&[2, 3])], THREE, &mut words, 1 << 3);
    assert_eq!(answer, refused(61, 0));
}

#[test]
fn places_are_compared_by_pairs() {
    let place = |list: &[u8], first: Pair, second: Pair| {
        let records = [of_kind(Kind::Excludes), deferred(list)];
        let [first, second] = [first, second].map(|pair| pairs(&[[0, 0], pair]));
        ccsl::same_place(&records, THREE, &first, &second)
    };
    let some = [
        [0, 0],
        [0, 1],
        [0, 2],
        [1, 0],
        [1, 2],
        [ALL, 1],
        [1 << 31, 2],
    ];
    // The second number plans what the first has planned, or another tick.
    for list in [[2, 2], [2, 3]] {
        for first in some {
            for second in some {
                let expected = match first == second {
                    true => SamePlace::Same,
                    false => SamePlace::Different,
                };
                assert_eq!(
                    place(&list, first, second),
                    expected,
                    "{first:?} {second:?}"
                );
            }
        }
    }
}

#[test]
fn a_continuation_tells_different_places_apart() {
    let records = [deferred(&[2])];
    let accepted = |pair, steps: &[u32]| {
        let mut words = pairs(&[pair]);
        let step = |ticks: &u32| ccsl::step(&records, THREE, &mut words, *ticks);
        steps
            .iter()
            .map(step)
            .all(|answer| answer == StepAnswer::Accepted)
    };
    // A pending tick: b twice, the second time with c.
    assert!(accepted([0b10, 0], &[B, B | C]));
    assert!(!accepted([0b00, 0], &[B, B | C]));
    // A number that is used: a, and b twice, the second time with c.
    assert!(accepted([0, 0], &[A, B, B | C]));
    assert!(!accepted([0, 1], &[A, B, B | C]));
}

#[test]
fn a_delay_rests_on_both_operands() {
    let order = |text: &[u8]| {
        let table = ccsl::read_table(text).unwrap();
        ccsl::definition_order(&table.records, table.counts())
    };
    assert_eq!(
        order(b"c clockDef a deferred b for 1\na clockDef d lub e\nb clockDef d glb e"),
        Ok(vec![2, 3, 1])
    );
    assert_eq!(
        order(b"a clockDef b deferred c for 1\nb clockDef d deferred a for 2 3"),
        Err(refusal(21, 1))
    );
    assert_eq!(
        order(b"a precedes b\nc clockDef d lub(e deferred f for 8)"),
        Ok(vec![2, 3])
    );
}

#[test]
fn thirty_delays_are_stepped_at_once() {
    // The clocks 2 to 31 are delays of clock 0 by clock 1, and the records below them relations.
    let definition = |defined: u64| Record {
        defined,
        first: 0,
        second: 1,
        ..deferred(&[1; 8])
    };
    let relation = Record {
        first: 2,
        second: 3,
        ..of_kind(Kind::Coincides)
    };
    let records: Vec<Record> = (2..32).map(definition).chain([relation; 34]).collect();
    assert_eq!(records.len(), PAIRS);
    let mut monitor = Monitor::of_records(&records, Clocks::all_named(32)).unwrap();
    let (a, b, all) = (1, 2, u32::MAX);
    assert_eq!(monitor.step(a), StepAnswer::Accepted);
    assert_eq!(monitor.step(b), StepAnswer::Violated(1));
    for used in 2..=8 {
        assert_eq!(monitor.step(all), StepAnswer::Accepted, "{used}");
        assert_eq!(monitor.words()[..30], [[1, used]; 30]);
        assert_eq!(monitor.words()[30..], [[0, 0]; 34]);
    }
    assert_eq!(monitor.step(all), StepAnswer::Accepted);
    assert_eq!(monitor.words()[..30], [[0, 8]; 30]);
    assert_eq!(monitor.step(all), StepAnswer::Violated(1));
}
