//! M-105, delays: readings 46 to 59 of document 02. `same_place` has the reasons
//! of reading 59.

mod common;

use common::*;
use second_opinion::*;

/// The request's own line. c is 0, a 1 and b 2.
const TAUGHT: &str = "c clockDef a deferred b for 2 3";

/// "pending 0 to 2^32 - 1"
const MOST: i64 = 4_294_967_295;

/// A name of 17 bytes.
const LONG: &str = "n2345678901234567";

const AB: u32 = A | B;
const AC: u32 = A | C;
const BC: u32 = B | C;
const ABC: u32 = A | B | C;

/// All lines must be refused with this number.
fn all_refused(number: u64, lines: &[&str]) {
    for line in lines {
        assert_eq!(table_refusal(line), (number, 1), "{line}");
    }
}

/// The list of a line `c clockDef a deferred b for …`, or its refusal.
fn list_of(list: &str) -> Result<Delays, Refusal> {
    let line = format!("c clockDef a deferred b for {list}");
    read_table(line.as_bytes()).map(|table| table.records[0].delays)
}

/// Each set in turn is accepted by single steps from the start, and the pair
/// after it is as given.
fn walk(list: &[u8], steps: &[(u32, Pair)]) {
    let records = [deferring(list)];
    let mut configuration = start_words(&records, 3, 3).expect("start words");
    for (index, &(ticks, after)) in steps.iter().enumerate() {
        let answer = step(&records, 3, 3, &mut configuration, ticks);
        let expected = (StepAnswer::Accepted, pairs(&[after]));
        assert_eq!((answer, configuration), expected, "step {}", index + 1);
    }
}

/// The sets of {a, b, c} that a delay accepts from a pair, with the pair after.
fn accepted(list: &[u8], pair: Pair) -> Vec<(u32, Pair)> {
    (0..8)
        .filter_map(|ticks| match judge(&deferring(list), pair, ticks) {
            (true, after) => Some((ticks, after)),
            (false, same) => {
                assert_eq!(same, pair);
                None
            }
        })
        .collect()
}

#[test]
fn the_requests_own_line_is_read() {
    let read = table(TAUGHT);
    assert_eq!(read.names, ["c", "a", "b"]);
    let expected = Record {
        kind: Kind::Deferred,
        defined: 0,
        first: 1,
        second: 2,
        number: 0,
        delays: Delays {
            numbers: [2, 3, 0, 0, 0, 0, 0, 0],
            length: 2,
        },
        line: 1,
    };
    assert_eq!(read.records, [expected]);
    assert_eq!((read.named, read.clocks), (3, 3));
}

#[test]
fn the_requests_own_line_runs() {
    // a plans the second tick of b after #1, and the third after #2: the second
    // and the fourth of b's ticks in all.
    let ticks = "#1 1! #2 1! 1\" #3 1\" 1% #4 1\" #5 1\" 1% #6 1! 1\"";
    let recording = format!("{HEADER}{ticks}");
    let report = run_ignoring(TAUGHT.as_bytes(), recording.as_bytes());
    assert_eq!(report.to_string(), "accepted\nsteps 6\nconfig 0 2\n");
    // Without the tick that is due, and with one that is not.
    let violated = |time, steps| (Verdict::Violated { line: 1, time }, steps);
    let missing = recording.replace("#3 1\" 1%", "#3 1\"");
    assert_eq!(verdict(TAUGHT, missing), violated(3, 2));
    let early = recording.replace("#4 1\"", "#4 1\" 1%");
    let report = run_ignoring(TAUGHT.as_bytes(), early.as_bytes());
    assert_eq!(report.to_string(), "violated 1 4\nsteps 3\nconfig 2 2\n");
}

#[test]
fn reading_46_an_empty_list_is_22_and_not_12() {
    all_refused(
        22,
        &[
            "c clockDef a deferred b for",
            "c clockDef a deferred b for   ",
            "(a deferred b for) = c",
            "(a deferred b for ) = c",
            "c = (a deferred b for)",
            "d clockDef (a deferred b for) upto c",
        ],
    );
}

#[test]
fn reading_46_what_is_no_digit_run_fits_no_form() {
    all_refused(
        12,
        &[
            "c clockDef a deferred b for x",
            "c clockDef a deferred b for 2,3",
            "c clockDef a deferred b for 2, 3",
            "c clockDef a deferred b for (2)",
            "c clockDef a deferred b for (2 3)",
            "c clockDef a deferred b for ()",
            "c clockDef a deferred b for (await 2 d)",
            "c clockDef a deferred b for 2 (d lub e)",
            "c clockDef a deferred b for 2 d",
            "c clockDef a deferred b for d 2",
            "c clockDef a deferred b for -2",
            "c clockDef a deferred b for +2",
            "c clockDef a deferred b for 2x",
            "c clockDef a deferred b for 2 for 3",
            "c clockDef a deferred b for for 3",
            "c clockDef a deferred b for 2 = d",
            "c clockDef a deferred b for 2 lub d",
            "c clockDef a deferred b for 0x2",
            "c clockDef a deferred b for 2.",
        ],
    );
}

#[test]
fn reading_46_other_shapes_fit_no_form() {
    all_refused(
        12,
        &[
            "c clockDef a deferred b",
            "c clockDef a deferred b 2 3",
            "c clockDef a deferred for 2",
            "c clockDef deferred b for 2",
            "c clockDef deferred a b for 2",
            "c clockDef a deferred 2 for 3",
            "c clockDef 2 deferred b for 3",
            "c clockDef a strictly deferred b for 2",
            "c clockDef a for b deferred 2",
            "c clockDef a lub b for 2",
            "c clockDef await 2 a for 3",
            "c clockDef a deferred b (for 2)",
            "c clockDef a deferred b (for) 2",
            "c clockDef (a deferred b for 2)",
            "c clockDef (a) deferred b for 2",
            "c clockDef a deferred (b for 2)",
            "(a deferred b) for 2 = c",
            "(a deferred b) = c",
            "a deferred b for 2",
            "a deferred b for 2 = c",
            "c = a deferred b for 2",
            "(c clockDef a deferred b for 2) = d",
            "c clockDef a Deferred b for 2",
            "c clockDef a deferred b For 2",
        ],
    );
}

#[test]
fn reading_46_12_asks_the_shape_of_lists_of_any_number_and_length() {
    // Nine numbers, and as many as the table holds: 22; with a word that is no
    // number behind them 12.
    let nine = "1 ".repeat(9);
    let many = "1 ".repeat(2000);
    for list in [&nine, &many] {
        assert_eq!(list_of(list), Err(refusal(22, 1)));
        assert_eq!(list_of(&format!("{list} x")), Err(refusal(12, 1)));
    }
    assert_eq!(list_of(&"1 ".repeat(8)), Ok(delays(&[1; 8])));
    let long = "9".repeat(3000);
    assert_eq!(list_of(&long), Err(refusal(22, 1)));
    assert_eq!(list_of(&(long + "x")), Err(refusal(12, 1)));
}

#[test]
fn reading_47_a_number_is_its_digits_value() {
    assert_eq!(list_of("002"), Ok(delays(&[2])));
    assert_eq!(list_of("1"), Ok(delays(&[1])));
    assert_eq!(list_of("32"), Ok(delays(&[32])));
    assert_eq!(list_of(" 2   0003 "), Ok(delays(&[2, 3])));
    assert_eq!(list_of(&("0".repeat(100) + "32")), Ok(delays(&[32])));
    assert_eq!(
        list_of("8 7 6 5 4 3 2 1"),
        Ok(delays(&[8, 7, 6, 5, 4, 3, 2, 1]))
    );
    for out in [
        "0",
        "000",
        "33",
        "034",
        "256",
        "257",
        "258",
        "65537",
        "4294967296",
        "4294967297",
        "18446744073709551616",
        "18446744073709551617",
        "18446744073709551618",
        &"9".repeat(100),
        "1 0",
        "0 1",
        "1 33 1",
        "1 2 3 4 5 6 7 33",
        "1 2 3 4 5 6 7 8 9",
        "1 2 3 4 5 6 7 8 0",
    ] {
        assert_eq!(list_of(out), Err(refusal(22, 1)), "{out}");
    }
}

#[test]
fn reading_48_22_stands_between_14_and_15_for_the_whole_line() {
    // 14 first, wherever each stands.
    all_refused(
        14,
        &[
            "(a deferred b for 0) = (await 0 c)",
            "(await 0 c) = (a deferred b for 0)",
            "c clockDef (await 0 a) deferred b for",
            "c clockDef await 0 (a deferred b for 33)",
            "(a deferred a for 0) = (await 0 c)",
        ],
    );
    // 22 before 15.
    all_refused(
        22,
        &[
            "c clockDef a deferred a for 0",
            "a clockDef a deferred b for 1 2 3 4 5 6 7 8 9",
            "(a deferred b for 33) = a",
            "a = (b lub (a deferred c for))",
            "(await 1 a) = (a deferred b for 0)",
            // Every list of the line is asked.
            "(a deferred b for 1) = (c deferred d for 0)",
            "(a deferred b for 0) = (c deferred d for 1)",
            "c clockDef (a deferred b for 0) deferred d for 1",
            "c clockDef a deferred (b deferred d for 0) for 1",
        ],
    );
    all_refused(15, &["c clockDef a deferred a for 1", "a = (a upto b)"]);
    // 12 and 13 before it, 16 to 18 after.
    assert_eq!(list_of("0 x"), Err(refusal(12, 1)));
    let long = format!("{LONG} clockDef a deferred b for 0");
    assert_eq!(table_refusal(long), (13, 1));
    let inner = format!("(a deferred b for 0) = (c lub {LONG})");
    assert_eq!(table_refusal(inner), (13, 1));
    let again = |list: &str| format!("{TAUGHT}\n\nc clockDef a deferred b for {list}");
    assert_eq!(table_refusal(again("0")), (22, 3));
    assert_eq!(table_refusal(again("1")), (16, 3));
    let line = |index: usize| format!("k{} # k{}\n", 2 * index, 2 * index + 1);
    let full: String = (0..16).map(line).collect();
    assert_eq!(
        table_refusal(full.clone() + "(k0 deferred k1 for 0) = k2"),
        (22, 17)
    );
    assert_eq!(
        table_refusal(full + "(k0 deferred k1 for 1) = k2"),
        (17, 17)
    );
    let full = "a # b\n".repeat(64);
    assert_eq!(
        table_refusal(full.clone() + "c clockDef a deferred b for 0"),
        (22, 65)
    );
    assert_eq!(table_refusal(full + TAUGHT), (18, 65));
    // 11, 19 and 20 before it, and line 1 before line 2.
    assert_eq!(list_of("0\t"), Err(refusal(11, 1)));
    assert_eq!(list_of("0 )"), Err(refusal(20, 1)));
    assert_eq!(list_of(&"(".repeat(17)), Err(refusal(19, 1)));
    assert_eq!(
        table_refusal("a = a\nc clockDef a deferred b for 0"),
        (15, 1)
    );
}

#[test]
fn reading_48_14_asks_no_delay_and_22_no_await() {
    let read = table("(await 33 a) = (b deferred c for 32)");
    assert_eq!(read.records[0].number, 33);
    assert_eq!(read.records[1].delays, delays(&[32]));
    assert_eq!(read.records[0].delays, Delays::default());
    assert_eq!(read.records[1].number, 0);
    assert_eq!(read.records[2].delays, Delays::default());
}

#[test]
fn reading_49_deferred_and_for_are_no_names() {
    all_refused(
        12,
        &[
            "deferred = a",
            "a # deferred",
            "for precedes a",
            "a isSubClockOf for",
            "for clockDef a lub b",
            "deferred clockDef await 2 a",
            "c clockDef for lub b",
            "c clockDef await 2 deferred",
            "c clockDef for deferred b for 2",
            "c clockDef a deferred for for 2",
            "c clockDef a deferred deferred for 2",
            "(a lub for) = c",
        ],
    );
    let read = table("For = deferred_\nDeferred # forth\nfo # defer");
    assert_eq!(
        read.names,
        ["For", "deferred_", "Deferred", "forth", "fo", "defer"]
    );
}

#[test]
fn reading_49_a_var_may_still_be_named_so() {
    let others = "$var event 1 2 deferred $end $var event 1 3 for $end ";
    let recording = format!("{others}{HEADER}#1 12 13 12 1! #2 13 1\"");
    let report = run_ignoring(TAUGHT.as_bytes(), recording.as_bytes());
    assert_eq!(report.to_string(), "accepted\nsteps 2\nconfig 1 1\n");
}

#[test]
fn reading_50_delays_nest_on_both_sides_and_inside() {
    let left = table("(a deferred b for 2 3) = c");
    let expected = [
        delay_definition(3, 0, 1, &[2, 3], 1),
        relation(Kind::Coincides, 3, 2, 1),
    ];
    assert_eq!(left.records, expected);
    assert_eq!((left.named, left.clocks), (3, 4));
    let right = table("c # (a deferred b for 1)");
    let expected = [
        delay_definition(3, 1, 2, &[1], 1),
        relation(Kind::Excludes, 0, 3, 1),
    ];
    assert_eq!(right.records, expected);
    // c is 0, a 1, b 2, d 3 and e 4; a delay of delays.
    let both = table("c clockDef (a deferred b for 1) deferred (d deferred e for 2 3) for 4 5 6");
    let expected = [
        delay_definition(5, 1, 2, &[1], 1),
        delay_definition(6, 3, 4, &[2, 3], 1),
        delay_definition(0, 5, 6, &[4, 5, 6], 1),
    ];
    assert_eq!(both.records, expected);
    // Other forms within, and a delay within others, with and without spaces.
    let within = table("c clockDef(await 9 a)deferred(b upto d)for 7");
    let expected = [
        await_definition(4, 9, 1, 1),
        definition(Kind::Upto, 5, 2, 3, 1),
        delay_definition(0, 4, 5, &[7], 1),
    ];
    assert_eq!(within.records, expected);
    let deep = table("x precedes (await 2(a deferred b for 2 3))");
    let expected = [
        delay_definition(3, 1, 2, &[2, 3], 1),
        await_definition(4, 2, 3, 1),
        relation(Kind::Precedes, 0, 4, 1),
    ];
    assert_eq!(deep.records, expected);
}

#[test]
fn reading_50_a_list_ends_at_its_closing_parenthesis() {
    let read = table("c clockDef (a deferred b for 2) deferred d for 3 4");
    assert_eq!(read.records[0].delays, delays(&[2]));
    assert_eq!(read.records[1].delays, delays(&[3, 4]));
    all_refused(
        12,
        &[
            "c clockDef (a deferred b for 2) 3",
            "(a deferred b for 2) 3 = c",
        ],
    );
}

#[test]
fn reading_50_sixteen_levels_of_delays_pass() {
    let nested = |levels: usize| {
        let open = "(".repeat(levels);
        let close: String = (0..levels)
            .map(|level| format!(" deferred b{level} for 1)"))
            .collect();
        format!("{open}a{close} = c")
    };
    // Fifteen levels have 17 named clocks and 15 implicit ones.
    let read = table(nested(15));
    assert_eq!((read.named, read.clocks), (17, 32));
    assert_eq!(read.records[14], delay_definition(31, 30, 15, &[1], 1));
    assert_eq!(table_refusal(nested(16)), (17, 1));
    assert_eq!(table_refusal(nested(17)), (19, 1));
}

#[test]
fn reading_50_an_implicit_delay_works_out_its_tick() {
    // x is 0, a 1 and b 2; x must tick with the implicit clock.
    let table = table("x = (a deferred b for 2 3)");
    let [x, a, b] = [1, 2, 4];
    let ask = |pair: Pair, ticks| {
        let mut configuration = pairs(&[pair]);
        let answer = step(&table.records, 3, 4, &mut configuration, ticks);
        (answer, configuration)
    };
    let all = [0, a, b, a | b];
    for (pair, due, after) in [
        ([0, 0], [0, 0, 0, 0], [[0, 0], [2, 1], [0, 0], [2, 1]]),
        ([1, 1], [0, 0, x, x], [[1, 1], [5, 2], [0, 1], [4, 2]]),
        ([2, 2], [0, 0, 0, 0], [[2, 2], [2, 2], [1, 2], [1, 2]]),
        ([3, 0], [0, 0, x, x], [[3, 0], [3, 1], [1, 0], [3, 1]]),
    ] {
        for ((ticks, due), after) in all.into_iter().zip(due).zip(after) {
            let context = format!("{pair:?} {ticks}");
            let expected = (StepAnswer::Accepted, pairs(&[after]));
            assert_eq!(ask(pair, ticks | due), expected, "{context}");
            // The relation fails otherwise, and never the implicit definition.
            let expected = (StepAnswer::Violated(2), pairs(&[pair]));
            assert_eq!(ask(pair, (ticks | x) & !due), expected, "{context}");
        }
    }
}

#[test]
fn reading_50_a_delay_by_a_delay_in_one_step() {
    // The inner clock i ticks with the first b after a; x ticks with the first d
    // after i. x is 0, a 1, b 2, d 3.
    let table = table("x = ((a deferred b for 1 1) deferred d for 1)");
    let [x, a, b, d] = [1, 2, 4, 8];
    let mut configuration = start_words(&table.records, 4, 6).expect("start words");
    for (ticks, inner, outer) in [
        (a | b | d, [1, 1], [0, 0]),
        (b | d, [0, 1], [1, 1]),
        (x | d, [0, 1], [0, 1]),
        (a, [1, 2], [0, 1]),
        (b, [0, 2], [0, 1]),
        (a | b | d, [0, 2], [0, 1]),
    ] {
        let answer = step(&table.records, 4, 6, &mut configuration, ticks);
        assert_eq!(answer, StepAnswer::Accepted);
        assert_eq!(configuration, pairs(&[inner, outer, [0, 0]]));
    }
}

/// The 59 of one record, which all calls on records must give alike.
fn list_refusal(record: Record) -> Option<u64> {
    let records = [record];
    let zero = pairs(&[]);
    let start = start_words(&records, 3, 3);
    let stepped = stepped(&records, 3, zero, 0);
    let place = same_place(&records, 3, 3, &zero, &zero);
    assert_eq!(order_refusal(&records, 3, 3), start.err());
    match (start, stepped, place) {
        (Err(one), (StepAnswer::Refused(two), after), SamePlace::Refused(three)) => {
            assert_eq!((one, two, after), (three, three, zero));
            assert_eq!(one.number, 59);
            Some(one.place)
        }
        (Ok(start), (StepAnswer::Accepted, after), SamePlace::Same) => {
            assert_eq!((start[0][1], after), (0, zero));
            None
        }
        answers => panic!("the calls differ: {answers:?}"),
    }
}

#[test]
fn reading_51_a_list_out_of_range_in_a_record_by_hand_is_59() {
    let ask = |numbers: [u8; 8], length: u64| {
        list_refusal(Record {
            delays: Delays { numbers, length },
            ..record(Kind::Deferred)
        })
    };
    let ones = [1; 8];
    assert_eq!(ask(ones, 0), Some(1));
    for length in 1..=8 {
        assert_eq!(ask(ones, length), None);
        assert_eq!(ask([32; 8], length), None);
        assert_eq!(ask([33; 8], length), Some(1));
        assert_eq!(ask([0; 8], length), Some(1));
        assert_eq!(ask([255; 8], length), Some(1));
    }
    for length in [9, 10, 64, 256, 1 << 32, (1 << 32) + 1, u64::MAX] {
        assert_eq!(ask(ones, length), Some(1), "{length}");
    }
    // Numbers past the length are free, those of the list are not.
    for bad in [0, 33, 64, 255] {
        for index in 0..8 {
            let mut numbers = ones;
            numbers[index] = bad;
            for length in 1..=8 {
                let expected = ((index as u64) < length).then_some(1);
                assert_eq!(ask(numbers, length), expected, "{numbers:?} {length}");
            }
        }
    }
}

#[test]
fn reading_51_the_await_number_and_the_list_of_any_other_kind_are_free() {
    for number in [0, 1_000_001, u64::MAX] {
        let delay = Record {
            number,
            ..deferring(&[2, 3])
        };
        assert_eq!(list_refusal(delay), None);
    }
    let lists = [
        Delays::default(),
        delays(&[33]),
        Delays {
            numbers: [0; 8],
            length: u64::MAX,
        },
    ];
    for kind in KINDS {
        for delays in lists {
            let other = Record {
                delays,
                ..record(kind)
            };
            let expected = (kind == Kind::Deferred).then_some(1);
            assert_eq!(list_refusal(other), expected, "{kind:?} {delays:?}");
            // Nor does a list change what any other kind says.
            if kind != Kind::Deferred {
                let start = start_word(&other);
                assert_eq!(start, start_word(&record(kind)));
                for ticks in 0..8 {
                    let plain = judge(&record(kind), start, ticks);
                    assert_eq!(judge(&other, start, ticks), plain, "{kind:?} {ticks}");
                }
            }
        }
    }
}

#[test]
fn reading_51_the_clocks_of_a_delay_are_asked_like_those_of_any_definition() {
    let delay = deferring(&[1]);
    let far = |defined, first, second| {
        list_refusal(Record {
            defined,
            first,
            second,
            ..delay
        })
    };
    assert_eq!(far(2, 0, 1), None);
    for [c, a, b] in [
        [3, 0, 1],
        [2, 3, 1],
        [2, 0, 3],
        [0, 0, 1],
        [1, 0, 1],
        [2, 0, 0],
    ] {
        assert_eq!(far(c, a, b), Some(1), "{c} {a} {b}");
    }
    let twice = [delay, record(Kind::Lub)];
    assert_eq!(start_words(&twice, 3, 3), Err(refusal(59, 2)));
    let twice = [record(Kind::Lub), delay];
    assert_eq!(start_words(&twice, 3, 3), Err(refusal(59, 2)));
    // The lowest place of all, and 59 before 60.
    let bad = deferring(&[0]);
    let records = [record(Kind::Excludes), bad, bad];
    let out = pairs(&[[7, 7]]);
    assert_eq!(stepped(&records, 3, out, 64), (refused(59, 2), out));
    // Two operands, both used.
    let implicit = [Record { second: 3, ..delay }];
    assert_eq!(start_words(&implicit, 3, 4), Err(refusal(59, 1)));
    assert_eq!(start_words(&implicit, 4, 4), Ok(pairs(&[])));
    let order = [
        delay_definition(2, 3, 4, &[1], 1),
        delay_definition(3, 0, 4, &[1], 1),
        delay_definition(4, 0, 1, &[1], 1),
    ];
    assert_eq!(definition_order(&order, 5, 5), Ok(vec![3, 2, 1]));
    let circle = [
        delay_definition(2, 0, 3, &[1], 1),
        delay_definition(3, 2, 1, &[1], 1),
    ];
    assert_eq!(definition_order(&circle, 4, 4), Err(refusal(21, 1)));
}

#[test]
fn reading_52_c_is_due_exactly_when_bit_0_is_set_and_b_ticks() {
    let used_up = 2;
    for (pending, halved) in [(0, 0), (2, 1), (6, 3), (MOST - 1, 2_147_483_647)] {
        let rows = [
            (0, [pending, used_up]),
            (A, [pending, used_up]),
            (B, [halved, used_up]),
            (AB, [halved, used_up]),
        ];
        assert_eq!(accepted(&[2, 3], [pending, used_up]), rows);
    }
    for (pending, halved) in [(1, 0), (3, 1), (7, 3), (MOST, 2_147_483_647)] {
        let rows = [
            (0, [pending, used_up]),
            (A, [pending, used_up]),
            (BC, [halved, used_up]),
            (ABC, [halved, used_up]),
        ];
        assert_eq!(accepted(&[2, 3], [pending, used_up]), rows);
    }
}

#[test]
fn reading_52_c_never_ticks_without_b() {
    for pending in [0, 1, 2, 3, MOST] {
        for used in 0..=2 {
            for ticks in [C, AC] {
                let (holds, after) = judge(&deferring(&[2, 3]), [pending, used], ticks);
                assert_eq!((holds, after), (false, [pending, used]));
                let given = pairs(&[[pending, used]]);
                let answer = stepped(&[deferring(&[2, 3])], 3, given, ticks);
                assert_eq!(answer, (StepAnswer::Violated(1), given));
            }
        }
    }
}

#[test]
fn reading_53_first_b_then_a() {
    // From [1, 0] with the list 1 2: b takes the due tick away, then a plans.
    let rows = [(0, [1, 0]), (A, [1, 1]), (BC, [0, 0]), (ABC, [1, 1])];
    assert_eq!(accepted(&[1, 2], [1, 0]), rows);
    let rows = [(0, [1, 1]), (A, [3, 2]), (BC, [0, 1]), (ABC, [2, 2])];
    assert_eq!(accepted(&[1, 2], [1, 1]), rows);
}

#[test]
fn reading_53_a_tick_of_b_beside_a_is_not_counted() {
    walk(&[1], &[(AB, [1, 1]), (BC, [0, 1])]);
    walk(&[2], &[(AB, [2, 1]), (B, [1, 1]), (BC, [0, 1])]);
    // Nor does c tick with that b itself.
    assert!(!judge(&deferring(&[1]), [0, 0], ABC).0);
    // And the same with b in a step of its own before a, or after.
    walk(&[1], &[(B, [0, 0]), (A, [1, 1]), (BC, [0, 1])]);
}

#[test]
fn reading_53_ticks_of_b_before_a_do_not_count() {
    let before = (B, [0, 0]);
    let steps = [
        before,
        before,
        before,
        (A, [2, 1]),
        (B, [1, 1]),
        (BC, [0, 1]),
    ];
    walk(&[2], &steps);
}

#[test]
fn reading_53_the_greatest_delay_is_the_32nd_tick_of_b() {
    let mut steps = vec![(A, [2_147_483_648, 1])];
    for left in (1..32u32).rev() {
        steps.push((B, [2i64.pow(left - 1), 1]));
    }
    assert_eq!(steps.len(), 32);
    steps.push((BC, [0, 1]));
    walk(&[32], &steps);
}

#[test]
fn reading_54_delays_falling_on_one_tick_of_b_make_one_tick_of_c() {
    // In the same place at once, with other steps between, and beside b.
    walk(
        &[2, 2],
        &[
            (A, [2, 1]),
            (A, [2, 2]),
            (B, [1, 2]),
            (BC, [0, 2]),
            (B, [0, 2]),
        ],
    );
    walk(
        &[3, 2],
        &[
            (A, [4, 1]),
            (B, [2, 1]),
            (A, [2, 2]),
            (B, [1, 2]),
            (BC, [0, 2]),
        ],
    );
    walk(
        &[3, 2],
        &[
            (A, [4, 1]),
            (AB, [2, 2]),
            (B, [1, 2]),
            (BC, [0, 2]),
            (B, [0, 2]),
        ],
    );
}

#[test]
fn reading_54_numbers_need_not_come_due_in_order() {
    walk(
        &[4, 1, 2],
        &[
            (A, [8, 1]),
            (A, [9, 2]),
            (ABC, [6, 3]),
            (B, [3, 3]),
            (BC, [1, 3]),
            (BC, [0, 3]),
        ],
    );
}

#[test]
fn reading_55_with_the_list_used_up_a_moves_nothing() {
    walk(
        &[1, 2],
        &[
            (A, [1, 1]),
            (A, [3, 2]),
            (A, [3, 2]),
            (ABC, [1, 2]),
            (A, [1, 2]),
            (BC, [0, 2]),
            (AB, [0, 2]),
            (A, [0, 2]),
            (B, [0, 2]),
        ],
    );
    let full = [1, 2, 3, 4, 5, 6, 7, 8];
    assert_eq!(judge(&deferring(&full), [0, 7], A), (true, [128, 8]));
    assert_eq!(judge(&deferring(&full), [128, 8], A), (true, [128, 8]));
    // Numbers past the length are never taken.
    let past = Record {
        delays: Delays {
            numbers: [3; 8],
            length: 1,
        },
        ..record(Kind::Deferred)
    };
    assert_eq!(judge(&past, [0, 0], A), (true, [4, 1]));
    assert_eq!(judge(&past, [4, 1], A), (true, [4, 1]));
}

#[test]
fn reading_55_51_never_concerns_a_delay() {
    let list = [32, 1, 32, 1, 32, 1, 32, 1];
    for pending in [0, 1, MILLION, MILLION + 1, MOST - 1, MOST] {
        for used in 0..=8 {
            for ticks in 0..8 {
                let given = pairs(&[[pending, used]]);
                let (answer, after) = stepped(&[deferring(&list)], 3, given, ticks);
                match answer {
                    StepAnswer::Accepted => {
                        let [pending, used] = after[0];
                        assert!((0..=MOST).contains(&pending) && (0..=8).contains(&used));
                    }
                    answer => assert_eq!((answer, after), (StepAnswer::Violated(1), given)),
                }
            }
        }
    }
    // The record with 51 is the other one, wherever the delay stands.
    let records = [deferring(&[1]), record(Kind::Precedes)];
    let full = pairs(&[[MOST, 1], [MILLION, 0]]);
    assert_eq!(stepped(&records, 3, full, A), (refused(51, 2), full));
    // A delay that fails goes before 51.
    let answer = stepped(
        &[record(Kind::Precedes), deferring(&[1])],
        3,
        pairs(&[[MILLION, 0], [MOST, 1]]),
        AC,
    );
    assert_eq!(answer.0, StepAnswer::Violated(2));
}

#[test]
fn reading_56_the_start_pair_is_0_0() {
    assert_eq!(start_word(&deferring(&[2, 3])), [0, 0]);
    let records = [
        record(Kind::Sampled),
        delay_definition(3, 0, 1, &[1], 1),
        await_definition(4, 9, 0, 1),
    ];
    let start = pairs(&[[2, 0], [0, 0], [9, 0]]);
    assert_eq!(start_words(&records, 5, 5), Ok(start));
}

#[test]
fn reading_57_the_config_line_has_two_numbers_for_every_constraint() {
    let text = "a precedes b\nc clockDef a deferred b for 3 1\na # c\nd = (await 4 (a lub b))";
    let header = format!("$var event 1 & d $end {HEADER}");
    let printed = |body: &str| {
        let report = run_ignoring(text.as_bytes(), format!("{header}{body}").as_bytes());
        report.to_string()
    };
    let start = "accepted\nsteps 0\nconfig 0 0 0 0 0 0 0 0 4 0 0 0\n";
    assert_eq!(printed(""), start);
    // a: precedes 1, the third next b, lub 1. a again: precedes 2, the first
    // next b too, lub 2. b and c: precedes 1, the second next b; lub 1, which
    // ticks, so await 3.
    let after = "accepted\nsteps 3\nconfig 1 0 2 2 0 0 1 0 3 0 0 0\n";
    assert_eq!(printed("#1 1! #2 1! #3 1\" 1%"), after);
    let refused = "refused 40 PLACE\nsteps 1\nconfig 1 0 4 1 0 0 1 0 4 0 0 0\n";
    let place = (header.len() + "#1 1! #2 ".len()).to_string();
    assert_eq!(printed("#1 1! #2 ?"), refused.replace("PLACE", &place));
    // Refused tables print `config` alone, by 22 too, and leave zeros.
    let report = run_ignoring(b"a # b\nc clockDef a deferred b for", header.as_bytes());
    assert_eq!(report.to_string(), "refused 22 2\nsteps 0\nconfig\n");
    assert_eq!(report.configuration, [[0, 0]; WORDS]);
}

#[test]
fn reading_57_the_largest_pending_word_is_printed_whole() {
    let header = "$var event 1 ! a $end $var event 1 \" b $end $var event 1 % c $end \
        $enddefinitions $end";
    let text = "c clockDef a deferred b for 32 31";
    let report = run_ignoring(text.as_bytes(), format!("{header} #1 1! #2 1!").as_bytes());
    assert_eq!(
        report.to_string(),
        "accepted\nsteps 2\nconfig 3221225472 2\n"
    );
}

/// The 60 of a configuration, which both questions must give.
fn pair_refusal(records: &[Record], given: &[Pair]) -> Option<u64> {
    let given = pairs(given);
    let (answer, after) = stepped(records, 32, given, 0);
    assert_eq!(after, given);
    match (answer, same_place(records, 32, 32, &given, &given)) {
        (StepAnswer::Refused(one), SamePlace::Refused(other)) => {
            assert_eq!((one, one.number), (other, 60));
            Some(one.place)
        }
        (StepAnswer::Accepted, SamePlace::Same) => None,
        answers => panic!("the two questions differ: {answers:?}"),
    }
}

#[test]
fn reading_58_the_ranges_of_a_delays_pair() {
    for length in 1..=8 {
        let list = [5; 8];
        let records = [deferring(&list[..length])];
        let length = length as i64;
        let ask = |pending, used| pair_refusal(&records, &[[pending, used]]);
        // Both of any combination, also those that no run comes to.
        for pending in [0, 1, 12345, MOST - 1, MOST] {
            for used in 0..=length {
                assert_eq!(ask(pending, used), None, "{pending} {used}");
            }
            for used in [-1, length + 1, 9, i64::MIN, i64::MAX] {
                assert_eq!(ask(pending, used), Some(1), "{pending} {used}");
            }
        }
        for pending in [-1, MOST + 1, i64::MIN, i64::MAX] {
            for used in [0, length, length + 1] {
                assert_eq!(ask(pending, used), Some(1), "{pending} {used}");
            }
        }
    }
}

#[test]
fn reading_58_the_second_of_every_other_kind_is_0() {
    for kind in KINDS.into_iter().filter(|&kind| kind != Kind::Deferred) {
        let records = [record(kind)];
        assert_eq!(pair_refusal(&records, &[[0, 0]]), None, "{kind:?}");
        for second in [-1, 1, 2, i64::MIN, i64::MAX] {
            let answer = pair_refusal(&records, &[[0, second]]);
            assert_eq!(answer, Some(1), "{kind:?} {second}");
        }
    }
}

#[test]
fn reading_58_the_place_is_the_pairs() {
    let records = [
        record(Kind::Precedes),
        delay_definition(3, 0, 1, &[1, 2], 1),
        record(Kind::Empty),
        delay_definition(4, 0, 1, &[1], 1),
    ];
    let good = [[5, 0], [9, 2], [0, 0], [9, 1]];
    let ask = |index: usize, pair: Pair| {
        let mut given = good.to_vec();
        given.resize(64, [0, 0]);
        given[index] = pair;
        pair_refusal(&records, &given)
    };
    assert_eq!(ask(0, [5, 0]), None);
    assert_eq!(ask(0, [5, 1]), Some(1));
    assert_eq!(ask(1, [MOST + 1, 2]), Some(2));
    assert_eq!(ask(1, [9, 3]), Some(2));
    // Empty records, and beyond the records.
    assert_eq!(ask(2, [0, 1]), Some(3));
    assert_eq!(ask(2, [1, 0]), Some(3));
    assert_eq!(ask(3, [9, 2]), Some(4));
    for index in [4, 31, 32, 63] {
        assert_eq!(ask(index, [1, 0]), Some(index as u64 + 1));
        assert_eq!(ask(index, [0, 1]), Some(index as u64 + 1));
        assert_eq!(ask(index, [0, -1]), Some(index as u64 + 1));
    }
    // The lowest place, whichever half is out.
    assert_eq!(pair_refusal(&records, &[[5, 0], [0, 3], [1, 0]]), Some(2));
    assert_eq!(pair_refusal(&records, &[[5, 0], [-1, 0], [0, 1]]), Some(2));
    // 60 before 61.
    let out = pairs(&[[5, 0], [9, 3]]);
    assert_eq!(stepped(&records, 5, out, 1 << 5), (refused(60, 2), out));
    let fine = pairs(&[[5, 0], [9, 2]]);
    assert_eq!(stepped(&records, 5, fine, 1 << 5), (refused(61, 0), fine));
    // The first configuration goes before the second.
    let late = pairs(&[[5, 0], [0, 0], [0, 1]]);
    let early = pairs(&[[5, 1]]);
    let refused = |place| SamePlace::Refused(refusal(60, place));
    assert_eq!(same_place(&records, 5, 5, &late, &early), refused(3));
    assert_eq!(same_place(&records, 5, 5, &early, &late), refused(1));
    assert_eq!(same_place(&records, 5, 5, &fine, &late), refused(3));
}

#[test]
fn reading_59_same_place_is_equality_of_pairs() {
    let records = [
        delay_definition(2, 0, 1, &[2, 2], 1),
        record(Kind::Precedes),
    ];
    let ask = |one: Pair, other: Pair| {
        let (one, other) = (pairs(&[one, [4, 0]]), pairs(&[other, [4, 0]]));
        same_place(&records, 3, 3, &one, &other)
    };
    let all = [
        [0, 0],
        [0, 1],
        [0, 2],
        [1, 0],
        [1, 1],
        [1, 2],
        [MOST, 0],
        [MOST, 2],
        [MOST - 1, 2],
        [2_147_483_648, 2],
    ];
    for one in all {
        for other in all {
            let expected = if one == other {
                SamePlace::Same
            } else {
                SamePlace::Different
            };
            assert_eq!(ask(one, other), expected, "{one:?} {other:?}");
        }
    }
}

#[test]
fn reading_59_equal_pairs_come_from_different_walks() {
    let records = [deferring(&[3, 1, 2])];
    let walk = |sets: &[u32]| {
        let mut configuration = pairs(&[]);
        for &ticks in sets {
            let answer = step(&records, 3, 3, &mut configuration, ticks);
            assert_eq!(answer, StepAnswer::Accepted);
        }
        configuration
    };
    // The third next b after one more b, and the first after that, or at once.
    let slow = walk(&[B, A, B, B, A, BC]);
    let quick = walk(&[A, A, BC, B, BC]);
    assert_eq!(slow, pairs(&[[0, 2]]));
    assert_eq!(same_place(&records, 3, 3, &slow, &quick), SamePlace::Same);
    let other = walk(&[A, A, A]);
    assert_eq!(
        same_place(&records, 3, 3, &slow, &other),
        SamePlace::Different
    );
}

/// The request's sentence over a whole history, without any pending word: c ticks
/// exactly on those ticks of b that some tick of a has chosen, each n-th tick of
/// b strictly after its step.
fn due_steps(list: &[u8], history: &[(bool, bool)]) -> Vec<bool> {
    let mut due = vec![false; history.len()];
    let a_ticks = (0..history.len()).filter(|&at| history[at].0);
    for (at, &number) in a_ticks.zip(list) {
        let mut later = (at + 1..history.len()).filter(|&later| history[later].1);
        if let Some(chosen) = later.nth(number as usize - 1) {
            due[chosen] = true;
        }
    }
    due
}

#[test]
fn random_histories_are_judged_as_the_requests_sentence_says() {
    let mut numbers = Numbers(1050);
    let mut ticks_of_c = 0;
    for _ in 0..3000 {
        let most = numbers.pick(&[2, 4, 32]);
        let length = 1 + numbers.below(8);
        let list: Vec<u8> = (0..length).map(|_| 1 + numbers.below(most) as u8).collect();
        let history: Vec<(bool, bool)> = (0..60)
            .map(|_| (numbers.below(5) == 0, numbers.below(3) > 0))
            .collect();
        let records = [deferring(&list)];
        let mut configuration = pairs(&[]);
        for (&(a, b), due) in history.iter().zip(due_steps(&list, &history)) {
            let ticks = u32::from(a) * A + u32::from(b) * B;
            let (right, wrong) = if due {
                (ticks | C, ticks)
            } else {
                (ticks, ticks | C)
            };
            let answer = step(&records, 3, 3, &mut configuration, wrong);
            assert_eq!(answer, StepAnswer::Violated(1), "{list:?} {history:?}");
            let answer = step(&records, 3, 3, &mut configuration, right);
            assert_eq!(answer, StepAnswer::Accepted, "{list:?} {history:?}");
            ticks_of_c += u32::from(due);
        }
        // The numbers used are the ticks of a, as long as the list lasts; what is
        // pending says when c ticks if b ticks on.
        let a_ticks = history.iter().filter(|(a, _)| *a).count() as u64;
        assert_eq!(configuration[0][1], a_ticks.min(length) as i64);
        let longer: Vec<(bool, bool)> = history.into_iter().chain([(false, true); 32]).collect();
        let tail = &due_steps(&list, &longer)[60..];
        let worth = |(place, _)| 2i64.pow(place);
        let pending = (0..).zip(tail).filter(|(_, due)| **due).map(worth).sum();
        assert_eq!(configuration[0][0], pending, "{list:?} {longer:?}");
    }
    assert!(ticks_of_c > 3000, "{ticks_of_c}");
}

/// Random lists behind `for`: the answer is that of reading each word as a number
/// by hand.
#[test]
fn random_lists_are_read_or_refused_as_their_words_say() {
    let mut numbers = Numbers(1051);
    let words = [
        "1",
        "2",
        "32",
        "007",
        "0",
        "33",
        "x",
        "for",
        "2,3",
        "99999999999999999999",
        "(",
        ")",
    ];
    let mut seen = [0; 4];
    for _ in 0..5000 {
        // Mostly numbers in range.
        let chosen: Vec<&str> = (0..numbers.below(11))
            .map(|_| match numbers.below(10) {
                0 => numbers.pick(&words),
                _ => numbers.pick(&words[..4]),
            })
            .collect();
        let list = chosen.join(" ");
        // A lone parenthesis has no partner, and two have nothing that fits.
        let mut open = 0;
        let mut paired = true;
        for word in &chosen {
            match *word {
                "(" => open += 1,
                ")" => open -= 1,
                _ => {}
            }
            paired &= open >= 0;
        }
        let digits = |word: &&str| word.bytes().all(|byte| byte.is_ascii_digit());
        let values: Vec<u8> = chosen
            .iter()
            .map(|word| word.parse().unwrap_or(0))
            .collect();
        let in_range = values.iter().all(|value| (1..=32).contains(value));
        let expected = if !paired || open != 0 {
            seen[0] += 1;
            Err(refusal(20, 1))
        } else if !chosen.iter().all(digits) {
            seen[1] += 1;
            Err(refusal(12, 1))
        } else if !in_range || values.is_empty() || values.len() > 8 {
            seen[2] += 1;
            Err(refusal(22, 1))
        } else {
            seen[3] += 1;
            Ok(delays(&values))
        };
        assert_eq!(list_of(&list), expected, "{list}");
    }
    assert!(seen.into_iter().all(|count| count > 100), "{seen:?}");
}

/// Any pair and any list, whatever 59 and 60 would say: nothing panics, and
/// neither a failing set nor the empty one moves anything.
#[test]
fn any_pair_and_any_list_make_no_call_panic() {
    let mut numbers = Numbers(1052);
    for _ in 0..30_000 {
        let mut word = || {
            let any = (numbers.next() << 33 ^ numbers.next() << 11 ^ numbers.next()) as i64;
            match numbers.below(8) {
                0 => any,
                1 => any.wrapping_neg(),
                2 => any & MOST,
                3 => numbers.pick(&[i64::MIN, i64::MAX, -1, MOST, MOST + 1]),
                4 => 1i64.wrapping_shl(numbers.below(64) as u32),
                _ => numbers.below(10) as i64,
            }
        };
        let (one, other) = ([word(), word()], [word(), word()]);
        let length = numbers.pick(&[0, 1, 2, 3, 8, 9, 1 << 32, u64::MAX]);
        let record = Record {
            delays: Delays {
                numbers: [(); 8].map(|()| numbers.pick(&[0, 1, 2, 31, 32, 33, 64, 65, 128, 255])),
                length,
            },
            ..record(Kind::Deferred)
        };
        assert_eq!(judge(&record, one, 0), (true, one));
        for ticks in 0..8 {
            let (holds, after) = judge(&record, one, ticks);
            assert!(holds || after == one);
            let given = pairs(&[one]);
            let (answer, after) = stepped(&[record], 3, given, ticks);
            assert!(answer == StepAnswer::Accepted || after == given);
        }
        let found = told_apart(&record, 3, 3, one, other, 3);
        assert!(found.is_none_or(|sets| (1..=3).contains(&sets.len())));
        same_place(&[record], 3, 3, &pairs(&[one]), &pairs(&[other]));
        assert_eq!(start_word(&record), [0, 0]);
    }
}
