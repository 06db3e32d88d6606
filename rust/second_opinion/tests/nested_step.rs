//! M-101, steps and questions: readings 22 to 32 of document 02.

mod common;

use common::*;
use second_opinion::*;

/// The clocks 0 to 5 in a tick set; which of them are named each test says.
const K: [u32; 6] = [1, 2, 4, 8, 16, 32];

/// A single step on a table, by value.
fn table_step(table: &Table, given: &[i64], ticks: u32) -> (StepAnswer, Configuration) {
    let mut configuration = words(given);
    let Table {
        records,
        named,
        clocks,
        ..
    } = table;
    let answer = step(records, *named, *clocks, &mut configuration, ticks);
    (answer, configuration)
}

fn accepted(after: &[i64]) -> (StepAnswer, Configuration) {
    (StepAnswer::Accepted, words(after))
}

/// The 59 of a list, which the step, the same-place question, the start words
/// and the order must give alike.
fn list_refusal(records: &[Record], named: u64, clocks: u64) -> Option<u64> {
    let mut zero = [[0, 0]; WORDS];
    let start = start_words(records, named, clocks);
    let answer = step(records, named, clocks, &mut zero, 0);
    let place = same_place(records, named, clocks, &zero, &zero);
    assert_eq!(order_refusal(records, named, clocks), start.err());
    match (start, answer, place) {
        (Err(start), StepAnswer::Refused(answer), SamePlace::Refused(place)) => {
            assert_eq!((start, answer), (place, place));
            assert_eq!(start.number, 59);
            Some(start.place)
        }
        (Ok(_), StepAnswer::Accepted, SamePlace::Same) => None,
        answers => panic!("the three calls differ: {answers:?}"),
    }
}

/// `a lub b`, defining c.
fn lub(c: u64, a: u64, b: u64) -> Record {
    definition(Kind::Lub, c, a, b, 1)
}

fn excludes(a: u64, b: u64) -> Record {
    relation(Kind::Excludes, a, b, 1)
}

#[test]
fn the_requests_own_line_step_by_step() {
    // a to d are 0 to 3; the words are those of union, upto and precedes.
    let taught = table("((a clockUnion b) upto c) precedes d");
    let [a, b, c, d, ..] = K;
    let step = |given: &[i64], ticks| table_step(&taught, given, ticks);
    assert_eq!(step(&[0, 1, 0], a), accepted(&[0, 1, 1]));
    assert_eq!(step(&[0, 1, 1], b), accepted(&[0, 1, 2]));
    assert_eq!(step(&[0, 1, 2], a | b), accepted(&[0, 1, 3]));
    assert_eq!(step(&[0, 1, 3], a | d), accepted(&[0, 1, 3]));
    assert_eq!(step(&[0, 1, 3], b | c | d), accepted(&[0, 0, 2]));
    assert_eq!(step(&[0, 0, 2], a | b), accepted(&[0, 0, 2]));
    assert_eq!(step(&[0, 0, 1], a | d), accepted(&[0, 0, 0]));
    // precedes lets d tick beside the implicit clock, but not by itself, and
    // not beside a that c has cut off.
    assert_eq!(step(&[0, 1, 0], b | d), accepted(&[0, 1, 0]));
    let violated = |given: &[i64]| (StepAnswer::Violated(3), words(given));
    assert_eq!(step(&[0, 1, 0], d), violated(&[0, 1, 0]));
    assert_eq!(step(&[0, 1, 0], a | c | d), violated(&[0, 1, 0]));
    assert_eq!(step(&[0, 0, 0], a | d), violated(&[0, 0, 0]));
}

#[test]
fn reading_22_every_form_works_out_its_tick() {
    // x tells whether the implicit clock ticks: `x` is 0, a 1 and b 2.
    let [x, a, b, ..] = K;
    let all = [0, a, b, a | b];
    for (right_side, word, due, after) in [
        ("a clockUnion b", 0, [0, x, x, x], [0, 0, 0, 0]),
        ("a clockInter b", 0, [0, 0, 0, x], [0, 0, 0, 0]),
        ("a lub b", 0, [0, 0, 0, x], [0, 1, -1, 0]),
        ("a lub b", 3, [0, 0, x, x], [3, 4, 2, 3]),
        ("a lub b", -3, [0, x, 0, x], [-3, -2, -4, -3]),
        ("a glb b", 0, [0, x, x, x], [0, 1, -1, 0]),
        ("a glb b", 3, [0, x, 0, x], [3, 4, 2, 3]),
        ("a glb b", -3, [0, 0, x, x], [-3, -2, -4, -3]),
        ("a strictly sampled b", 2, [0, 0, 0, 0], [2, 1, 2, 1]),
        ("a strictly sampled b", 1, [0, 0, x, x], [1, 1, 0, 0]),
        ("a strictly sampled b", 0, [0, 0, 0, 0], [0, 0, 0, 0]),
        ("a sampled b", 2, [0, 0, 0, x], [2, 1, 2, 0]),
        ("a sampled b", 1, [0, 0, x, x], [1, 1, 0, 0]),
        ("a sampled b", 0, [0, 0, 0, 0], [0, 0, 0, 0]),
        ("a upto b", 1, [0, x, 0, 0], [1, 1, 0, 0]),
        ("a upto b", 0, [0, 0, 0, 0], [0, 0, 0, 0]),
    ] {
        let table = table(format!("x = ({right_side})"));
        for ((ticks, due), after) in all.into_iter().zip(due).zip(after) {
            let context = format!("{right_side} {word} {ticks}");
            let right = table_step(&table, &[word], ticks | due);
            assert_eq!(right, accepted(&[after]), "{context}");
            // The relation fails otherwise, and never the implicit definition.
            let wrong = table_step(&table, &[word], (ticks | x) & !due);
            let expected = (StepAnswer::Violated(2), words(&[word]));
            assert_eq!(wrong, expected, "{context}");
        }
    }
    let awaiting = table("x = (await 3 a)");
    let [x, a, ..] = K;
    for (word, ticks, after) in [(3, a, 2), (2, a, 1), (1, a | x, 0), (0, a, 0), (1, 0, 1)] {
        let answer = table_step(&awaiting, &[word], ticks);
        assert_eq!(answer, accepted(&[after]), "{word}");
    }
    let early = table_step(&awaiting, &[2], a | x);
    assert_eq!(early, (StepAnswer::Violated(2), words(&[2])));
    let late = table_step(&awaiting, &[1], a);
    assert_eq!(late, (StepAnswer::Violated(2), words(&[1])));
}

#[test]
fn reading_22_implicit_ticks_come_in_record_order() {
    // In a chain: 2 rests on a, 3 on 2 and 4 on 3; x must tick with 4.
    let chain = table("x = (await 1 (await 2 (await 1 a)))");
    let [x, a, ..] = K;
    assert_eq!(table_step(&chain, &[1, 1, 1], x | a), accepted(&[0, 0, 0]));
    assert_eq!(table_step(&chain, &[1, 2, 1], a), accepted(&[0, 1, 1]));
    assert_eq!(table_step(&chain, &[0, 1, 1], a), accepted(&[0, 1, 1]));
    // Both sides of a relation: u rests on a and b, v on c and d.
    let sides = table("(a clockInter b) strictly precedes (c clockUnion d)");
    let [a, b, c, d, ..] = K;
    assert_eq!(table_step(&sides, &[0, 0, 0], a | b), accepted(&[0, 0, 1]));
    assert_eq!(table_step(&sides, &[0, 0, 1], d), accepted(&[0, 0, 0]));
    let answer = table_step(&sides, &[0, 0, 0], a | b | c);
    assert_eq!(answer, (StepAnswer::Violated(3), words(&[0, 0, 0])));
}

#[test]
fn reading_22_with_the_words_from_before_the_step() {
    // The inner clock's tick takes its own word to 0, and the word of the same
    // expression above from 1 to 0: a moved word would make neither tick.
    let twice = table("x = (await 1 a)\ny = (await 1 a)");
    let [x, a, y, ..] = K;
    let answer = table_step(&twice, &[1, 0, 1, 0], x | a | y);
    assert_eq!(answer, accepted(&[0, 0, 0, 0]));
    // At 2 strict sampling is not armed yet, though a arms it in this step.
    let sampled = table("x = (a strictly sampled b)");
    let [x, a, b, ..] = K;
    assert_eq!(table_step(&sampled, &[2, 0], a | b), accepted(&[1, 0]));
    let answer = table_step(&sampled, &[2, 0], a | b | x);
    assert_eq!(answer, (StepAnswer::Violated(2), words(&[2, 0])));
    // lub over an implicit clock that ticks: {a, b} at 1 is due on b alone.
    let lub = table("x = ((await 1 a) lub b)");
    let [x, a, b, ..] = K;
    assert_eq!(
        table_step(&lub, &[1, 1, 0], a | b | x),
        accepted(&[0, 1, 0])
    );
    assert_eq!(table_step(&lub, &[1, 0, 0], a), accepted(&[0, 1, 0]));
    assert_eq!(table_step(&lub, &[0, 1, 0], b | x), accepted(&[0, 0, 0]));
}

#[test]
fn reading_22_a_violation_names_a_line_by_its_own_constraint() {
    // {b}, {a} ticks the lub, so c is due by line 3; line 4 then forbids it.
    let text = "a # b\n\nc clockDef (a lub b) upto d\n(a lub b) # c";
    let header = format!("$var event 1 & d $end {HEADER}");
    let verdict = |body: &str| verdict(text, format!("{header}{body}"));
    let violated = |line, time, steps| (Verdict::Violated { line, time }, steps);
    assert_eq!(verdict("#1 1\" #5 1!"), violated(3, 5, 1));
    assert_eq!(verdict("#1 1\" #5 1! 1%"), violated(4, 5, 1));
    assert_eq!(verdict("#1 1\" #5 1! 1\""), violated(1, 5, 1));
    assert_eq!(verdict("#1 1\" #5 1! 1&"), (Verdict::Accepted, 2));
}

#[test]
fn reading_23_a_named_clocks_tick_is_the_tick_sets() {
    // b is 0, d 1, e 2, a 3; the union is 4. Records: union, =, await.
    let table = table("(b clockUnion d) = e\nb clockDef await 1 a");
    let [b, d, e, a, ..] = K;
    let answer = |ticks| table_step(&table, &[0, 0, 1], ticks);
    let violated = |record| (StepAnswer::Violated(record), words(&[0, 0, 1]));
    // b is due and not there: its own definition fails, the union has no tick.
    assert_eq!(answer(a), violated(3));
    assert_eq!(answer(a | e), violated(2));
    // b is there and not due: the union ticks with it.
    assert_eq!(answer(b), violated(2));
    assert_eq!(answer(b | e), violated(3));
    assert_eq!(answer(a | b | e), accepted(&[0, 0, 0]));
    assert_eq!(answer(d | e), accepted(&[0, 0, 1]));
}

#[test]
fn reading_24_51_concerns_implicit_lub_and_glb() {
    // a, b and c are 0 to 2; records: precedes, the implicit clock, #.
    let [a, b, c, ..] = K;
    for (name, word, ticks) in [
        ("lub", MILLION, a),
        ("glb", MILLION, a),
        ("lub", -MILLION, b),
        ("glb", -MILLION, b),
    ] {
        let table = table(format!("a precedes b\n(a {name} b) # c"));
        let given = [5, word, 0];
        let answer = table_step(&table, &given, ticks);
        assert_eq!(answer, (refused(51, 2), words(&given)), "{name}");
        // Both together leave the word where it is.
        let answer = table_step(&table, &given, a | b);
        assert_eq!(answer, accepted(&given), "{name}");
        // Back towards 0.
        let after = [5 + if ticks == a { -1 } else { 1 }, word - word.signum(), 0];
        let answer = table_step(&table, &given, (a | b) & !ticks);
        assert_eq!(answer, accepted(&after), "{name}");
        // A violation comes before 51: glb ticks, with c.
        let violated = (StepAnswer::Violated(3), words(&given));
        if name == "glb" {
            assert_eq!(table_step(&table, &given, ticks | c), violated);
        }
        // The lowest record is named.
        if word == MILLION {
            let full = [MILLION, word, 0];
            let answer = table_step(&table, &full, a);
            assert_eq!(answer, (refused(51, 1), words(&full)));
        }
    }
}

#[test]
fn reading_25_the_empty_set_holds_everywhere_and_moves_nothing() {
    let right_sides = [
        "a clockUnion b",
        "a clockInter b",
        "a lub b",
        "a glb b",
        "a strictly sampled b",
        "a sampled b",
        "a upto b",
        "await 2 a",
    ];
    for right_side in right_sides {
        for relation in ["=", "#", "isSubClockOf", "precedes", "strictly precedes"] {
            let table = table(format!("({right_side}) {relation} (await 1 (c upto d))"));
            let words: &[i64] = match right_side {
                "a lub b" | "a glb b" => &[-1, 0, 1, MILLION, -MILLION],
                "a strictly sampled b" | "a sampled b" | "await 2 a" => &[0, 1, 2],
                "a upto b" => &[0, 1],
                _ => &[0],
            };
            for &word in words {
                for (upto, awaiting) in [(0, 0), (0, 1), (1, 0), (1, 1)] {
                    let given = [word, upto, awaiting, 0];
                    assert_eq!(table_step(&table, &given, 0), accepted(&given));
                }
            }
        }
    }
}

#[test]
fn reading_26_61_counts_the_named_clocks() {
    let table = table("((a clockUnion b) upto c) precedes d");
    assert_eq!((table.named, table.clocks), (4, 6));
    let given = [0, 1, 1];
    let answer = |ticks| table_step(&table, &given, ticks).0;
    let [a, _, _, d, union, upto] = K;
    assert_eq!(answer(d), StepAnswer::Accepted);
    assert_eq!(answer(union), refused(61, 0));
    assert_eq!(answer(upto), refused(61, 0));
    assert_eq!(answer(a | union | upto), refused(61, 0));
    assert_eq!(answer(1 << 6), refused(61, 0));
    assert_eq!(answer(1 << 31), refused(61, 0));
    // 60 before 61, and 61 before any judging.
    let bad = table_step(&table, &[0, 2, 1], union).0;
    assert_eq!(bad, refused(60, 2));
    let early = table_step(&table, &[0, 1, 0], d | upto).0;
    assert_eq!(early, refused(61, 0));
    // With no clock named each bit is 61.
    let mut zero = words(&[]);
    assert_eq!(step(&[], 0, 32, &mut zero, 1), refused(61, 0));
    assert_eq!(step(&[], 0, 32, &mut zero, 0), StepAnswer::Accepted);
    let most = u32::MAX >> 1;
    assert_eq!(step(&[], 31, 32, &mut zero, most), StepAnswer::Accepted);
    assert_eq!(step(&[], 31, 32, &mut zero, u32::MAX), refused(61, 0));
}

#[test]
fn reading_27_a_named_count_above_the_clock_count_is_59_place_0() {
    assert_eq!(list_refusal(&[], 0, 0), None);
    assert_eq!(list_refusal(&[], 1, 0), Some(0));
    assert_eq!(list_refusal(&[], 32, 32), None);
    assert_eq!(list_refusal(&[], 33, 32), Some(0));
    assert_eq!(list_refusal(&[], u64::MAX, 3), Some(0));
    assert_eq!(list_refusal(&[], 33, 33), Some(0));
    assert_eq!(list_refusal(&[], 0, 33), Some(0));
    // Place 0 is the lowest of all.
    assert_eq!(list_refusal(&[excludes(0, 9)], 4, 3), Some(0));
    assert_eq!(list_refusal(&[excludes(0, 1); 65], 4, 3), Some(0));
}

#[test]
fn reading_27_an_implicit_clock_used_without_a_definition_above_is_59() {
    // Two named clocks of three.
    assert_eq!(list_refusal(&[excludes(0, 2)], 2, 3), Some(1));
    assert_eq!(list_refusal(&[excludes(2, 0)], 2, 3), Some(1));
    assert_eq!(list_refusal(&[excludes(0, 2)], 3, 3), None);
    assert_eq!(list_refusal(&[lub(2, 0, 1), excludes(0, 2)], 2, 3), None);
    assert_eq!(list_refusal(&[lub(2, 0, 1), excludes(2, 1)], 2, 3), None);
    // The place is that of the record that uses it, the lowest of them.
    let records = [excludes(0, 1), lub(2, 0, 1), excludes(3, 2), excludes(0, 3)];
    assert_eq!(list_refusal(&records, 2, 4), Some(3));
    assert_eq!(list_refusal(&records[..2], 2, 4), None);
    // As an operand of every form, on either side.
    for kind in KINDS.into_iter().skip(1) {
        let used = definition(kind, 0, 3, 1, 1);
        let used = Record {
            number: 5,
            delays: delays(&[2]),
            ..used
        };
        assert_eq!(list_refusal(&[used], 3, 4), Some(1), "{kind:?}");
        let second = Record {
            first: 2,
            second: 3,
            ..used
        };
        let expected = (kind != Kind::Await).then_some(1);
        assert_eq!(list_refusal(&[second], 3, 4), expected, "{kind:?}");
        // A definition above mends both.
        for record in [used, second] {
            let mended = [lub(3, 0, 1), record];
            assert_eq!(list_refusal(&mended, 3, 4), None, "{kind:?}");
        }
    }
    // A relation that has the clock in its free field c defines nothing.
    let relation = Record {
        defined: 2,
        ..excludes(0, 1)
    };
    assert_eq!(list_refusal(&[relation, excludes(0, 2)], 2, 3), Some(2));
    let empty = Record {
        kind: Kind::Empty,
        ..relation
    };
    assert_eq!(list_refusal(&[empty, excludes(0, 2)], 2, 3), Some(2));
}

#[test]
fn reading_28_used_is_being_an_operand() {
    // The defined clock of the record itself is not used by it.
    assert_eq!(list_refusal(&[lub(2, 0, 1)], 2, 3), None);
    // Await's b, and all of an empty record.
    let awaiting = Record {
        second: 3,
        ..await_definition(2, 5, 0, 1)
    };
    assert_eq!(list_refusal(&[awaiting], 2, 4), None);
    assert_eq!(list_refusal(&[awaiting], 2, 3), None);
    let empty = Record {
        kind: Kind::Empty,
        ..lub(5, 4, 3)
    };
    assert_eq!(list_refusal(&[empty], 2, 6), None);
    assert_eq!(list_refusal(&[empty], 2, 2), None);
    // A relation's c is not named by it at all.
    let relation = Record {
        defined: 3,
        ..excludes(0, 1)
    };
    assert_eq!(list_refusal(&[relation], 2, 4), None);
    // Await's a is used.
    assert_eq!(list_refusal(&[await_definition(2, 5, 3, 1)], 2, 4), Some(1));
}

#[test]
fn reading_29_above_is_an_earlier_record() {
    let use_first = [excludes(0, 2), lub(2, 0, 1)];
    assert_eq!(list_refusal(&use_first, 2, 3), Some(1));
    // Two that rest on each other.
    let circle = [lub(2, 0, 3), lub(3, 1, 2)];
    assert_eq!(list_refusal(&circle, 2, 4), Some(1));
    // In the same record it is a clock twice as well.
    assert_eq!(list_refusal(&[lub(2, 0, 2)], 2, 3), Some(1));
    // Not straight above, but above.
    let far = [lub(2, 0, 1), excludes(0, 1), excludes(2, 0)];
    assert_eq!(list_refusal(&far, 2, 3), None);
    // A 65th record helps nothing.
    let mut many = [excludes(0, 1); 65];
    many[63] = excludes(0, 2);
    many[64] = lub(2, 0, 1);
    assert_eq!(list_refusal(&many, 2, 3), Some(64));
}

#[test]
fn reading_30_implicit_clocks_may_be_neither_defined_nor_used() {
    assert_eq!(list_refusal(&[excludes(0, 1)], 2, 32), None);
    assert_eq!(list_refusal(&[], 0, 32), None);
    // Defined and never used.
    assert_eq!(list_refusal(&[lub(7, 0, 1), excludes(0, 1)], 2, 8), None);
    // A clock defined twice stays 59, an implicit one too.
    assert_eq!(list_refusal(&[lub(7, 0, 1), lub(7, 0, 1)], 2, 8), Some(2));
    // One that is never used still has its word.
    let mut configuration = words(&[0]);
    let answer = step(&[lub(7, 0, 1)], 2, 8, &mut configuration, 1);
    assert_eq!((answer, configuration), accepted(&[1]));
}

#[test]
fn reading_31_59_asks_the_order_of_implicit_clocks_alone() {
    // 0 to 2 are named; 5 is defined before 4 before 3, each on the last one.
    let records = [
        definition(Kind::Union, 5, 0, 1, 1),
        definition(Kind::Inter, 4, 5, 2, 1),
        await_definition(3, 1, 4, 1),
        relation(Kind::Coincides, 3, 0, 1),
    ];
    assert_eq!(list_refusal(&records[..2], 3, 6), None);
    assert_eq!(start_words(&records, 3, 6), Ok(words(&[0, 0, 1, 0])));
    let ask = |ticks| {
        let mut configuration = words(&[0, 0, 1, 0]);
        let answer = step(&records, 3, 6, &mut configuration, ticks);
        (answer, configuration)
    };
    let [a, b, c, ..] = K;
    assert_eq!(ask(a | c), accepted(&[0, 0, 0, 0]));
    let violated = (StepAnswer::Violated(4), words(&[0, 0, 1, 0]));
    assert_eq!(ask(b | c), violated);
    assert_eq!(ask(a), violated);
    assert_eq!(ask(b), accepted(&[0, 0, 1, 0]));
    // Named clocks may be used before they are defined, and in circles, also
    // through an implicit one.
    let late = [excludes(0, 2), lub(2, 0, 1), lub(0, 1, 2)];
    assert_eq!(list_refusal(&late, 3, 3), None);
    let circle = [lub(3, 0, 1), definition(Kind::Upto, 0, 3, 2, 1)];
    assert_eq!(list_refusal(&circle, 3, 4), None);
}

#[test]
fn reading_31_60_and_61_follow_59_on_implicit_records() {
    let records = [lub(3, 0, 1), excludes(3, 2)];
    let ask = |named, word, ticks| {
        let mut configuration = words(&[word]);
        let answer = step(&records, named, 4, &mut configuration, ticks);
        assert_eq!(configuration, words(&[word]));
        answer
    };
    assert_eq!(ask(5, MILLION + 1, 64), refused(59, 0));
    assert_eq!(ask(3, MILLION + 1, 64), refused(60, 1));
    assert_eq!(ask(3, MILLION, 8), refused(61, 0));
    assert_eq!(ask(3, MILLION, 1 | 4), refused(51, 1));
    // Were clock 3 named, its definition would hold: at a million lub is due
    // with b, and b does not tick.
    assert_eq!(ask(4, MILLION, 8), StepAnswer::Violated(1));
}

#[test]
fn reading_32_same_place_is_equality_of_words_over_all_clocks() {
    // a and b never tick together, so the implicit clock never ticks in a run;
    // a continuation sets it freely all the same.
    let table = table("a # b\n(a clockInter b) precedes c\nd = (await 4 (a lub b))");
    let ask = |one: &[i64], other: &[i64]| {
        let (one, other) = (words(one), words(other));
        same_place(&table.records, table.named, table.clocks, &one, &other)
    };
    // #, inter, precedes, lub, await, =.
    let here = [0, 0, 4, -2, 3, 0];
    assert_eq!(ask(&here, &here), SamePlace::Same);
    for (index, word) in [(2, 5), (3, -1), (4, 0)] {
        let mut there = here;
        there[index] = word;
        assert_eq!(ask(&here, &there), SamePlace::Different, "{index}");
        assert_eq!(ask(&there, &here), SamePlace::Different, "{index}");
        let record = &table.records[index];
        let (one, other) = ([here[index], 0], [word, 0]);
        let found = told_apart(record, table.named, table.clocks, one, other, 8);
        assert!(found.is_some(), "{index}");
    }
    // 60 is asked of the implicit records' words too.
    let refused = |place| SamePlace::Refused(refusal(60, place));
    assert_eq!(ask(&here, &[0, 1, 4, -2, 3, 0]), refused(2));
    assert_eq!(ask(&[0, 0, 4, -2, 5, 0], &here), refused(5));
}

#[test]
fn reading_32_continuations_tick_implicit_clocks_by_themselves() {
    // 0 is named; 1 and 2 are not.
    let precedes = relation(Kind::Precedes, 1, 2, 1);
    let implicit_b = vec![4; 3];
    let (two, nine) = ([2, 0], [9, 0]);
    let found = told_apart(&precedes, 1, 3, two, nine, 3);
    assert_eq!(found, Some(implicit_b));
    // The named count changes nothing, the clock count does.
    for named in [0, 1, 2, 3, 9] {
        let found = told_apart(&precedes, named, 3, two, nine, 3);
        assert_eq!(found, Some(vec![4; 3]), "{named}");
        let found = told_apart(&precedes, named, 2, two, nine, 3);
        assert_eq!(found, None, "{named}");
    }
    // lub at 1 and at 2 with all three clocks implicit: {b, c}, then b without
    // c, which fails from 2 alone.
    let found = told_apart(&lub(5, 4, 3), 0, 6, [1, 0], two, 2);
    assert_eq!(found, Some(vec![8 | 32, 8]));
}
