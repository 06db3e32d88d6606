//! The steps of a recording and the refusal at which reading stops, with
//! nothing judged.

mod common;

use common::*;
use second_opinion::*;

/// A table over a, b and c, which are clocks 0, 1 and 2.
const TABLE: &str = "a # b\na # c";

const END: &str = "$enddefinitions $end";

/// A step: its time, the offset of its mark and its tick set.
fn at(time: u64, mark: u64, ticks: u32) -> RecordedStep {
    RecordedStep { time, mark, ticks }
}

/// A reading that came to the end.
fn whole(steps: &[RecordedStep]) -> Reading {
    Reading {
        steps: steps.to_vec(),
        refusal: None,
    }
}

/// A reading that stopped at a refusal.
fn stopped(steps: &[RecordedStep], number: u64, place: usize) -> Reading {
    Reading {
        steps: steps.to_vec(),
        refusal: Some(refusal(number, place)),
    }
}

/// A reading that ignores unknown names.
fn ignoring(table: &str, recording: impl AsRef<[u8]>) -> Reading {
    read_recording(table.as_bytes(), recording.as_ref(), UnknownNames::Ignored)
}

/// A reading that refuses unknown names.
fn refusing(table: &str, recording: impl AsRef<[u8]>) -> Reading {
    read_recording(table.as_bytes(), recording.as_ref(), UnknownNames::Refused)
}

/// A reading of words behind `HEADER` by `TABLE`. Marks and places are counted
/// from the first of these words.
fn body(words: &str) -> Reading {
    let mut reading = ignoring(TABLE, format!("{HEADER}{words}"));
    let header = HEADER.len() as u64;
    for step in &mut reading.steps {
        step.mark -= header;
    }
    if let Some(refusal) = &mut reading.refusal {
        refusal.place -= header;
    }
    reading
}

#[test]
fn the_papers_example_is_read_to_its_end() {
    let table = "req strictly precedes ack\ndone clockDef await 2 ack\n";
    let recording = "$var event 1 ! req $end $var event 1 \" ack $end \
        $var event 1 % done $end $enddefinitions $end \
        #0 1! #3 #5 1\" 1! #8 1\" 1% #9 1! 1\"";
    let expected = whole(&[
        at(0, 94, 0b001),
        at(3, 100, 0b000),
        at(5, 103, 0b011),
        at(8, 112, 0b110),
        at(9, 121, 0b011),
    ]);
    assert_eq!(refusing(table, recording), expected);
    assert_eq!(ignoring(table, recording), expected);
}

#[test]
fn a_recording_without_a_mark_has_no_step() {
    assert_eq!(body(""), whole(&[]));
    assert_eq!(body(" \n\t\r"), whole(&[]));
    assert_eq!(refusing("", END), whole(&[]));
}

#[test]
fn a_mark_without_ticks_is_an_empty_step_wherever_it_stands() {
    let expected = whole(&[at(1, 0, 0), at(2, 3, 1), at(3, 9, 0), at(5, 12, 0)]);
    assert_eq!(body("#1 #2 1! #3 #5"), expected);
    assert_eq!(body("#7"), whole(&[at(7, 0, 0)]));
}

#[test]
fn the_end_closes_the_last_step() {
    let expected = whole(&[at(1, 0, 0b001), at(2, 6, 0b110)]);
    assert_eq!(body("#1 1! #2 1\" 1%"), expected);
    assert_eq!(body("#1 1! #2 1\" 1%\n"), expected);
}

#[test]
fn all_values_of_m_100_tick() {
    for value in VALUES {
        let expected = whole(&[at(1, 0, 0b010)]);
        assert_eq!(body(&format!("#1 {value}\"")), expected, "{value}");
    }
}

#[test]
fn a_tick_has_the_tables_number_and_not_the_headers() {
    let header = "$var event 1 ! c $end $var event 1 \" b $end $var event 1 % a $end";
    let recording = format!("{header} {END} #1 1! #2 1\" #3 1%");
    let expected = whole(&[at(1, 87, 0b100), at(2, 93, 0b010), at(3, 99, 0b001)]);
    assert_eq!(refusing(TABLE, recording), expected);
}

#[test]
fn the_32nd_clock_is_bit_31() {
    let lines = (0..16).map(|pair| format!("a{pair} # b{pair}\n"));
    let table: String = lines.collect();
    let names = (0..16).flat_map(|pair| [format!("a{pair}"), format!("b{pair}")]);
    let variables = names
        .zip(33u8..)
        .map(|(name, id)| format!("$var event 1 {} {name} $end\n", char::from(id)));
    let header: String = variables.collect();
    let recording = format!("{header}{END}\n#1 1@ #2 1! 1@");
    let mark = header.len() as u64 + 21;
    let expected = whole(&[at(1, mark, 1 << 31), at(2, mark + 6, 1 << 31 | 1)]);
    assert_eq!(refusing(&table, recording), expected);
}

#[test]
fn implicit_clocks_are_in_no_tick_set() {
    // a, b, c and d are 0 to 3, the expressions 4 and 5. The first step makes
    // both expressions tick, the last fails.
    let table = "((a clockUnion b) upto c) precedes d";
    let header = format!("{}$var event 1 & d $end {END} ", &HEADER[..66]);
    let recording = format!("{header}#1 1\" #2 1! 1& #3 1% #4 1& #5 1&");
    let expected = whole(&[
        at(1, 109, 0b0010),
        at(2, 115, 0b1001),
        at(3, 124, 0b0100),
        at(4, 130, 0b1000),
        at(5, 136, 0b1000),
    ]);
    assert_eq!(refusing(table, &recording), expected);
    let report = run(
        table.as_bytes(),
        recording.as_bytes(),
        UnknownNames::Refused,
    );
    let violated = Verdict::Violated { line: 1, time: 5 };
    assert_eq!((report.verdict, report.steps), (violated, 4));
}

#[test]
fn steps_behind_a_violated_one_are_read() {
    let words = "#1 1! 1\" #2 1% #3 1! 1%";
    let expected = whole(&[at(1, 0, 0b011), at(2, 9, 0b100), at(3, 15, 0b101)]);
    assert_eq!(body(words), expected);
    let violated = Verdict::Violated { line: 1, time: 1 };
    assert_eq!(verdict(TABLE, format!("{HEADER}{words}")), (violated, 0));
}

#[test]
fn refusals_behind_a_violated_step_are_found() {
    let read = [at(1, 0, 0b011), at(2, 9, 0)];
    for (words, steps, number, place) in [
        ("#1 1! 1\" #", 1, 40, 10),
        ("#1 1! 1\" #1", 1, 41, 9),
        ("#1 1! 1\" #2 x", 1, 40, 12),
        ("#1 1! 1\" #2 1?", 1, 43, 12),
        ("#1 1! 1\" #2 #3 1% 0%", 2, 44, 18),
    ] {
        assert_eq!(body(words), stopped(&read[..steps], number, place));
    }
}

#[test]
fn a_mark_that_is_refused_closes_the_step_before_it() {
    // The mark stands at 6, and its digits from 7 on.
    for (mark, number, place) in [
        ("#", 40, 7),
        ("#x", 40, 7),
        ("##5", 40, 7),
        ("#2x", 40, 8),
        ("#99999999999999999999x", 40, 27),
        ("#18446744073709551616", 41, 26),
        ("#018446744073709551616", 41, 27),
        ("#4", 41, 6),
        ("#0004", 41, 6),
        ("#3", 41, 6),
    ] {
        let expected = stopped(&[at(4, 0, 0b001)], number, place);
        assert_eq!(body(&format!("#4 1! {mark}")), expected, "{mark}");
        assert_eq!(body(&format!("#4 1! {mark} 1! #9")), expected, "{mark}");
    }
}

#[test]
fn a_mark_that_is_refused_first_leaves_no_step() {
    assert_eq!(body("#"), stopped(&[], 40, 1));
    assert_eq!(body("#1! 1!"), stopped(&[], 40, 2));
    assert_eq!(body("#18446744073709551616 #1"), stopped(&[], 41, 20));
}

#[test]
fn a_refused_change_leaves_the_open_step_out() {
    // The change stands at 12, behind a tick of b.
    for (change, number) in [
        ("q!", 40),
        ("1", 40),
        ("!", 40),
        ("$end", 40),
        ("$dumpvars", 40),
        ("b1", 40),
        ("1?", 43),
        ("1abcde", 43),
        ("1\"", 44),
        ("z\"", 44),
    ] {
        let expected = stopped(&[at(4, 0, 0b001)], number, 12);
        assert_eq!(
            body(&format!("#4 1! #5 1\" {change}")),
            expected,
            "{change}"
        );
        let more = format!("#4 1! #5 1\" {change} #6 1!");
        assert_eq!(body(&more), expected, "{change}");
    }
}

#[test]
fn a_change_before_any_mark_leaves_no_step() {
    for (words, number) in [("1! #1", 42), ("x? #1", 42), ("x #1", 40), ("q! #1", 40)] {
        assert_eq!(body(words), stopped(&[], number, 0), "{words}");
    }
}

#[test]
fn a_tick_in_the_next_step_is_no_second_one() {
    let expected = whole(&[at(1, 0, 0b001), at(2, 6, 0b001)]);
    assert_eq!(body("#1 1! #2 1!"), expected);
}

#[test]
fn times_up_to_the_largest_are_read_with_leading_zeros() {
    let largest = "#007 #0018446744073709551615 1!";
    let expected = whole(&[at(7, 0, 0), at(u64::MAX, 5, 0b001)]);
    assert_eq!(body(largest), expected);
}

#[test]
fn a_mark_has_its_offset_whatever_parts_the_words() {
    let expected = whole(&[at(1, 2, 0b001), at(2, 9, 0), at(3, 14, 0b010)]);
    assert_eq!(body("\r\n#1\t\t1!\r#2\n \n#3\t1\"\r\n"), expected);
    let recording = "\n\t$enddefinitions\r\r$end\n#1\r\n#2";
    let expected = whole(&[at(1, 24, 0), at(2, 28, 0)]);
    assert_eq!(refusing("", recording), expected);
}

#[test]
fn a_refusal_before_the_body_leaves_no_step() {
    let variable = "$var event 1 ! a $end";
    let many: String = (0..129)
        .map(|id| format!("$var event 1 {id} x $end "))
        .collect();
    let last = many.len() - "$var event 1 128 x $end ".len();
    for (header, number, place) in [
        ("$dumpvars".to_owned(), 32, 0),
        ("$enddefinitions end".to_owned(), 32, 0),
        (format!("{variable} $var wire 1 \" b $end"), 33, 22),
        (format!("{variable} $var event 1 ! b $end"), 34, 22),
        (format!("{variable} {END}"), 35, 22),
        (many, 37, last),
    ] {
        let recording = format!("{header} #1 1! #2");
        assert_eq!(ignoring(TABLE, recording), stopped(&[], number, place));
    }
    let cut_off = format!("{variable} $comment #1 1! #2");
    assert_eq!(ignoring(TABLE, &cut_off), stopped(&[], 36, 39));
    assert_eq!(ignoring(TABLE, ""), stopped(&[], 36, 0));
}

#[test]
fn a_refusal_of_the_whole_recording_leaves_no_step() {
    let long = format!("{HEADER}#1 1!{}", " ".repeat(65_537 - 87 - 5));
    assert_eq!(ignoring(TABLE, &long), stopped(&[], 30, 0));
    let expected = whole(&[at(1, 87, 0b001)]);
    assert_eq!(ignoring(TABLE, &long[..65_536]), expected);
    let strange = format!("{HEADER}#1 1! #2 \u{b}");
    assert_eq!(ignoring(TABLE, strange), stopped(&[], 31, 96));
}

#[test]
fn the_choice_on_unknown_names_is_that_of_a_run() {
    let recording = format!("$var event 1 ? x $end {HEADER}#1 1? 1! 0? #2 1? #3 1? x!");
    assert_eq!(refusing(TABLE, &recording), stopped(&[], 38, 0));
    let expected = whole(&[at(1, 109, 0b001), at(2, 121, 0), at(3, 127, 0b001)]);
    assert_eq!(ignoring(TABLE, &recording), expected);
    let known = format!("{HEADER}#1 1!");
    assert_eq!(refusing(TABLE, &known), whole(&[at(1, 87, 0b001)]));
    // Every name is unknown to an empty table.
    assert_eq!(refusing("", &known), stopped(&[], 38, 0));
    assert_eq!(ignoring("", &known), whole(&[at(1, 87, 0)]));
}

#[test]
fn a_refused_table_gives_its_refusal_and_no_step() {
    for (table, number, line) in [
        (" ".repeat(4_097).as_str(), 10, 0),
        ("a # b\n\t", 11, 2),
        ("a ~ b", 12, 1),
        ("a # abcdefghijklmnopq", 13, 1),
        ("c clockDef await 0 a", 14, 1),
        ("\na # a", 15, 2),
        ("c clockDef a lub b\nc clockDef a glb b", 16, 2),
        (")((((((((((((((((( a = b", 19, 1),
        ("(a lub b = c", 20, 1),
        ("c clockDef a deferred b for 33", 22, 1),
    ] {
        let expected = stopped(&[], number, line);
        for recording in [format!("{HEADER}#1 1! #2"), "\u{1}".to_owned()] {
            assert_eq!(ignoring(table, &recording), expected, "{table}");
            assert_eq!(refusing(table, &recording), expected, "{table}");
        }
    }
    let clocks: String = (0..17).map(|pair| format!("a{pair} # b{pair}\n")).collect();
    assert_eq!(ignoring(&clocks, HEADER), stopped(&[], 17, 17));
    assert_eq!(
        ignoring(&"a # b\n".repeat(65), HEADER),
        stopped(&[], 18, 65)
    );
}

/// What a run gives, from the steps of its reading judged one by one.
fn judged(table: &Table, reading: &Reading) -> (Verdict, u64) {
    let start = start_words(&table.records, table.named, table.clocks);
    let mut configuration = start.expect("records of a table");
    for (steps, recorded) in (0..).zip(&reading.steps) {
        let Table {
            records,
            named,
            clocks,
            ..
        } = table;
        match step(records, *named, *clocks, &mut configuration, recorded.ticks) {
            StepAnswer::Accepted => {}
            StepAnswer::Violated(record) => {
                let line = records[record as usize - 1].line;
                let time = recorded.time;
                return (Verdict::Violated { line, time }, steps);
            }
            StepAnswer::Refused(refusal) => panic!("{refusal:?}"),
        }
    }
    let verdict = reading.refusal.map_or(Verdict::Accepted, Verdict::Refused);
    (verdict, reading.steps.len() as u64)
}

#[test]
fn a_run_gives_what_the_steps_of_its_reading_give() {
    let mut numbers = Numbers(4);
    let text = "a precedes b\nc clockDef a lub b";
    let table = table(text);
    let mut behind = 0;
    for _ in 0..5000 {
        let mut recording = HEADER.to_owned();
        for time in 1..=numbers.below(8) {
            recording += &format!("#{time} ");
            for change in ["1!", "0\"", "x%"] {
                if numbers.below(2) == 0 {
                    recording += &format!("{change} ");
                }
            }
            if numbers.below(6) == 0 {
                recording += numbers.pick(&["#", "#1 ", "#x ", "1? ", "q ", "1! 1! "]);
            }
        }
        let reading = ignoring(text, &recording);
        let (verdict, steps) = verdict(text, &recording);
        assert_eq!((verdict, steps), judged(&table, &reading), "{recording}");
        behind += u64::from(reading.steps.len() as u64 > steps + 1);
    }
    assert!(behind >= 500, "steps behind a violated one: {behind}");
}
