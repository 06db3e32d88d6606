//! The section "Edges": ten rows, and the list "Run as tests", with `0!` as
//! M-100 has it and the places of times too large as M-106 has them.

mod common;

use common::*;
use second_opinion::*;

/// The row, by `judge` and by `step`. `None` stands for "fails".
fn edge(record: Record, word: i64, ticks: u32, after: Option<i64>) {
    let (answer, expected) = match after {
        Some(after) => (StepAnswer::Accepted, after),
        None => (StepAnswer::Violated(1), word),
    };
    assert_eq!(judged(&record, word, ticks), (after.is_some(), expected));
    let given = words(&[word]);
    assert_eq!(
        stepped(&[record], 3, given, ticks),
        (answer, words(&[expected]))
    );
}

#[test]
fn p1_strict_precedence_at_0_with_a_and_b_fails() {
    edge(record(Kind::StrictlyPrecedes), 0, A | B, None);
}

#[test]
fn p2_precedes_at_0_with_a_and_b_holds_and_stays_0() {
    edge(record(Kind::Precedes), 0, A | B, Some(0));
}

#[test]
fn p3_precedes_at_0_with_b_fails() {
    edge(record(Kind::Precedes), 0, B, None);
}

#[test]
fn p4_lub_at_1_with_b_and_c_holds_and_goes_to_0() {
    edge(record(Kind::Lub), 1, B | C, Some(0));
}

#[test]
fn p5_lub_at_0_with_a_holds_and_goes_to_1() {
    edge(record(Kind::Lub), 0, A, Some(1));
}

#[test]
fn p6_glb_at_0_with_a_and_c_holds_and_goes_to_1() {
    edge(record(Kind::Glb), 0, A | C, Some(1));
}

#[test]
fn p7_await_at_1_with_a_fails() {
    edge(record(Kind::Await), 1, A, None);
}

#[test]
fn p8_strictly_sampled_at_2_with_a_and_b_holds_and_goes_to_1() {
    edge(record(Kind::StrictlySampled), 2, A | B, Some(1));
}

#[test]
fn p9_sampled_at_2_with_all_three_holds_and_goes_to_0() {
    edge(record(Kind::Sampled), 2, A | B | C, Some(0));
}

#[test]
fn p10_upto_at_1_with_a_and_b_holds_and_goes_to_0() {
    edge(record(Kind::Upto), 1, A | B, Some(0));
}

#[test]
fn a_name_of_16_bytes_is_read_and_one_of_17_is_13() {
    let name = "n234567890123456";
    assert_eq!(name.len(), 16);
    assert_eq!(table(format!("{name} = b")).names, [name, "b"]);
    assert_eq!(table_refusal(format!("{name}7 = b")), (13, 1));
    assert_eq!(table_refusal(format!("b = {name}7")), (13, 1));
    assert_eq!(
        table_refusal(format!("{name}7 clockDef await 1 b")),
        (13, 1)
    );
}

#[test]
fn await_0_and_1_000_001_are_14_and_1_and_1_000_000_are_read() {
    assert_eq!(table_refusal("c clockDef await 0 a"), (14, 1));
    assert_eq!(table("c clockDef await 1 a").records[0].number, 1);
    let million = table("c clockDef await 1000000 a").records[0];
    assert_eq!(million.number, 1_000_000);
    assert_eq!(start_word(&million), [MILLION, 0]);
    assert_eq!(table_refusal("c clockDef await 1000001 a"), (14, 1));
}

#[test]
fn await_numbers_of_a_record_made_by_hand() {
    let ask = |number| stepped(&[awaiting(number)], 3, words(&[0]), 0).0;
    assert_eq!(ask(0), refused(59, 1));
    assert_eq!(ask(1), StepAnswer::Accepted);
    assert_eq!(ask(1_000_000), StepAnswer::Accepted);
    assert_eq!(ask(1_000_001), refused(59, 1));
    assert_eq!(ask(u64::MAX), refused(59, 1));
}

/// Relations over `clocks` clocks, one line for each two of them.
fn table_of_clocks(clocks: usize) -> String {
    let line = |index: usize| format!("k{} # k{}\n", index, index + 1);
    (0..clocks - 1).map(line).collect()
}

#[test]
fn a_table_of_32_clocks_is_read_and_one_of_33_is_17() {
    let read = table(table_of_clocks(32));
    assert_eq!(read.names.len(), 32);
    assert_eq!(read.names[31], "k31");
    assert_eq!(read.records[30].second, 31);
    assert_eq!(table_refusal(table_of_clocks(33)), (17, 32));
}

#[test]
fn a_clock_count_of_32_is_judged_and_one_of_33_is_59() {
    let last = Record {
        second: 31,
        ..record(Kind::SubClock)
    };
    let ask = |clocks, ticks| stepped(&[last], clocks, words(&[]), ticks).0;
    assert_eq!(ask(32, 1 | 1 << 31), StepAnswer::Accepted);
    assert_eq!(ask(32, 1), StepAnswer::Violated(1));
    assert_eq!(ask(33, 1), refused(59, 0));
    assert_eq!(ask(u64::MAX, 1), refused(59, 0));
}

#[test]
fn a_table_of_64_constraints_is_read_and_one_of_65_is_18() {
    assert_eq!(table("a # b\n".repeat(64)).records.len(), 64);
    assert_eq!(table_refusal("a # b\n".repeat(65)), (18, 65));
    let spread = "a # b\n\n".repeat(64);
    assert_eq!(table(&spread).records[63].line, 127);
    assert_eq!(table_refusal(spread + " \na # b"), (18, 130));
}

#[test]
fn a_list_of_64_records_is_judged_and_one_of_65_is_59() {
    let many = [record(Kind::Excludes); 65];
    let ask = |count: usize| stepped(&many[..count], 3, words(&[]), A).0;
    assert_eq!(ask(64), StepAnswer::Accepted);
    assert_eq!(ask(65), refused(59, 65));
}

#[test]
fn a_time_of_2_to_the_64_less_1_is_read_and_2_to_the_64_is_41() {
    let most = format!("{HEADER}#18446744073709551615 1! 1\"");
    let violated = Verdict::Violated {
        line: 1,
        time: u64::MAX,
    };
    assert_eq!(verdict("a # b", most), (violated, 0));
    // At its twentieth digit (M-106).
    let over = format!("{HEADER}#18446744073709551616");
    let expected = refused_run(41, HEADER.len() + 20, 0);
    assert_eq!(verdict("a # b", over), expected);
}

#[test]
fn times_with_and_without_a_last_digit_about_that_of_2_to_the_64() {
    let zeros = "0".repeat(21);
    let read = [
        ("18446744073709551609", 18446744073709551609),
        ("18446744073709551610", 18446744073709551610),
        ("1844674407370955161", 1844674407370955161),
        ("1844674407370955162", 1844674407370955162),
        ("9999999999999999999", 9999999999999999999),
    ];
    for (digits, time) in read {
        let violated = Verdict::Violated { line: 1, time };
        for digits in [digits.to_string(), zeros.clone() + digits] {
            let recording = format!("{HEADER}#{digits} 1! 1\"");
            assert_eq!(verdict("a # b", recording), (violated, 0));
        }
    }
    // Each with the number of its digit that is too much (M-106).
    let too_large = [
        ("18446744073709551619", 20),
        ("18446744073709551620", 20),
        ("20000000000000000000", 20),
        ("100000000000000000000", 21),
    ];
    for (digits, digit) in too_large {
        for zeros in ["", &zeros] {
            let recording = format!("{HEADER}#{zeros}{digits} 1! 1\"");
            let expected = refused_run(41, HEADER.len() + zeros.len() + digit, 0);
            assert_eq!(verdict("a # b", recording), expected, "{zeros}{digits}");
        }
    }
}

#[test]
fn equal_times_are_41() {
    let recording = format!("{HEADER}#5 #5");
    assert_eq!(
        verdict("a # b", recording),
        refused_run(41, HEADER.len() + 3, 1)
    );
}

#[test]
fn precedence_at_1_000_000_with_a_is_51_and_with_a_and_b_holds_unchanged() {
    for kind in [Kind::StrictlyPrecedes, Kind::Precedes] {
        let full = words(&[MILLION]);
        let ask = |ticks| stepped(&[record(kind)], 3, full, ticks);
        assert_eq!(ask(A), (refused(51, 1), full));
        assert_eq!(ask(A | B), (StepAnswer::Accepted, full));
        assert_eq!(ask(B), (StepAnswer::Accepted, words(&[MILLION - 1])));
    }
}

#[test]
fn m_100_zero_and_an_id_in_a_step_is_a_tick() {
    let recording = format!("{HEADER}#0 1! 0\" #1 0!");
    let violated = Verdict::Violated { line: 1, time: 0 };
    assert_eq!(verdict("a # b", recording), (violated, 0));
    let report = run_ignoring(b"a precedes b", format!("{HEADER}#0 0! #1 0!").as_bytes());
    assert_eq!((report.verdict, report.steps), (Verdict::Accepted, 2));
    assert_eq!(report.configuration, words(&[2]));
}

#[test]
fn a_recording_with_no_mark_is_accepted_with_0_steps() {
    let report = run_ignoring(b"c clockDef await 3 a", HEADER.as_bytes());
    assert_eq!(report.verdict, Verdict::Accepted);
    assert_eq!(report.steps, 0);
    assert_eq!(report.configuration, words(&[3]));
}
