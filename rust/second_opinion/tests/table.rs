//! Table text: readings 1 to 9, and the forms.

mod common;

use common::*;
use second_opinion::*;

fn read_record(line: &str) -> Record {
    table(line).records[0]
}

#[test]
fn every_relation_is_read_with_a_before_b() {
    for (line, kind) in [
        ("x = y", Kind::Coincides),
        ("x # y", Kind::Excludes),
        ("x isSubClockOf y", Kind::SubClock),
        ("x strictly precedes y", Kind::StrictlyPrecedes),
        ("x precedes y", Kind::Precedes),
    ] {
        let read = read_record(line);
        assert_eq!((read.kind, read.first, read.second), (kind, 0, 1), "{line}");
        assert_eq!(table(line).names, ["x", "y"]);
        assert_eq!(start_word(&read), [0, 0]);
    }
}

#[test]
fn reading_6_every_definition_is_read_with_c_before_a_before_b() {
    for (line, kind, start) in [
        ("x clockDef y clockUnion z", Kind::Union, 0),
        ("x clockDef y clockInter z", Kind::Inter, 0),
        ("x clockDef y lub z", Kind::Lub, 0),
        ("x clockDef y glb z", Kind::Glb, 0),
        ("x clockDef y strictly sampled z", Kind::StrictlySampled, 2),
        ("x clockDef y sampled z", Kind::Sampled, 2),
        ("x clockDef y upto z", Kind::Upto, 1),
    ] {
        let read = read_record(line);
        assert_eq!(read.kind, kind, "{line}");
        assert_eq!((read.defined, read.first, read.second), (0, 1, 2), "{line}");
        assert_eq!(table(line).names, ["x", "y", "z"]);
        assert_eq!(start_word(&read), [start, 0]);
    }
    let read = read_record("x clockDef await 12 y");
    assert_eq!(read.kind, Kind::Await);
    assert_eq!((read.defined, read.first, read.number), (0, 1, 12));
    assert_eq!(start_word(&read), [12, 0]);
}

#[test]
fn clocks_are_numbered_at_first_appearance_over_all_lines() {
    let read = table("b precedes a\nc clockDef a lub d\nd # b");
    assert_eq!(read.names, ["b", "a", "c", "d"]);
    let lub = read.records[1];
    assert_eq!((lub.defined, lub.first, lub.second), (2, 1, 3));
    let exclusion = read.records[2];
    assert_eq!((exclusion.first, exclusion.second), (3, 0));
}

#[test]
fn spaces_and_blank_lines_mean_nothing_and_blank_lines_count() {
    let read = table("\n   \n  a   precedes    b   \n\nc # d");
    let lines: Vec<u64> = read.records.iter().map(|record| record.line).collect();
    assert_eq!(lines, [3, 5]);
}

#[test]
fn a_final_newline_is_optional() {
    assert_eq!(table("a # b\n"), table("a # b"));
    assert_eq!(table(""), table("\n"));
}

#[test]
fn a_table_of_4_096_bytes_is_read_and_one_of_4_097_is_10() {
    assert_eq!(table(" ".repeat(4096)).records.len(), 0);
    assert_eq!(table_refusal(" ".repeat(4097)), (10, 0));
    // 10 goes before every line.
    assert_eq!(table_refusal("\t".repeat(4097)), (10, 0));
}

#[test]
fn reading_1_lines_are_parted_by_byte_10_alone() {
    assert_eq!(table_refusal("a # b\r\nc # d"), (11, 1));
    assert_eq!(table_refusal("a # b\n\t"), (11, 2));
    assert_eq!(table_refusal("a # b\n  \r"), (11, 2));
    assert_eq!(table_refusal(b"a # b\x7f"), (11, 1));
    assert_eq!(table_refusal(b"a # b\x00"), (11, 1));
    assert_eq!(table_refusal("a # b\nä # b"), (11, 2));
    assert_eq!(table_refusal(b"a # b\n\n\xff"), (11, 3));
}

#[test]
fn reading_2_line_1_goes_before_line_2_and_numbers_in_order() {
    assert_eq!(table_refusal("a # a\n\t"), (15, 1));
    assert_eq!(table_refusal("a ~ b\t"), (11, 1));
    let long = "n2345678901234567";
    assert_eq!(table_refusal(format!("{long} clockDef await 0 a")), (13, 1));
    assert_eq!(table_refusal("a clockDef await 0 a"), (14, 1));
    let twice = "c clockDef await 1 a\nc clockDef c lub d";
    assert_eq!(table_refusal(twice), (15, 2));
}

#[test]
fn reading_2_15_before_16_before_17_before_18() {
    let relations = |clocks: usize| -> String {
        let line = |index| format!("k{} # k{}\n", index, index + 1);
        (0..clocks - 1).map(line).collect()
    };
    // 32 clocks and a definition of k0: the next definition of k0 is 16, also
    // with a new clock; a new clock alone is 17, also as the 65th constraint.
    let full = relations(32) + "k0 clockDef k1 lub k2\n";
    assert_eq!(
        table_refusal(full.clone() + "k0 clockDef new lub k1"),
        (16, 33)
    );
    let rest = 64 - 32;
    let full = full + &"k0 # k1\n".repeat(rest);
    assert_eq!(table_refusal(full.clone() + "k0 # new"), (17, 65));
    assert_eq!(table_refusal(full.clone() + "k0 # k1"), (18, 65));
    assert_eq!(table_refusal(full + "k0 clockDef k1 glb k2"), (16, 65));
}

#[test]
fn reading_3_form_words_are_not_names_and_case_matters() {
    for word in FORM_WORDS {
        assert_eq!(table_refusal(format!("{word} = b")), (12, 1), "{word}");
        assert_eq!(table_refusal(format!("b = {word}")), (12, 1), "{word}");
        let capital = word.to_uppercase();
        assert_eq!(table(format!("{capital} = b")).names, [&capital, "b"]);
    }
    assert_eq!(table_refusal("a Precedes b"), (12, 1));
    assert_eq!(table_refusal("a issubclockof b"), (12, 1));
    assert_eq!(table_refusal("c clockdef a lub b"), (12, 1));
}

#[test]
fn reading_3_the_signs_are_words_of_their_own() {
    for line in [
        "a=b", "a =b", "a= b", "a#b", "a # b c", "a b", "a", "a == b",
    ] {
        assert_eq!(table_refusal(line), (12, 1), "{line}");
    }
}

#[test]
fn shapes_that_fit_no_form() {
    for line in [
        "c clockDef a",
        "c clockDef a lub",
        "c clockDef a lub b lub d",
        "c clockDef a strictly lub b",
        "c clockDef strictly sampled b",
        "c clockDef await a",
        "c clockDef await a 3",
        "c clockDef await x a",
        "c clockDef await 3 a b",
        "c clockDef await -3 a",
        "c clockDef await +3 a",
        "c clockDef await 3x a",
        "c clockDef await lub a",
        "c clockDef await 3 4",
        "a strictly b",
        "a strictly isSubClockOf b",
        "a precedes strictly b",
        "clockDef clockDef a lub b",
        "1a = b",
        "_a = b",
        "a-b = c",
        "a = b.",
    ] {
        assert_eq!(table_refusal(line), (12, 1), "{line}");
    }
    assert_eq!(table("a_1_ = Zz9").names, ["a_1_", "Zz9"]);
}

#[test]
fn reading_4_12_asks_only_the_shape() {
    let long = "n2345678901234567";
    assert_eq!(table_refusal(format!("{long} ~ b")), (12, 1));
    assert_eq!(table_refusal(format!("{long} = b")), (13, 1));
    let digits = "9".repeat(200);
    assert_eq!(
        table_refusal(format!("{long} clockDef await {digits} a")),
        (13, 1)
    );
    assert_eq!(
        table_refusal(format!("{long} clockDef await {digits}x a")),
        (12, 1)
    );
}

#[test]
fn reading_5_the_await_number_is_the_value_of_its_digits() {
    let number = |digits: &str| {
        let line = format!("c clockDef await {digits} a");
        read_table(line.as_bytes()).map(|table| table.records[0].number)
    };
    assert_eq!(number("007"), Ok(7));
    assert_eq!(number(&("0".repeat(100) + "1")), Ok(1));
    assert_eq!(number(&("0".repeat(100) + "1000000")), Ok(1_000_000));
    assert_eq!(number("000"), Err(refusal(14, 1)));
    assert_eq!(number(&"9".repeat(100)), Err(refusal(14, 1)));
    // 2^64 + 5 is not 5.
    assert_eq!(number("18446744073709551621"), Err(refusal(14, 1)));
}

#[test]
fn a_clock_named_twice_in_a_line_is_15() {
    for line in [
        "a = a",
        "a strictly precedes a",
        "a clockDef a lub b",
        "a clockDef b lub a",
        "c clockDef a lub a",
        "a clockDef await 2 a",
    ] {
        assert_eq!(table_refusal(line), (15, 1), "{line}");
    }
}

#[test]
fn reading_7_16_looks_at_earlier_definitions_alone() {
    let circle = "x # y\nx clockDef y lub z\ny clockDef x glb z\nx precedes z";
    assert_eq!(table(circle).records.len(), 4);
    let again = "x clockDef y lub z\n\nx clockDef await 3 y";
    assert_eq!(table_refusal(again), (16, 3));
}

#[test]
fn reading_8_17_asks_whether_the_line_would_bring_more_than_32() {
    let line = |index: usize| format!("k{} # k{}\n", 2 * index, 2 * index + 1);
    let even: String = (0..15).map(line).collect();
    assert_eq!(table(even.clone() + "x # y").names.len(), 32);
    assert_eq!(table_refusal(even.clone() + "x clockDef y lub z"), (17, 16));
    assert_eq!(table(even + "x clockDef y lub k0\nx # y").names.len(), 32);
}

#[test]
fn reading_8_blank_lines_are_no_constraints() {
    let text = "\n".repeat(100) + &"a # b\n".repeat(64);
    assert_eq!(table(&text).records.len(), 64);
}

#[test]
fn reading_9_a_refused_table_leaves_zero_words_and_0_steps() {
    let report = run_ignoring(b"c clockDef await 5 a\nc = c", b"");
    let expected = Report {
        verdict: Verdict::Refused(refusal(15, 2)),
        steps: 0,
        constraints: 0,
        configuration: [[0, 0]; WORDS],
    };
    assert_eq!(report, expected);
}

#[test]
fn the_table_is_read_before_the_recording() {
    let over = " ".repeat(70_000);
    assert_eq!(verdict("a", over), refused_run(12, 1, 0));
}
