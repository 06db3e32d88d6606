//! The recording: readings 21 to 36, M-100's readings 1 to 6, with which 34
//! fell, and M-106's readings 60 to 64, the places of 40 and 41. Names that the
//! table lacks are ignored; `unknown_names` has the other choice.

mod common;

use common::*;
use second_opinion::*;

/// A table over a, b and c that every step without both a and b satisfies.
const TABLE: &str = "a # b\na # c";

const ACCEPTED: Verdict = Verdict::Accepted;

/// A run of `TABLE` over words behind `HEADER`. Refusals are placed from the
/// first of these words.
fn body(words: &str) -> (Verdict, u64) {
    let (verdict, steps) = verdict(TABLE, format!("{HEADER}{words}"));
    match verdict {
        Verdict::Refused(refusal) => {
            let place = refusal.place - HEADER.len() as u64;
            (Verdict::Refused(Refusal { place, ..refusal }), steps)
        }
        other => (other, steps),
    }
}

/// A run of an empty table, which no header can leave undeclared.
fn bare(recording: &str) -> (Verdict, u64) {
    verdict("", recording)
}

fn violated(line: u64, time: u64, steps: u64) -> (Verdict, u64) {
    (Verdict::Violated { line, time }, steps)
}

const END: &str = "$enddefinitions $end";

#[test]
fn a_recording_of_65_536_bytes_is_read_and_one_of_65_537_is_30() {
    let padded = |length: usize| format!("{HEADER}{}", " ".repeat(length - HEADER.len()));
    assert_eq!(verdict(TABLE, padded(65_536)), (ACCEPTED, 0));
    assert_eq!(verdict(TABLE, padded(65_537)), refused_run(30, 0, 0));
    assert_eq!(
        verdict(TABLE, "\u{1}".repeat(65_537)),
        refused_run(30, 0, 0)
    );
}

#[test]
fn reading_21_31_is_asked_of_the_whole_recording_before_any_word() {
    assert_eq!(body("#1 1! 1\" #2"), violated(1, 1, 0));
    assert_eq!(body("#1 1! 1\" #2 \u{7f}"), refused_run(31, 12, 0));
    let early = verdict(TABLE, "nonsense \u{b}");
    assert_eq!(early, refused_run(31, 9, 0));
    for byte in [0u8, 8, 11, 12, 14, 31, 127, 128, 255] {
        let recording = [b"$date".as_slice(), &[byte], b" \x00"].concat();
        assert_eq!(verdict("", recording), refused_run(31, 5, 0), "{byte}");
    }
}

#[test]
fn all_four_parting_bytes_part_words() {
    let recording = "\n\r\t $enddefinitions\r\n$end\t#1\r#2\n#3\t\t #4\r\n";
    assert_eq!(bare(recording), (ACCEPTED, 4));
}

#[test]
fn bytes_33_to_126_stand_in_words() {
    let recording = format!("$var event 1 !~ a~!b $end {END} #1 1!~");
    assert_eq!(bare(&recording), (ACCEPTED, 1));
}

#[test]
fn the_header_skips_six_commands_up_to_their_end() {
    for command in SKIPPED {
        let recording = format!("{command} x $var {END} $enddefinitions $end");
        assert_eq!(bare(&recording), (ACCEPTED, 0), "{command}");
        let recording = format!("{command} $end {END} #1");
        assert_eq!(bare(&recording), (ACCEPTED, 1), "{command}");
    }
}

#[test]
fn reading_22_a_command_is_a_whole_word_and_case_matters() {
    for word in [
        "$end",
        "$dumpvars",
        "#0",
        "$Date",
        "$dates",
        "$vars",
        "$VAR",
        "$enddefinitions$end",
        "x",
        "1!",
    ] {
        let recording = format!("$date $end {word} {END}");
        assert_eq!(bare(&recording), refused_run(32, 11, 0), "{word}");
    }
}

#[test]
fn reading_22_dumpvars_and_comment_in_the_body_are_40() {
    assert_eq!(body("#1 $dumpvars"), refused_run(40, 3, 0));
    assert_eq!(body("#1 $comment x $end"), refused_run(40, 3, 0));
    assert_eq!(body("$end"), refused_run(40, 0, 0));
}

#[test]
fn reading_23_a_skipped_command_ends_at_the_first_word_that_is_end() {
    let recording = format!("$comment $endx x$end $var $enddefinitions $END $end {END} #1");
    assert_eq!(bare(&recording), (ACCEPTED, 1));
    let recording = format!("$comment $end $end {END}");
    assert_eq!(bare(&recording), refused_run(32, 14, 0));
}

#[test]
fn reading_24_a_variable_with_fewer_than_six_words_left_is_36() {
    for recording in [
        "$var",
        "$var wire",
        "$var event 1 toolongid",
        "$var event 1 ! a",
        "$var a b c d",
        "$var event 1 ! $end  \n",
    ] {
        let expected = refused_run(36, recording.len(), 0);
        assert_eq!(bare(recording), expected, "{recording}");
    }
}

#[test]
fn reading_24_a_variable_of_another_shape_is_33() {
    for variable in [
        "$var wire 1 ! a $end",
        "$var Event 1 ! a $end",
        "$var event 2 ! a $end",
        "$var event 01 ! a $end",
        "$var event 1 ! a b $end",
        "$var event 1 ! a end",
        "$var event 1 ! $end x",
        "$var event 1 12345 a $end",
    ] {
        let recording = format!(" {variable} {END}");
        assert_eq!(bare(&recording), refused_run(33, 1, 0), "{variable}");
    }
}

#[test]
fn reading_24_a_name_may_be_end_and_an_id_almost_anything() {
    let recording = format!("$var event 1 x $end $end {END} #1 1x");
    assert_eq!(bare(&recording), (ACCEPTED, 1));
    for id in ["$end", "#", "0", "1", "#12", "$var", "\"", "1234"] {
        let recording = format!(
            "$var event 1 {id} a $end $var event 1 b b $end $var event 1 c c $end {END} \
             #1 1{id} #2 0{id} #3 1{id} 1b"
        );
        assert_eq!(verdict(TABLE, &recording), violated(1, 3, 2), "{id}");
    }
}

#[test]
fn reading_24_33_before_34_before_37() {
    let declare = |count: usize| -> String {
        let line = |index: usize| format!("$var event 1 i{index} n{index} $end ");
        (0..count).map(line).collect()
    };
    let twice = "$var event 1 ! x $end $var event 2 ! x $end ";
    assert_eq!(bare(twice), refused_run(33, 22, 0));
    let full = declare(128);
    let again = format!("{full}$var event 1 i5 x $end {END}");
    assert_eq!(bare(&again), refused_run(34, full.len(), 0));
    let shape = format!("{full}$var event 1 longer x $end {END}");
    assert_eq!(bare(&shape), refused_run(33, full.len(), 0));
    assert_eq!(bare(&format!("{full}{END}")), (ACCEPTED, 0));
    let more = format!("{full}$var event 1 ! x $end {END}");
    assert_eq!(bare(&more), refused_run(37, full.len(), 0));
}

#[test]
fn reading_25_an_id_over_4_bytes_is_33_in_the_header_and_43_in_the_body() {
    let recording = format!("$var event 1 abcde a $end {END}");
    assert_eq!(bare(&recording), refused_run(33, 0, 0));
    let recording = format!("$var event 1 abcd a $end {END} #1 1abcd 0abcd #2 1abcde");
    let place = recording.len() - 6;
    assert_eq!(bare(&recording), refused_run(43, place, 1));
    assert_eq!(body("#1 0aVeryLongIdIndeed"), refused_run(43, 3, 0));
}

#[test]
fn reading_26_an_id_declared_before_is_34_also_for_an_ignored_variable() {
    let recording = format!("$var event 1 ! x $end $var event 1 ! y $end {END}");
    assert_eq!(bare(&recording), refused_run(34, 22, 0));
}

#[test]
fn reading_26_an_unknown_name_may_be_declared_twice_and_a_table_clock_not() {
    let twice = "$var event 1 ! a $end $var event 1 ? a $end ";
    assert_eq!(bare(&format!("{twice}{END} #1 1! 1?")), (ACCEPTED, 1));
    let expected = refused_run(34, 22, 0);
    assert_eq!(verdict(TABLE, format!("{twice}{END}")), expected);
}

#[test]
fn reading_27_what_stands_behind_enddefinitions() {
    assert_eq!(verdict(TABLE, "$enddefinitions"), refused_run(36, 15, 0));
    assert_eq!(verdict(TABLE, "$enddefinitions \n"), refused_run(36, 17, 0));
    assert_eq!(
        verdict(TABLE, " $enddefinitions #1 $end"),
        refused_run(32, 1, 0)
    );
    assert_eq!(
        verdict(TABLE, " $enddefinitions $end"),
        refused_run(35, 1, 0)
    );
}

#[test]
fn a_table_clock_undeclared_is_35_at_enddefinitions() {
    let some = "$var event 1 ! a $end $var event 1 \" b $end ";
    let recording = format!("{some}{END} nonsense");
    assert_eq!(verdict(TABLE, recording), refused_run(35, some.len(), 0));
    let recording = format!("{some}$var event 1 % C $end {END}");
    let place = recording.len() - END.len();
    assert_eq!(verdict(TABLE, recording), refused_run(35, place, 0));
}

#[test]
fn reading_28_the_place_of_36_is_the_recordings_length() {
    for recording in [
        "",
        "  \n\n ",
        "$date x  ",
        "$date $end \t",
        "$comment",
        HEADER,
    ] {
        let cut = recording.replace("$enddefinitions $end ", "");
        assert_eq!(verdict(TABLE, &cut), refused_run(36, cut.len(), 0), "{cut}");
    }
}

#[test]
fn reading_29_after_30_to_37_the_configuration_is_the_start_words() {
    let table = b"c clockDef await 9 a\nd clockDef a upto c";
    let sixes = "$var event 1 ! z $end ".repeat(2);
    for (recording, number) in [
        (" ".repeat(70_000), 30),
        ("\u{1}".to_owned(), 31),
        ("x".to_owned(), 32),
        ("$var a b c d e".to_owned(), 33),
        (sixes, 34),
        (END.to_owned(), 35),
        (String::new(), 36),
    ] {
        let report = run_ignoring(table, recording.as_bytes());
        assert!(matches!(report.verdict, Verdict::Refused(refusal) if refusal.number == number));
        assert_eq!((report.steps, report.constraints), (0, 2));
        assert_eq!(report.configuration, words(&[9, 1]));
    }
}

#[test]
fn reading_30_words_that_are_neither_mark_nor_change_are_40() {
    for word in [
        "1", "0", "x", "X", "z", "Z", "2!", "b1", "bx", "b1!", "bx!", "r1.5", "r1.5!", "B", "B!",
        "R", "R!", "u", "u!", "-", "-!", "!", "$",
    ] {
        let recording = format!("#1 {word} #2");
        assert_eq!(body(&recording), refused_run(40, 3, 0), "{word}");
    }
    // The byte that spoils a mark (M-106); the first behind `#` stands at 4.
    for (mark, place) in [
        ("#", 4),
        ("#x", 4),
        ("#1x", 5),
        ("#-1", 4),
        ("#+1", 4),
        ("#1.5", 5),
    ] {
        let recording = format!("#1 {mark} #2");
        assert_eq!(body(&recording), refused_run(40, place, 1), "{mark}");
    }
}

#[test]
fn reading_30_a_mark_with_a_byte_that_is_no_digit_is_40_before_41() {
    assert_eq!(body("#5 #4x"), refused_run(40, 5, 1));
    let long = "9".repeat(40);
    assert_eq!(body(&format!("#5 #{long}x")), refused_run(40, 44, 1));
    assert_eq!(body(&format!("#5 #{long}")), refused_run(41, 23, 1));
}

#[test]
fn reading_31_any_word_that_opens_with_a_hash_judges_the_open_step_first() {
    for mark in ["#", "#x", "#0", "#9", "#99999999999999999999"] {
        let bad = format!("#0 #1 1! 1\" {mark}");
        assert_eq!(body(&bad), violated(1, 1, 1), "{mark}");
    }
    assert_eq!(body("#0 1! #"), refused_run(40, 7, 1));
    assert_eq!(body("#0 1! #0"), refused_run(41, 6, 1));
}

#[test]
fn reading_31_any_other_bad_word_leaves_the_open_step_unjudged() {
    assert_eq!(body("#0 #1 1! 1\" x"), refused_run(40, 12, 1));
    assert_eq!(body("#0 #1 1! 1\" 1?"), refused_run(43, 12, 1));
    assert_eq!(body("#0 #1 1! 1\" 1!"), refused_run(44, 12, 1));
    assert_eq!(body("#0 1! 1?"), refused_run(43, 6, 0));
}

#[test]
fn reading_32_leading_zeros_are_fine_in_a_time() {
    assert_eq!(body("#00 #0001 #2"), (ACCEPTED, 3));
    let zeros = "0".repeat(100);
    assert_eq!(body(&format!("#{zeros}7 1! 1\"")), violated(1, 7, 0));
    assert_eq!(body("#0 #00"), refused_run(41, 3, 1));
    assert_eq!(body("#9 #08"), refused_run(41, 3, 1));
}

#[test]
fn reading_32_the_first_mark_has_no_last_time() {
    assert_eq!(body("#0"), (ACCEPTED, 1));
    assert_eq!(body("#0 #1"), (ACCEPTED, 2));
}

#[test]
fn reading_33_40_before_42_before_43_before_44() {
    assert_eq!(body("1"), refused_run(40, 0, 0));
    assert_eq!(body("1! #1"), refused_run(42, 0, 0));
    assert_eq!(body("0! #1"), refused_run(42, 0, 0));
    assert_eq!(body("1? #1"), refused_run(42, 0, 0));
    assert_eq!(body("#1 1?"), refused_run(43, 3, 0));
    assert_eq!(body("#1 0?"), refused_run(43, 3, 0));
    assert_eq!(body("#1 1! 1!"), refused_run(44, 6, 0));
}

#[test]
fn reading_35_an_ignored_variable_may_tick_any_number_of_times() {
    let recording = format!("$var event 1 ? x $end {HEADER}#1 1? 1? 0? 1? 1! #2 1?");
    assert_eq!(verdict(TABLE, recording), (ACCEPTED, 2));
}

#[test]
fn reading_36_with_no_mark_the_recording_is_accepted_with_the_start_words() {
    let report = run_ignoring(b"c clockDef a sampled b", HEADER.as_bytes());
    assert_eq!((report.verdict, report.steps), (ACCEPTED, 0));
    assert_eq!(report.configuration, words(&[2]));
}

#[test]
fn m_100_reading_1_each_value_before_an_id_is_a_tick() {
    let table = b"a precedes b\nc clockDef await 3 a";
    for value in VALUES {
        let alone = format!("{HEADER}#1 #2 {value}!");
        let expected = violated(1, 2, 1);
        assert_eq!(verdict("a isSubClockOf b", alone), expected, "{value}");
        let with_b = format!("#1 {value}! 1\"");
        assert_eq!(body(&with_b), violated(1, 1, 0), "{value}");
        let recording = format!("{HEADER}#1 {value}! #2 #3 {value}! #4 {value}\"");
        let report = run_ignoring(table, recording.as_bytes());
        assert_eq!((report.verdict, report.steps), (ACCEPTED, 4), "{value}");
        assert_eq!(report.configuration, words(&[1, 1]), "{value}");
    }
}

#[test]
fn m_100_reading_1_all_that_follows_the_first_byte_is_the_id() {
    let header =
        format!("$var event 1 x a $end $var event 1 0 b $end $var event 1 # c $end {END} ");
    let ask = |words: &str| verdict(TABLE, format!("{header}{words}"));
    assert_eq!(ask("#1 xx #2 00 #3 x# #4 00 x#"), (ACCEPTED, 4));
    assert_eq!(ask("#1 xx 00"), violated(1, 1, 0));
    assert_eq!(ask("#1 xx x#"), violated(2, 1, 0));
    assert_eq!(ask("#1 xx 0x"), refused_run(44, header.len() + 6, 0));
    assert_eq!(ask("#1 xxx"), refused_run(43, header.len() + 3, 0));
    assert_eq!(ask("#1 x"), refused_run(40, header.len() + 3, 0));
    let chain = b"a precedes b\nb precedes c";
    let recording = format!("{header}#1 xx #2 xx #3 xx #4 00 #5 00 #6 x#");
    let report = run_ignoring(chain, recording.as_bytes());
    assert_eq!((report.verdict, report.steps), (ACCEPTED, 6));
    assert_eq!(report.configuration, words(&[1, 1]));
}

#[test]
fn m_100_reading_1_any_value_before_an_id_that_looks_like_values() {
    for id in ["0", "1", "x", "X", "z", "Z", "01", "xXzZ"] {
        let header = HEADER.replace('!', id);
        for value in VALUES {
            let both = format!("{header}#1 {value}{id} 1\"");
            assert_eq!(verdict(TABLE, both), violated(1, 1, 0), "{value}{id}");
        }
    }
    let header = HEADER.replace('!', "xXzZ");
    let short = format!("{header}#1 xXzZ");
    let expected = refused_run(43, header.len() + 3, 0);
    assert_eq!(verdict(TABLE, short), expected);
}

#[test]
fn m_100_reading_2_a_value_with_no_id_stays_40() {
    for value in VALUES {
        assert_eq!(body(value), refused_run(40, 0, 0), "{value}");
        let spaced = format!("#1 {value} !");
        assert_eq!(body(&spaced), refused_run(40, 3, 0), "{value}");
        let last = format!("#0 #1 1! 1\" {value}");
        assert_eq!(body(&last), refused_run(40, 12, 1), "{value}");
    }
}

#[test]
fn m_100_reading_3_any_other_byte_before_an_id_stays_40() {
    for byte in 33..=126u8 {
        let expected = match byte {
            48 | 49 | 120 | 88 | 122 | 90 => (ACCEPTED, 1),
            // A mark, spoilt by the byte behind its `#` (M-106).
            b'#' => refused_run(40, 4, 1),
            _ => refused_run(40, 3, 0),
        };
        let word = format!("{}!", byte as char);
        assert_eq!(body(&format!("#1 {word}")), expected, "{word}");
    }
}

#[test]
fn m_100_reading_4_no_word_says_no_tick_any_more() {
    assert_eq!(body("#1 1! 0! 1!"), refused_run(44, 6, 0));
    assert_eq!(body("#1 1! 0! 1\""), refused_run(44, 6, 0));
    assert_eq!(body("#1 0! 0! 0! 1! #2 1!"), refused_run(44, 6, 0));
    assert_eq!(body("#1 0! #2 0! #3 1!"), (ACCEPTED, 3));
}

#[test]
fn m_100_reading_4_one_value_twice_in_a_step_is_44_at_the_second_word() {
    for value in VALUES {
        let twice = format!("#1 {value}! {value}!");
        assert_eq!(body(&twice), refused_run(44, 6, 0), "{value}");
        let later = format!("#1 {value}! #2 {value}! {value}!");
        assert_eq!(body(&later), refused_run(44, 12, 1), "{value}");
        let between = format!("#1 {value}% {value}\" {value}%");
        assert_eq!(body(&between), refused_run(44, 9, 0), "{value}");
    }
}

#[test]
fn m_100_reading_4_two_different_values_in_a_step_are_44_at_the_second_word() {
    for first in VALUES {
        for second in VALUES.into_iter().filter(|&second| second != first) {
            let step = format!("#1 {first}! {second}! #2");
            assert_eq!(body(&step), refused_run(44, 6, 0), "{step}");
            let steps = format!("#1 {first}! #2 {second}!");
            assert_eq!(body(&steps), (ACCEPTED, 2), "{steps}");
            let clocks = format!("#1 {first}\" {second}%");
            assert_eq!(body(&clocks), (ACCEPTED, 1), "{clocks}");
        }
    }
}

#[test]
fn m_100_reading_5_an_ignored_variable_may_tick_any_number_of_times_with_any_values() {
    let header = format!("$var event 1 ? x $end {HEADER}");
    for value in VALUES {
        let recording = format!("{header}#1 {value}? {value}? {value}? 1! #2 {value}?");
        assert_eq!(verdict(TABLE, recording), (ACCEPTED, 2), "{value}");
    }
    let all = "0? 1? x? X? z? Z?";
    let recording = format!("{header}#1 {all} {all} x! #2 {all}");
    assert_eq!(verdict(TABLE, recording), (ACCEPTED, 2));
    let recording = format!("{header}#1 {all} x! {all} Z!");
    let place = recording.len() - 2;
    assert_eq!(verdict(TABLE, recording), refused_run(44, place, 0));
}

#[test]
fn m_100_reading_6_40_42_43_and_44_keep_their_order() {
    for value in VALUES {
        assert_eq!(body(value), refused_run(40, 0, 0), "{value}");
        let known = format!("{value}! #1");
        assert_eq!(body(&known), refused_run(42, 0, 0), "{value}");
        let unknown = format!("{value}? #1");
        assert_eq!(body(&unknown), refused_run(42, 0, 0), "{value}");
        let undeclared = format!("#1 {value}? {value}?");
        assert_eq!(body(&undeclared), refused_run(43, 3, 0), "{value}");
        let longer = format!("#1 {value}! {value}!!");
        assert_eq!(body(&longer), refused_run(43, 6, 0), "{value}");
        let over = format!("#1 {value}abcde");
        assert_eq!(body(&over), refused_run(43, 3, 0), "{value}");
        let second = format!("#0 #1 1! 1\" {value}!");
        assert_eq!(body(&second), refused_run(44, 12, 1), "{value}");
    }
}

/// A run in which this mark follows an accepted step at time 5. Its `#` stands at
/// 3, its first digit at 4.
fn mark_after_5(mark: &str) -> (Verdict, u64) {
    body(&format!("#5 {mark}"))
}

#[test]
fn m_106_reading_60_the_open_step_is_judged_before_the_bytes_of_a_mark() {
    let nines = "9".repeat(100);
    // Its `#` stands 9 bytes behind the header, or 12.
    for (mark, number, place) in [
        ("#", 40, 10),
        ("##5", 40, 10),
        ("#x", 40, 10),
        ("#12a", 40, 12),
        (&format!("#{nines}x"), 40, 110),
        ("#18446744073709551616", 41, 29),
        (&format!("#{nines}"), 41, 29),
        ("#1", 41, 9),
        ("#0", 41, 9),
    ] {
        let holds = format!("#0 #1 1! {mark}");
        assert_eq!(body(&holds), refused_run(number, place, 2), "{mark}");
        let fails = format!("#0 #1 1! 1\" {mark}");
        assert_eq!(body(&fails), violated(1, 1, 1), "{mark}");
    }
}

#[test]
fn m_106_reading_61_a_mark_is_40_at_the_first_byte_that_is_no_digit() {
    for (mark, place) in [
        ("#x", 4),
        ("#x12", 4),
        ("#12a", 6),
        ("#1a2", 5),
        ("#6x7y8", 5),
        ("#xy", 4),
        ("#67xy", 6),
        ("##5", 4),
        ("##", 4),
        ("#6#", 5),
        ("#0006!", 8),
        ("#6$end", 5),
    ] {
        let expected = refused_run(40, place, 1);
        assert_eq!(mark_after_5(mark), expected, "{mark}");
        let followed = format!("{mark} #9 q!");
        assert_eq!(mark_after_5(&followed), expected, "{mark}");
    }
}

#[test]
fn m_106_reading_61_every_byte_but_the_ten_digits_spoils_a_mark() {
    for byte in (33..=126u8).map(char::from) {
        let digit = "0123456789".contains(byte);
        let expected = |place| match digit {
            true => (ACCEPTED, 2),
            false => refused_run(40, place, 1),
        };
        assert_eq!(mark_after_5(&format!("#{byte}67")), expected(4), "{byte}");
        assert_eq!(mark_after_5(&format!("#6{byte}7")), expected(5), "{byte}");
        assert_eq!(mark_after_5(&format!("#67{byte}")), expected(6), "{byte}");
    }
}

#[test]
fn m_106_reading_61_it_is_40_however_large_the_digits() {
    let nines = "9".repeat(100);
    for (mark, place) in [
        (format!("#{nines}x"), 3 + 101),
        (format!("#x{nines}"), 4),
        (format!("#12a{nines}"), 6),
        (format!("#{nines}x{nines}y"), 3 + 101),
        ("#18446744073709551616a".to_owned(), 3 + 21),
        ("#1844674407370955161a6".to_owned(), 3 + 20),
        ("#18446744073709551615a".to_owned(), 3 + 21),
        // Nor does it matter that they are not above the last.
        ("#5x".to_owned(), 5),
        ("#4x".to_owned(), 5),
    ] {
        assert_eq!(mark_after_5(&mark), refused_run(40, place, 1), "{mark}");
    }
}

#[test]
fn m_106_reading_62_a_bare_hash_is_40_at_the_byte_after_it() {
    for behind in [" ", "\n", "\r", "\t", " 6", "\n#6", " \n ", " 1!", ""] {
        let mark = format!("#{behind}");
        assert_eq!(mark_after_5(&mark), refused_run(40, 4, 1), "{behind:?}");
        assert_eq!(body(&mark), refused_run(40, 1, 0), "{behind:?}");
    }
}

#[test]
fn m_106_reading_62_at_the_end_of_the_file_that_is_the_recordings_length() {
    let recording = format!("{END} #");
    assert_eq!(recording.len(), 22);
    assert_eq!(bare(&recording), refused_run(40, 22, 0));
    let full = format!("{END}{}#", " ".repeat(65_536 - 21));
    assert_eq!(full.len(), 65_536);
    assert_eq!(bare(&full), refused_run(40, 65_536, 0));
}

/// Digits too large for a time, with the number of the digit that takes them
/// there. 2^64 - 1 is 18446744073709551615.
const TOO_LARGE: [(&str, usize); 12] = [
    ("18446744073709551616", 20),
    ("18446744073709551619", 20),
    ("18446744073709551620", 20),
    ("20000000000000000000", 20),
    ("36893488147419103232", 20),
    ("99999999999999999999", 20),
    ("184467440737095516160", 20),
    ("184467440737095516200", 20),
    ("184467440737095516150", 21),
    ("1844674407370955161599", 21),
    ("100000000000000000000", 21),
    ("1000000000000000000000000000000", 21),
];

#[test]
fn m_106_reading_63_a_time_too_large_is_41_at_the_digit_that_takes_it_there() {
    assert_eq!(mark_after_5("#18446744073709551615"), (ACCEPTED, 2));
    for (digits, digit) in TOO_LARGE {
        let mark = format!("#{digits}");
        assert_eq!(mark_after_5(&mark), refused_run(41, 3 + digit, 1), "{mark}");
        assert_eq!(body(&mark), refused_run(41, digit, 0), "{mark}");
    }
    let nines = format!("#{}", "9".repeat(100));
    assert_eq!(mark_after_5(&nines), refused_run(41, 23, 1));
}

#[test]
fn m_106_reading_63_leading_zeros_shift_it() {
    let mark = "#00018446744073709551616";
    assert_eq!(mark_after_5(mark), refused_run(41, 26, 1));
    for zeros in [1, 2, 20, 21, 100, 60_000] {
        let behind = |digits: &str| format!("#{}{digits}", "0".repeat(zeros));
        for (digits, digit) in TOO_LARGE {
            let expected = refused_run(41, 3 + zeros + digit, 1);
            let answer = mark_after_5(&behind(digits));
            assert_eq!(answer, expected, "{zeros} zeros, {digits}");
        }
        let most = behind("18446744073709551615");
        assert_eq!(mark_after_5(&most), (ACCEPTED, 2), "{zeros} zeros");
        // Zeros alone are a time, too: here one not above the last.
        assert_eq!(mark_after_5(&behind("")), refused_run(41, 3, 1));
    }
}

#[test]
fn m_106_reading_63_a_mark_may_fill_the_recording() {
    let length = 65_536 - HEADER.len() - "#5 #".len();
    let nines = format!("#{}", "9".repeat(length));
    assert_eq!(mark_after_5(&nines), refused_run(41, 23, 1));
    let ends = format!("#{}x", "9".repeat(length - 1));
    assert_eq!(mark_after_5(&ends), refused_run(40, 3 + length, 1));
}

#[test]
fn m_106_reading_64_a_time_not_above_the_last_is_41_at_the_word() {
    for mark in ["#5", "#4", "#0", "#05", "#0005", "#00000000000000000000004"] {
        assert_eq!(mark_after_5(mark), refused_run(41, 3, 1), "{mark}");
    }
    assert_eq!(body("#10 #9"), refused_run(41, 4, 1));
    for last_digit in [4, 5] {
        let marks = format!("#18446744073709551615 #1844674407370955161{last_digit}");
        assert_eq!(body(&marks), refused_run(41, 22, 1), "{marks}");
    }
}

#[test]
fn m_106_reading_64_a_bad_change_is_refused_at_the_word() {
    for (word, number) in [
        ("1", 40),
        ("q!", 40),
        ("$end", 40),
        ("nonsense", 40),
        ("5#", 40),
        ("1?", 43),
        ("1!x", 43),
        ("1#5", 43),
    ] {
        let step = format!("#5 {word}");
        assert_eq!(body(&step), refused_run(number, 3, 0), "{word}");
    }
    assert_eq!(body("  1! #5"), refused_run(42, 2, 0));
    assert_eq!(body("#5 1! x!"), refused_run(44, 6, 0));
}

#[test]
fn the_last_step_is_judged_though_no_mark_follows() {
    assert_eq!(body("#1 #2 1!"), (ACCEPTED, 2));
    assert_eq!(body("#1 #2 1! 1\""), violated(1, 2, 1));
}

#[test]
fn a_mark_without_ticks_is_an_empty_step() {
    assert_eq!(body("#1 #2 #3"), (ACCEPTED, 3));
}

#[test]
fn ids_name_variables_and_not_the_order_of_declaration() {
    let recording = "$var event 1 z c $end $var event 1 a b $end $var event 1 b a $end \
                     $enddefinitions $end #1 1b #2 1a #3 1z 1a #4 1z 1b";
    assert_eq!(verdict(TABLE, recording), violated(2, 4, 3));
}

#[test]
fn a_violation_gives_the_table_line_and_not_the_record() {
    let table = "\n\na # b\n\na # c";
    let recording = format!("{HEADER}#7 1! 1%");
    assert_eq!(verdict(table, recording), violated(5, 7, 0));
}

#[test]
fn a_stop_gives_the_steps_accepted_so_far_and_the_configuration_after_them() {
    let table = b"a strictly precedes b\nc clockDef await 3 a";
    let start = format!("{HEADER}#1 1! #2 1! #3");
    for stop in [" 1\" 1%", " x", " 1\" 1\"", " 1?"] {
        let report = run_ignoring(table, format!("{start}{stop}").as_bytes());
        assert_ne!(report.verdict, ACCEPTED, "{stop}");
        assert_eq!(report.steps, 2, "{stop}");
        assert_eq!(report.configuration, words(&[2, 1]), "{stop}");
    }
    let report = run_ignoring(table, format!("{start} 1\" #3").as_bytes());
    assert_eq!(report.steps, 3);
    assert_eq!(report.configuration, words(&[1, 1]));
}

#[test]
fn the_step_count_and_the_recorded_time_are_kept_apart() {
    let report = run_ignoring(
        b"a # b",
        format!("{HEADER}#100 #2000 #30000 1! 1\"").as_bytes(),
    );
    assert_eq!(
        report.verdict,
        Verdict::Violated {
            line: 1,
            time: 30000
        }
    );
    assert_eq!(report.steps, 2);
}
