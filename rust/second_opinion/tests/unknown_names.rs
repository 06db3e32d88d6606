//! M-103, variables with names that the table lacks: readings 40 to 44 of
//! document 02.

mod common;

use common::*;
use second_opinion::*;

/// A table over a, b and c with the start words 2 and 0.
const TABLE: &str = "c clockDef await 2 a\na precedes b";

/// A variable that `TABLE` has: 22 bytes.
const KNOWN: &str = "$var event 1 ! a $end ";

/// A variable that `TABLE` lacks: 22 bytes, the name at 15.
const UNKNOWN: &str = "$var event 1 ? x $end ";

const END: &str = "$enddefinitions $end";

const ACCEPTED: Verdict = Verdict::Accepted;

fn run_refusing(table: &str, recording: impl AsRef<[u8]>) -> Report {
    run(table.as_bytes(), recording.as_ref(), UnknownNames::Refused)
}

/// The verdict and the steps of a run that refuses unknown names, as `verdict`
/// gives those of a run that ignores them.
fn refusing(table: &str, recording: impl AsRef<[u8]>) -> (Verdict, u64) {
    let report = run_refusing(table, recording);
    (report.verdict, report.steps)
}

/// The verdict and the steps where both choices give the same report.
fn either(table: &str, recording: impl AsRef<[u8]>) -> (Verdict, u64) {
    let report = run_refusing(table, &recording);
    let ignoring = run_ignoring(table.as_bytes(), recording.as_ref());
    assert_eq!(report, ignoring, "{table}");
    (report.verdict, report.steps)
}

#[test]
fn reading_41_the_place_of_38_is_the_commands_offset() {
    for (recording, place) in [
        (format!("{KNOWN}{UNKNOWN}"), 22),
        (format!("{KNOWN}{UNKNOWN}{HEADER}"), 22),
        (format!(" \n\t{UNKNOWN}{END}"), 3),
        (format!("$date $end {UNKNOWN}{END}"), 11),
        (" $var\nevent\t1  ?\r\nx $end".to_owned(), 1),
    ] {
        let expected = refused_run(38, place, 0);
        assert_eq!(refusing(TABLE, &recording), expected, "{recording}");
    }
}

#[test]
fn reading_44_38_leaves_the_start_words_and_0_steps() {
    let recording = format!("{KNOWN}{UNKNOWN}{END} #1 1! #2 1!");
    let report = run_refusing(TABLE, recording);
    let expected = Report {
        verdict: Verdict::Refused(refusal(38, 22)),
        steps: 0,
        constraints: 2,
        configuration: words(&[2, 0]),
    };
    assert_eq!(report, expected);
    assert_eq!(
        report.to_string(),
        "refused 38 22\nsteps 0\nconfig 2 0 0 0\n"
    );
}

#[test]
fn reading_40_the_choice_to_ignore_judges_the_same_recording() {
    let recording = format!(" {UNKNOWN}{HEADER}#1 1! 1? 1? #2 1! 1% #3 1\"");
    assert_eq!(refusing(TABLE, &recording), refused_run(38, 1, 0));
    // The second a makes c due and the word of await 0; two a and one b leave
    // the word of precedes 1.
    let report = run_ignoring(TABLE.as_bytes(), recording.as_bytes());
    assert_eq!(report.to_string(), "accepted\nsteps 3\nconfig 0 0 1 0\n");
    // c is not due with the first a.
    let violating = format!(" {UNKNOWN}{HEADER}#0 #4 1! 1% 1?");
    assert_eq!(refusing(TABLE, &violating), refused_run(38, 1, 0));
    let violated = Verdict::Violated { line: 1, time: 4 };
    assert_eq!(verdict(TABLE, &violating), (violated, 1));
}

#[test]
fn reading_41_36_before_38() {
    for (recording, length) in [
        ("$date $end $var event 1 ? x", 27),
        ("$date $end $var event 1 ? x \n", 29),
        ("$date $end $var event 1 ? $end", 30),
    ] {
        let expected = refused_run(36, length, 0);
        assert_eq!(either(TABLE, recording), expected, "{recording}");
    }
}

#[test]
fn reading_41_33_before_34_and_before_38() {
    for variable in [
        "$var wire 1 ! a $end",
        "$var wire 1 ! x $end",
        "$var event 2 ? x $end",
        "$var event 1 ? x end",
        "$var event 1 ? x y $end",
        "$var event 1 abcde x $end",
    ] {
        let recording = format!("{KNOWN}{variable}");
        let expected = refused_run(33, 22, 0);
        assert_eq!(either(TABLE, &recording), expected, "{variable}");
    }
}

#[test]
fn reading_41_34_before_38() {
    let id_again = format!("{KNOWN}$var event 1 ! x $end {END}");
    assert_eq!(either(TABLE, id_again), refused_run(34, 22, 0));
    let clock_again = format!("{KNOWN}$var event 1 ? a $end {END}");
    assert_eq!(either(TABLE, clock_again), refused_run(34, 22, 0));
}

#[test]
fn m_103_38_before_a_later_refusal_of_the_header() {
    for (later, number) in [
        ("nonsense", 32),
        ("$enddefinitions #1", 32),
        ("$var wire 1 / b $end", 33),
        ("$var event 1 ? b $end", 34),
        ("$var event 1 / a $end", 34),
        (END, 35),
    ] {
        let recording = format!("{KNOWN}{UNKNOWN}{later}");
        assert_eq!(refusing(TABLE, &recording), refused_run(38, 22, 0));
        let expected = refused_run(number, 44, 0);
        assert_eq!(verdict(TABLE, &recording), expected, "{later}");
    }
    let cut_off = format!("{KNOWN}{UNKNOWN}$var  ");
    assert_eq!(refusing(TABLE, &cut_off), refused_run(38, 22, 0));
    assert_eq!(verdict(TABLE, &cut_off), refused_run(36, 50, 0));
}

#[test]
fn m_103_38_before_a_later_refusal_of_the_body() {
    // 1 byte, 22 of the unknown variable and 87 of the header before the body.
    for (body, number, place, steps) in [
        ("nonsense", 40, 110, 0),
        ("#5 #5", 41, 113, 1),
        ("1?", 42, 110, 0),
        ("#5 1/", 43, 113, 0),
        ("#5 1? 1! 1!", 44, 119, 0),
    ] {
        let recording = format!(" {UNKNOWN}{HEADER}{body}");
        assert_eq!(refusing(TABLE, &recording), refused_run(38, 1, 0));
        let expected = refused_run(number, place, steps);
        assert_eq!(verdict(TABLE, &recording), expected, "{body}");
    }
}

#[test]
fn m_103_an_earlier_refusal_of_the_header_before_38() {
    for (earlier, number) in [
        ("nonsense", 32),
        ("$enddefinitions #1", 32),
        ("$var wire 1 / b $end", 33),
        ("$var event 1 ! b $end", 34),
        (END, 35),
    ] {
        let recording = format!("{KNOWN}{earlier} {UNKNOWN}");
        let expected = refused_run(number, 22, 0);
        assert_eq!(either(TABLE, &recording), expected, "{earlier}");
    }
}

#[test]
fn m_103_a_var_in_the_body_is_40() {
    assert_eq!(
        either(TABLE, format!("{HEADER}{UNKNOWN}")),
        refused_run(40, 87, 0)
    );
    let bare = format!("{END} {UNKNOWN}");
    assert_eq!(either("", bare), refused_run(40, 21, 0));
}

#[test]
fn reading_42_inner_names_are_known() {
    let table = "((a clockUnion b) upto c) precedes d";
    let header = "$var event 1 0 a $end $var event 1 1 b $end $var event 1 2 c $end \
        $var event 1 3 d $end ";
    let recording = format!("{header}{END} #1 10 #2 11 #3 12 10");
    assert_eq!(either(table, recording), (ACCEPTED, 3));
    let under_await = "b = (await 5 (a sampled c))";
    assert_eq!(either(under_await, HEADER), (ACCEPTED, 0));
    // An implicit clock has no name.
    for name in ["e", "(", "(a", "(a)", "4", "_"] {
        let recording = format!("{header}$var event 1 4 {name} $end {END}");
        assert_eq!(refusing(table, recording), refused_run(38, 88, 0), "{name}");
    }
}

#[test]
fn reading_42_names_are_compared_whole_and_by_case() {
    let variable = |name: &str| format!(" $var event 1 ! {name} $end ");
    for name in [
        "Tick",
        "TICK",
        "ticK",
        "tic",
        "ick",
        "t",
        "ticks",
        "atick",
        "tick_",
        "tick2",
        "tickTock",
        "tick#",
        "tick#Tock",
        "tock",
    ] {
        let expected = refused_run(38, 1, 0);
        assert_eq!(refusing("tick # Tock", variable(name)), expected, "{name}");
    }
    let known = variable("tick");
    assert_eq!(either("tick # Tock", known), refused_run(36, 26, 0));
}

#[test]
fn reading_42_names_of_15_and_17_bytes_beside_one_of_16() {
    let variable = |name: &str| format!(" $var event 1 ! {name} $end ");
    let table = "n234567890123456 # a";
    for other in ["n23456789012345", "n2345678901234567"] {
        let expected = refused_run(38, 1, 0);
        assert_eq!(refusing(table, variable(other)), expected, "{other}");
    }
    let known = variable("n234567890123456");
    assert_eq!(either(table, known), refused_run(36, 38, 0));
}

#[test]
fn reading_42_form_words_signs_and_numbers_are_no_names() {
    let table = "a isSubClockOf b\na strictly precedes b\na = b\na # b\n\
        c clockDef a clockUnion b\nd clockDef a clockInter b\ne clockDef a lub b\n\
        f clockDef a glb b\ng clockDef await 3 a\nh clockDef a sampled b\ni clockDef a upto b";
    let others = ["=", "#", "3", "$end", "$var"];
    for name in FORM_WORDS.into_iter().chain(others) {
        let recording = format!("{KNOWN}$var event 1 ? {name} $end {END}");
        assert_eq!(refusing(table, recording), refused_run(38, 22, 0), "{name}");
    }
}

#[test]
fn m_103_an_unknown_name_under_two_ids_is_38_at_the_first() {
    let recording = format!("{KNOWN}{UNKNOWN}$var event 1 / x $end ");
    assert_eq!(refusing(TABLE, &recording), refused_run(38, 22, 0));
    assert_eq!(verdict(TABLE, &recording), refused_run(36, 66, 0));
    let other = format!("{KNOWN}{UNKNOWN}$var event 1 / y $end ");
    assert_eq!(refusing(TABLE, other), refused_run(38, 22, 0));
}

#[test]
fn reading_42_with_an_empty_table_each_variable_is_38() {
    for table in ["", "\n", "  \n\n "] {
        for variable in [KNOWN, UNKNOWN] {
            let recording = format!(" $date x $end {variable}{HEADER}");
            assert_eq!(refusing(table, recording), refused_run(38, 14, 0));
        }
        assert_eq!(refusing(table, HEADER), refused_run(38, 0, 0));
        let without = format!("$date x $end {END} #1 #2");
        assert_eq!(either(table, without), (ACCEPTED, 2));
    }
}

#[test]
fn m_103_a_refused_table_comes_first() {
    let recording = format!(" {UNKNOWN}{HEADER}");
    assert_eq!(either("a # b\nx lub", &recording), refused_run(12, 2, 0));
    let report = run_refusing("c clockDef await 2 a\na # a", recording);
    assert_eq!(report.to_string(), "refused 15 2\nsteps 0\nconfig\n");
    assert_eq!(report.configuration, [[0, 0]; WORDS]);
}

#[test]
fn m_103_30_and_31_come_first() {
    let padded = |length: usize| format!(" {UNKNOWN}{}", " ".repeat(length - 23));
    assert_eq!(either(TABLE, padded(65_537)), refused_run(30, 0, 0));
    assert_eq!(refusing(TABLE, padded(65_536)), refused_run(38, 1, 0));
    let bad_byte = format!(" {UNKNOWN}\u{7f}");
    assert_eq!(either(TABLE, bad_byte), refused_run(31, 23, 0));
}

#[test]
fn m_103_with_all_names_known_the_choice_changes_nothing() {
    let violated = (Verdict::Violated { line: 1, time: 1 }, 0);
    // The body stands at 87.
    for (body, expected) in [
        ("", (ACCEPTED, 0)),
        ("#1 1! #2 1! 1% #3 1\"", (ACCEPTED, 3)),
        ("#1 1! 1%", violated),
        ("#1 $end", refused_run(40, 90, 0)),
        ("#1 1! #1", refused_run(41, 93, 1)),
        ("1! #1", refused_run(42, 87, 0)),
        ("#1 1?", refused_run(43, 90, 0)),
        ("#1 1! #2 1! 1!", refused_run(44, 99, 1)),
    ] {
        let recording = format!("{HEADER}{body}");
        assert_eq!(either(TABLE, recording), expected, "{body}");
    }
    for (rest, number) in [
        ("$end", 32),
        ("$var event 1 \" b end", 33),
        (KNOWN, 34),
        (END, 35),
        ("", 36),
    ] {
        let recording = format!("{KNOWN}{rest}");
        let expected = refused_run(number, 22, 0);
        assert_eq!(either(TABLE, recording), expected, "{rest}");
    }
}

#[test]
fn reading_43_with_the_choice_to_refuse_37_is_not_reached() {
    // 27 bytes each
    let unknown = |count: usize| -> String {
        let variable = |index: usize| format!("$var event 1 {index:03} x{index:03} $end ");
        (0..count).map(variable).collect()
    };
    let all_unknown = format!(" {}{END}", unknown(129));
    assert_eq!(refusing(TABLE, &all_unknown), refused_run(38, 1, 0));
    assert_eq!(verdict(TABLE, &all_unknown), refused_run(37, 3457, 0));
    // 32 known variables of 22 bytes each, and 97 unknown ones
    let names: Vec<char> = ('a'..='z').chain('A'..='F').collect();
    let pairs = names.chunks(2);
    let table: String = pairs
        .map(|pair| format!("{} # {}\n", pair[0], pair[1]))
        .collect();
    let variables = names.iter();
    let known: String = variables
        .map(|name| format!("$var event 1 {name} {name} $end "))
        .collect();
    let most_unknown = format!("{known}{}{END}", unknown(97));
    assert_eq!(refusing(&table, &most_unknown), refused_run(38, 704, 0));
    assert_eq!(verdict(&table, &most_unknown), refused_run(37, 3296, 0));
    let again = format!("{known}$var event 1 ? a $end {END}");
    assert_eq!(either(&table, again), refused_run(34, 704, 0));
    assert_eq!(either(&table, format!("{known}{END} #1")), (ACCEPTED, 1));
}

#[test]
fn m_103_a_var_in_a_skipped_command_is_not_refused() {
    for command in SKIPPED {
        // The variable's `$end` ends the command.
        let recording = format!("{command} {UNKNOWN}{HEADER}#1 1!");
        assert_eq!(either(TABLE, recording), (ACCEPTED, 1), "{command}");
    }
    let undeclared = format!("$comment {UNKNOWN}{HEADER}#1 1?");
    assert_eq!(either(TABLE, undeclared), refused_run(43, 121, 0));
}

/// Where 38 is not the answer, the choice changes nothing. Where it is, the
/// header before its place is a good one for either choice.
#[test]
fn on_random_recordings_the_choice_changes_nothing_but_38() {
    let mut numbers = Numbers(5);
    let tables = ["", "a # b", TABLE, "(a lub b) # c", "a lub"];
    let pieces = [
        HEADER,
        KNOWN,
        UNKNOWN,
        "$var event 1 \" b $end",
        "$var event 1 % C $end",
        "$var",
        "$date",
        "$end",
        END,
        "#1",
        "#2",
        "1!",
        "x?",
    ];
    let mut seen = [0; 2];
    for _ in 0..5000 {
        let table = numbers.pick(&tables);
        let length = numbers.below(10);
        let chosen: Vec<&str> = (0..length).map(|_| numbers.pick(&pieces)).collect();
        let recording = chosen.join(" ");
        let (verdict, steps) = refusing(table, &recording);
        if let Verdict::Refused(Refusal { number: 38, place }) = verdict {
            let (before, at) = recording.split_at(place as usize);
            assert!(at.starts_with("$var event 1 ") && steps == 0, "{recording}");
            let expected = refused_run(36, before.len(), 0);
            assert_eq!(either(table, before), expected, "{recording}");
            seen[0] += 1;
        } else {
            assert_eq!(either(table, &recording), (verdict, steps), "{recording}");
            seen[1] += 1;
        }
    }
    assert!(seen.into_iter().all(|count| count > 500), "{seen:?}");
}
