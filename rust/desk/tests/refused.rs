//! What `why` says of refusals, written from documents 01 and 02 and from docs/refusals.md.

mod common;

use common::{recording, why, why_strict};
use desk::limits::in_words;

/// What is told of a refused table, behind its three lines.
fn table(text: &str, refusal: &str, expected: &str) {
    let told = why(text, "");
    assert_eq!(
        told,
        format!("refused {refusal}\nsteps 0\nconfig\n\n{expected}")
    );
}

#[test]
fn tables_too_long() {
    let expected = "\
10: the table has more than 4,096 bytes
table.ccsl has 4097 bytes; the limit is 4096
";
    table(&" ".repeat(4097), "10 0", expected);
}

#[test]
fn bytes_that_a_table_may_not_hold() {
    let expected = "\
11: the line holds a byte that is neither a space nor a plain printed character
line 2: seal\\x09precedes eject
            ^^^^
the byte is 9
";
    table("a = b\nseal\tprecedes eject", "11 2", expected);
    let line_end = "\
11: the line holds a byte that is neither a space nor a plain printed character
line 1: a = b\\x0d
             ^^^^
the byte is 13
";
    table("a = b\r\nc = d\r\n", "11 1", line_end);
}

#[test]
fn lines_that_fit_no_form() {
    let expected = "\
12: the line fits none of the forms
line 3:   seal strictlyPrecedes eject
          ^^^^^^^^^^^^^^^^^^^^^^^^^^^
";
    table(
        "a = b\n\n  seal strictlyPrecedes eject  \n",
        "12 3",
        expected,
    );
}

#[test]
fn names_too_long() {
    let expected = "\
13: a name in the line has more than 16 bytes
line 1: a # (b lub temperature_alarm)
                   ^^^^^^^^^^^^^^^^^
the name has 17 bytes
";
    table("a # (b lub temperature_alarm)", "13 1", expected);
}

#[test]
fn await_numbers_out_of_range() {
    let expected = "\
14: the number of an await is not from 1 to 1,000,000
line 1: c clockDef (await 007 a) lub (await 1000001(b upto d))
                                            ^^^^^^^
";
    let line = "c clockDef (await 007 a) lub (await 1000001(b upto d))";
    table(line, "14 1", expected);
}

#[test]
fn clocks_named_twice() {
    let expected = "\
15: the line names the same clock twice
line 1: (left lub right) strictly precedes left
                                           ^^^^
left stands first at column 2
";
    table("(left lub right) strictly precedes left", "15 1", expected);
}

#[test]
fn clocks_defined_twice() {
    let expected = "\
16: the line defines a clock that an earlier line defines
line 4: alarm clockDef jam clockInter door
        ^^^^^
line 2 defines alarm already: alarm clockDef jam clockUnion door
";
    let lines =
        "lamp = door\nalarm clockDef jam clockUnion door\n\nalarm clockDef jam clockInter door";
    table(lines, "16 4", expected);
}

/// Fifteen lines of two names, two of them with a pair of parentheses more, are 32 clocks with one
/// name more.
#[test]
fn too_many_clocks() {
    let lines: Vec<String> = (0..14).map(|i| format!("x{i} = y{i}")).collect();
    let text = format!("{}\n(p lub q) = r\ns = (t lub x0)", lines.join("\n"));
    let expected = "\
17: the line brings a 33rd clock; each pair of parentheses is a clock too
line 16: s = (t lub x0)
         ^^^^^^^^^^^^^^
the lines above have 32 clocks, and this line adds 3
";
    table(&text, "17 16", expected);
}

#[test]
fn too_many_constraints() {
    let text = format!("{}(a lub b) = c", "a # b\n".repeat(63));
    let expected = "\
18: the line brings a 65th constraint; each pair of parentheses is a constraint too
line 64: (a lub b) = c
         ^^^^^^^^^^^^^
the lines above have 63 constraints, and this line adds 2
";
    table(&text, "18 64", expected);
}

#[test]
fn parentheses() {
    let open = "\
19: more than sixteen parentheses stand open
line 1: )(((((((((((((((((a
                         ^
";
    table(&format!("){}a", "(".repeat(17)), "19 1", open);
    let closing = "\
20: a parenthesis has no partner
line 1: (a lub b)) = c
                 ^
";
    table("(a lub b)) = c", "20 1", closing);
    let opening = "\
20: a parenthesis has no partner
line 1: (a lub (b glb c) = (d upto e)
        ^
";
    table("(a lub (b glb c) = (d upto e)", "20 1", opening);
}

#[test]
fn delays_out_of_range() {
    let limit =
        "22: a number of a delay is not from 1 to 32, or its list has no number or more than eight";
    let number = "\
line 1: c clockDef a deferred b for 2 40
                                      ^^
";
    let none = "\
line 1: (a deferred b for 1) = (c deferred d for)
                                             ^^^
its list has no number
";
    let nine = "\
line 1: c clockDef a deferred b for 1 2 3 4 5 6 7 8 9
                                ^^^
its list has 9 numbers
";
    for (line, shown) in [
        ("c clockDef a deferred b for 2 40", number),
        ("(a deferred b for 1) = (c deferred d for)", none),
        ("c clockDef a deferred b for 1 2 3 4 5 6 7 8 9", nine),
    ] {
        table(line, "22 1", &format!("{limit}\n{shown}"));
    }
}

/// What is told of a refused recording behind its three lines, which say this of a table `a = b`.
fn refused(recording: &str, lines: &str, expected: &str) {
    let told = why("a = b", recording);
    assert_eq!(told, format!("{lines}\nconfig 0 0\n\n{expected}"));
}

#[test]
fn before_words() {
    let size = "\
30: the recording has more than 65,536 bytes
trace.vcd has 65537 bytes; the limit is 65536
";
    refused(&" ".repeat(65_537), "refused 30 0\nsteps 0", size);
    let byte = "\
31: the recording holds a byte that is neither a plain printed character nor a space, tab or line end
line 2, column 2 of trace.vcd:
1\\xc2\\xb5s $end
 ^^^^
the byte is 194
";
    refused(
        "$timescale\n1\u{b5}s $end\n",
        "refused 31 12\nsteps 0",
        byte,
    );
}

#[test]
fn words_of_the_header() {
    let command = "\
32: in the header, this word opens no command, or `$enddefinitions` lacks its `$end`
line 1, column 20 of trace.vcd:
$timescale 1s $end $dumpvars
                   ^^^^^^^^^
";
    refused(
        "$timescale 1s $end $dumpvars",
        "refused 32 19\nsteps 0",
        command,
    );
    let shape = "\
33: the variable does not have the six words `$var event 1 id name $end`, with an id of 1 to 4 bytes
line 2, column 1 of trace.vcd:
$var wire 1 b b $end
^^^^
";
    let wire = "$var event 1 a a $end\r\n$var wire 1 b b $end\r\n";
    refused(wire, "refused 33 23\nsteps 0", shape);
    let many = "\
37: the variable is the 129th
line 129, column 1 of trace.vcd:
$var event 1 128 n128 $end
^^^^
";
    let variables: Vec<String> = (0..130)
        .map(|i| format!("$var event 1 {i} n{i} $end\n"))
        .collect();
    let place = variables[..128].concat().len();
    let lines = format!("refused 37 {place}\nsteps 0");
    refused(&variables.concat(), &lines, many);
}

/// What is told of a variable that is declared again, at the end of a header.
fn declared_before(header: &str, again: &str, place: &str, first: &str) {
    let last = header.rsplit('\n').next().unwrap();
    let expected = format!(
        "34: the variable has an id that an earlier one has, or declares a clock of the table again\n\
        {place} of trace.vcd:\n{last}{again}\n{}^^^^\n{first}\n",
        " ".repeat(last.len())
    );
    let lines = format!("refused 34 {}\nsteps 0", header.len());
    refused(&format!("{header}{again}\n"), &lines, &expected);
}

#[test]
fn variables_declared_before() {
    // The variable in the comment declares nothing, nor does the name u, which is no clock.
    let header = "$comment $var event 1 z a $end\n $var event 1 a a $end\n$var event 1 x u $end\n";
    declared_before(
        &format!("{header}$var event 1 y u $end "),
        "$var event 1 c a $end",
        "line 4, column 23",
        "the first with this name stands at line 2, column 2",
    );
    declared_before(
        header,
        "$var event 1 x w $end",
        "line 4, column 1",
        "the first with this id stands at line 3, column 1",
    );
    declared_before(
        header,
        "$var event 1 x u $end",
        "line 4, column 1",
        "the first with this id and name stands at line 3, column 1",
    );
}

/// The variable in the comment is skipped, and E is another name than e.
#[test]
fn clocks_not_declared() {
    let expected = "\
refused 35 98
steps 0
config 0 0 1 0 0 0

35: the header ends, and a clock of the table has no variable
line 3, column 2 of trace.vcd:
 $enddefinitions $end #0 1a
 ^^^^^^^^^^^^^^^
not declared: b, c and e
";
    let recording = "$var event 1 a a $end $comment $var event 1 b b $end\n\
        $var event 1 d d $end $var event 1 e E $end\n $enddefinitions $end #0 1a";
    assert_eq!(why("a = b\n(c upto d) = e", recording), expected);
}

/// A header of nearly 65,536 bytes leaves no room for one more variable.
#[test]
fn a_header_too_long_to_ask() {
    let header = format!("$comment{} $end\n", " x".repeat(32_744));
    assert_eq!(header.len(), 65_502);
    let expected = format!(
        "35: the header ends, and a clock of the table has no variable\n\
        line 2, column 1 of trace.vcd:\n$enddefinitions $end\n{}\n\
        which clocks are not declared could not be found out\n",
        "^".repeat(15)
    );
    let recording = format!("{header}$enddefinitions $end\n");
    let lines = "refused 35 65502\nsteps 0";
    let long = why("a = bbbbbbbbbbbbbbbb", &recording);
    assert_eq!(long, format!("{lines}\nconfig 0 0\n\n{expected}"));
    let found = "not declared: a and b\n";
    assert!(why("a = b", &recording).ends_with(found));
}

#[test]
fn headers_cut_off() {
    let expected = "\
36: the recording ends before the header does
line 2, column 14 of trace.vcd:
$var event 1 b
             ^
the recording ends after 38 bytes
";
    refused(
        "$var event 1 a a $end\n$var event 1 b\n\n",
        "refused 36 38\nsteps 0",
        expected,
    );
    let empty = "\
36: the recording ends before the header does
the recording is empty
";
    refused("", "refused 36 0\nsteps 0", empty);
}

#[test]
fn names_that_the_table_lacks() {
    let text = "$var event 1 ! seal $end\n$var event 1 & ejekt $end\n";
    let expected = "\
refused 38 25
steps 0
config 0 0

38: the variable has a name that is no clock of the table
line 2, column 1 of trace.vcd:
$var event 1 & ejekt $end
^^^^
ejekt is no clock of the table; the nearest is eject
";
    assert_eq!(why_strict("seal strictly precedes eject", text), expected);
    let blank = "\
refused 38 0
steps 0
config

38: the variable has a name that is no clock of the table
line 1, column 1 of trace.vcd:
$var event 1 ! seal $end
^^^^
the table has no clock
";
    assert_eq!(why_strict("", text), blank);
}

/// Of names equally near the first of the table is taken.
#[test]
fn nearest_names() {
    for (table, name, nearest) in [
        ("aa = ab", "ac", "aa"),
        ("seal = eject", "Eject", "eject"),
        ("feed = eject", "fee", "feed"),
        ("left = right", "(#)", "left"),
        ("left = right", "ight_", "right"),
    ] {
        let recording = format!("$var event 1 ! {name} $end\n");
        let ends = format!("{name} is no clock of the table; the nearest is {nearest}\n");
        let told = why_strict(table, &recording);
        assert!(told.ends_with(&ends), "{told}");
    }
}

/// A header of a and b, with the body behind it on line 4: 65 bytes stand before that.
fn body(body: &str, refusal: &str, expected: &str) {
    let recording = recording("a b", body);
    let (begin, place) = (recording.find(body).unwrap(), refusal);
    let (number, place) = place.split_once(" +").unwrap();
    let place = begin + place.parse::<usize>().unwrap();
    let told = why("a = b", &recording);
    let mut lines = told.lines();
    assert_eq!(lines.next(), Some(&*format!("refused {number} {place}")));
    let behind: Vec<&str> = lines.skip(3).collect();
    assert_eq!(behind.join("\n") + "\n", expected);
}

#[test]
fn words_that_are_neither_mark_nor_change() {
    let limit = "40: the word is neither a mark (# and digits) nor a change (0, 1, x, X, z or Z and an id)\n";
    let cases = [
        ("#0 $dumpvars", "+3", "4, column 4", "   ^^^^^^^^^", ""),
        (
            "#0 #12ms 1a",
            "+6",
            "4, column 7",
            "      ^",
            "this m spoils the mark #12ms\n",
        ),
        (
            "#0 ##5",
            "+4",
            "4, column 5",
            "    ^",
            "this # spoils the mark ##5\n",
        ),
        (
            "#0 # 1a",
            "+4",
            "4, column 5",
            "    ^",
            "no digit stands behind the #\n",
        ),
        (
            "#0 #",
            "+4",
            "4, column 5",
            "    ^",
            "no digit stands behind the #\n",
        ),
    ];
    for (text, place, position, mark, detail) in cases {
        let shown = format!("{limit}line {position} of trace.vcd:\n{text}\n{mark}\n{detail}");
        body(text, &format!("40 {place}"), &shown);
    }
}

#[test]
fn times() {
    let limit =
        "41: the time of a mark is above 2^64 - 1, or not above that of the mark before it\n";
    let low = format!(
        "{limit}line 5, column 1 of trace.vcd:\n#065\n^^^^\nthe mark before it has the time 65\n"
    );
    body("#65\n#065\n", "41 +4", &low);
    let large = format!(
        "{limit}line 4, column 24 of trace.vcd:\n#5 #18446744073709551616\n{}^\n\
        with this 6 the time of #18446744073709551616 is above 18446744073709551615\n",
        " ".repeat(23)
    );
    body("#5 #18446744073709551616", "41 +23", &large);
}

#[test]
fn changes_in_the_wrong_place() {
    let early = "\
42: the change stands before any mark, so that it belongs to no step
line 4, column 1 of trace.vcd:
1a #0
^^
";
    body("1a #0", "42 +0", early);
    let unknown = "\
43: the change has an id that no variable has
line 4, column 4 of trace.vcd:
#0 1abcde
   ^^^^^^
the id is abcde
";
    body("#0 1abcde", "43 +3", unknown);
    let twice = "\
44: a clock of the table ticks twice in one step
line 4, column 10 of trace.vcd:
#7 1b 1a xb
         ^^
b ticked already in this step, at time 7
";
    body("#7 1b 1a xb", "44 +9", twice);
}

/// At the last time that there is no later step can be asked for.
#[test]
fn a_second_tick_at_the_last_time() {
    let told = why("a # b", &recording("a b", "#18446744073709551615 1b xb"));
    let expected = "\
44: a clock of the table ticks twice in one step
line 4, column 26 of trace.vcd:
#18446744073709551615 1b xb
                         ^^
";
    assert!(told.ends_with(&format!("\n\n{expected}")), "{told}");
}

/// Every number that has a heading in docs/refusals.md has its words.
#[test]
fn every_limit_has_words() {
    let page = concat!(env!("CARGO_MANIFEST_DIR"), "/../../docs/refusals.md");
    let page = std::fs::read_to_string(page).unwrap();
    let headings = page.lines().filter_map(|line| line.strip_prefix("## "));
    let numbers: Vec<u64> = headings
        .map(|heading| heading.split(' ').next().unwrap().parse().unwrap())
        .collect();
    assert!(numbers.len() >= 30, "{numbers:?}");
    for number in numbers {
        assert_ne!(in_words(number), in_words(0), "{number}");
    }
}

/// Of a long line 24 characters before the word are shown, and of word and line behind it 48.
#[test]
fn long_lines_are_cut() {
    let marks: String = (10..60).map(|time| format!("#{time} ")).collect();
    let expected = format!(
        "43: the change has an id that no variable has\n\
        line 4, column 201 of trace.vcd:\n\
        ...#54 #55 #56 #57 #58 #59 1? #60 {}...\n{}^^\nthe id is ?\n",
        "x".repeat(41),
        " ".repeat(27)
    );
    body(
        &format!("{marks}1? #60 {}", "x".repeat(60)),
        "43 +200",
        &expected,
    );
}
