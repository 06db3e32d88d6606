//! M-101, the table text: readings 7 to 21 of document 02.

mod common;

use common::*;
use second_opinion::*;

/// The request's own line.
const TAUGHT: &str = "((a clockUnion b) upto c) precedes d";

/// A name of 17 bytes.
const LONG: &str = "n2345678901234567";

/// All lines must be refused with this number.
fn all_refused(number: u64, lines: &[&str]) {
    for line in lines {
        assert_eq!(table_refusal(line), (number, 1), "{line}");
    }
}

fn opened(count: usize) -> String {
    "(".repeat(count)
}

fn closed(count: usize) -> String {
    ")".repeat(count)
}

#[test]
fn the_requests_own_line() {
    let expected = Table {
        records: vec![
            definition(Kind::Union, 4, 0, 1, 1),
            definition(Kind::Upto, 5, 4, 2, 1),
            relation(Kind::Precedes, 5, 3, 1),
        ],
        names: ["a", "b", "c", "d"].map(str::to_owned).to_vec(),
        named: 4,
        clocks: 6,
    };
    assert_eq!(table(TAUGHT), expected);
}

#[test]
fn reading_7_a_parenthesis_is_a_word_even_without_spaces() {
    for (dense, spaced) in [
        (
            "((a clockUnion b)upto c)precedes d",
            "  (  ( a clockUnion b )  upto c ) precedes d ",
        ),
        (
            "c clockDef await 2(a lub b)",
            "c clockDef await 2 ( a lub b )",
        ),
        ("c clockDef(a lub b)upto d", "c clockDef ( a lub b ) upto d"),
        ("(a lub b)=(c glb d)", "( a lub b ) = ( c glb d )"),
        ("(a lub b)#(c glb d)", "( a lub b ) # ( c glb d )"),
        (
            "a strictly precedes(b strictly sampled(await 3(c upto d)))",
            "a strictly precedes ( b strictly sampled ( await 3 ( c upto d ) ) )",
        ),
    ] {
        assert_eq!(table(dense), table(spaced), "{dense}");
    }
    // A parenthesis parts words: here a and b are two, which fit no form.
    all_refused(12, &["a(b lub c)d = e", "a()b", "aw(ait 2 a) = b"]);
    // Nothing else parts words without spaces.
    all_refused(12, &["(a=b)", "(a lub b)= c=d", "(a lub b)==c"]);
}

#[test]
fn reading_7_words_of_the_recording_do_not_change() {
    let header = "$var event 1 ( a $end $var event 1 )() b $end $var event 1 x(y a(b $end ";
    let recording = format!("{header} $enddefinitions $end #1 1( #2 x)() 1x(y #3 1( 1)()");
    let violated = Verdict::Violated { line: 1, time: 3 };
    assert_eq!(verdict("a # b", recording), (violated, 2));
    // `(` opens no command, and no change.
    assert_eq!(verdict("", "($var"), refused_run(32, 0, 0));
    let body = "$enddefinitions $end #1 (";
    assert_eq!(verdict("", body), refused_run(40, body.len() - 1, 0));
}

#[test]
fn reading_8_19_when_over_sixteen_stand_open() {
    let line = |parts: &[&str]| table_refusal(parts.concat());
    assert_eq!(line(&[&opened(17)]), (19, 1));
    assert_eq!(line(&[&opened(17), &closed(17)]), (19, 1));
    // Sixteen are not over sixteen; they lack partners.
    assert_eq!(line(&[&opened(16)]), (20, 1));
    assert_eq!(line(&[&opened(16), &closed(16)]), (12, 1));
    // Whatever stands between them.
    assert_eq!(line(&["a ~ ( 1".repeat(17).as_str()]), (19, 1));
    assert_eq!(line(&[LONG, &"(lub=".repeat(17), "x x"]), (19, 1));
    // A closer takes one off, so over sixteen in all may stand in a line.
    let twice = [opened(16), closed(16), opened(16), closed(16)].concat();
    assert_eq!(table_refusal(&twice), (12, 1));
    let again = [opened(16), closed(1), opened(1), closed(16)].concat();
    assert_eq!(table_refusal(&again), (12, 1));
    let over = [opened(16), closed(1), opened(2), closed(17)].concat();
    assert_eq!(table_refusal(&over), (19, 1));
    // Openers that are never closed count on.
    assert_eq!(table_refusal("() (".repeat(16)), (20, 1));
    assert_eq!(table_refusal("() (".repeat(17)), (19, 1));
    // Sixteen are open, and a pair is opened behind them.
    assert_eq!(table_refusal(format!("{}()", opened(15))), (20, 1));
    assert_eq!(table_refusal(format!("{}()", opened(16))), (19, 1));
}

#[test]
fn reading_8_a_closer_without_partner_closes_none() {
    assert_eq!(table_refusal(format!("){}", opened(17))), (19, 1));
    assert_eq!(table_refusal(format!("){}", opened(16))), (20, 1));
    let many = format!("{}{}", closed(40), opened(16));
    assert_eq!(table_refusal(&many), (20, 1));
    assert_eq!(table_refusal(many + "("), (19, 1));
}

#[test]
fn reading_9_20_when_a_parenthesis_has_no_partner() {
    all_refused(
        20,
        &[
            "(",
            ")",
            ")(",
            "())(",
            "(()",
            "())",
            "(a lub b = c",
            "a lub b) = c",
            "a) = (b",
            "c clockDef (a lub b",
            "c clockDef a lub b)",
            "((a lub b) = c",
            "(a lub b)) = c",
        ],
    );
}

#[test]
fn reading_10_19_and_20_stand_between_11_and_12() {
    // 11 before both, wherever it stands.
    assert_eq!(table_refusal(opened(17) + "\t"), (11, 1));
    assert_eq!(table_refusal("(\u{7f}"), (11, 1));
    // 19 before 20, wherever each stands.
    assert_eq!(table_refusal(format!(")){}", opened(17))), (19, 1));
    assert_eq!(
        table_refusal(format!("{}{}", opened(17), closed(18))),
        (19, 1)
    );
    // 20 before 12 to 18.
    all_refused(20, &["( ~", "~ )", "(a", "a = a)", "c clockDef await 0 a)"]);
    assert_eq!(table_refusal(format!("({LONG} = b")), (20, 1));
    let defined_twice = "c clockDef a lub b\nc clockDef a lub b)";
    assert_eq!(table_refusal(defined_twice), (20, 2));
    // Line 1 before line 2, and the line is the place.
    assert_eq!(table_refusal("a = a\n("), (15, 1));
    assert_eq!(table_refusal(format!("\n\n{}", opened(17))), (19, 3));
}

#[test]
fn reading_10_a_line_of_parentheses_is_not_blank() {
    all_refused(12, &["()", "( )", "  ()  ", "(())", "()()"]);
    assert_eq!(table_refusal("a # b\n\n ( )"), (12, 3));
}

#[test]
fn reading_10_12_to_18_keep_their_order_in_nested_lines() {
    // Each line has its condition and a later one, mostly within parentheses.
    assert_eq!(table_refusal(format!("({LONG}) = b")), (12, 1));
    assert_eq!(table_refusal(format!("(await 0 {LONG}) = b")), (13, 1));
    all_refused(14, &["(await 0 a) = a", "c clockDef (await 0 c) upto c"]);
    let earlier = "c clockDef a lub b\n";
    assert_eq!(
        table_refusal(format!("{earlier}c clockDef (c lub a) upto b")),
        (15, 2)
    );
    // 32 clocks: 16 before 17.
    let line = |index: usize| format!("k{} # k{}\n", 2 * index, 2 * index + 1);
    let full: String = (0..16).map(line).collect();
    let defined = full.clone() + "k0 clockDef k1 lub k2\n";
    assert_eq!(
        table_refusal(defined + "k0 clockDef (k1 lub k2) upto k3"),
        (16, 18)
    );
    // 63 records and 32 clocks: 17 before 18.
    let full = full + &"k0 # k1\n".repeat(47);
    assert_eq!(table_refusal(full.clone() + "(k0 lub k1) = k2"), (17, 64));
    assert_eq!(table(full + "k0 = k2").records.len(), 64);
}

#[test]
fn reading_11_an_operand_is_a_name_or_a_right_side_in_parentheses() {
    all_refused(
        12,
        &[
            "(a) = b",
            "a = (b)",
            "((a)) = b",
            "((a lub b)) = c",
            "c = ((a lub b))",
            "(a = b) = c",
            "(a = b)",
            "(a # b) # c",
            "(a precedes b) precedes c",
            "(c clockDef a lub b) = d",
            "(c clockDef a lub b)",
            "() = a",
            "a = ()",
            "(a lub b)",
            "(await 2 a)",
            "c clockDef (a = b) lub d",
            "c clockDef ((a) lub b) upto d",
            "c clockDef (a lub b lub d) upto e",
            "c clockDef (a lub (b)) upto d",
            "(a lub) = b",
            "(lub b) = c",
            "(await a) = b",
            "(await 2) = b",
            "(2) = b",
            "(a lub 2) = b",
            "(a strictly b) = c",
            "(a strictly lub b) = c",
            "(a strictly precedes b) = c",
            "(a lub b) (c lub d)",
            "(a lub b) c",
            "(a lub b) = c d",
            "a (lub) b",
            "c clockDef a (lub) b",
            "a (=) b",
            "(a lub b) strictly (precedes) c",
        ],
    );
}

#[test]
fn reading_12_what_is_no_operand_takes_no_parentheses() {
    all_refused(
        12,
        &[
            "c clockDef (a lub b)",
            "c clockDef (await 2 a)",
            "c clockDef ((a lub b))",
            "(a lub b) clockDef c lub d",
            "(c) clockDef a lub b",
            "c (clockDef) a lub b",
            "(c clockDef) a lub b",
            "c clockDef await (2) a",
            "c clockDef await (await 2 a) b",
            "(await (2) a) = b",
            "c clockDef await 2",
            "c clockDef (await 2) a",
        ],
    );
}

#[test]
fn reading_12_both_sides_of_every_relation_are_operands() {
    for (sign, kind) in [
        ("=", Kind::Coincides),
        ("#", Kind::Excludes),
        ("isSubClockOf", Kind::SubClock),
        ("strictly precedes", Kind::StrictlyPrecedes),
        ("precedes", Kind::Precedes),
    ] {
        let left = table(format!("(a lub b) {sign} c")).records;
        let expected = [definition(Kind::Lub, 3, 0, 1, 1), relation(kind, 3, 2, 1)];
        assert_eq!(left, expected, "{sign}");
        let right = table(format!("a {sign} (b lub c)")).records;
        let expected = [definition(Kind::Lub, 3, 1, 2, 1), relation(kind, 0, 3, 1)];
        assert_eq!(right, expected, "{sign}");
        let both = table(format!("(a lub b) {sign} (await 7 c)")).records;
        let expected = [
            definition(Kind::Lub, 3, 0, 1, 1),
            await_definition(4, 7, 2, 1),
            relation(kind, 3, 4, 1),
        ];
        assert_eq!(both, expected, "{sign}");
    }
}

#[test]
fn reading_12_both_operands_of_every_right_side_are_operands() {
    for (sign, kind) in [
        ("clockUnion", Kind::Union),
        ("clockInter", Kind::Inter),
        ("lub", Kind::Lub),
        ("glb", Kind::Glb),
        ("strictly sampled", Kind::StrictlySampled),
        ("sampled", Kind::Sampled),
        ("upto", Kind::Upto),
    ] {
        // c is 0, a 1, b 2 and d 3; of two implicit clocks the left one is 4.
        let left = table(format!("c clockDef (a glb b) {sign} d")).records;
        let expected = [
            definition(Kind::Glb, 4, 1, 2, 1),
            definition(kind, 0, 4, 3, 1),
        ];
        assert_eq!(left, expected, "{sign}");
        let right = table(format!("c clockDef a {sign} (b glb d)")).records;
        let expected = [
            definition(Kind::Glb, 4, 2, 3, 1),
            definition(kind, 0, 1, 4, 1),
        ];
        assert_eq!(right, expected, "{sign}");
        let both = table(format!("c clockDef (a glb b) {sign} (await 9 d)")).records;
        let expected = [
            definition(Kind::Glb, 4, 1, 2, 1),
            await_definition(5, 9, 3, 1),
            definition(kind, 0, 4, 5, 1),
        ];
        assert_eq!(both, expected, "{sign}");
        // As an inner expression itself.
        let inner = table(format!("c = (a {sign} b)")).records;
        let expected = [
            definition(kind, 3, 1, 2, 1),
            relation(Kind::Coincides, 0, 3, 1),
        ];
        assert_eq!(inner, expected, "{sign}");
    }
}

#[test]
fn reading_12_awaits_operand_is_an_operand() {
    let outer = table("c clockDef await 2 (a lub b)").records;
    let expected = [
        definition(Kind::Lub, 3, 1, 2, 1),
        await_definition(0, 2, 3, 1),
    ];
    assert_eq!(outer, expected);
    let inner = table("c = (await 2 (await 3 a))").records;
    let expected = [
        await_definition(2, 3, 1, 1),
        await_definition(3, 2, 2, 1),
        relation(Kind::Coincides, 0, 3, 1),
    ];
    assert_eq!(inner, expected);
}

#[test]
fn reading_13_sixteen_levels_pass_and_the_seventeenth_is_19() {
    let awaits = |levels: usize| format!("{}a{} = b", "(await 1 ".repeat(levels), closed(levels));
    let read = table(awaits(16));
    assert_eq!((read.named, read.clocks), (2, 18));
    assert_eq!(read.records.len(), 17);
    assert_eq!(read.records[0], await_definition(2, 1, 0, 1));
    assert_eq!(read.records[15], await_definition(17, 1, 16, 1));
    assert_eq!(read.records[16], relation(Kind::Coincides, 17, 1, 1));
    assert_eq!(table_refusal(awaits(17)), (19, 1));
    // In a definition, and on the right, there are sixteen levels too.
    let right = |levels: usize| {
        let (open, close) = ("(await 1 ".repeat(levels), closed(levels));
        format!("c clockDef await 1 {open}a{close}")
    };
    assert_eq!(table(right(16)).clocks, 18);
    assert_eq!(table_refusal(right(17)), (19, 1));
    // Sixteen on the left and, these closed, fourteen on the right.
    let right = format!("{}c{}", "(await 1 ".repeat(14), closed(14));
    let both = awaits(16).replace("= b", &format!("= {right}"));
    assert_eq!(table(both).clocks, 32);
    // 19 before any form is asked.
    let neither = format!("{}~{}", opened(17), closed(17));
    assert_eq!(table_refusal(neither), (19, 1));
}

#[test]
fn reading_14_13_asks_every_name_and_14_every_number() {
    for line in [
        format!("({LONG} lub b) = c"),
        format!("(a lub {LONG}) = c"),
        format!("a = (b lub (c glb {LONG}))"),
        format!("c clockDef (await 2 {LONG}) upto b"),
        format!("{LONG} clockDef (a lub b) upto d"),
        format!("(a lub b) = {LONG}"),
    ] {
        assert_eq!(table_refusal(&line), (13, 1), "{line}");
    }
    let name = &LONG[..16];
    assert_eq!(table(format!("({name} lub b) = c")).names[0], name);
    all_refused(
        14,
        &[
            "(await 0 a) = b",
            "(await 1000001 a) = b",
            "(await 2 a) = (await 0 b)",
            "(await 0 a) = (await 2 b)",
            "c clockDef await 2 (await 0 a)",
            "c clockDef await 0 (await 2 a)",
            "c clockDef (await 18446744073709551617 a) lub b",
        ],
    );
    let numbers = table("(await 007 a) = (await 1000000 b)").records;
    assert_eq!((numbers[0].number, numbers[1].number), (7, 1_000_000));
}

#[test]
fn reading_15_a_name_twice_anywhere_in_the_line_is_15() {
    all_refused(
        15,
        &[
            "(a lub b) = a",
            "c clockDef (a lub c) upto b",
            "a = (b lub a)",
            "(a lub a) = b",
            "(a lub b) = (c glb a)",
            "(a lub b) # (a lub b)",
            "c clockDef await 2 (await 3 c)",
            "(a lub (b glb (c upto a))) = d",
        ],
    );
}

#[test]
fn reading_15_implicit_clocks_have_no_name() {
    let read = table("(a lub b) = c\n(a lub b) = d");
    let expected = [
        definition(Kind::Lub, 4, 0, 1, 1),
        relation(Kind::Coincides, 4, 2, 1),
        definition(Kind::Lub, 5, 0, 1, 2),
        relation(Kind::Coincides, 5, 3, 2),
    ];
    assert_eq!(read.records, expected);
    assert_eq!((read.named, read.clocks), (4, 6));
    assert_eq!(read.names, ["a", "b", "c", "d"]);
}

#[test]
fn reading_16_16_asks_the_name_left_of_clock_def_alone() {
    let first = "c clockDef (a lub b) upto d\n";
    let second = "c clockDef (await 2 a) glb b";
    assert_eq!(table_refusal(format!("{first}{second}")), (16, 2));
    // c as an operand, at any depth, or in a relation, defines nothing.
    let uses = "e clockDef (c lub a) upto b\n(c upto e) = (a lub b)\na clockDef (c lub b) glb d";
    assert_eq!(table(format!("{first}{uses}")).records.len(), 2 + 2 + 3 + 2);
    let late = "(c lub a) = b\nc clockDef (a lub b) upto d\n(c glb a) # d";
    assert_eq!(table(late).records.len(), 6);
}

#[test]
fn reading_17_17_counts_named_and_implicit_clocks_together() {
    let line = |index: usize| format!("k{} # k{}\n", 2 * index, 2 * index + 1);
    let thirty: String = (0..15).map(line).collect();
    let with = |lines: &str| thirty.clone() + lines;
    // 30 named so far.
    let two = "(k0 lub k1) = (k2 lub k3)";
    assert_eq!(table(with(two)).clocks, 32);
    assert_eq!(table(with(two)).named, 30);
    assert_eq!(table(with("(x lub k1) = k2")).clocks, 32);
    assert_eq!(table(with("x # y")).clocks, 32);
    for three in [
        "(k0 lub k1) = ((k2 lub k3) glb k4)",
        "(x lub y) = k0",
        "(x lub k0) = (k1 lub k2)",
    ] {
        assert_eq!(table_refusal(with(three)), (17, 16), "{three}");
    }
    // Implicit clocks of earlier lines count, and so do names of later ones.
    let after = |line: &str| table_refusal(with(&format!("{two}\n{line}")));
    assert_eq!(after("k0 # x"), (17, 17));
    assert_eq!(after("(k0 lub k1) = k2"), (17, 17));
    assert_eq!(table(with(&format!("{two}\nk0 # k1"))).clocks, 32);
    // 17 names and the fifteen pairs between them fill the table.
    let chain = |names: usize| -> String {
        let inner: String = (2..names).map(|name| format!(" lub n{name})")).collect();
        format!("{}n0 lub n1){inner} = z", opened(names - 1))
    };
    assert_eq!(table(chain(16)).named, 17);
    assert_eq!(table(chain(16)).clocks, 32);
    assert_eq!(table_refusal(chain(17)), (17, 1));
}

#[test]
fn reading_17_18_counts_the_implicit_clocks_records() {
    let relations = |count: usize| "a # b\n".repeat(count);
    let nested = "(a lub b) = (c upto d)";
    let read = table(relations(61) + nested);
    assert_eq!(read.records.len(), 64);
    assert_eq!(read.records[63], relation(Kind::Coincides, 4, 5, 62));
    assert_eq!(table_refusal(relations(62) + nested), (18, 63));
    assert_eq!(table_refusal(relations(63) + nested), (18, 64));
    // The records of earlier lines' implicit clocks count.
    let first = format!("{nested}\n{}", relations(61));
    assert_eq!(table(&first).records.len(), 64);
    assert_eq!(table_refusal(first + "a # b"), (18, 63));
}

#[test]
fn reading_18_records_in_the_order_of_the_closing_parentheses() {
    // All of the left operand before all of the right one, the deeper first.
    let left = table("((a lub b) glb c) = (d upto e)");
    let expected = [
        definition(Kind::Lub, 5, 0, 1, 1),
        definition(Kind::Glb, 6, 5, 2, 1),
        definition(Kind::Upto, 7, 3, 4, 1),
        relation(Kind::Coincides, 6, 7, 1),
    ];
    assert_eq!(left.records, expected);
    let right = table("(a lub b) = (c glb (d upto e))");
    let expected = [
        definition(Kind::Lub, 5, 0, 1, 1),
        definition(Kind::Upto, 6, 3, 4, 1),
        definition(Kind::Glb, 7, 2, 6, 1),
        relation(Kind::Coincides, 5, 7, 1),
    ];
    assert_eq!(right.records, expected);
    // The parts of the right operand are deeper than those of the left one.
    let deep = table("z clockDef ((a lub b) lub (c lub d)) glb ((await 5 (e upto f)) sampled g)");
    // z is 0, a to g are 1 to 7; implicit clocks from 8.
    let expected = [
        definition(Kind::Lub, 8, 1, 2, 1),
        definition(Kind::Lub, 9, 3, 4, 1),
        definition(Kind::Lub, 10, 8, 9, 1),
        definition(Kind::Upto, 11, 5, 6, 1),
        await_definition(12, 5, 11, 1),
        definition(Kind::Sampled, 13, 12, 7, 1),
        definition(Kind::Glb, 0, 10, 13, 1),
    ];
    assert_eq!(deep.records, expected);
    assert_eq!((deep.named, deep.clocks), (8, 14));
}

#[test]
fn reading_19_implicit_numbers_stand_behind_all_named_ones() {
    let read = table("(a lub b) = c\n\nd # e\n(a glb d) # f");
    let expected = [
        definition(Kind::Lub, 6, 0, 1, 1),
        relation(Kind::Coincides, 6, 2, 1),
        relation(Kind::Excludes, 3, 4, 3),
        definition(Kind::Glb, 7, 0, 3, 4),
        relation(Kind::Excludes, 7, 5, 4),
    ];
    assert_eq!(read.records, expected);
    assert_eq!(read.names, ["a", "b", "c", "d", "e", "f"]);
    assert_eq!((read.named, read.clocks), (6, 8));
}

#[test]
fn reading_19_named_clocks_are_numbered_in_the_order_of_their_words() {
    // The inner record stands first; c is still the first word.
    let read = table("c clockDef (b lub a) upto d");
    assert_eq!(read.names, ["c", "b", "a", "d"]);
    let expected = [
        definition(Kind::Lub, 4, 1, 2, 1),
        definition(Kind::Upto, 0, 4, 3, 1),
    ];
    assert_eq!(read.records, expected);
}

#[test]
fn reading_19_the_counts_of_plain_empty_and_refused_tables() {
    let counts = |text: &str| {
        let table = read_table(text.as_bytes()).unwrap_or_default();
        (table.named, table.clocks)
    };
    assert_eq!(counts("a # b\nc clockDef a lub b"), (3, 3));
    assert_eq!(counts(""), (0, 0));
    assert_eq!(counts("(a lub b) = c"), (3, 4));
    assert_eq!(counts("(a lub b) = c\n("), (0, 0));
    assert_eq!(counts("(a lub b) = a"), (0, 0));
    assert_eq!(Table::default().records, []);
}

#[test]
fn reading_20_the_configuration_holds_the_implicit_records_words() {
    let header = "$var event 1 0 a $end $var event 1 1 b $end $var event 1 2 c $end \
        $var event 1 3 d $end $enddefinitions $end";
    let printed =
        |body: &str| run_ignoring(TAUGHT.as_bytes(), format!("{header}{body}").as_bytes());
    assert_eq!(
        printed("").to_string(),
        "accepted\nsteps 0\nconfig 0 0 1 0 0 0\n"
    );
    // a ticks the union and so the upto clock twice; then c ends it.
    assert_eq!(
        printed(" #1 10 #2 11 #3 12 10").to_string(),
        "accepted\nsteps 3\nconfig 0 0 0 0 2 0\n"
    );
    let report = printed("");
    assert_eq!(report.constraints, 3);
    assert_eq!(report.configuration, words(&[0, 1, 0]));
    let start = run_ignoring(b"x = (await 5 (a sampled b))", b"");
    assert_eq!(
        start.to_string(),
        "refused 36 0\nsteps 0\nconfig 2 0 5 0 0 0\n"
    );
    let refused = run_ignoring(b"x = (await 5 (a sampled b))\n)", b"");
    assert_eq!(refused.to_string(), "refused 20 2\nsteps 0\nconfig\n");
}

#[test]
fn reading_21_a_var_can_not_name_an_implicit_clock() {
    let table = "(a lub b) # c";
    // The three named clocks are enough for 35, whatever else is declared.
    assert_eq!(verdict(table, HEADER), (Verdict::Accepted, 0));
    let others = "$var event 1 ( (a $end $var event 1 ) (a $end $var event 1 3 3 $end ";
    let recording = format!("{others}{HEADER}#1 1( 1( 1) 13 13 #2 1%");
    assert_eq!(verdict(table, recording), (Verdict::Accepted, 2));
    // 35, 34 and 44 speak of the named ones, inner ones too.
    let without_b = "$var event 1 ! a $end $var event 1 % c $end ";
    let recording = format!("{without_b}$enddefinitions $end");
    assert_eq!(
        verdict(table, recording),
        refused_run(35, without_b.len(), 0)
    );
    let again = format!("{without_b}$var event 1 & a $end");
    assert_eq!(verdict(table, again), refused_run(34, without_b.len(), 0));
    let twice = format!("{HEADER}#1 1! 1!");
    assert_eq!(verdict(table, twice), refused_run(44, HEADER.len() + 6, 0));
}
