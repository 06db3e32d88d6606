//! The calls on small inputs whose answers documents 01 and 02 and the header give.

use ccsl::{
    raw, Clock, Clocks, Configuration, Delays, Kind, Monitor, Record, Refusal, SamePlace,
    StepAnswer, Steps, Time, UnknownNames, Verdict, PAIRS,
};

const TABLE: &[u8] = b"req strictly precedes ack\ndone clockDef await 2 ack\n";
const RECORDING: &[u8] = b"$var event 1 ! req $end $var event 1 \" ack $end \
    $var event 1 % done $end $enddefinitions $end \
    #0 1! #3 #5 1\" 1! #8 1\" 1% #9 1! 1\"";

/// A number that no call writes.
const LEFT: u64 = 0xAAAA_AAAA_AAAA_AAAA;
const LEFT_WORD: i64 = -0x5555_5555_5555_5556;

fn relation(kind: Kind, first: u64, second: u64) -> Record {
    Record {
        kind,
        defined: 0,
        first,
        second,
        number: 0,
        delays: Delays::default(),
        line: 1,
    }
}

fn definition(kind: Kind, defined: u64, first: u64, second: u64) -> Record {
    Record {
        defined,
        ..relation(kind, first, second)
    }
}

/// `c clockDef await 1 a`, with any b.
fn awaits(defined: u64, first: u64, second: u64) -> Record {
    Record {
        number: 1,
        ..definition(Kind::Await, defined, first, second)
    }
}

fn all_named(count: u32) -> Clocks {
    Clocks::all_named(count)
}

/// The configuration of records that are no delays: behind each word stands a 0.
fn configuration(words: &[i64]) -> Configuration {
    let mut all = [[0; 2]; PAIRS];
    for (pair, word) in all.iter_mut().zip(words) {
        pair[0] = *word;
    }
    all
}

#[test]
fn the_example_of_document_01_is_printed() {
    assert_eq!(
        ccsl::run(TABLE, RECORDING).to_string(),
        "violated 1 9\nsteps 4\nconfig 0 0 0 0\n"
    );
}

#[test]
fn steps_are_counted_and_times_are_recorded() {
    let report = ccsl::run(TABLE, RECORDING);
    assert_eq!(
        (report.verdict, report.steps),
        (
            Verdict::Violated {
                line: 1,
                time: Time(9)
            },
            Steps(4)
        )
    );
    assert_eq!(
        format!("{} {}", report.steps, Time(u64::MAX)),
        "4 18446744073709551615"
    );
}

#[test]
fn the_example_is_read() {
    let table = ccsl::read_table(TABLE).unwrap();
    assert_eq!(
        table.records,
        [
            Record {
                kind: Kind::StrictlyPrecedes,
                defined: 0,
                first: 0,
                second: 1,
                number: 0,
                delays: Delays::default(),
                line: 1
            },
            Record {
                kind: Kind::Await,
                defined: 2,
                first: 1,
                second: 0,
                number: 2,
                delays: Delays::default(),
                line: 2
            },
        ]
    );
    let clock = |name: &str, place| Clock {
        name: name.to_string(),
        place,
    };
    assert_eq!(
        table.clocks,
        [
            clock("req", 0..3),
            clock("ack", 22..25),
            clock("done", 26..30)
        ]
    );
}

#[test]
fn empty_texts_are_accepted() {
    let report = ccsl::run(b"", b"$enddefinitions $end");
    assert_eq!(report.to_string(), "accepted\nsteps 0\nconfig\n");
    assert_eq!(ccsl::read_table(b"").unwrap().records, []);
    assert_eq!(
        ccsl::run(b"", b"").verdict,
        Verdict::Refused(Refusal {
            number: 36,
            place: 0
        })
    );
}

#[test]
fn calls_run_at_once_from_several_threads() {
    let table = ccsl::read_table(TABLE).unwrap();
    std::thread::scope(|scope| {
        for _ in 0..8 {
            scope.spawn(|| {
                for _ in 0..200 {
                    assert_eq!(ccsl::read_table(TABLE), Ok(table.clone()));
                    assert_eq!(ccsl::run(TABLE, RECORDING).steps, Steps(4));
                    let mut words = configuration(&[0, 2]);
                    let answer = ccsl::step(&table.records, all_named(3), &mut words, 0b001);
                    assert_eq!(
                        (answer, words),
                        (StepAnswer::Accepted, configuration(&[1, 2]))
                    );
                    let order = ccsl::definition_order(&table.records, all_named(3));
                    assert_eq!(order, Ok(vec![2]));
                }
            });
        }
    });
}

#[test]
fn a_refused_table_prints_config_alone() {
    assert_eq!(
        ccsl::run(b"a = a", RECORDING).to_string(),
        "refused 15 1\nsteps 0\nconfig\n"
    );
    assert_eq!(
        ccsl::read_table(b"\na = a"),
        Err(Refusal {
            number: 15,
            place: 2
        })
    );
}

/// What a run by [`TABLE`] prints with unknown names refused, and with unknown names ignored.
fn both(recording: &str) -> [String; 2] {
    both_by(TABLE, recording)
}

fn both_by(table: &[u8], recording: &str) -> [String; 2] {
    [UnknownNames::Refused, UnknownNames::Ignored]
        .map(|unknown| ccsl::run_with(table, recording.as_bytes(), unknown).to_string())
}

/// What a run by [`TABLE`] prints that is refused in the header: the words are the start words.
fn in_the_header(number: u64, place: u64) -> String {
    format!("refused {number} {place}\nsteps 0\nconfig 0 0 2 0\n")
}

#[test]
fn a_name_that_the_table_lacks_is_38_at_its_command() {
    let recording = String::from_utf8(RECORDING.to_vec()).unwrap();
    let ignored = "violated 1 9\nsteps 4\nconfig 0 0 0 0\n".to_string();
    assert_eq!(both(&recording), [ignored.clone(), ignored.clone()]);
    // Before the three declarations of 24, 24 and 25 bytes, between them, and behind them.
    for place in [0, 24, 48, 73] {
        let (before, behind) = recording.split_at(place);
        let more = format!("{before}$var event 1 & lamp $end {behind} 1& 1&");
        assert_eq!(
            both(&more),
            [in_the_header(38, place as u64), ignored.clone()]
        );
    }
    let spaced = format!(" \n$comment $var $end\t$var\nevent 1 & lamp $end {recording}");
    assert_eq!(both(&spaced), [in_the_header(38, 21), ignored]);
}

#[test]
fn a_misspelt_name_is_38_and_when_ignored_35() {
    for name in [
        "akc", "ACK", "Ack", "acK", "ac", "a", "ackk", "ack_", "_ack", "ack.", "lub", "=", "$end",
        "(ack)",
    ] {
        let misspelt = format!(
            "$var event 1 ! req $end $var event 1 \" {name} $end \
             $var event 1 % done $end $enddefinitions $end #0 1!"
        );
        let header_end = 24 + (21 + name.len() as u64) + 25;
        assert_eq!(
            both(&misspelt),
            [in_the_header(38, 24), in_the_header(35, header_end)],
            "{name}"
        );
    }
    let long = format!(
        "$var event 1 ! req{} $end $enddefinitions $end",
        "q".repeat(300)
    );
    assert_eq!(both(&long)[0], in_the_header(38, 0));
}

#[test]
fn the_other_limits_of_a_variable_come_in_their_order() {
    let cases = [
        // 36: a variable whose words run out has this refusal and no other.
        ("$var event 1 ! other", (36, 20), (36, 20)),
        ("$var event 1 ! other ", (36, 21), (36, 21)),
        ("$var event 1 ! other $end", (38, 0), (36, 25)),
        // 33, of the same variable and of one behind it.
        ("$var wire 1 ! other $end", (33, 0), (33, 0)),
        ("$var event 2 ! other $end", (33, 0), (33, 0)),
        ("$var event 1 !!!!! other $end", (33, 0), (33, 0)),
        ("$var event 1 ! other end", (33, 0), (33, 0)),
        (
            "$var event 1 ! other $end $var wire 1 % req $end",
            (38, 0),
            (33, 26),
        ),
        // 34: an id that was declared before, of the same variable and of one behind it.
        (
            "$var event 1 ! req $end $var event 1 ! other $end",
            (34, 24),
            (34, 24),
        ),
        (
            "$var event 1 ! req $end $var event 1 % req $end",
            (34, 24),
            (34, 24),
        ),
        (
            "$var event 1 ! other $end $var event 1 ! req $end",
            (38, 0),
            (34, 26),
        ),
        (
            "$var event 1 ! other $end $var event 1 % other $end $enddefinitions $end",
            (38, 0),
            (35, 52),
        ),
        // 32, of a command before it and of one behind it.
        ("$dump $var event 1 ! other $end", (32, 0), (32, 0)),
        ("$var event 1 ! other $end $dump", (38, 0), (32, 26)),
        // 31 and 30 come before all words.
        ("$var event 1 ! other $end \u{7f}", (31, 26), (31, 26)),
    ];
    for (recording, refused, ignored) in cases {
        let expected = [refused, ignored].map(|(number, place)| in_the_header(number, place));
        assert_eq!(both(recording), expected, "{recording}");
    }
    let long = format!("$var event 1 ! other $end{}", " ".repeat(65_536));
    assert_eq!(both(&long), [30, 30].map(|number| in_the_header(number, 0)));
}

#[test]
fn a_129th_variable_is_reached_only_where_unknown_names_are_ignored() {
    let variables = |count: usize| -> String {
        (0..count)
            .map(|number| format!("$var event 1 v{number:03} n $end\n"))
            .collect()
    };
    let refused = |number, place| format!("refused {number} {place}\nsteps 0\nconfig\n");
    let accepted = "accepted\nsteps 1\nconfig\n".to_string();
    let end = "$enddefinitions $end #5 1v000 1v000";
    assert_eq!(
        both_by(b"", &(variables(128) + end)),
        [refused(38, 0), accepted]
    );
    assert_eq!(
        both_by(b"", &(variables(129) + end)),
        [refused(38, 0), refused(37, 3200)]
    );
}

#[test]
fn names_are_compared_whole() {
    let run = |name: &str| {
        let recording =
            format!("$var event 1 ! {name} $end $var event 1 % b $end $enddefinitions $end #0 1!");
        let [refused, _] = both_by(b"abcdefghijklmnop # b", &recording);
        refused
    };
    assert_eq!(run("abcdefghijklmnop"), "accepted\nsteps 1\nconfig 0 0\n");
    for name in [
        "abcdefghijklmno",
        "abcdefghijklmnopq",
        "abcdefghijklmnopabcdefghijklmnop",
        "abcdefghijklmnoq",
        "abcdefghijklmnoP",
        "abcdefg_ijklmnop",
        "bbcdefghijklmnop",
        "abcdefgh",
        "ijklmnop",
    ] {
        let refused = "refused 38 0\nsteps 0\nconfig 0 0\n";
        assert_eq!(run(name), refused, "{name}");
    }
}

#[test]
fn as_many_names_are_known_as_a_table_can_have() {
    let table: String = (0..16)
        .map(|i| format!("c{:02} # c{:02}\n", 2 * i, 2 * i + 1))
        .collect();
    let recording = |count: usize| -> String {
        let variables: String = (0..count)
            .map(|i| format!("$var event 1 v{i:02} c{i:02} $end\n"))
            .collect();
        variables + "$enddefinitions $end #0 1v31"
    };
    let config = "config".to_string() + &" 0 0".repeat(16);
    let accepted = format!("accepted\nsteps 1\n{config}\n");
    let refused = format!("refused 38 832\nsteps 0\n{config}\n");
    assert_eq!(
        both_by(table.as_bytes(), &recording(32)),
        [accepted.as_str(), &accepted]
    );
    assert_eq!(
        both_by(table.as_bytes(), &recording(33)),
        [refused, accepted]
    );
}

#[test]
fn names_in_parentheses_are_known() {
    let recording = "$var event 1 ! a $end $var event 1 % b $end $var event 1 & c $end \
        $enddefinitions $end #3 1! 1%";
    let accepted = "accepted\nsteps 1\nconfig 0 0 1 0\n";
    assert_eq!(
        both_by(b"(a lub b) precedes c", recording),
        [accepted, accepted]
    );
}

#[test]
fn by_an_empty_table_every_variable_is_38() {
    let accepted = "accepted\nsteps 1\nconfig\n";
    for table in [&b""[..], b" ", b"\n  \n"] {
        assert_eq!(
            both_by(table, "$var event 1 ! a $end $enddefinitions $end #0 1!"),
            ["refused 38 0\nsteps 0\nconfig\n", accepted]
        );
        assert_eq!(
            both_by(table, "$enddefinitions $end #0"),
            [accepted, accepted]
        );
    }
}

#[test]
fn a_refused_table_comes_before_unknown_names() {
    let refused = "refused 15 1\nsteps 0\nconfig\n";
    assert_eq!(
        both_by(b"a = a", "$var event 1 ! other $end $enddefinitions $end"),
        [refused, refused]
    );
}

#[test]
fn unknown_names_are_refused_by_default() {
    assert_eq!(UnknownNames::default(), UnknownNames::Refused);
    let other = b"$var event 1 ! other $end $enddefinitions $end";
    let recordings: [&[u8]; 4] = [RECORDING, other, b"", b"$enddefinitions $end #0"];
    for table in [TABLE, NESTED, b"", b"a = a"] {
        for recording in recordings {
            assert_eq!(
                ccsl::run(table, recording),
                ccsl::run_with(table, recording, UnknownNames::Refused)
            );
        }
    }
    assert_eq!(ccsl::run(TABLE, other).to_string(), in_the_header(38, 0));
}

#[test]
fn single_steps_begin_with_the_start_words() {
    let table = ccsl::read_table(
        b"a precedes b\nc clockDef await 3 a\n\nd clockDef a sampled b\ne clockDef a upto b\n\
          f clockDef a strictly sampled b\ng clockDef a lub b\nh clockDef await 1000000 b",
    )
    .unwrap();
    let start = configuration(&[0, 3, 2, 1, 2, 0, 1_000_000]);
    assert_eq!(ccsl::start_words(&table.records, all_named(8)), Ok(start));
    assert_eq!(*Monitor::of_table(&table).unwrap().words(), start);
    assert_eq!(ccsl::start_words(&[], all_named(0)), Ok(configuration(&[])));
}

#[test]
fn records_that_a_step_refuses_do_not_start() {
    let excludes = relation(Kind::Excludes, 0, 1);
    let twice = relation(Kind::Excludes, 1, 1);
    let mut await_0 = relation(Kind::Await, 0, 7);
    await_0.defined = 1;
    let cases: [(Vec<Record>, u32, u64); 7] = [
        (vec![excludes], 33, 0),
        (vec![twice], 33, 0),
        (vec![excludes, excludes], 1, 1),
        (vec![excludes, await_0], 2, 2),
        (vec![excludes; 65], 2, 65),
        (vec![excludes; 500], 2, 65),
        ([vec![excludes; 70], vec![twice]].concat(), 2, 65),
    ];
    for (records, clocks, place) in cases {
        let (refusal, clocks) = (Refusal { number: 59, place }, all_named(clocks));
        assert_eq!(ccsl::start_words(&records, clocks), Err(refusal));
        assert_eq!(Monitor::of_records(&records, clocks), Err(refusal));
        assert_eq!(ccsl::definition_order(&records, clocks), Err(refusal));
        let mut words = configuration(&[]);
        assert_eq!(
            ccsl::step(&records, clocks, &mut words, 0),
            StepAnswer::Refused(refusal)
        );
    }
    let (mut a, mut w) = (left(4), left_words(130));
    assert_eq!(
        raw::start_words(&[10, 1, 0, 0, 0, 1, 0, 0], 2, 2, &mut w, &mut a),
        raw::DONE
    );
    assert_eq!(a, [2, 59, 1, LEFT]);
    assert_eq!((&w[..128], &w[128..]), (&[0; 128][..], &[LEFT_WORD; 2][..]));
}

#[test]
fn a_monitor_is_moved_where_it_stands() {
    let (req, ack, done) = (0b001, 0b010, 0b100);
    let mut monitor = Monitor::of_table(&ccsl::read_table(TABLE).unwrap()).unwrap();
    let steps = [
        (req, [1, 2]),
        (0, [1, 2]),
        (ack | req, [1, 1]),
        (ack | done, [0, 0]),
    ];
    for (ticks, words) in steps {
        assert_eq!(monitor.step(ticks), StepAnswer::Accepted);
        assert_eq!(*monitor.words(), configuration(&words));
    }
    let end = monitor.clone();
    assert_eq!(monitor.step(req | ack), StepAnswer::Violated(1));
    assert_eq!(
        monitor.step(0b1000),
        StepAnswer::Refused(Refusal {
            number: 61,
            place: 0
        })
    );
    assert_eq!(monitor, end);
}

#[test]
fn a_monitor_of_records_needs_no_table() {
    let mut monitor =
        Monitor::of_records(&[relation(Kind::StrictlyPrecedes, 3, 31)], all_named(32)).unwrap();
    assert_eq!(monitor.step(1 << 31), StepAnswer::Violated(1));
    assert_eq!(monitor.step(1 << 3), StepAnswer::Accepted);
    assert_eq!(monitor.step(1 << 31 | 1 << 3), StepAnswer::Accepted);
    assert_eq!(*monitor.words(), configuration(&[1]));
}

#[test]
fn implicit_clocks_are_numbered_behind_all_names() {
    let text = b"((a clockUnion b)upto c)precedes d\nx clockDef await 2(d lub(e glb(await 3 f)))";
    let table = ccsl::read_table(text).unwrap();
    let on = |line, record| Record { line, ..record };
    let awaits = |defined, first, number| Record {
        number,
        ..definition(Kind::Await, defined, first, 0)
    };
    assert_eq!(
        table.records,
        [
            on(1, definition(Kind::Union, 7, 0, 1)),
            on(1, definition(Kind::Upto, 8, 7, 2)),
            on(1, relation(Kind::Precedes, 8, 3)),
            on(2, awaits(9, 6, 3)),
            on(2, definition(Kind::Glb, 10, 5, 9)),
            on(2, definition(Kind::Lub, 11, 3, 10)),
            on(2, awaits(4, 11, 2)),
        ]
    );
    let names: Vec<&str> = table.clocks.iter().map(|c| c.name.as_str()).collect();
    assert_eq!(names, ["a", "b", "c", "d", "x", "e", "f"]);
    assert_eq!(table.implicit, 5);
    let (named, count) = (7, 12);
    assert_eq!(table.counts(), Clocks { named, count });

    let (mut a, mut r, mut n) = (left(7), left(512), left(64));
    assert_eq!(raw::read_table(text, &mut a, &mut r, &mut n), raw::DONE);
    assert_eq!(a, [0, 0, 0, 7, 12, 7, LEFT]);
    assert_eq!(r[..8], [6, 7, 0, 1, 0, 1, 0, 0]);
    assert_eq!(r[8..16], [13, 8, 7, 2, 0, 1, 0, 0]);
    assert_eq!(r[48..56], [10, 4, 11, 0, 2, 2, 0, 0]);
    assert_eq!(n[12..16], [74, 75, 0, 0]);
}

#[test]
fn a_table_without_parentheses_has_no_implicit_clock() {
    let table = ccsl::read_table(TABLE).unwrap();
    assert_eq!((table.implicit, table.counts()), (0, all_named(3)));
}

/// The line of document 02, and its named clocks.
const NESTED: &[u8] = b"((a clockUnion b) upto c) precedes d";
const A: u32 = 1 << 0;
const B: u32 = 1 << 1;
const C: u32 = 1 << 2;
const D: u32 = 1 << 3;

#[test]
fn a_step_works_out_the_ticks_of_implicit_clocks() {
    let mut monitor = Monitor::of_table(&ccsl::read_table(NESTED).unwrap()).unwrap();
    assert_eq!(*monitor.words(), configuration(&[0, 1, 0]));
    let steps = [
        (B, StepAnswer::Accepted, [0, 1, 1]),
        (A | B | D, StepAnswer::Accepted, [0, 1, 1]),
        (D, StepAnswer::Accepted, [0, 1, 0]),
        (D, StepAnswer::Violated(3), [0, 1, 0]),
        (A | C | D, StepAnswer::Violated(3), [0, 1, 0]),
        (0, StepAnswer::Accepted, [0, 1, 0]),
        (A | C, StepAnswer::Accepted, [0, 0, 0]),
        (A, StepAnswer::Accepted, [0, 0, 0]),
        (A | D, StepAnswer::Violated(3), [0, 0, 0]),
    ];
    for (ticks, answer, words) in steps {
        assert_eq!(monitor.step(ticks), answer, "{ticks:#b}");
        assert_eq!(*monitor.words(), configuration(&words), "{ticks:#b}");
    }
}

#[test]
fn a_run_records_named_clocks_alone() {
    let header = b"$var event 1 ! a $end $var event 1 % b $end $var event 1 & c $end
        $var event 1 + d $end $enddefinitions $end";
    let run = |body: &[u8]| ccsl::run(NESTED, &[&header[..], body].concat()).to_string();
    assert_eq!(
        run(b" #0 1% #2 1! 1% 1+ #3 1+ #7 1! 1&"),
        "accepted\nsteps 4\nconfig 0 0 0 0 0 0\n"
    );
    assert_eq!(
        run(b" #0 1% #2 1+ #5 1! 1& 1+ #6 1!"),
        "violated 1 5\nsteps 2\nconfig 0 0 1 0 0 0\n"
    );
}

#[test]
fn a_tick_set_holds_named_clocks_alone() {
    let refused = StepAnswer::Refused(Refusal {
        number: 61,
        place: 0,
    });
    let records = [definition(Kind::Lub, 2, 0, 1)];
    let (named, count) = (2, 3);
    let mut words = configuration(&[]);
    let mut step = |clocks, ticks| ccsl::step(&records, clocks, &mut words, ticks);
    assert_eq!(step(Clocks { named, count }, 0b011), StepAnswer::Accepted);
    for ticks in [0b100, 0b111, 0b1000, 1 << 31, u32::MAX] {
        assert_eq!(step(Clocks { named, count }, ticks), refused, "{ticks:#b}");
    }
    assert_eq!(step(all_named(3), 0b111), StepAnswer::Accepted);
    assert_eq!(step(all_named(3), 0b011), StepAnswer::Violated(1));
    assert_eq!(step(all_named(3), 0b1000), refused);

    let (named, count) = (0, 32);
    let clocks = Clocks { named, count };
    let mut words = configuration(&[]);
    assert_eq!(ccsl::step(&[], clocks, &mut words, 0), StepAnswer::Accepted);
    assert_eq!(ccsl::step(&[], clocks, &mut words, 1), refused);
}

#[test]
fn a_word_of_an_implicit_clock_has_its_million() {
    let records = [definition(Kind::Glb, 2, 0, 1)];
    let (named, count) = (2, 3);
    let mut words = configuration(&[1_000_000]);
    assert_eq!(
        ccsl::step(&records, Clocks { named, count }, &mut words, 0b01),
        StepAnswer::Refused(Refusal {
            number: 51,
            place: 1
        })
    );
    assert_eq!(words, configuration(&[1_000_000]));
}

/// What the four calls on records say of 59, which is the same.
fn place_of_59(records: &[Record], clocks: Clocks) -> Option<u64> {
    let place = |r: Refusal| (r.number == 59).then_some(r.place);
    let start = ccsl::start_words(records, clocks).err().and_then(place);
    let order = ccsl::definition_order(records, clocks).err();
    assert_eq!(order.and_then(place), start);
    let mut words = configuration(&[]);
    let step = match ccsl::step(records, clocks, &mut words, 0) {
        StepAnswer::Refused(refusal) => place(refusal),
        _ => None,
    };
    let same = match ccsl::same_place(records, clocks, &words, &words) {
        SamePlace::Refused(refusal) => place(refusal),
        _ => None,
    };
    assert_eq!((start, step), (step, same));
    same
}

#[test]
fn more_named_clocks_than_clocks_are_59_at_0() {
    let twice = relation(Kind::Excludes, 1, 1);
    for (named, count, place) in [
        (2, 2, None),
        (0, 2, None),
        (3, 2, Some(0)),
        (1, 0, Some(0)),
        (32, 32, None),
        (33, 32, Some(0)),
        (32, 33, Some(0)),
        (33, 33, Some(0)),
        (256, 0, Some(0)),
        (256, 32, Some(0)),
        (0, 256, Some(0)),
        (300, 300, Some(0)),
        (u32::MAX, 32, Some(0)),
        (u32::MAX, u32::MAX, Some(0)),
    ] {
        let clocks = Clocks { named, count };
        assert_eq!(place_of_59(&[], clocks), place, "{clocks:?}");
        if place.is_some() {
            assert_eq!(place_of_59(&[twice], clocks), place, "{clocks:?}");
        }
    }
}

#[test]
fn an_implicit_clock_without_a_definition_above_is_59() {
    let lub = definition(Kind::Lub, 2, 0, 1);
    let first = relation(Kind::Excludes, 2, 0);
    let second = relation(Kind::Excludes, 0, 2);
    let upto = definition(Kind::Upto, 3, 0, 2);
    let unused = Record {
        defined: 2,
        ..relation(Kind::Empty, 2, 2)
    };
    let cases: [(&[Record], Option<u64>); 13] = [
        (&[relation(Kind::Excludes, 0, 1)], None),
        (&[first], Some(1)),
        (&[second], Some(1)),
        (&[lub, first, second], None),
        (&[first, lub], Some(1)),
        (&[relation(Kind::Excludes, 0, 1), second, lub], Some(2)),
        (&[lub], None),
        (&[awaits(1, 2, 0)], Some(1)),
        (&[awaits(1, 0, 2)], None),
        (&[unused, upto], Some(2)),
        (&[lub, upto, relation(Kind::Precedes, 3, 2)], None),
        (&[upto, lub], Some(1)),
        (&[lub, relation(Kind::Precedes, 3, 2), upto], Some(2)),
    ];
    let (named, count) = (2, 4);
    for (records, place) in cases {
        assert_eq!(
            place_of_59(records, Clocks { named, count }),
            place,
            "{records:?}"
        );
        assert_eq!(place_of_59(records, all_named(4)), None, "{records:?}");
    }
}

#[test]
fn implicit_clocks_may_be_defined_in_any_order_of_their_numbers() {
    let records = [
        definition(Kind::Union, 3, 0, 1),
        definition(Kind::Inter, 2, 3, 0),
        relation(Kind::SubClock, 2, 3),
    ];
    let (named, count) = (2, 4);
    assert_eq!(place_of_59(&records, Clocks { named, count }), None);
    let mut words = configuration(&[]);
    for ticks in [0b00, 0b01, 0b10, 0b11] {
        let answer = ccsl::step(&records, Clocks { named, count }, &mut words, ticks);
        assert_eq!(answer, StepAnswer::Accepted);
    }
}

#[test]
fn places_are_told_apart_by_the_word_of_an_implicit_clock() {
    let records = [
        definition(Kind::Upto, 2, 0, 1),
        relation(Kind::Excludes, 2, 1),
    ];
    let (named, count) = (2, 3);
    let (open, shut) = (configuration(&[1]), configuration(&[0]));
    let place = |second| ccsl::same_place(&records, Clocks { named, count }, &open, second);
    assert_eq!(
        (place(&open), place(&shut)),
        (SamePlace::Same, SamePlace::Different)
    );
}

/// In each pair the first record rests on the second.
type Rests = [(u64, u64)];

/// So many definitions, record i that of clock i, that rest on each other so; the operands that are
/// left, clocks 30 and 31, have no definition.
fn resting(count: u64, pairs: &Rests) -> Vec<Record> {
    let free = |i| definition(Kind::Union, i, 30, 31);
    let mut records: Vec<Record> = (1..=count).map(free).collect();
    for &(record, on) in pairs {
        let record = &mut records[record as usize - 1];
        match record.first {
            30 => record.first = on,
            _ => record.second = on,
        }
    }
    records
}

fn circle(place: u64) -> Result<Vec<usize>, Refusal> {
    Err(Refusal { number: 21, place })
}

#[test]
fn definitions_are_listed_the_lowest_ready_one_each_time() {
    let cases: [(u64, &Rests, &[usize]); 9] = [
        (0, &[], &[]),
        (3, &[], &[1, 2, 3]),
        (3, &[(1, 2)], &[2, 1, 3]),
        (3, &[(1, 3)], &[2, 3, 1]),
        (3, &[(1, 2), (1, 3)], &[2, 3, 1]),
        (4, &[(1, 2), (2, 3), (3, 4)], &[4, 3, 2, 1]),
        (4, &[(1, 4), (3, 1)], &[2, 4, 1, 3]),
        (4, &[(1, 3), (2, 3), (4, 1), (4, 2)], &[3, 1, 2, 4]),
        (5, &[(1, 2), (3, 5)], &[2, 1, 4, 5, 3]),
    ];
    for (count, pairs, order) in cases {
        assert_eq!(
            ccsl::definition_order(&resting(count, pairs), all_named(32)),
            Ok(order.to_vec()),
            "{pairs:?}"
        );
    }
}

#[test]
fn without_an_order_the_lowest_record_on_a_circle_is_named() {
    let cases: [(u64, &Rests, u64); 7] = [
        (2, &[(1, 2), (2, 1)], 1),
        (9, &[(5, 9), (9, 5), (2, 9)], 5),
        (3, &[(2, 3), (3, 2), (2, 1)], 2),
        (5, &[(1, 5), (2, 5), (5, 3), (3, 4), (4, 2)], 2),
        (6, &[(5, 6), (6, 5), (3, 4), (4, 3)], 3),
        (5, &[(4, 5), (5, 4), (2, 3), (3, 2), (1, 4), (1, 2)], 2),
        // 1 rests on a circle, and 3 stands between two
        (
            7,
            &[(1, 4), (4, 5), (5, 4), (5, 3), (3, 6), (6, 7), (7, 6)],
            4,
        ),
    ];
    for (count, pairs, place) in cases {
        assert_eq!(
            ccsl::definition_order(&resting(count, pairs), all_named(32)),
            circle(place),
            "{pairs:?}"
        );
    }
}

#[test]
fn relations_and_empty_records_keep_their_numbers_and_are_not_listed() {
    let records = [
        relation(Kind::Precedes, 0, 1),
        definition(Kind::Upto, 2, 3, 1),
        definition(Kind::Empty, 3, 2, 2),
        definition(Kind::SubClock, 3, 2, 0),
        definition(Kind::Glb, 3, 0, 1),
        relation(Kind::Excludes, 2, 3),
    ];
    assert_eq!(
        ccsl::definition_order(&records, all_named(4)),
        Ok(vec![5, 2])
    );
    assert_eq!(
        ccsl::definition_order(&records[2..4], all_named(4)),
        Ok(vec![])
    );
}

#[test]
fn a_definition_waits_for_both_operands_and_an_await_for_one() {
    let below = definition(Kind::Union, 2, 1, 3);
    for kind in [
        Kind::Union,
        Kind::Inter,
        Kind::Lub,
        Kind::Glb,
        Kind::StrictlySampled,
        Kind::Sampled,
        Kind::Upto,
        Kind::Deferred,
    ] {
        for operands in [(1, 2), (2, 1)] {
            let above = Record {
                delays: Delays::of(&[1]),
                ..definition(kind, 0, operands.0, operands.1)
            };
            assert_eq!(
                ccsl::definition_order(&[above, below], all_named(4)),
                Ok(vec![2, 1]),
                "{above:?}"
            );
        }
    }
    for (first, second, order) in [(2, 1, [2, 1]), (1, 2, [1, 2]), (1, u64::MAX, [1, 2])] {
        let above = awaits(0, first, second);
        assert_eq!(
            ccsl::definition_order(&[above, below], all_named(4)),
            Ok(order.to_vec()),
            "{above:?}"
        );
    }
    let back = definition(Kind::Union, 2, 0, 3);
    let order =
        |first, second| ccsl::definition_order(&[awaits(0, first, second), back], all_named(4));
    assert_eq!((order(1, 2), order(2, 1)), (Ok(vec![1, 2]), circle(1)));
}

#[test]
fn circles_lead_through_implicit_clocks() {
    let (named, count) = (3, 4);
    let records = [
        definition(Kind::Lub, 3, 0, 1),
        definition(Kind::Upto, 0, 3, 2),
    ];
    assert_eq!(
        ccsl::definition_order(&records, Clocks { named, count }),
        circle(1)
    );
    let order = |text: &[u8]| {
        let table = ccsl::read_table(text).unwrap();
        ccsl::definition_order(&table.records, table.counts())
    };
    assert_eq!(
        order(b"c clockDef (b upto s) lub t\na clockDef b glb u\nb clockDef (a upto v) lub w"),
        circle(3)
    );
    assert_eq!(
        order(b"(b lub a) precedes d\nb clockDef a upto c"),
        Ok(vec![3, 1])
    );
}

#[test]
fn as_many_definitions_are_listed_as_there_can_be() {
    let chain = (0..31).map(|i| awaits(i, i + 1, 0));
    let relations = vec![relation(Kind::Excludes, 0, 1); 33];
    let records: Vec<Record> = relations.into_iter().chain(chain).collect();
    assert_eq!(
        ccsl::definition_order(&records, all_named(32)),
        Ok((34..=64).rev().collect())
    );
    let round: Vec<Record> = (0..32).map(|i| awaits(i, (i + 1) % 32, 0)).collect();
    assert_eq!(ccsl::definition_order(&round, all_named(32)), circle(1));
}

#[test]
fn records_that_are_not_allowed_come_before_a_circle() {
    let mut records = resting(2, &[(1, 2), (2, 1)]);
    let refused = |records: &[Record], named, count, place| {
        assert_eq!(
            ccsl::definition_order(records, Clocks { named, count }),
            Err(Refusal { number: 59, place })
        );
    };
    refused(&records, 33, 32, 0);
    refused(&records, 33, 33, 0);
    refused(&records, 31, 31, 1);
    records.resize(65, relation(Kind::Excludes, 0, 1));
    refused(&records, 32, 32, 65);
    records[3].second = 0;
    refused(&records, 32, 32, 4);
}

#[test]
fn an_order_fills_its_list_with_zeros() {
    let cases: [(Vec<Record>, [u64; 4], [u64; 3]); 3] = [
        (resting(3, &[(1, 2)]), [0, 0, 0, 3], [2, 1, 3]),
        (resting(3, &[(1, 2), (2, 1)]), [2, 21, 1, 0], [0; 3]),
        (vec![relation(Kind::Excludes, 1, 1)], [2, 59, 1, 0], [0; 3]),
    ];
    for (records, answer, order) in cases {
        let (mut a, mut o) = (left(6), left(40));
        assert_eq!(
            raw::definition_order(&ccsl::numbers(&records), 32, 32, &mut a, &mut o),
            raw::DONE
        );
        assert_eq!((&a[..4], &a[4..]), (&answer[..], &[LEFT; 2][..]));
        assert_eq!((&o[..3], &o[3..32]), (&order[..], &[0; 29][..]));
        assert_eq!(o[32..], [LEFT; 8]);
    }
}

#[test]
fn a_table_with_a_circle_still_runs() {
    let text = b"a clockDef b clockUnion c\nb clockDef a clockInter d";
    let table = ccsl::read_table(text).unwrap();
    assert_eq!(
        ccsl::definition_order(&table.records, table.counts()),
        circle(1)
    );
    let recording = b"$var event 1 ! a $end $var event 1 % b $end $var event 1 & c $end
        $var event 1 + d $end $enddefinitions $end #0 1& 1! #2 1+ #5 1! 1% 1+ #7 1%";
    assert_eq!(
        ccsl::run(text, recording).to_string(),
        "violated 1 7\nsteps 3\nconfig 0 0 0 0\n"
    );
    let [a, b, c, d] = [1 << 0, 1 << 1, 1 << 2, 1 << 3];
    let mut monitor = Monitor::of_table(&table).unwrap();
    for ticks in [a | c, d, a | b | d] {
        assert_eq!(monitor.step(ticks), StepAnswer::Accepted, "{ticks:#b}");
    }
    assert_eq!(monitor.step(a | d), StepAnswer::Violated(1));
    let words = monitor.words();
    assert_eq!(
        ccsl::same_place(&table.records, table.counts(), words, words),
        SamePlace::Same
    );
}

#[test]
fn a_step_moves_the_configuration_only_where_it_is_accepted() {
    let records = [relation(Kind::Precedes, 0, 1)];
    let mut words = configuration(&[0]);
    assert_eq!(
        ccsl::step(&records, all_named(2), &mut words, 0b01),
        StepAnswer::Accepted
    );
    assert_eq!(words, configuration(&[1]));
    assert_eq!(
        ccsl::step(&records, all_named(2), &mut words, 0b10),
        StepAnswer::Accepted
    );
    assert_eq!(
        ccsl::step(&records, all_named(2), &mut words, 0b10),
        StepAnswer::Violated(1)
    );
    assert_eq!(words, configuration(&[0]));
}

#[test]
fn a_word_at_its_million_stays_there() {
    let records = [relation(Kind::Precedes, 0, 1)];
    let mut words = configuration(&[1_000_000]);
    assert_eq!(
        ccsl::step(&records, all_named(2), &mut words, 0b01),
        StepAnswer::Refused(Refusal {
            number: 51,
            place: 1
        })
    );
    assert_eq!(words, configuration(&[1_000_000]));
    assert_eq!(
        ccsl::step(&records, all_named(2), &mut words, 0b11),
        StepAnswer::Accepted
    );
    assert_eq!(words, configuration(&[1_000_000]));
}

#[test]
fn places_are_the_same_or_different() {
    let records = [relation(Kind::Precedes, 0, 1)];
    let (zero, one) = (configuration(&[0]), configuration(&[1]));
    assert_eq!(
        ccsl::same_place(&records, all_named(2), &zero, &zero),
        SamePlace::Same
    );
    assert_eq!(
        ccsl::same_place(&records, all_named(2), &zero, &one),
        SamePlace::Different
    );
    let below = configuration(&[-1]);
    assert_eq!(
        ccsl::same_place(&records, all_named(2), &zero, &below),
        SamePlace::Refused(Refusal {
            number: 60,
            place: 1
        })
    );
}

#[test]
fn no_records_and_no_clocks_accept_the_empty_step() {
    let mut words = configuration(&[]);
    assert_eq!(
        ccsl::step(&[], all_named(0), &mut words, 0),
        StepAnswer::Accepted
    );
    assert_eq!(
        ccsl::step(&[], all_named(0), &mut words, 1),
        StepAnswer::Refused(Refusal {
            number: 61,
            place: 0
        })
    );
    assert_eq!(
        ccsl::step(&[], all_named(33), &mut words, 0),
        StepAnswer::Refused(Refusal {
            number: 59,
            place: 0
        })
    );
    assert_eq!(
        ccsl::same_place(&[], all_named(u32::MAX), &words, &words),
        SamePlace::Refused(Refusal {
            number: 59,
            place: 0
        })
    );
}

#[test]
fn over_64_records_are_refused_at_65() {
    let given = configuration(&[i64::MIN, 7]);
    for count in [65, 66, 67, 500] {
        let records = vec![relation(Kind::Excludes, 0, 1); count];
        let mut words = given;
        assert_eq!(
            ccsl::step(&records, all_named(2), &mut words, 0),
            StepAnswer::Refused(Refusal {
                number: 59,
                place: 65
            })
        );
        assert_eq!(words, given);
        assert_eq!(
            ccsl::same_place(&records, all_named(2), &given, &given),
            SamePlace::Refused(Refusal {
                number: 59,
                place: 65
            })
        );
    }
    let mut records = vec![relation(Kind::Excludes, 0, 1); 65];
    records[2].second = 0;
    let mut words = given;
    assert_eq!(
        ccsl::step(&records, all_named(2), &mut words, 0),
        StepAnswer::Refused(Refusal {
            number: 59,
            place: 3
        })
    );
    assert_eq!(words, given);
}

/// A list that a call may write, filled with numbers that none writes.
fn left(length: usize) -> Vec<u64> {
    vec![LEFT; length]
}

fn left_words(length: usize) -> Vec<i64> {
    vec![LEFT_WORD; length]
}

#[test]
fn too_short_a_list_for_a_run_is_told_and_nothing_written() {
    for (answer, words, status) in [
        (4, 128, raw::ANSWER_SHORT),
        (0, 0, raw::ANSWER_SHORT),
        (5, 127, raw::WORDS_SHORT),
        (5, 64, raw::WORDS_SHORT),
        (5, 0, raw::WORDS_SHORT),
    ] {
        for unknown in [raw::UNKNOWN_REFUSED, raw::UNKNOWN_IGNORED, 2, u32::MAX] {
            let (mut a, mut w) = (left(answer), left_words(words));
            assert_eq!(raw::run(TABLE, RECORDING, unknown, &mut a, &mut w), status);
            assert_eq!((a, w), (left(answer), left_words(words)));
        }
    }
}

#[test]
fn a_choice_that_is_none_is_told_and_nothing_written() {
    let others = (2..=300).chain((1..32).flat_map(|bit| [1 << bit, 1 << bit | 1]));
    let texts: [(&[u8], &[u8]); 3] = [(TABLE, RECORDING), (b"a = a", b""), (b"", b"")];
    for unknown in others.chain([u32::MAX - 1, u32::MAX]) {
        for (table, recording) in texts {
            let (mut a, mut w) = (left(7), left_words(130));
            let status = raw::run(table, recording, unknown, &mut a, &mut w);
            assert_eq!(status, raw::CHOICE_INVALID, "{unknown}");
            assert_eq!((a, w), (left(7), left_words(130)), "{unknown}");
        }
    }
}

#[test]
fn a_run_with_an_unknown_name_fills_its_lists() {
    let recording = [b"$var event 1 & lamp $end ", RECORDING].concat();
    for (unknown, answer, words) in [
        (raw::UNKNOWN_REFUSED, [2, 38, 0, 0, 2], [0, 0, 2, 0]),
        (raw::UNKNOWN_IGNORED, [1, 1, 9, 4, 2], [0, 0, 0, 0]),
    ] {
        let (mut a, mut w) = (left(6), left_words(129));
        assert_eq!(
            raw::run(TABLE, &recording, unknown, &mut a, &mut w),
            raw::DONE
        );
        assert_eq!((&a[..5], a[5]), (&answer[..], LEFT));
        assert_eq!((&w[..4], &w[4..128]), (&words[..], &[0; 124][..]));
        assert_eq!(w[128], LEFT_WORD);
    }
}

#[test]
fn too_short_a_list_for_a_table_is_told_and_nothing_written() {
    let cases = [
        (5, 512, 64, raw::ANSWER_SHORT),
        (5, 511, 63, raw::ANSWER_SHORT),
        (6, 511, 64, raw::RECORDS_SHORT),
        (6, 384, 64, raw::RECORDS_SHORT),
        (6, 0, 0, raw::RECORDS_SHORT),
        (6, 512, 63, raw::NAMES_SHORT),
    ];
    for (answer, records, names, status) in cases {
        let (mut a, mut r, mut n) = (left(answer), left(records), left(names));
        assert_eq!(raw::read_table(TABLE, &mut a, &mut r, &mut n), status);
        assert_eq!((a, r, n), (left(answer), left(records), left(names)));
    }
}

#[test]
fn lists_of_a_wrong_shape_for_records_are_told_and_nothing_written() {
    let good = [1, 0, 0, 1, 0, 1, 0, 0];
    let unknown = [1, 0, 0, 1, 0, 1, 0, 0, 15, 0, 0, 1, 0, 2, 0, 0];
    let cases: [(&[u64], usize, usize, u32); 12] = [
        (&good, 2, 128, raw::ANSWER_SHORT),
        (&unknown[..15], 0, 0, raw::ANSWER_SHORT),
        (&good, 3, 127, raw::WORDS_SHORT),
        (&good, 3, 64, raw::WORDS_SHORT),
        (&unknown[..15], 3, 127, raw::WORDS_SHORT),
        (&unknown, 3, 64, raw::WORDS_SHORT),
        (&good[..7], 3, 128, raw::RECORDS_RAGGED),
        (&good[..1], 3, 128, raw::RECORDS_RAGGED),
        (&unknown[..15], 3, 128, raw::RECORDS_RAGGED),
        (&unknown[..9], 3, 128, raw::RECORDS_RAGGED),
        (&unknown, 3, 128, raw::KIND_UNKNOWN),
        (&[u64::MAX; 8], 3, 128, raw::KIND_UNKNOWN),
    ];
    for (records, answer, words, status) in cases {
        let (mut a, mut w) = (left(answer), left_words(words));
        assert_eq!(raw::step(records, 2, 2, &mut w, 0, &mut a), status);
        assert_eq!((&a, &w), (&left(answer), &left_words(words)));
        assert_eq!(raw::start_words(records, 2, 2, &mut w, &mut a), status);
        assert_eq!((&a, &w), (&left(answer), &left_words(words)));
        assert_eq!(raw::same_place(records, 2, 2, &w, &w, &mut a), status);
        assert_eq!(a, left(answer));
    }
    let (mut a, w) = (left(3), left_words(128));
    for short in [0, 64, 127] {
        assert_eq!(
            raw::same_place(&good, 2, 2, &w, &w[..short], &mut a),
            raw::WORDS_SHORT
        );
        assert_eq!(
            raw::same_place(&good, 2, 2, &w[..short], &w, &mut a),
            raw::WORDS_SHORT
        );
    }
    assert_eq!(a, left(3));
}

#[test]
fn lists_of_a_wrong_shape_for_an_order_are_told_and_nothing_written() {
    let good = [1, 0, 0, 1, 0, 1, 0, 0];
    let unknown = [1, 0, 0, 1, 0, 1, 0, 0, 15, 0, 0, 1, 0, 2, 0, 0];
    let cases: [(&[u64], usize, usize, u32); 8] = [
        (&good, 3, 32, raw::ANSWER_SHORT),
        (&unknown[..15], 0, 0, raw::ANSWER_SHORT),
        (&good[..7], 4, 32, raw::RECORDS_RAGGED),
        (&unknown[..15], 4, 0, raw::RECORDS_RAGGED),
        (&unknown, 4, 32, raw::KIND_UNKNOWN),
        (&unknown, 4, 0, raw::KIND_UNKNOWN),
        (&good, 4, 31, raw::ORDER_SHORT),
        (&good, 4, 0, raw::ORDER_SHORT),
    ];
    for (records, answer, order, status) in cases {
        // With 99 clocks good records are refused, and the shape comes first.
        for clocks in [2, 99] {
            let (mut a, mut o) = (left(answer), left(order));
            assert_eq!(
                raw::definition_order(records, clocks, clocks, &mut a, &mut o),
                status
            );
            assert_eq!((a, o), (left(answer), left(order)));
        }
    }
}

#[test]
fn an_unknown_kind_is_told_before_a_refusal() {
    for kind in [15, 255, 256, 256 + 14, 1 << 32, u64::MAX] {
        let (mut a, mut w) = (left(3), left_words(128));
        let record = [kind, 0, 0, 0, 0, 0, 0, 0];
        assert_eq!(
            raw::step(&record, 99, 99, &mut w, u32::MAX, &mut a),
            raw::KIND_UNKNOWN
        );
        assert_eq!((a, w), (left(3), left_words(128)));
    }
}

#[test]
fn of_longer_lists_the_rest_is_left_alone() {
    for unknown in [raw::UNKNOWN_REFUSED, raw::UNKNOWN_IGNORED] {
        let (mut a, mut w) = (left(9), left_words(134));
        assert_eq!(
            raw::run(TABLE, RECORDING, unknown, &mut a, &mut w),
            raw::DONE
        );
        assert_eq!(a, [1, 1, 9, 4, 2, LEFT, LEFT, LEFT, LEFT]);
        assert_eq!((&w[..128], &w[128..]), (&[0; 128][..], &[LEFT_WORD; 6][..]));
    }

    let record = [4, 0, 0, 1, 0, 1, 0, 0];
    let (mut a, mut w) = (left(4), left_words(134));
    assert_eq!(raw::start_words(&record, 2, 2, &mut w, &mut a), raw::DONE);
    assert_eq!(a, [0, 0, 0, LEFT]);
    assert_eq!((&w[..128], &w[128..]), (&[0; 128][..], &[LEFT_WORD; 6][..]));

    let mut a = left(4);
    assert_eq!(raw::step(&record, 2, 2, &mut w, 1, &mut a), raw::DONE);
    assert_eq!(a, [0, 0, 0, LEFT]);
    assert_eq!((w[0], &w[1..128]), (1, &[0; 127][..]));
    assert_eq!(w[128..], [LEFT_WORD; 6]);

    let mut a = left(4);
    assert_eq!(raw::same_place(&record, 2, 2, &w, &w, &mut a), raw::DONE);
    assert_eq!(a, [0, 0, 0, LEFT]);
}

#[test]
fn a_table_that_is_read_fills_its_lists_with_zeros() {
    let (mut a, mut r, mut n) = (left(7), left(518), left(66));
    assert_eq!(raw::read_table(TABLE, &mut a, &mut r, &mut n), raw::DONE);
    assert_eq!(a, [0, 0, 0, 2, 3, 3, LEFT]);
    assert_eq!(r[..8], [4, 0, 0, 1, 0, 1, 0, 0]);
    assert_eq!(r[8..16], [10, 2, 1, 0, 2, 2, 0, 0]);
    assert_eq!((&r[16..512], &r[512..]), (&[0; 496][..], &[LEFT; 6][..]));
    assert_eq!(n[..6], [0, 3, 22, 25, 26, 30]);
    assert_eq!((&n[6..64], &n[64..]), (&[0; 58][..], &[LEFT; 2][..]));
}

#[test]
fn a_refused_table_leaves_its_lists_empty() {
    let cases: [(&[u8], u64, u64); 5] = [
        (b"a = b\nc clockDef a deferred b for 1 33", 22, 2),
        (b"a = b\na # c\nb precedes", 12, 3),
        (b"(a lub b) = c\n(a lub b = c", 20, 2),
        (b"(a lub b) = c\n)(((((((((((((((((", 19, 2),
        (b"(a lub b) = c\n\n(a lub (b glb d)) = a", 15, 3),
    ];
    for (text, number, line) in cases {
        let (mut a, mut r, mut n) = (left(6), left(512), left(64));
        assert_eq!(raw::read_table(text, &mut a, &mut r, &mut n), raw::DONE);
        assert_eq!(a, [2, number, line, 0, 0, 0]);
        assert_eq!((r, n), (vec![0; 512], vec![0; 64]));

        for unknown in [raw::UNKNOWN_REFUSED, raw::UNKNOWN_IGNORED] {
            let (mut a, mut w) = (left(5), left_words(128));
            assert_eq!(
                raw::run(text, RECORDING, unknown, &mut a, &mut w),
                raw::DONE
            );
            assert_eq!(a, [2, number, line, 0, 0]);
            assert_eq!(w, [0; 128]);
        }
    }
}

#[test]
fn words_out_of_range_are_handed_back() {
    let mut a = left(3);
    let mut w = left_words(128);
    assert_eq!(
        raw::step(&[4, 0, 0, 1, 0, 1, 0, 0], 2, 2, &mut w, 1, &mut a),
        raw::DONE
    );
    assert_eq!(a, [2, 60, 1]);
    assert_eq!(w, left_words(128));
}
