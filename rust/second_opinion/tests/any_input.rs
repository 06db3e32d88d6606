//! No input makes the monitor panic, and what it says of one step agrees with
//! what it says of a run.

mod common;

use common::*;
use second_opinion::*;

#[test]
fn random_words_make_no_run_panic() {
    let mut numbers = Numbers(1);
    let table_words = [
        "a",
        "b",
        "c",
        "d",
        "=",
        "#",
        "clockDef",
        "lub",
        "await",
        "3",
        "\n",
        "precedes",
        "\n",
        "strictly",
        "sampled",
        "upto",
        "0",
        "\t",
        "ü",
        "(",
        ")",
        "(",
        ")",
        "(a lub b)",
        "deferred",
        "for",
        "33",
        "(a deferred b for 2 3)",
        "c clockDef a deferred b for 1",
    ];
    let recording_words = [
        "$var",
        "event",
        "1",
        "!",
        "a",
        "$end",
        HEADER,
        "#1",
        "#2",
        "#3",
        "1!",
        "0!",
        "x!",
        "Z!",
        "1\"",
        "#",
        "#4x",
        "#99999999999999999999",
        "$date",
        "$enddefinitions",
        "é",
    ];
    for _ in 0..3000 {
        let mut text = |words: &[&str]| {
            let length = numbers.below(14);
            let chosen: Vec<&str> = (0..length).map(|_| numbers.pick(words)).collect();
            chosen.join(" ")
        };
        let (table, recording) = (text(&table_words), text(&recording_words));
        let report = run_ignoring(table.as_bytes(), recording.as_bytes());
        let whole = run_ignoring(b"a # b", format!("{HEADER}{recording}").as_bytes());
        assert!(report.constraints <= WORDS && whole.constraints == 1);
        let ignored = UnknownNames::Ignored;
        let reading = read_recording(table.as_bytes(), recording.as_bytes(), ignored);
        assert!(reading.steps.len() as u64 >= report.steps);
    }
}

#[test]
fn random_numbers_make_no_question_panic() {
    let mut numbers = Numbers(2);
    let edges = [
        0,
        1,
        2,
        3,
        31,
        32,
        33,
        63,
        64,
        1_000_000,
        1_000_001,
        u64::MAX,
    ];
    let list_edges = [0, 1, 1, 2, 2, 3, 31, 32, 33, 64, 65, 255];
    let lengths = [0, 1, 2, 3, 7, 8, 8, 9, 64, u64::MAX];
    let most = 4_294_967_295;
    let near = [
        0,
        1,
        2,
        -1,
        3,
        8,
        9,
        MILLION,
        -MILLION,
        most,
        most + 1,
        i64::MAX,
        i64::MIN,
    ];
    for _ in 0..20_000 {
        let mut one = || Record {
            kind: numbers.pick(&KINDS),
            defined: numbers.pick(&edges),
            first: numbers.pick(&edges),
            second: numbers.pick(&edges),
            number: numbers.pick(&edges),
            delays: Delays {
                numbers: [(); 8].map(|()| numbers.pick(&list_edges)),
                length: numbers.pick(&lengths),
            },
            line: numbers.pick(&edges),
        };
        let records = [one(), one(), one()];
        let (named, clocks) = (numbers.pick(&edges), numbers.pick(&edges));
        let ticks = numbers.next() as u32;
        let mut pair = || match numbers.below(2) {
            0 => [numbers.pick(&near), 0],
            _ => [numbers.pick(&near), numbers.pick(&near)],
        };
        let given = pairs(&[pair(), pair()]);
        let other = pairs(&[pair(), pair()]);
        let count = numbers.below(4) as usize;
        let mut after = given;
        let answer = step(&records[..count], named, clocks, &mut after, ticks);
        if answer != StepAnswer::Accepted {
            assert_eq!(after, given);
        }
        same_place(&records[..count], named, clocks, &given, &other);
        match definition_order(&records[..count], named, clocks) {
            Ok(order) => assert!(order.len() <= count),
            Err(refusal) => assert!([21, 59].contains(&refusal.number)),
        }
        let (holds, after) = judge(&records[0], given[0], ticks);
        assert!(holds || after == given[0]);
        start_word(&records[0]);
        let found = told_apart(&records[0], named, clocks, given[0], other[0], 3);
        assert!(found.is_none_or(|sets| (1..=3).contains(&sets.len())));
    }
}

#[test]
fn a_run_does_what_its_single_steps_do() {
    let mut numbers = Numbers(3);
    let text = "a precedes b\nc clockDef a lub b\nd clockDef a sampled b\n\
                e clockDef a deferred b for 1 2";
    let table = table(text);
    let header: String = (0..5)
        .zip(["a", "b", "c", "d", "e"])
        .map(|(id, name)| format!("$var event 1 {id} {name} $end "))
        .collect();
    let number = |name: &str| table.names.iter().position(|other| other == name);
    let mut most = 0;
    for _ in 0..3000 {
        let mut recording = format!("{header}$enddefinitions $end");
        let mut configuration = words(&[0, 0, 2, 0]);
        let mut expected = (Verdict::Accepted, 0, configuration);
        for time in 1..8u64 {
            let ticks = numbers.below(32) as u32;
            recording += &format!(" #{time}");
            let mut by_number = 0;
            for (id, name) in (0..5).zip(["a", "b", "c", "d", "e"]) {
                if ticks & 1 << id != 0 {
                    recording += &format!(" {}{id}", numbers.pick(&VALUES));
                    by_number |= 1 << number(name).expect("a clock");
                }
            }
            if expected.0 != Verdict::Accepted {
                continue;
            }
            match step(&table.records, 5, 5, &mut configuration, by_number) {
                StepAnswer::Accepted => expected = (Verdict::Accepted, time, configuration),
                StepAnswer::Violated(line) => expected.0 = Verdict::Violated { line, time },
                StepAnswer::Refused(refusal) => panic!("{refusal:?}"),
            }
        }
        let report = run_ignoring(text.as_bytes(), recording.as_bytes());
        assert_eq!(
            (report.verdict, report.steps, report.configuration),
            expected
        );
        most = most.max(report.steps);
    }
    assert!(most >= 2, "some steps must be accepted: {most}");
}
