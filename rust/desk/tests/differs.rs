//! A library that contradicts itself is noticed: the account says so, and has a status of its own.

mod common;

use ccsl::{
    Clocks, Configuration, Reading, Record, Refusal, Report, StepAnswer, Steps, Table, Time,
    UnknownNames, Verdict,
};
use common::{input, recording, told};
use desk::account::account;
use desk::library::{Library, Proved};
use desk::report::{answer, Form};
use desk::why::Why;

/// The proved library with something changed in its answers.
#[derive(Default)]
struct Wrong {
    run: Option<fn(Report) -> Report>,
    table: Option<fn(Table) -> Table>,
    reading: Option<fn(Reading) -> Reading>,
    start: Option<fn(Configuration) -> Configuration>,
    step: Option<fn(StepAnswer) -> StepAnswer>,
}

fn changed<T>(value: T, change: Option<fn(T) -> T>) -> T {
    match change {
        Some(change) => change(value),
        None => value,
    }
}

impl Library for Wrong {
    fn run(&self, table: &[u8], recording: &[u8], unknown: UnknownNames) -> Report {
        changed(Proved.run(table, recording, unknown), self.run)
    }

    fn read_table(&self, table: &[u8]) -> Result<Table, Refusal> {
        Proved
            .read_table(table)
            .map(|table| changed(table, self.table))
    }

    fn read_recording(&self, table: &[u8], recording: &[u8], unknown: UnknownNames) -> Reading {
        let reading = Proved.read_recording(table, recording, unknown);
        changed(reading, self.reading)
    }

    fn start_words(&self, records: &[Record], clocks: Clocks) -> Result<Configuration, Refusal> {
        let words = Proved.start_words(records, clocks);
        words.map(|words| changed(words, self.start))
    }

    fn step(
        &self,
        records: &[Record],
        clocks: Clocks,
        words: &mut Configuration,
        ticks: u32,
    ) -> StepAnswer {
        changed(Proved.step(records, clocks, words, ticks), self.step)
    }
}

/// The first two steps hold, the third is violated.
const TABLE: &str = "a strictly precedes b";
const BODY: &str = "#1 1a #4 1b #6 1b";

/// What is printed where the account comes to these three lines and the run to others.
fn differing(run: &str, account: &str) -> (String, u8) {
    let between =
        "the account of single steps comes to another answer, so that nothing is told of this run:";
    (format!("{run}\n{between}\n{account}"), 4)
}

const RUN: &str = "violated 1 6\nsteps 2\nconfig 0 0\n";

#[test]
fn steps_that_accept_everything() {
    let wrong = Wrong {
        step: Some(|_| StepAnswer::Accepted),
        ..Wrong::default()
    };
    let expected = differing(RUN, "accepted\nsteps 3\nconfig 0 0\n");
    assert_eq!(told(&wrong, TABLE, &recording("a b", BODY)), expected);
}

#[test]
fn steps_that_never_hold() {
    let wrong = Wrong {
        step: Some(|_| StepAnswer::Violated(1)),
        ..Wrong::default()
    };
    let expected = differing(RUN, "violated 1 1\nsteps 0\nconfig 0 0\n");
    assert_eq!(told(&wrong, TABLE, &recording("a b", BODY)), expected);
}

#[test]
fn a_step_that_is_refused() {
    const REFUSED: StepAnswer = StepAnswer::Refused(Refusal {
        number: 51,
        place: 1,
    });
    let wrong = Wrong {
        step: Some(|_| REFUSED),
        ..Wrong::default()
    };
    let recording = recording("a b", BODY);
    let mark = recording.find("#1").unwrap();
    let account = format!("refused 51 {mark}\nsteps 0\nconfig 0 0\n");
    assert_eq!(told(&wrong, TABLE, &recording), differing(RUN, &account));
}

#[test]
fn a_reading_without_the_last_step() {
    let wrong = Wrong {
        reading: Some(|mut reading| {
            reading.steps.pop();
            reading
        }),
        ..Wrong::default()
    };
    let expected = differing(RUN, "accepted\nsteps 2\nconfig 0 0\n");
    assert_eq!(told(&wrong, TABLE, &recording("a b", BODY)), expected);
}

#[test]
fn a_reading_with_another_tick() {
    let wrong = Wrong {
        reading: Some(|mut reading| {
            reading.steps[0].ticks = 0;
            reading
        }),
        ..Wrong::default()
    };
    let expected = differing(RUN, "violated 1 4\nsteps 1\nconfig 0 0\n");
    assert_eq!(told(&wrong, TABLE, &recording("a b", BODY)), expected);
}

#[test]
fn a_reading_that_forgets_its_refusal() {
    let wrong = Wrong {
        reading: Some(|reading| Reading {
            refusal: None,
            ..reading
        }),
        ..Wrong::default()
    };
    let recording = recording("a b", "#1 1a #2 1a #3 1?");
    let place = recording.find("1?").unwrap();
    let run = format!("refused 43 {place}\nsteps 2\nconfig 2 0\n");
    let expected = differing(&run, "accepted\nsteps 2\nconfig 2 0\n");
    assert_eq!(told(&wrong, TABLE, &recording), expected);
}

#[test]
fn other_start_words() {
    let wrong = Wrong {
        start: Some(|mut words| {
            words[0][0] = 1;
            words
        }),
        ..Wrong::default()
    };
    let expected = differing(RUN, "accepted\nsteps 3\nconfig 0 0\n");
    assert_eq!(told(&wrong, TABLE, &recording("a b", BODY)), expected);
}

#[test]
fn a_table_with_another_line() {
    let wrong = Wrong {
        table: Some(|mut table| {
            table.records[0].line = 2;
            table
        }),
        ..Wrong::default()
    };
    let expected = differing(RUN, "violated 2 6\nsteps 2\nconfig 0 0\n");
    assert_eq!(told(&wrong, TABLE, &recording("a b", BODY)), expected);
}

/// A run that says something else than it should.
fn other_run(run: fn(Report) -> Report, lines: &str) {
    let wrong = Wrong {
        run: Some(run),
        ..Wrong::default()
    };
    let expected = differing(lines, RUN);
    assert_eq!(told(&wrong, TABLE, &recording("a b", BODY)), expected);
}

#[test]
fn runs_with_another_verdict() {
    let later = |mut report: Report| {
        let time = Time(7);
        report.verdict = Verdict::Violated { line: 1, time };
        report
    };
    other_run(later, "violated 1 7\nsteps 2\nconfig 0 0\n");
    let accepted = |mut report: Report| {
        report.verdict = Verdict::Accepted;
        report
    };
    other_run(accepted, "accepted\nsteps 2\nconfig 0 0\n");
}

#[test]
fn runs_with_other_numbers() {
    let more = |mut report: Report| {
        report.steps = Steps(3);
        report
    };
    other_run(more, "violated 1 6\nsteps 3\nconfig 0 0\n");
    let ahead = |mut report: Report| {
        report.configuration[0][0] = 9;
        report
    };
    other_run(ahead, "violated 1 6\nsteps 2\nconfig 9 0\n");
}

#[test]
fn the_difference_as_json() {
    let wrong = Wrong {
        step: Some(|_| StepAnswer::Accepted),
        ..Wrong::default()
    };
    let recording = recording("a b", BODY);
    let input = input(
        TABLE.as_bytes(),
        recording.as_bytes(),
        UnknownNames::Ignored,
    );
    let answer = answer(&account(&wrong, input), Form::Json, &Why);
    let expected =
        "{\"verdict\":\"violated\",\"line\":1,\"time\":6,\"steps\":2,\"config\":[[0,0]],\
        \"why\":null,\"differs\":{\"verdict\":\"accepted\",\"steps\":3,\"config\":[[0,0]]}}\n";
    assert_eq!((answer.text.as_str(), answer.status), (expected, 4));
}

/// Refusals that no run gives, here in a library that gives them everywhere.
#[test]
fn limits_of_single_steps_in_words() {
    struct Refusing(u64);
    impl Library for Refusing {
        fn run(&self, table: &[u8], recording: &[u8], unknown: UnknownNames) -> Report {
            let number = self.0;
            let mut report = Proved.run(table, recording, unknown);
            report.verdict = Verdict::Refused(Refusal { number, place: 44 });
            report.steps = Steps(0);
            report.configuration = [[0; 2]; ccsl::PAIRS];
            report
        }
        fn read_recording(&self, table: &[u8], recording: &[u8], unknown: UnknownNames) -> Reading {
            let mut reading = Proved.read_recording(table, recording, unknown);
            reading.steps[0].mark = 44;
            reading
        }
        fn step(&self, _: &[Record], _: Clocks, _: &mut Configuration, _: u32) -> StepAnswer {
            let (number, place) = (self.0, 1);
            StepAnswer::Refused(Refusal { number, place })
        }
    }
    let mark = "line 3, column 1 of trace.vcd:\n$enddefinitions $end\n^^^^^^^^^^^^^^^\n";
    for (number, words, place) in [
        (
            51,
            "every constraint holds, but a word would leave its million",
            mark,
        ),
        (
            59,
            "a record is wrong in itself or does not go with those before it",
            "",
        ),
        (
            60,
            "a word is not in the range of its record, or one beyond the records is not 0",
            "",
        ),
        (
            61,
            "the tick set has a clock that is not below the named count",
            "",
        ),
        (99, "a limit that has no words here", ""),
    ] {
        let expected =
            format!("refused {number} 44\nsteps 0\nconfig 0 0\n\n{number}: {words}\n{place}");
        let library = Refusing(number);
        assert_eq!(
            told(&library, TABLE, &recording("a b", BODY)),
            (expected, 2)
        );
    }
}
