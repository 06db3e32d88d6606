//! The paper's example, and what the program prints, with two numbers a
//! constraint as M-105 has it.

mod common;

use common::*;
use second_opinion::*;

const TABLE: &str = "req strictly precedes ack\ndone clockDef await 2 ack\n";
const RECORDING: &str = "$var event 1 ! req $end $var event 1 \" ack $end \
    $var event 1 % done $end $enddefinitions $end \
    #0 1! #3 #5 1\" 1! #8 1\" 1% #9 1! 1\"";

#[test]
fn the_papers_example() {
    let report = run_ignoring(TABLE.as_bytes(), RECORDING.as_bytes());
    let expected = Report {
        verdict: Verdict::Violated { line: 1, time: 9 },
        steps: 4,
        constraints: 2,
        configuration: [[0, 0]; WORDS],
    };
    assert_eq!(report, expected);
    assert_eq!(
        report.to_string(),
        "violated 1 9\nsteps 4\nconfig 0 0 0 0\n"
    );
}

#[test]
fn the_papers_example_step_by_step() {
    let table = table(TABLE);
    assert_eq!(table.names, ["req", "ack", "done"]);
    let mut configuration = words(&[0, 2]);
    for (ticks, after) in [
        (0b001, [1, 2]),
        (0b000, [1, 2]),
        (0b011, [1, 1]),
        (0b110, [0, 0]),
    ] {
        let answer = step(&table.records, 3, 3, &mut configuration, ticks);
        assert_eq!(answer, StepAnswer::Accepted);
        assert_eq!(configuration, words(&after));
    }
    let answer = step(&table.records, 3, 3, &mut configuration, 0b011);
    assert_eq!(answer, StepAnswer::Violated(1));
    assert_eq!(configuration, words(&[0, 0]));
}

#[test]
fn reading_37_three_lines_for_each_verdict() {
    let accepted = run_ignoring(
        b"c clockDef a lub b",
        format!("{HEADER}#007 1\" #08 1\" #9 1\"").as_bytes(),
    );
    assert_eq!(accepted.to_string(), "accepted\nsteps 3\nconfig -3 0\n");
    let violated = run_ignoring(b"\na # b", format!("{} #0012 1! 1\"", HEADER).as_bytes());
    assert_eq!(violated.to_string(), "violated 2 12\nsteps 0\nconfig 0 0\n");
    let refused = run_ignoring(b"c clockDef await 007 a", b"");
    assert_eq!(refused.to_string(), "refused 36 0\nsteps 0\nconfig 7 0\n");
}

#[test]
fn a_refused_table_prints_config_alone() {
    let report = run_ignoring(b"a = b\na ~ b", HEADER.as_bytes());
    assert_eq!(report.to_string(), "refused 12 2\nsteps 0\nconfig\n");
}

#[test]
fn an_empty_table_prints_config_alone_and_accepts_every_step() {
    let report = run_ignoring(b"", format!("{HEADER}#1 1! 1\" #2 1% #3").as_bytes());
    assert_eq!(report.to_string(), "accepted\nsteps 3\nconfig\n");
}
