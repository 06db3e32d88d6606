//! Each run fits the reading of its recording, with both monitors, and the random recordings are read
//! in every way that matters.

mod common;

use common::{count, refused_mark, Seen};
use compare::case::{table_clocks, Answer, Case};
use compare::generate;
use compare::monitors::{library, second, Monitor};
use compare::random::Random;
use compare::tally::REFUSALS;
use second_opinion::{
    read_table, start_words, Configuration, Reading, Report, StepAnswer, Table, Verdict,
};

/// Random runs.
fn runs() -> impl Iterator<Item = Case> {
    let question = |pair| generate::any(&mut Random::of_pair(20, pair)).1;
    (0..20_000)
        .map(question)
        .filter(|case| matches!(case, Case::Run { .. }))
}

/// What a monitor says of a run and of the reading of its recording.
fn asked(monitor: Monitor, run: &Case) -> (Report, Reading) {
    let reading = run.reading().expect("a run has a reading");
    match (monitor(run), monitor(&reading)) {
        (Answer::Run(report), Answer::Reading(reading)) => (report, reading),
        answers => panic!("{run}{answers:?}"),
    }
}

/// Whether a run fits a reading. No recording is long enough for 51, so that every refusal of a run is
/// one of its reading.
fn fits(report: &Report, reading: &Reading) -> bool {
    let steps = report.steps as usize;
    let is_whole = reading.steps.len() == steps;
    match report.verdict {
        Verdict::Accepted => is_whole && reading.refusal.is_none(),
        Verdict::Refused(refusal) => is_whole && reading.refusal == Some(refusal),
        Verdict::Violated { time, .. } => {
            let violated = reading.steps.get(steps);
            violated.is_some_and(|step| step.time == time)
        }
    }
}

#[test]
fn each_run_fits_its_reading_with_both_monitors() {
    for run in runs() {
        for monitor in [&library as Monitor, &second] {
            let (report, reading) = asked(monitor, &run);
            assert!(fits(&report, &reading), "{run}{report:?}\n{reading:?}");
        }
    }
}

/// How many steps of a reading are accepted one by one, and the configuration behind them.
fn stepped(monitor: Monitor, table: &Table, reading: &Reading) -> (u64, Configuration) {
    let start = start_words(&table.records, table.named, table.clocks);
    let mut words = start.expect("records of a table");
    for (steps, step) in (0..).zip(&reading.steps) {
        let case = Case::Step {
            records: table.records.clone(),
            clocks: table_clocks(table),
            words,
            ticks: step.ticks,
        };
        match monitor(&case) {
            Answer::Step(StepAnswer::Accepted, after) => words = after,
            Answer::Step(StepAnswer::Violated(_), _) => return (steps, words),
            answer => panic!("{case}{answer:?}"),
        }
    }
    (reading.steps.len() as u64, words)
}

#[test]
fn each_run_gives_what_single_steps_on_its_reading_give() {
    for run in runs() {
        let Case::Run { table, .. } = &run else {
            continue;
        };
        let Ok(table) = read_table(table) else {
            continue;
        };
        for monitor in [&library as Monitor, &second] {
            let (report, reading) = asked(monitor, &run);
            if reading.steps.len() > 500 {
                continue;
            }
            let of_run = (report.steps, report.configuration);
            let of_steps = stepped(monitor, &table, &reading);
            assert!(of_run == of_steps, "{run}{report:?}\n{reading:?}");
        }
    }
}

/// How a reading ends, and what it has behind a step that is violated.
fn count_ends(seen: &mut Seen, recording: &[u8], report: &Report, reading: &Reading) {
    let number = reading.refusal.map(|refusal| refusal.number);
    let some = !reading.steps.is_empty();
    let violated = matches!(report.verdict, Verdict::Violated { .. });
    let behind = reading
        .steps
        .len()
        .saturating_sub(report.steps as usize + 1);
    count(seen, "read whole", number.is_none() && some);
    count(seen, "no mark", number.is_none() && !some);
    count(seen, "violated, one step behind", violated && behind == 1);
    count(seen, "violated, steps behind", violated && behind > 1);
    for refused in [40, 41, 43, 44] {
        let is_it = number == Some(refused);
        count(seen, &format!("{refused} behind steps"), is_it && some);
        let words = format!("{refused} behind a violated step");
        count(seen, &words, is_it && violated);
    }
    let mark = refused_mark(recording, reading.refusal);
    let is_40 = number == Some(40) && some;
    count(seen, "40 of a mark behind steps", is_40 && mark);
    count(seen, "40 of a change behind steps", is_40 && !mark);
    let of_reading = |number: &&u64| ![21, 51, 59, 60, 61].contains(*number);
    for refused in REFUSALS.iter().filter(of_reading) {
        let words = format!("refused with {refused}");
        count(seen, &words, number == Some(*refused));
    }
}

/// The steps that a reading has.
fn count_steps(seen: &mut Seen, table: &[u8], reading: &Reading) {
    let steps = &reading.steps;
    let empty = |place: Option<usize>| place.is_some_and(|place| steps[place].ticks == 0);
    let last = steps.len().checked_sub(1);
    count(seen, "empty step first", empty(last.map(|_| 0)));
    count(seen, "empty step last", empty(last));
    let all_empty = last.is_some() && steps.iter().all(|s| s.ticks == 0);
    count(seen, "all steps empty", all_empty);
    count(seen, "time 0", steps.iter().any(|s| s.time == 0));
    count(seen, "last time", steps.iter().any(|s| s.time == u64::MAX));
    let high = steps.iter().any(|step| step.ticks >> 31 == 1);
    count(seen, "clock 31 ticks", high);
    let nested = table.contains(&b'(') && steps.iter().any(|s| s.ticks != 0);
    count(seen, "ticks with implicit clocks", nested);
}

#[test]
fn readings_come_up_in_every_way() {
    let mut seen = Seen::new();
    for run in runs() {
        let Case::Run {
            table, recording, ..
        } = &run
        else {
            continue;
        };
        let (report, reading) = asked(&second, &run);
        count_ends(&mut seen, recording, &report, &reading);
        count_steps(&mut seen, table, &reading);
    }
    assert!(seen.values().all(|times| *times > 0), "{seen:#?}");
}
