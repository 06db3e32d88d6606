//! The two monitors, asked the same questions and answering in the same words.

use crate::apart;
use crate::case::{table_clocks, Answer, Case, Read};
use ccsl::{Clocks, UnknownNames};
use second_opinion::{
    Configuration, Delays, Kind, Reading, Record, RecordedStep, Refusal, Report, SamePlace,
    StepAnswer, Verdict,
};
use std::cell::Cell;
use std::ops::Range;
use std::panic::{catch_unwind, set_hook, take_hook, AssertUnwindSafe};
use std::sync::Once;

/// A monitor: a question goes in, the answer comes out.
pub type Monitor<'a> = &'a dyn Fn(&Case) -> Answer;

thread_local! {
    static ASKING: Cell<bool> = const { Cell::new(false) };
}

/// The answer of a monitor, also where it breaks off; its message is then part of the answer and
/// not printed.
pub fn ask(monitor: Monitor, case: &Case) -> Answer {
    keep_messages();
    ASKING.set(true);
    let answer = catch_unwind(AssertUnwindSafe(|| monitor(case)));
    ASKING.set(false);
    answer.unwrap_or_else(|cause| {
        let text = cause.downcast_ref::<String>().map(String::as_str);
        let text = text.or_else(|| cause.downcast_ref::<&str>().copied());
        Answer::Panicked(text.unwrap_or("").to_string())
    })
}

/// From the first call on, no message is printed while a monitor is asked.
fn keep_messages() {
    static ONCE: Once = Once::new();
    ONCE.call_once(|| {
        let print = take_hook();
        set_hook(Box::new(move |message| {
            if !ASKING.get() {
                print(message);
            }
        }));
    });
}

/// The proved library.
pub fn library(case: &Case) -> Answer {
    match case {
        Case::Run {
            table,
            recording,
            unknown,
        } => Answer::Run(report(ccsl::run_with(table, recording, *unknown))),
        Case::Reading {
            table,
            recording,
            unknown,
        } => Answer::Reading(reading(ccsl::read_recording(table, recording, *unknown))),
        Case::Read { text } => Answer::Read(ccsl::read_table(text).map(read).map_err(refusal)),
        Case::Start { records, clocks } => {
            Answer::Start(ccsl::start_words(&to_library(records), *clocks).map_err(refusal))
        }
        Case::Step {
            records,
            clocks,
            words,
            ticks,
        } => {
            let mut words = *words;
            let answer = ccsl::step(&to_library(records), *clocks, &mut words, *ticks);
            Answer::Step(step_answer(answer), words)
        }
        Case::Place {
            records,
            clocks,
            first,
            second,
        }
        | Case::Search {
            records,
            clocks,
            first,
            second,
            ..
        } => Answer::Place(place(ccsl::same_place(
            &to_library(records),
            *clocks,
            first,
            second,
        ))),
        Case::Order { records, clocks } => {
            Answer::Order(ccsl::definition_order(&to_library(records), *clocks).map_err(refusal))
        }
    }
}

/// The monitor that was written separately.
pub fn second(case: &Case) -> Answer {
    match case {
        Case::Run {
            table,
            recording,
            unknown,
        } => Answer::Run(second_opinion::run(table, recording, choice(*unknown))),
        Case::Reading {
            table,
            recording,
            unknown,
        } => {
            let unknown = choice(*unknown);
            Answer::Reading(second_opinion::read_recording(table, recording, unknown))
        }
        Case::Read { text } => {
            Answer::Read(second_opinion::read_table(text).map(|table| second_read(text, table)))
        }
        Case::Start { records, clocks } => {
            let (named, count) = counts(*clocks);
            Answer::Start(second_opinion::start_words(records, named, count))
        }
        Case::Step {
            records,
            clocks,
            words,
            ticks,
        } => {
            let (named, count) = counts(*clocks);
            let mut words = *words;
            let answer = second_opinion::step(records, named, count, &mut words, *ticks);
            Answer::Step(answer, words)
        }
        Case::Place {
            records,
            clocks,
            first,
            second,
        } => {
            let (named, count) = counts(*clocks);
            Answer::Place(second_opinion::same_place(
                records, named, count, first, second,
            ))
        }
        Case::Search {
            records,
            clocks,
            first,
            second,
            depth,
        } => Answer::Place(by_search(records, *clocks, first, second, *depth)),
        Case::Order { records, clocks } => {
            let (named, count) = counts(*clocks);
            Answer::Order(second_opinion::definition_order(records, named, count))
        }
    }
}

/// The choice in the second monitor's words.
fn choice(unknown: UnknownNames) -> second_opinion::UnknownNames {
    match unknown {
        UnknownNames::Refused => second_opinion::UnknownNames::Refused,
        UnknownNames::Ignored => second_opinion::UnknownNames::Ignored,
    }
}

/// The named count and the clock count.
fn counts(clocks: Clocks) -> (u64, u64) {
    (clocks.named.into(), clocks.count.into())
}

/// Same place by search: some record tells the two apart by a continuation of at most `depth` sets,
/// or a delay, of which not all of these can be looked at, by the one that is made for its pairs, or
/// none does.
fn by_search(
    records: &[Record],
    clocks: Clocks,
    first: &Configuration,
    second: &Configuration,
    depth: usize,
) -> SamePlace {
    let (named, count) = counts(clocks);
    let by_rule = second_opinion::same_place(records, named, count, first, second);
    if let SamePlace::Refused(refusal) = by_rule {
        return SamePlace::Refused(refusal);
    }
    let tells = |i: usize| {
        let (record, one, other) = (&records[i], first[i], second[i]);
        let depth = apart::searchable(record, one, other, depth);
        second_opinion::told_apart(record, named, count, one, other, depth).is_some()
            || apart::delay_tells(record, one, other)
    };
    if (0..records.len()).any(tells) {
        SamePlace::Different
    } else {
        SamePlace::Same
    }
}

fn second_read(text: &[u8], table: second_opinion::Table) -> Read {
    let place = |name: String| {
        let place = first_place(text, name.as_bytes());
        (name, place)
    };
    Read {
        start: second_opinion::start_words(&table.records, table.named, table.clocks),
        counts: table_clocks(&table),
        records: table.records.into_iter().map(named).collect(),
        clocks: table.names.into_iter().map(place).collect(),
    }
}

/// Where a word first stands in a table's text.
fn first_place(text: &[u8], word: &[u8]) -> Range<usize> {
    let mut start = 0;
    for piece in text.split(|byte| b" \n()".contains(byte)) {
        if piece == word {
            return start..start + piece.len();
        }
        start += piece.len() + 1;
    }
    0..0
}

/// A record with zeros where its kind names nothing.
pub fn named(record: Record) -> Record {
    let defines = defines(record.kind);
    let pair = !matches!(record.kind, Kind::Empty | Kind::Await);
    Record {
        kind: record.kind,
        defined: if defines { record.defined } else { 0 },
        first: if record.kind == Kind::Empty {
            0
        } else {
            record.first
        },
        second: if pair { record.second } else { 0 },
        number: if record.kind == Kind::Await {
            record.number
        } else {
            0
        },
        delays: if record.kind == Kind::Deferred {
            held(record.delays)
        } else {
            Delays::default()
        },
        line: record.line,
    }
}

/// A list with zeros past its length.
fn held(mut delays: Delays) -> Delays {
    let past = delays.numbers.iter_mut().zip(0..);
    past.filter(|(_, place)| *place >= delays.length)
        .for_each(|(number, _)| *number = 0);
    delays
}

/// Whether a kind defines a clock.
pub fn defines(kind: Kind) -> bool {
    use Kind::*;
    matches!(
        kind,
        Union | Inter | Lub | Glb | Await | StrictlySampled | Sampled | Upto | Deferred
    )
}

/// The clocks that a record uses.
pub fn operands(record: &Record) -> Vec<u64> {
    match record.kind {
        Kind::Empty => Vec::new(),
        Kind::Await => vec![record.first],
        _ => vec![record.first, record.second],
    }
}

/// All kinds, in the order in which [`ccsl::KINDS`] has them.
pub const KINDS: [Kind; 15] = [
    Kind::Empty,
    Kind::Coincides,
    Kind::Excludes,
    Kind::SubClock,
    Kind::StrictlyPrecedes,
    Kind::Precedes,
    Kind::Union,
    Kind::Inter,
    Kind::Lub,
    Kind::Glb,
    Kind::Await,
    Kind::StrictlySampled,
    Kind::Sampled,
    Kind::Upto,
    Kind::Deferred,
];

fn to_library(records: &[Record]) -> Vec<ccsl::Record> {
    let one = |r: &Record| ccsl::Record {
        kind: ccsl::KINDS[KINDS
            .iter()
            .position(|kind| *kind == r.kind)
            .expect("every kind is listed")],
        defined: r.defined,
        first: r.first,
        second: r.second,
        number: r.number,
        delays: ccsl::Delays {
            numbers: r.delays.numbers,
            count: r.delays.length,
        },
        line: r.line,
    };
    records.iter().map(one).collect()
}

fn read(table: ccsl::Table) -> Read {
    let record = |r: ccsl::Record| Record {
        kind: KINDS[r.kind as usize],
        defined: r.defined,
        first: r.first,
        second: r.second,
        number: r.number,
        delays: Delays {
            numbers: r.delays.numbers,
            length: r.delays.count,
        },
        line: r.line,
    };
    let start = ccsl::Monitor::of_table(&table).map(|monitor| *monitor.words());
    Read {
        start: start.map_err(refusal),
        counts: table.counts(),
        records: table
            .records
            .into_iter()
            .map(|r| named(record(r)))
            .collect(),
        clocks: table
            .clocks
            .into_iter()
            .map(|clock| (clock.name, clock.place))
            .collect(),
    }
}

fn report(report: ccsl::Report) -> Report {
    let verdict = match report.verdict {
        ccsl::Verdict::Accepted => Verdict::Accepted,
        ccsl::Verdict::Violated { line, time } => Verdict::Violated { line, time: time.0 },
        ccsl::Verdict::Refused(r) => Verdict::Refused(refusal(r)),
    };
    Report {
        verdict,
        steps: report.steps.0,
        constraints: report.constraints,
        configuration: report.configuration,
    }
}

fn reading(reading: ccsl::Reading) -> Reading {
    let step = |step: ccsl::RecordedStep| RecordedStep {
        time: step.time.0,
        mark: step.mark,
        ticks: step.ticks,
    };
    Reading {
        steps: reading.steps.into_iter().map(step).collect(),
        refusal: reading.refusal.map(refusal),
    }
}

fn step_answer(answer: ccsl::StepAnswer) -> StepAnswer {
    match answer {
        ccsl::StepAnswer::Accepted => StepAnswer::Accepted,
        ccsl::StepAnswer::Violated(record) => StepAnswer::Violated(record),
        ccsl::StepAnswer::Refused(r) => StepAnswer::Refused(refusal(r)),
    }
}

fn place(answer: ccsl::SamePlace) -> SamePlace {
    match answer {
        ccsl::SamePlace::Same => SamePlace::Same,
        ccsl::SamePlace::Different => SamePlace::Different,
        ccsl::SamePlace::Refused(r) => SamePlace::Refused(refusal(r)),
    }
}

fn refusal(refusal: ccsl::Refusal) -> Refusal {
    Refusal {
        number: refusal.number,
        place: refusal.place,
    }
}
