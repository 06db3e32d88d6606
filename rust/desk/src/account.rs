//! The account of a run: the table, the steps as read, and the words before each of them, all asked of
//! the library step by step, and held to the run's own answer.

use crate::library::Library;
use ccsl::{
    Configuration, Kind, Reading, Record, Refusal, Report, StepAnswer, Steps, Table, UnknownNames,
    Verdict, PAIRS,
};

/// What a run is asked on: the bytes of both files, and the choice for variables whose names the table
/// lacks.
#[derive(Clone, Copy, Debug)]
pub struct Input<'a> {
    pub table: &'a [u8],
    pub recording: &'a [u8],
    pub unknown: UnknownNames,
}

/// How the judging of the steps ended.
#[derive(Clone, Copy, Debug, PartialEq, Eq)]
pub enum Ending {
    Accepted,
    /// The step that is not accepted and the first record that fails in it, both counted from 0.
    Violated {
        step: usize,
        record: usize,
    },
    Refused(Refusal),
}

/// An account that agrees with the run. A refused table has no records, no clocks and no steps.
pub struct Account<'a> {
    library: &'a dyn Library,
    pub input: Input<'a>,
    /// What the run says.
    pub report: Report,
    pub table: Table,
    /// All steps that reading gives, those behind the last that was judged too.
    pub steps: Vec<ccsl::RecordedStep>,
    /// The words before each step that was judged, and behind them those after the last accepted one:
    /// `words[i]` is before step i, counted from 0.
    pub words: Vec<Configuration>,
    pub ending: Ending,
}

/// The account comes to another answer than the run.
#[derive(Clone, Debug, PartialEq, Eq)]
pub struct Differs {
    pub run: Report,
    pub account: Report,
}

/// An account, or how it differs from the run.
pub type Found<'a> = Result<Account<'a>, Box<Differs>>;

/// Asks the library for the run, for its table and its steps, and for each step by itself, from the
/// start words on.
pub fn account<'a>(library: &'a dyn Library, input: Input<'a>) -> Found<'a> {
    let report = library.run(input.table, input.recording, input.unknown);
    let reading = library.read_recording(input.table, input.recording, input.unknown);
    let (table, words, ending) = match library.read_table(input.table) {
        Ok(table) => {
            let (words, ending) = judged(library, &table, &reading);
            (table, words, ending)
        }
        Err(refusal) => (no_table(), vec![[[0; 2]; PAIRS]], Ending::Refused(refusal)),
    };
    let told = told(&table, &reading, &words, ending);
    if told != report {
        return Err(Box::new(Differs {
            run: report,
            account: told,
        }));
    }
    Ok(Account {
        library,
        input,
        report,
        table,
        steps: reading.steps,
        words,
        ending,
    })
}

fn no_table() -> Table {
    Table {
        records: Vec::new(),
        clocks: Vec::new(),
        implicit: 0,
    }
}

/// The words before each step and after the last accepted one, and how judging ended: at the first step
/// that is not accepted, else as reading did.
fn judged(library: &dyn Library, table: &Table, reading: &Reading) -> (Vec<Configuration>, Ending) {
    let mut now = match library.start_words(&table.records, table.counts()) {
        Ok(words) => words,
        Err(refusal) => return (vec![[[0; 2]; PAIRS]], Ending::Refused(refusal)),
    };
    let mut words = vec![now];
    for (step, recorded) in reading.steps.iter().enumerate() {
        match library.step(&table.records, table.counts(), &mut now, recorded.ticks) {
            StepAnswer::Accepted => words.push(now),
            StepAnswer::Violated(number) => {
                let record = (number as usize).wrapping_sub(1);
                return (words, Ending::Violated { step, record });
            }
            // In a run the place of a refused step is its mark.
            StepAnswer::Refused(Refusal { number, .. }) => {
                let place = recorded.mark;
                return (words, Ending::Refused(Refusal { number, place }));
            }
        }
    }
    let ending = reading.refusal.map_or(Ending::Accepted, Ending::Refused);
    (words, ending)
}

/// What a run with this account says.
fn told(table: &Table, reading: &Reading, words: &[Configuration], ending: Ending) -> Report {
    let verdict = match ending {
        Ending::Accepted => Verdict::Accepted,
        Ending::Refused(refusal) => Verdict::Refused(refusal),
        Ending::Violated { step, record } => Verdict::Violated {
            line: table.records.get(record).map_or(0, |record| record.line),
            time: reading.steps[step].time,
        },
    };
    Report {
        verdict,
        steps: Steps(words.len() as u64 - 1),
        constraints: table.records.len(),
        configuration: words[words.len() - 1],
    }
}

impl Account<'_> {
    /// The library that the account was asked of.
    pub fn library(&self) -> &dyn Library {
        self.library
    }

    /// How many steps were accepted.
    pub fn accepted(&self) -> usize {
        self.words.len() - 1
    }

    /// Whether a clock is named: the others are implicit.
    pub fn is_named(&self, clock: u64) -> bool {
        clock < self.table.clocks.len() as u64
    }

    /// Whether a record defines an implicit clock.
    pub fn is_implicit(&self, record: &Record) -> bool {
        defines(record.kind) && !self.is_named(record.defined)
    }

    /// The records, counted from 0, that fail in a step by the words before it, each asked by itself.
    /// The definitions of implicit clocks stay with it, so that their ticks are worked out, and never
    /// fail.
    pub fn failing(&self, step: usize) -> Vec<usize> {
        (0..self.table.records.len())
            .filter(|&i| {
                let record = self.table.records[i];
                !self.is_implicit(&record) && self.fails(step, i, record)
            })
            .collect()
    }

    /// Whether a clock ticks in a step. For an implicit clock the library is asked, and only a step
    /// that was judged has an answer. Clock 0 is named: where it ticks, an implicit clock ticks exactly
    /// where the two do not exclude each other, and else where it is no subclock of it.
    pub fn ticks(&self, step: usize, clock: u64) -> Option<bool> {
        let ticks = self.steps.get(step)?.ticks;
        if self.is_named(clock) {
            return Some(ticks >> clock & 1 == 1);
        }
        let defined = |record: &&Record| self.is_implicit(record) && record.defined == clock;
        let definition = self.table.records.iter().find(defined)?;
        let line = definition.line;
        // The line's own record stands below the definitions of its implicit clocks.
        let own = self.table.records.iter().rposition(|r| r.line == line)?;
        let kind = match ticks & 1 {
            1 => Kind::Excludes,
            _ => Kind::SubClock,
        };
        let probe = Record {
            kind,
            first: clock,
            second: 0,
            ..*definition
        };
        (step < self.words.len()).then(|| self.fails(step, own, probe))
    }

    /// Whether a record, put in the place of one of the table, fails in a step that was judged: the
    /// definitions of implicit clocks stay, all other records are emptied.
    fn fails(&self, step: usize, place: usize, record: Record) -> bool {
        let mut records = self.table.records.clone();
        let mut words = self.words[step];
        for (i, slot) in records.iter_mut().enumerate() {
            if !self.is_implicit(slot) {
                slot.kind = Kind::Empty;
                if i != place {
                    words[i] = [0; 2];
                }
            }
        }
        records[place] = record;
        if !remembers(record.kind) {
            words[place] = [0; 2];
        }
        let answer = self.library.step(
            &records,
            self.table.counts(),
            &mut words,
            self.steps[step].ticks,
        );
        matches!(answer, StepAnswer::Violated(_))
    }
}

/// Whether a kind defines a clock.
pub fn defines(kind: Kind) -> bool {
    !matches!(
        kind,
        Kind::Empty
            | Kind::Coincides
            | Kind::Excludes
            | Kind::SubClock
            | Kind::StrictlyPrecedes
            | Kind::Precedes
    )
}

/// Whether a kind has words that move.
pub fn remembers(kind: Kind) -> bool {
    !matches!(
        kind,
        Kind::Empty | Kind::Coincides | Kind::Excludes | Kind::SubClock | Kind::Union | Kind::Inter
    )
}
