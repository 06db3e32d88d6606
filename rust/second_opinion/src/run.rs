//! A table run over a recording.

use std::fmt;

use crate::body::{Body, RecordedStep};
use crate::step::{advance, start, Stop};
use crate::{read_table, Configuration, Refusal, Table, UnknownNames, WORDS};

/// "The verdict is `accepted`, or `violated` with table line and time, or
/// `refused` with number and place."
#[derive(Clone, Copy, Debug, PartialEq, Eq)]
pub enum Verdict {
    /// Every step held.
    Accepted,
    /// A step failed: "A violation is a verdict and has no refusal number."
    Violated {
        /// The table line of the first constraint that failed.
        line: u64,
        /// The recorded time of the step.
        time: u64,
    },
    /// The table, the recording or a step was refused.
    Refused(Refusal),
}

impl From<Refusal> for Verdict {
    fn from(refusal: Refusal) -> Self {
        Verdict::Refused(refusal)
    }
}

/// What a run gives.
#[derive(Clone, Debug, PartialEq, Eq)]
pub struct Report {
    /// The verdict.
    pub verdict: Verdict,
    /// The number of accepted steps.
    pub steps: u64,
    /// The number of constraints, those of implicit clocks included; 0 for a
    /// refused table.
    pub constraints: usize,
    /// The configuration after the accepted steps.
    pub configuration: Configuration,
}

impl fmt::Display for Report {
    /// "prints three lines: verdict, `steps n`, `config` and a word for each
    /// constraint"; since M-105 "the `config` line" has "two numbers a
    /// constraint".
    fn fmt(&self, f: &mut fmt::Formatter<'_>) -> fmt::Result {
        match self.verdict {
            Verdict::Accepted => writeln!(f, "accepted")?,
            Verdict::Violated { line, time } => writeln!(f, "violated {line} {time}")?,
            Verdict::Refused(Refusal { number, place }) => {
                writeln!(f, "refused {number} {place}")?;
            }
        }
        writeln!(f, "steps {}", self.steps)?;
        write!(f, "config")?;
        for [word, second] in self.configuration.iter().take(self.constraints) {
            write!(f, " {word} {second}")?;
        }
        writeln!(f)
    }
}

/// Reads a table, then a recording, and judges its steps. `unknown` is the
/// choice on variables with names that the table lacks (M-103).
pub fn run(table: &[u8], recording: &[u8], unknown: UnknownNames) -> Report {
    match read_table(table) {
        Ok(table) => run_table(&table, recording, unknown),
        // "A refused table leaves all records empty, 64 zero words and 0 steps."
        Err(refusal) => Report {
            verdict: refusal.into(),
            steps: 0,
            constraints: 0,
            configuration: [[0, 0]; WORDS],
        },
    }
}

/// "Any other refusal, and a violation, gives the steps accepted so far and the
/// configuration after them."
fn run_table(table: &Table, recording: &[u8], unknown: UnknownNames) -> Report {
    let mut monitor = Monitor::start(table);
    let verdict = match monitor.read(recording, unknown) {
        Ok(()) => Verdict::Accepted,
        Err(verdict) => verdict,
    };
    Report {
        verdict,
        steps: monitor.steps.0,
        constraints: table.records.len(),
        configuration: monitor.configuration,
    }
}

/// The number of accepted steps. "The step count and the recorded time are two
/// counters kept apart: only the second comes from the file."
#[derive(Clone, Copy, Debug, PartialEq, Eq)]
struct Steps(u64);

struct Monitor<'t> {
    table: &'t Table,
    configuration: Configuration,
    steps: Steps,
}

impl<'t> Monitor<'t> {
    fn start(table: &'t Table) -> Self {
        Monitor {
            table,
            configuration: start(&table.records),
            steps: Steps(0),
        }
    }

    /// "Reading stops at the first violation or refusal": each step is judged
    /// before the next is read.
    fn read(&mut self, recording: &[u8], unknown: UnknownNames) -> Result<(), Verdict> {
        for step in Body::of(recording, &self.table.names, unknown)? {
            self.judge(step?)?;
        }
        Ok(())
    }

    /// Judges a step. "In a whole run 51 has the step's mark offset as its
    /// place."
    fn judge(&mut self, step: RecordedStep) -> Result<(), Verdict> {
        let Table { records, named, .. } = self.table;
        let moved = advance(records, *named, &mut self.configuration, step.ticks);
        moved.map_err(|stop| match stop {
            Stop::Fails(index) => Verdict::Violated {
                line: records[index].line,
                time: step.time,
            },
            Stop::LeavesItsMillion(_) => Verdict::Refused(Refusal {
                number: 51,
                place: step.mark,
            }),
        })?;
        self.steps.0 += 1;
        Ok(())
    }
}

#[cfg(test)]
mod tests {
    use super::*;

    /// No recording of 65,536 bytes has a million steps, so the gap limit of a
    /// run is tried on a monitor that has come far already.
    #[test]
    fn in_a_whole_run_51_has_the_steps_mark_offset_as_its_place() {
        let table = read_table(b"a precedes b").expect("a table");
        let header = "$var event 1 ! a $end $var event 1 \" b $end $enddefinitions $end";
        // Whatever mark comes next, and none (M-106).
        for next in ["#4", "#3", "#", "##5", "#4x", "#99999999999999999999", ""] {
            let mut monitor = Monitor::start(&table);
            monitor.configuration[0] = [999_999, 0];
            let recording = format!("{header} #1 1! #2 1! 1\" #3 1! {next}");
            let answer = monitor.read(recording.as_bytes(), UnknownNames::Ignored);
            let offset = recording.find("#3").expect("the mark");
            assert_eq!(answer, Err(Verdict::Refused(Refusal::new(51, offset))));
            assert_eq!(monitor.steps, Steps(2));
            assert_eq!(monitor.configuration[0], [1_000_000, 0]);
        }
    }

    /// The same for an implicit lub: b takes its word to -1,000,000, a and b
    /// together leave it there, and b by itself would take it below.
    #[test]
    fn in_a_whole_run_51_of_an_implicit_lub_has_the_same_place() {
        let table = read_table(b"(a lub b) # c").expect("a table");
        let header = "$var event 1 ! a $end $var event 1 \" b $end $var event 1 % c $end";
        let mut monitor = Monitor::start(&table);
        monitor.configuration[0] = [-999_999, 0];
        let recording = format!("{header} $enddefinitions $end #1 1\" 1% #2 1! 1\" #3 1\" 1%");
        let answer = monitor.read(recording.as_bytes(), UnknownNames::Ignored);
        let offset = recording.find("#3").expect("the mark");
        assert_eq!(answer, Err(Verdict::Refused(Refusal::new(51, offset))));
        assert_eq!(monitor.steps, Steps(2));
        assert_eq!(monitor.configuration[..2], [[-1_000_000, 0], [0, 0]]);
    }
}
