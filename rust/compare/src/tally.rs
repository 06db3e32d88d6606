//! What a comparison has met, counted.

use crate::case::{Answer, Case};
use crate::generate::{Group, GROUPS};
use ccsl::UnknownNames;
use second_opinion::{Kind, Record, SamePlace, StepAnswer, Verdict};
use std::collections::BTreeMap;
use std::fmt;

/// Every refusal number of documents 01 and 02, as far as its requests were carried out.
pub const REFUSALS: [u64; 31] = [
    10, 11, 12, 13, 14, 15, 16, 17, 18, 19, 20, 21, 22, 30, 31, 32, 33, 34, 35, 36, 37, 38, 40, 41,
    42, 43, 44, 51, 59, 60, 61,
];

/// Counts of what came up.
#[derive(Clone, Debug, Default)]
pub struct Tally {
    /// By the place of the group in [`GROUPS`].
    groups: [u64; GROUPS.len()],
    /// By the words for an answer.
    answers: BTreeMap<&'static str, u64>,
    refusals: BTreeMap<u64, u64>,
    /// Accepted steps of all runs together.
    steps: u64,
    /// Accepted steps of the longest run that was accepted whole.
    longest: u64,
    /// Steps of all readings together.
    steps_read: u64,
    /// Working orders that are not the order of the records.
    moved: u64,
    nested: Nested,
    delayed: Delayed,
    choices: Choices,
}

/// Counts of what came up with implicit clocks.
#[derive(Clone, Copy, Debug, Default)]
pub struct Nested {
    /// Tables that were read.
    pub tables: u64,
    /// Runs by a table that was read.
    pub runs: u64,
    /// Accepted steps of those runs.
    pub steps_of_runs: u64,
    /// Single steps that were accepted.
    pub steps: u64,
}

impl Nested {
    fn count(&mut self, case: &Case, answer: &Answer) {
        match (case, answer) {
            (_, Answer::Read(Ok(read))) if read.counts.named < read.counts.count => {
                self.tables += 1;
            }
            (Case::Run { table, .. }, Answer::Run(report))
                if table.contains(&b'(') && report.constraints > 0 =>
            {
                self.runs += 1;
                self.steps_of_runs += report.steps;
            }
            (Case::Step { clocks, .. }, Answer::Step(StepAnswer::Accepted, _))
                if clocks.named < clocks.count =>
            {
                self.steps += 1;
            }
            _ => {}
        }
    }
}

/// Counts of what came up with delays.
#[derive(Clone, Copy, Debug, Default)]
pub struct Delayed {
    /// Tables that were read.
    pub tables: u64,
    /// Runs by a table that was read.
    pub runs: u64,
    /// Accepted steps of those runs.
    pub steps_of_runs: u64,
    /// Accepted steps of the longest of those runs that was accepted whole.
    pub longest: u64,
    /// Runs at whose end a delay has ticks pending.
    pub pending: u64,
    /// Runs at whose end a delay has used more numbers than it has ticks pending.
    pub over: u64,
    /// Single steps that were accepted.
    pub steps: u64,
    /// Equal and different places.
    pub places: u64,
}

/// Whether one of the records is a delay.
fn has_delay(records: &[Record]) -> bool {
    records.iter().any(|record| record.kind == Kind::Deferred)
}

impl Delayed {
    fn count(&mut self, case: &Case, answer: &Answer) {
        match (case, answer) {
            (_, Answer::Read(Ok(read))) if has_delay(&read.records) => self.tables += 1,
            (Case::Run { table, .. }, Answer::Run(report)) if report.constraints > 0 => {
                let table = second_opinion::read_table(table).unwrap_or_default();
                if !has_delay(&table.records) {
                    return;
                }
                self.runs += 1;
                self.steps_of_runs += report.steps;
                if report.verdict == Verdict::Accepted {
                    self.longest = self.longest.max(report.steps);
                }
                let pairs = table.records.iter().zip(&report.configuration);
                let delays = pairs.filter(|(record, _)| record.kind == Kind::Deferred);
                let mut delays = delays.map(|(_, pair)| (pair[0].count_ones(), pair[1]));
                self.pending += u64::from(delays.clone().any(|(pending, _)| pending > 0));
                self.over += u64::from(delays.any(|(pending, used)| used > i64::from(pending)));
            }
            (Case::Step { records, .. }, Answer::Step(StepAnswer::Accepted, _))
                if has_delay(records) =>
            {
                self.steps += 1;
            }
            (
                Case::Place { records, .. } | Case::Search { records, .. },
                Answer::Place(SamePlace::Same | SamePlace::Different),
            ) if has_delay(records) => self.places += 1,
            _ => {}
        }
    }
}

/// Counts of runs by the choice for unknown names: all, and those that came to a step.
#[derive(Clone, Copy, Debug, Default)]
pub struct Choices {
    pub refused: u64,
    pub refused_with_steps: u64,
    pub ignored: u64,
    pub ignored_with_steps: u64,
}

impl Choices {
    fn count(&mut self, case: &Case, answer: &Answer) {
        let (Case::Run { unknown, .. }, Answer::Run(report)) = (case, answer) else {
            return;
        };
        let (runs, with_steps) = match unknown {
            UnknownNames::Refused => (&mut self.refused, &mut self.refused_with_steps),
            UnknownNames::Ignored => (&mut self.ignored, &mut self.ignored_with_steps),
        };
        *runs += 1;
        *with_steps += u64::from(report.steps > 0);
    }
}

impl Tally {
    /// Counts a pair.
    pub fn count_pair(&mut self, group: Group) {
        self.groups[GROUPS
            .iter()
            .position(|(_, other)| *other == group)
            .expect("every group is listed")] += 1;
    }

    /// Counts a question on which both gave the same answer.
    pub fn count(&mut self, case: &Case, answer: &Answer) {
        *self.answers.entry(words_for(answer)).or_default() += 1;
        if let Some(refusal) = answer.refusal() {
            *self.refusals.entry(refusal.number).or_default() += 1;
        }
        self.nested.count(case, answer);
        self.delayed.count(case, answer);
        self.choices.count(case, answer);
        match answer {
            Answer::Run(report) => {
                self.steps += report.steps;
                if report.verdict == Verdict::Accepted {
                    self.longest = self.longest.max(report.steps);
                }
            }
            Answer::Reading(reading) => self.steps_read += reading.steps.len() as u64,
            Answer::Order(Ok(order)) if !order.is_sorted() => self.moved += 1,
            _ => {}
        }
    }

    /// Pairs that were counted.
    pub fn pairs(&self) -> u64 {
        self.groups.iter().sum()
    }

    /// How often an answer came up; the words are those that are printed.
    pub fn answers(&self, words: &str) -> u64 {
        self.answers.get(words).copied().unwrap_or(0)
    }

    /// How often a refusal number came up.
    pub fn refusals(&self, number: u64) -> u64 {
        self.refusals.get(&number).copied().unwrap_or(0)
    }

    /// Working orders that are not the order of the records.
    pub fn moved(&self) -> u64 {
        self.moved
    }

    /// Accepted steps of the longest run that was accepted whole.
    pub fn longest(&self) -> u64 {
        self.longest
    }

    /// Accepted steps of all runs, and steps of all readings.
    pub fn steps(&self) -> [u64; 2] {
        [self.steps, self.steps_read]
    }

    /// What came up with implicit clocks.
    pub fn nested(&self) -> Nested {
        self.nested
    }

    /// What came up with delays.
    pub fn delayed(&self) -> Delayed {
        self.delayed
    }

    /// Runs by the choice for unknown names.
    pub fn choices(&self) -> Choices {
        self.choices
    }

    /// The refusal numbers that never came up.
    pub fn never_met(&self) -> Vec<u64> {
        REFUSALS
            .iter()
            .copied()
            .filter(|number| self.refusals(*number) == 0)
            .collect()
    }
}

fn words_for(answer: &Answer) -> &'static str {
    match answer {
        Answer::Run(report) => match report.verdict {
            Verdict::Accepted => "run accepted",
            Verdict::Violated { .. } => "run violated",
            Verdict::Refused(_) => "run refused",
        },
        Answer::Reading(reading) => match reading.refusal {
            None => "recording read",
            Some(_) => "recording refused",
        },
        Answer::Read(Ok(_)) => "table read",
        Answer::Read(Err(_)) => "table refused",
        Answer::Start(Ok(_)) => "records started",
        Answer::Start(Err(_)) => "start refused",
        Answer::Step(StepAnswer::Accepted, _) => "step accepted",
        Answer::Step(StepAnswer::Violated(_), _) => "step violated",
        Answer::Step(StepAnswer::Refused(_), _) => "step refused",
        Answer::Place(SamePlace::Same) => "places the same",
        Answer::Place(SamePlace::Different) => "places different",
        Answer::Place(SamePlace::Refused(_)) => "places refused",
        Answer::Order(Ok(_)) => "order listed",
        Answer::Order(Err(_)) => "order refused",
        Answer::Panicked(_) => "both broke off",
    }
}

impl fmt::Display for Tally {
    fn fmt(&self, f: &mut fmt::Formatter<'_>) -> fmt::Result {
        writeln!(f, "pairs by group:")?;
        for ((_, group), count) in GROUPS.iter().zip(self.groups) {
            writeln!(f, "  {:<20} {count:>9}", format!("{group:?}"))?;
        }
        writeln!(f, "answers:")?;
        for (words, count) in &self.answers {
            writeln!(f, "  {words:<20} {count:>9}")?;
        }
        for (words, count) in [
            ("steps of runs", self.steps),
            ("longest accepted run", self.longest),
            ("steps of readings", self.steps_read),
            ("not in record order", self.moved),
        ] {
            writeln!(f, "  {words:<20} {count:>9}")?;
        }
        writeln!(f, "with implicit clocks:")?;
        for (words, count) in [
            ("tables read", self.nested.tables),
            ("runs", self.nested.runs),
            ("steps of runs", self.nested.steps_of_runs),
            ("steps accepted", self.nested.steps),
        ] {
            writeln!(f, "  {words:<20} {count:>9}")?;
        }
        writeln!(f, "with delays:")?;
        for (words, count) in [
            ("tables read", self.delayed.tables),
            ("runs", self.delayed.runs),
            ("steps of runs", self.delayed.steps_of_runs),
            ("longest accepted run", self.delayed.longest),
            ("runs, some pending", self.delayed.pending),
            ("runs, some over", self.delayed.over),
            ("steps accepted", self.delayed.steps),
            ("places compared", self.delayed.places),
        ] {
            writeln!(f, "  {words:<20} {count:>9}")?;
        }
        writeln!(f, "runs by unknown names:")?;
        for (words, count) in [
            ("refused", self.choices.refused),
            ("refused, with steps", self.choices.refused_with_steps),
            ("ignored", self.choices.ignored),
            ("ignored, with steps", self.choices.ignored_with_steps),
        ] {
            writeln!(f, "  {words:<20} {count:>9}")?;
        }
        writeln!(f, "refusals:")?;
        for number in REFUSALS {
            writeln!(f, "  {number:<20} {:>9}", self.refusals(number))?;
        }
        Ok(())
    }
}
