//! One question to a monitor, and the answer to it.

use ccsl::{Clocks, UnknownNames};
use second_opinion::{
    Configuration, Delays, Reading, Record, Refusal, Report, SamePlace, StepAnswer, Table, Verdict,
};
use std::fmt;
use std::ops::Range;

/// A question, with all that is handed in.
#[derive(Clone, PartialEq, Eq)]
pub enum Case {
    /// The whole run of a recording by a table, with a choice for variables whose names the table
    /// lacks.
    Run {
        table: Vec<u8>,
        recording: Vec<u8>,
        unknown: UnknownNames,
    },
    /// The steps of a recording, read by the names of a table, with the same choice and nothing
    /// judged.
    Reading {
        table: Vec<u8>,
        recording: Vec<u8>,
        unknown: UnknownNames,
    },
    /// Reading a table.
    Read { text: Vec<u8> },
    /// The start words of records.
    Start {
        records: Vec<Record>,
        clocks: Clocks,
    },
    /// A single step.
    Step {
        records: Vec<Record>,
        clocks: Clocks,
        words: Configuration,
        ticks: u32,
    },
    /// Whether two configurations stand at the same place.
    Place {
        records: Vec<Record>,
        clocks: Clocks,
        first: Configuration,
        second: Configuration,
    },
    /// The same question, which the second monitor answers by looking at all continuations of at
    /// most `depth` sets, and for a delay at a longer one that is made for its two pairs.
    Search {
        records: Vec<Record>,
        clocks: Clocks,
        first: Configuration,
        second: Configuration,
        depth: usize,
    },
    /// The definition records in working order.
    Order {
        records: Vec<Record>,
        clocks: Clocks,
    },
}

impl Case {
    /// The records and the clocks of a question on records.
    pub fn on_records(&self) -> Option<(&[Record], Clocks)> {
        match self {
            Case::Start { records, clocks }
            | Case::Step {
                records, clocks, ..
            }
            | Case::Place {
                records, clocks, ..
            }
            | Case::Search {
                records, clocks, ..
            }
            | Case::Order { records, clocks } => Some((records, *clocks)),
            Case::Run { .. } | Case::Reading { .. } | Case::Read { .. } => None,
        }
    }

    /// The question that is asked behind this one: for the working order, or for the reading.
    pub fn next(&self) -> Option<Case> {
        self.order().or_else(|| self.reading())
    }

    /// The question for the reading of the recording that a run is about.
    pub fn reading(&self) -> Option<Case> {
        let Case::Run {
            table,
            recording,
            unknown,
        } = self
        else {
            return None;
        };
        Some(Case::Reading {
            table: table.clone(),
            recording: recording.clone(),
            unknown: *unknown,
        })
    }

    /// The question for the working order of the records, or of the table, that another question is
    /// about.
    pub fn order(&self) -> Option<Case> {
        let (records, clocks) = match self {
            Case::Order { .. } => return None,
            Case::Read { text } => {
                let table = second_opinion::read_table(text).ok()?;
                let clocks = table_clocks(&table);
                (table.records, clocks)
            }
            _ => {
                let (records, clocks) = self.on_records()?;
                (records.to_vec(), clocks)
            }
        };
        Some(Case::Order { records, clocks })
    }
}

/// The clocks of a table that was read.
pub fn table_clocks(table: &Table) -> Clocks {
    Clocks {
        named: table.named as u32,
        count: table.clocks as u32,
    }
}

/// Every part of an answer.
#[derive(Clone, Debug, PartialEq, Eq)]
pub enum Answer {
    Run(Report),
    Reading(Reading),
    Read(Result<Read, Refusal>),
    Start(Result<Configuration, Refusal>),
    /// The answer and the configuration after the call.
    Step(StepAnswer, Configuration),
    Place(SamePlace),
    Order(Result<Vec<usize>, Refusal>),
    /// The monitor broke off, with this message.
    Panicked(String),
}

/// A table that was read: the records, the named clocks with the places at which they first stand in
/// the text, both counts, and the start words.
#[derive(Clone, Debug, PartialEq, Eq)]
pub struct Read {
    pub records: Vec<Record>,
    pub clocks: Vec<(String, Range<usize>)>,
    pub counts: Clocks,
    pub start: Result<Configuration, Refusal>,
}

impl Answer {
    /// The refusal, if the answer is one.
    pub fn refusal(&self) -> Option<Refusal> {
        match self {
            Answer::Run(Report {
                verdict: Verdict::Refused(refusal),
                ..
            })
            | Answer::Reading(Reading {
                refusal: Some(refusal),
                ..
            })
            | Answer::Read(Err(refusal))
            | Answer::Start(Err(refusal))
            | Answer::Step(StepAnswer::Refused(refusal), _)
            | Answer::Place(SamePlace::Refused(refusal))
            | Answer::Order(Err(refusal)) => Some(*refusal),
            _ => None,
        }
    }
}

impl fmt::Display for Case {
    fn fmt(&self, f: &mut fmt::Formatter<'_>) -> fmt::Result {
        match self {
            Case::Run {
                table,
                recording,
                unknown,
            } => {
                writeln!(f, "run")?;
                write_texts(f, table, recording, *unknown)
            }
            Case::Reading {
                table,
                recording,
                unknown,
            } => {
                writeln!(f, "read_recording")?;
                write_texts(f, table, recording, *unknown)
            }
            Case::Read { text } => {
                writeln!(f, "read_table")?;
                write_text(f, "text", text)
            }
            Case::Start { records, clocks } => {
                writeln!(f, "start_words")?;
                write_clocks(f, clocks)?;
                write_records(f, records)
            }
            Case::Step {
                records,
                clocks,
                words,
                ticks,
            } => {
                writeln!(f, "step\n  ticks: {ticks:#b}")?;
                write_clocks(f, clocks)?;
                write_records(f, records)?;
                write_words(f, "words", words)
            }
            Case::Place {
                records,
                clocks,
                first,
                second,
            }
            | Case::Search {
                records,
                clocks,
                first,
                second,
                ..
            } => {
                writeln!(f, "same_place")?;
                write_clocks(f, clocks)?;
                write_records(f, records)?;
                write_words(f, "first", first)?;
                write_words(f, "second", second)
            }
            Case::Order { records, clocks } => {
                writeln!(f, "definition_order")?;
                write_clocks(f, clocks)?;
                write_records(f, records)
            }
        }
    }
}

fn write_texts(
    f: &mut fmt::Formatter<'_>,
    table: &[u8],
    recording: &[u8],
    unknown: UnknownNames,
) -> fmt::Result {
    writeln!(f, "  unknown names: {unknown:?}")?;
    write_text(f, "table", table)?;
    write_text(f, "recording", recording)
}

/// The text as a byte string; of a very long one both ends, since the seed and the pair give the
/// whole.
fn write_text(f: &mut fmt::Formatter<'_>, name: &str, text: &[u8]) -> fmt::Result {
    write!(f, "  {name} ({} bytes): b\"", text.len())?;
    if text.len() <= 5000 {
        return writeln!(f, "{}\"", text.escape_ascii());
    }
    let (head, tail) = (&text[..1000], &text[text.len() - 1000..]);
    writeln!(
        f,
        "{}\" … b\"{}\"",
        head.escape_ascii(),
        tail.escape_ascii()
    )
}

fn write_clocks(f: &mut fmt::Formatter<'_>, Clocks { named, count }: &Clocks) -> fmt::Result {
    writeln!(f, "  clocks: {count}, {named} named")
}

fn write_records(f: &mut fmt::Formatter<'_>, records: &[Record]) -> fmt::Result {
    for Record {
        kind,
        defined,
        first,
        second,
        number,
        delays,
        line,
    } in records
    {
        write!(
            f,
            "  record {kind:?} c={defined} a={first} b={second} n={number} line={line}"
        )?;
        if *delays != Delays::default() {
            write!(f, " for={:?} count={}", delays.numbers, delays.length)?;
        }
        writeln!(f)?;
    }
    Ok(())
}

/// The pairs without the zeros at the end.
fn write_words(f: &mut fmt::Formatter<'_>, name: &str, words: &Configuration) -> fmt::Result {
    let length = words
        .iter()
        .rposition(|pair| *pair != [0, 0])
        .map_or(0, |last| last + 1);
    writeln!(f, "  {name}: {:?}", &words[..length])
}
