//! Safe calls of the proved checker of clock constraints, `libmonitor_c.a`, which `rt lib` builds in the
//! folder of the crate `monitor_c`.
//!
//! A table of constraints and a recording of ticks go in, a verdict comes out:
//!
//! ```
//! let table = b"a precedes b";
//! let recording = b"$var event 1 ! a $end $var event 1 % b $end $enddefinitions $end
//!     #0 1! #4 1% #7 1%";
//! let report = ccsl::run(table, recording);
//! assert_eq!(report.to_string(), "violated 1 7\nsteps 2\nconfig 0 0\n");
//! ```
//!
//! A variable whose name the table lacks is refused, with 38, so that a misspelt name is told; or it
//! is ignored, where that is asked for:
//!
//! ```
//! use ccsl::{run, run_with, UnknownNames};
//!
//! let table = b"a precedes b";
//! let recording = b"$var event 1 ! a $end $var event 1 % b $end $var event 1 & lamp $end
//!     $enddefinitions $end #0 1! 1& #4 1%";
//! let refused = "refused 38 44\nsteps 0\nconfig 0 0\n";
//! assert_eq!(run(table, recording).to_string(), refused);
//! let report = run_with(table, recording, UnknownNames::Ignored);
//! assert_eq!(report.to_string(), "accepted\nsteps 2\nconfig 0 0\n");
//! ```
//!
//! Or a monitor stands at the table's start words and is moved forward step by step:
//!
//! ```
//! let table = ccsl::read_table(b"a precedes b").unwrap();
//! let mut monitor = ccsl::Monitor::of_table(&table).unwrap();
//! assert_eq!(monitor.step(0b01), ccsl::StepAnswer::Accepted);
//! assert_eq!(monitor.words()[0], [1, 0]);
//! ```
//!
//! The steps to take can be those of a recording, which is read with nothing judged:
//!
//! ```
//! let recording = b"$var event 1 ! a $end $var event 1 % b $end $enddefinitions $end #4 1% #7";
//! let unknown = ccsl::UnknownNames::Refused;
//! let reading = ccsl::read_recording(b"a precedes b", recording, unknown);
//! assert_eq!(reading.refusal, None);
//! assert_eq!(reading.steps.len(), 2);
//! let step = reading.steps[0];
//! assert_eq!((step.time, step.mark, step.ticks), (ccsl::Time(4), 65, 0b10));
//! ```
//!
//! A configuration has two words a constraint. Those of a delay are its pending ticks and how many
//! numbers of its list are used:
//!
//! ```
//! let table = ccsl::read_table(b"c clockDef a deferred b for 2 3").unwrap();
//! assert_eq!(table.records[0].delays, ccsl::Delays::of(&[2, 3]));
//! let mut monitor = ccsl::Monitor::of_table(&table).unwrap();
//! let (c, a, b) = (0b001, 0b010, 0b100);
//! for (ticks, pair) in [(a, [0b10, 1]), (b, [0b1, 1]), (b | c, [0, 1])] {
//!     assert_eq!(monitor.step(ticks), ccsl::StepAnswer::Accepted);
//!     assert_eq!(monitor.words()[0], pair);
//! }
//! ```
//!
//! Definitions can be asked for in working order, each after those of its operands:
//!
//! ```
//! let table = ccsl::read_table(b"d clockDef c upto stop\nc clockDef a lub b").unwrap();
//! let order = ccsl::definition_order(&table.records, table.counts());
//! assert_eq!(order, Ok(vec![2, 1]));
//! ```
//!
//! An expression in parentheses is an implicit clock, which no tick set holds:
//!
//! ```
//! let table = ccsl::read_table(b"(a lub b) precedes c").unwrap();
//! assert_eq!(table.counts(), ccsl::Clocks { named: 3, count: 4 });
//! let mut monitor = ccsl::Monitor::of_table(&table).unwrap();
//! assert_eq!(monitor.step(0b011), ccsl::StepAnswer::Accepted);
//! assert_eq!(monitor.words()[..2], [[0, 0], [1, 0]]);
//! ```

pub mod raw;

use std::fmt;
use std::ops::Range;

/// Pairs of a configuration.
pub const PAIRS: usize = 64;

/// The two words of a record: of a delay its pending ticks, bit k - 1 for the k-th next tick of b,
/// and how many numbers of its list are used; of any other record what it remembers, and 0.
pub type Pair = [i64; 2];

/// A pair a record, in table order, the rest 0.
pub type Configuration = [Pair; PAIRS];

/// The form of a constraint. The order is that of the header's numbers.
#[derive(Clone, Copy, Debug, PartialEq, Eq, Hash)]
pub enum Kind {
    /// A slot without a constraint: names no clock, always holds.
    Empty,
    /// `a = b`: both or neither tick.
    Coincides,
    /// `a # b`: not both.
    Excludes,
    /// `a isSubClockOf b`: a only with b.
    SubClock,
    /// `a strictly precedes b`: b only after a step with its a.
    StrictlyPrecedes,
    /// `a precedes b`: b not before its a.
    Precedes,
    /// `c clockDef a clockUnion b`.
    Union,
    /// `c clockDef a clockInter b`.
    Inter,
    /// `c clockDef a lub b`: c with the slower of both.
    Lub,
    /// `c clockDef a glb b`: c with the faster of both.
    Glb,
    /// `c clockDef await n a`: c with the n-th a, once.
    Await,
    /// `c clockDef a strictly sampled b`: c with the first b after the first a, once.
    StrictlySampled,
    /// `c clockDef a sampled b`: c with the first b at or after the first a, once.
    Sampled,
    /// `c clockDef a upto b`: c with a until b ticks.
    Upto,
    /// `c clockDef a deferred b for n …`: each a takes the next number n of the list, and c ticks
    /// with the n-th b after that step.
    Deferred,
}

/// All kinds; the place of a kind is its number in the header.
pub const KINDS: [Kind; 15] = [
    Kind::Empty,
    Kind::Coincides,
    Kind::Excludes,
    Kind::SubClock,
    Kind::StrictlyPrecedes,
    Kind::Precedes,
    Kind::Union,
    Kind::Inter,
    Kind::Lub,
    Kind::Glb,
    Kind::Await,
    Kind::StrictlySampled,
    Kind::Sampled,
    Kind::Upto,
    Kind::Deferred,
];

/// The list of a delay: its first eight numbers, and how many it has. The numbers from `count` on are
/// free.
#[derive(Clone, Copy, Debug, PartialEq, Eq, Hash, Default)]
pub struct Delays {
    pub numbers: [u8; 8],
    pub count: u64,
}

impl Delays {
    /// This list, with zeros behind it. One of over eight numbers keeps its count, with which it is
    /// refused.
    pub fn of(list: &[u8]) -> Delays {
        let mut numbers = [0; 8];
        for (slot, number) in numbers.iter_mut().zip(list) {
            *slot = *number;
        }
        Delays {
            numbers,
            count: list.len() as u64,
        }
    }
}

/// One constraint. What its kind does not name is free.
#[derive(Clone, Copy, Debug, PartialEq, Eq, Hash)]
pub struct Record {
    pub kind: Kind,
    /// The number of the clock c, which a definition defines.
    pub defined: u64,
    /// The number of the clock a.
    pub first: u64,
    /// The number of the clock b.
    pub second: u64,
    /// The number n of an await.
    pub number: u64,
    /// The list of a delay.
    pub delays: Delays,
    /// The line of the table, from 1.
    pub line: u64,
}

/// How many clocks there are, and how many of them, those with the lowest numbers, are named. The
/// others are implicit: a step works out their ticks, and a tick set holds named clocks alone.
#[derive(Clone, Copy, Debug, PartialEq, Eq, Hash)]
pub struct Clocks {
    pub named: u32,
    pub count: u32,
}

impl Clocks {
    /// This many clocks, all of them named.
    pub const fn all_named(count: u32) -> Clocks {
        Clocks {
            named: count,
            count,
        }
    }
}

/// A named clock of a table.
#[derive(Clone, Debug, PartialEq, Eq)]
pub struct Clock {
    pub name: String,
    /// Where in the text the name first stands.
    pub place: Range<usize>,
}

/// A table that was read.
#[derive(Clone, Debug, PartialEq, Eq)]
pub struct Table {
    /// In table order: of a line, the definitions of its implicit clocks, then its own constraint.
    pub records: Vec<Record>,
    /// The named clocks, in the order of their numbers.
    pub clocks: Vec<Clock>,
    /// The number of implicit clocks, which have the numbers straight behind those of the named.
    pub implicit: u32,
}

impl Table {
    /// The clocks as the calls on records take them.
    pub fn counts(&self) -> Clocks {
        let named = self.clocks.len() as u32;
        Clocks {
            named,
            count: named.saturating_add(self.implicit),
        }
    }
}

/// A limit that the input breaks: its number, and the place at which it does. `docs/refusals.md` says
/// what the place of each number is; of a mark that a byte spoils (40 and 41) it is that byte's offset.
#[derive(Clone, Copy, Debug, PartialEq, Eq, Hash)]
pub struct Refusal {
    pub number: u64,
    pub place: u64,
}

/// A number of accepted steps: counted, and never compared with a [`Time`].
///
/// ```compile_fail
/// assert!(ccsl::Steps(4) < ccsl::Time(9));
/// ```
#[derive(Clone, Copy, Debug, PartialEq, Eq, PartialOrd, Ord, Hash)]
pub struct Steps(pub u64);

/// A recorded time: it comes from the recording alone.
#[derive(Clone, Copy, Debug, PartialEq, Eq, PartialOrd, Ord, Hash)]
pub struct Time(pub u64);

/// What becomes of a variable of the recording whose name the table lacks. The order is that of the
/// header's numbers.
#[derive(Clone, Copy, Debug, Default, PartialEq, Eq, Hash)]
pub enum UnknownNames {
    /// The run is refused, with 38, at the offset of the variable's `$var`.
    #[default]
    Refused,
    /// The variable is ignored.
    Ignored,
}

/// How a run ended.
#[derive(Clone, Copy, Debug, PartialEq, Eq)]
pub enum Verdict {
    Accepted,
    /// The table line that the recording breaks, and the recorded time of the step that breaks it.
    Violated {
        line: u64,
        time: Time,
    },
    Refused(Refusal),
}

/// What a run gives. It is printed as three lines.
#[derive(Clone, Debug, PartialEq, Eq)]
pub struct Report {
    pub verdict: Verdict,
    /// The number of accepted steps.
    pub steps: Steps,
    /// The number of constraints, 0 where the table was refused.
    pub constraints: usize,
    /// The configuration after the accepted steps.
    pub configuration: Configuration,
}

/// A step of a recording as it was read: the time and the offset of its mark, and its tick set, in
/// which named clock k ticks where bit k is 1.
#[derive(Clone, Copy, Debug, PartialEq, Eq, Hash)]
pub struct RecordedStep {
    pub time: Time,
    pub mark: u64,
    pub ticks: u32,
}

/// What reading a recording gives, with nothing judged: the steps that were closed, and the refusal
/// with which reading ended, where it did not come to the end.
#[derive(Clone, Debug, PartialEq, Eq)]
pub struct Reading {
    pub steps: Vec<RecordedStep>,
    pub refusal: Option<Refusal>,
}

/// How a single step ended.
#[derive(Clone, Copy, Debug, PartialEq, Eq)]
pub enum StepAnswer {
    Accepted,
    /// The first record that fails, from 1.
    Violated(u64),
    Refused(Refusal),
}

/// Whether two configurations stand at the same place.
#[derive(Clone, Copy, Debug, PartialEq, Eq)]
pub enum SamePlace {
    Same,
    Different,
    Refused(Refusal),
}

/// Reads a table.
pub fn read_table(text: &[u8]) -> Result<Table, Refusal> {
    let mut answer = [0; raw::READ_ANSWER];
    let mut records = [0; raw::RECORDS * raw::RECORD];
    let mut names = [0; raw::CLOCKS * 2];
    done(raw::read_table(text, &mut answer, &mut records, &mut names));
    let [outcome, number, place, constraints, clocks, named] = answer;
    if outcome != raw::ACCEPTED {
        return Err(Refusal { number, place });
    }
    Ok(Table {
        records: records
            .chunks_exact(raw::RECORD)
            .take(constraints as usize)
            .map(record)
            .collect(),
        clocks: names
            .chunks_exact(2)
            .take(named as usize)
            .map(|ends| clock(text, ends))
            .collect(),
        implicit: (clocks - named) as u32,
    })
}

/// Judges a recording by a table; a variable whose name the table lacks is refused, with 38.
pub fn run(table: &[u8], recording: &[u8]) -> Report {
    run_with(table, recording, UnknownNames::Refused)
}

/// Judges a recording by a table, with this choice for variables whose names the table lacks.
pub fn run_with(table: &[u8], recording: &[u8], unknown: UnknownNames) -> Report {
    let mut answer = [0; raw::RUN_ANSWER];
    let mut configuration = [[0; 2]; PAIRS];
    done(raw::run(
        table,
        recording,
        unknown as u32,
        &mut answer,
        configuration.as_flattened_mut(),
    ));
    let [outcome, first, second, steps, constraints] = answer;
    let verdict = match outcome {
        raw::ACCEPTED => Verdict::Accepted,
        raw::VIOLATED => Verdict::Violated {
            line: first,
            time: Time(second),
        },
        _ => Verdict::Refused(Refusal {
            number: first,
            place: second,
        }),
    };
    Report {
        verdict,
        steps: Steps(steps),
        constraints: constraints as usize,
        configuration,
    }
}

/// Reads a recording by the names of a table, with this choice for variables whose names it lacks, and
/// judges nothing: also steps behind one that a run finds violated are read. A refused table gives its
/// refusal, and no step.
pub fn read_recording(table: &[u8], recording: &[u8], unknown: UnknownNames) -> Reading {
    let mut answer = [0; raw::STEPS_ANSWER];
    let mut times = vec![0; recording.len()];
    let mut marks = vec![0; recording.len()];
    let mut ticks = vec![0; recording.len()];
    done(raw::read_recording(
        table,
        recording,
        unknown as u32,
        &mut answer,
        &mut times,
        &mut marks,
        &mut ticks,
    ));
    let [outcome, number, place, count] = answer;
    let steps = times.into_iter().zip(marks).zip(ticks);
    Reading {
        steps: steps
            .take(count as usize)
            .map(|((time, mark), ticks)| RecordedStep {
                time: Time(time),
                mark,
                ticks,
            })
            .collect(),
        refusal: (outcome != raw::ACCEPTED).then_some(Refusal { number, place }),
    }
}

/// The start words of records on these clocks: where single steps begin. They are refused, with 59,
/// exactly where a step on these records is.
pub fn start_words(records: &[Record], clocks: Clocks) -> Result<Configuration, Refusal> {
    Monitor::of_records(records, clocks).map(|monitor| monitor.words)
}

/// One step: the named clock k ticks where bit k of `ticks` is 1. Moves the configuration where it
/// stands if the step is accepted, and leaves it alone else.
pub fn step(
    records: &[Record],
    clocks: Clocks,
    configuration: &mut Configuration,
    ticks: u32,
) -> StepAnswer {
    step_by_numbers(&numbers(records), clocks, configuration, ticks)
}

/// A monitor: records, and the configuration at which it stands. Each step moves it forward where it
/// stands.
#[derive(Clone, Debug, PartialEq, Eq)]
pub struct Monitor {
    records: Vec<u64>,
    clocks: Clocks,
    words: Configuration,
}

impl Monitor {
    /// A monitor of a table, at its start words. A table that was read is never refused.
    pub fn of_table(table: &Table) -> Result<Monitor, Refusal> {
        Monitor::of_records(&table.records, table.counts())
    }

    /// A monitor of records on these clocks, at their start words.
    pub fn of_records(records: &[Record], clocks: Clocks) -> Result<Monitor, Refusal> {
        let mut monitor = Monitor {
            records: numbers(records),
            clocks,
            words: [[0; 2]; PAIRS],
        };
        let mut answer = [0; raw::START_ANSWER];
        done(raw::start_words(
            &monitor.records,
            clocks.named,
            clocks.count,
            monitor.words.as_flattened_mut(),
            &mut answer,
        ));
        match answer {
            [raw::ACCEPTED, _, _] => Ok(monitor),
            [_, number, place] => Err(Refusal { number, place }),
        }
    }

    /// One step: the named clock k ticks where bit k of `ticks` is 1. After a violation or a refusal
    /// the monitor stands where it stood.
    pub fn step(&mut self, ticks: u32) -> StepAnswer {
        step_by_numbers(&self.records, self.clocks, &mut self.words, ticks)
    }

    /// Where the monitor stands.
    pub fn words(&self) -> &Configuration {
        &self.words
    }
}

/// Whether two configurations stand at the same place: no record, judged by itself, tells them
/// apart by any continuation.
pub fn same_place(
    records: &[Record],
    clocks: Clocks,
    first: &Configuration,
    second: &Configuration,
) -> SamePlace {
    let mut answer = [0; raw::PLACE_ANSWER];
    done(raw::same_place(
        &numbers(records),
        clocks.named,
        clocks.count,
        first.as_flattened(),
        second.as_flattened(),
        &mut answer,
    ));
    match answer {
        [raw::ACCEPTED, _, _] => SamePlace::Same,
        [raw::VIOLATED, _, _] => SamePlace::Different,
        [_, number, place] => SamePlace::Refused(Refusal { number, place }),
    }
}

/// The definition records in working order, by their numbers, from 1: each comes after those that
/// define its operands, the lowest that is ready each time. Refused with 59, or with 21 where there
/// is no such order, at the lowest record that lies on a circle of definitions.
pub fn definition_order(records: &[Record], clocks: Clocks) -> Result<Vec<usize>, Refusal> {
    let mut answer = [0; raw::ORDER_ANSWER];
    let mut order = [0; raw::CLOCKS];
    done(raw::definition_order(
        &numbers(records),
        clocks.named,
        clocks.count,
        &mut answer,
        &mut order,
    ));
    let [outcome, number, place, listed] = answer;
    if outcome != raw::ACCEPTED {
        return Err(Refusal { number, place });
    }
    Ok(order[..listed as usize]
        .iter()
        .map(|&record| record as usize)
        .collect())
}

/// One step on records that are numbers already.
fn step_by_numbers(
    records: &[u64],
    clocks: Clocks,
    words: &mut Configuration,
    ticks: u32,
) -> StepAnswer {
    let mut answer = [0; raw::STEP_ANSWER];
    done(raw::step(
        records,
        clocks.named,
        clocks.count,
        words.as_flattened_mut(),
        ticks,
        &mut answer,
    ));
    match answer {
        [raw::ACCEPTED, _, _] => StepAnswer::Accepted,
        [raw::VIOLATED, record, _] => StepAnswer::Violated(record),
        [_, number, place] => StepAnswer::Refused(Refusal { number, place }),
    }
}

/// Records as the raw calls take them: eight numbers each.
pub fn numbers(records: &[Record]) -> Vec<u64> {
    let mut list = Vec::with_capacity(records.len() * raw::RECORD);
    for r in records {
        list.extend([
            r.kind as u64,
            r.defined,
            r.first,
            r.second,
            r.number,
            r.line,
            u64::from_le_bytes(r.delays.numbers),
            r.delays.count,
        ]);
    }
    list
}

/// One record from its eight numbers.
fn record(numbers: &[u64]) -> Record {
    Record {
        kind: KINDS[numbers[0] as usize],
        defined: numbers[1],
        first: numbers[2],
        second: numbers[3],
        number: numbers[4],
        delays: Delays {
            numbers: numbers[6].to_le_bytes(),
            count: numbers[7],
        },
        line: numbers[5],
    }
}

/// One clock from the two ends of its name.
fn clock(text: &[u8], ends: &[u64]) -> Clock {
    let place = ends[0] as usize..ends[1] as usize;
    Clock {
        name: String::from_utf8_lossy(&text[place.clone()]).into_owned(),
        place,
    }
}

/// The lists that this crate hands in always have the right shape, and its choices are the header's.
fn done(status: u32) {
    assert_eq!(
        status,
        raw::DONE,
        "the library does not take what was handed in"
    );
}

impl fmt::Display for Steps {
    fn fmt(&self, f: &mut fmt::Formatter<'_>) -> fmt::Result {
        self.0.fmt(f)
    }
}

impl fmt::Display for Time {
    fn fmt(&self, f: &mut fmt::Formatter<'_>) -> fmt::Result {
        self.0.fmt(f)
    }
}

impl fmt::Display for Refusal {
    fn fmt(&self, f: &mut fmt::Formatter<'_>) -> fmt::Result {
        write!(f, "refused {} {}", self.number, self.place)
    }
}

impl fmt::Display for Verdict {
    fn fmt(&self, f: &mut fmt::Formatter<'_>) -> fmt::Result {
        match self {
            Verdict::Accepted => write!(f, "accepted"),
            Verdict::Violated { line, time } => write!(f, "violated {line} {time}"),
            Verdict::Refused(refusal) => refusal.fmt(f),
        }
    }
}

impl fmt::Display for Report {
    fn fmt(&self, f: &mut fmt::Formatter<'_>) -> fmt::Result {
        write!(f, "{}\nsteps {}\nconfig", self.verdict, self.steps)?;
        for word in self.configuration.iter().take(self.constraints).flatten() {
            write!(f, " {word}")?;
        }
        writeln!(f)
    }
}
