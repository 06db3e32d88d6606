//! The single step.

use std::iter;
use std::ops::RangeInclusive;

use crate::rule::AWAIT_NUMBERS;
use crate::{judge, start_word, Configuration, Kind, Pair, Record, Refusal, CLOCKS, WORDS};

/// The answer to a single step.
#[derive(Clone, Copy, Debug, PartialEq, Eq)]
pub enum StepAnswer {
    /// Every constraint held, and the configuration was moved.
    Accepted,
    /// The first record that did not hold, from 1.
    Violated(u64),
    /// The step was not judged, or it left the gap limit (51).
    Refused(Refusal),
}

/// The words with which single steps on these records begin, unless the records
/// are refused (59). `named` of the `clocks` clocks are named.
pub fn start_words(records: &[Record], named: u64, clocks: u64) -> Result<Configuration, Refusal> {
    check_records(records, named, clocks)?;
    Ok(start(records))
}

/// The start words: "one a constraint in table order, the rest 0".
pub(crate) fn start(records: &[Record]) -> Configuration {
    let mut configuration = [[0, 0]; WORDS];
    for (pair, record) in configuration.iter_mut().zip(records) {
        *pair = start_word(record);
    }
    configuration
}

/// One step on a given configuration, which it moves if and only if the step is
/// accepted: "a refused or violated single step hands back the configuration it
/// was given, and a violated one names its record, from 1."
///
/// "Calls on records are told how many clocks are named, and a tick set holds
/// those alone" (M-101): `named` of the `clocks` clocks are, those with the
/// lowest numbers.
pub fn step(
    records: &[Record],
    named: u64,
    clocks: u64,
    configuration: &mut Configuration,
    ticks: u32,
) -> StepAnswer {
    let checked = check_records(records, named, clocks)
        .and_then(|()| check_words(records, configuration))
        .and_then(|()| check_ticks(named, ticks));
    if let Err(refusal) = checked {
        return StepAnswer::Refused(refusal);
    }
    match advance(records, named, configuration, ticks) {
        Ok(()) => StepAnswer::Accepted,
        Err(Stop::Fails(index)) => StepAnswer::Violated(index as u64 + 1),
        Err(Stop::LeavesItsMillion(index)) => StepAnswer::Refused(Refusal::new(51, index + 1)),
    }
}

/// Why a step is not accepted, with the record's index.
pub(crate) enum Stop {
    /// The first constraint that did not hold.
    Fails(usize),
    /// 51: "a word would leave its million either way".
    LeavesItsMillion(usize),
}

/// The step itself, on records, words and named ticks that have passed the
/// checks.
///
/// "All formulas use the words from before the step", so the new words are
/// gathered beside the old ones. 51 is asked "after every constraint held"; only
/// the forms that count can leave their range, since the other words fall
/// towards 0 and stay there, and a delay's never plan past 32 ticks of b.
pub(crate) fn advance(
    records: &[Record],
    named: u64,
    configuration: &mut Configuration,
    ticks: u32,
) -> Result<(), Stop> {
    let ticks = with_implicit_ticks(records, named, configuration, ticks);
    let mut next = *configuration;
    for (index, (record, pair)) in records.iter().zip(&mut next).enumerate() {
        let (holds, after) = judge(record, *pair, ticks);
        if !holds {
            return Err(Stop::Fails(index));
        }
        *pair = after;
    }
    if let Some(index) = first_outside(records.iter().map(Record::ranges), &next) {
        return Err(Stop::LeavesItsMillion(index));
    }
    *configuration = next;
    Ok(())
}

/// The tick set with the implicit clocks that tick beside the named ones: "each
/// step works out their ticks, so that their definitions hold" (M-101).
///
/// In record order, since an implicit clock rests on named clocks and on
/// implicit ones defined above it. A definition says when its clock ticks
/// "exactly", so the clock ticks if and only if the definition holds with it.
fn with_implicit_ticks(
    records: &[Record],
    named: u64,
    configuration: &Configuration,
    ticks: u32,
) -> u32 {
    let mut ticks = ticks;
    for (record, &pair) in records.iter().zip(configuration) {
        let Some(clock) = record.defines().filter(|&clock| clock >= named) else {
            continue;
        };
        let with_clock = ticks | 1 << clock;
        if judge(record, pair, with_clock).0 {
            ticks = with_clock;
        }
    }
    ticks
}

/// 59, with the lowest place: 0 for a clock count over 32 and for "a named count
/// above the clock count", then the records in order, then 65 for too many of
/// them.
pub(crate) fn check_records(records: &[Record], named: u64, clocks: u64) -> Result<(), Refusal> {
    if clocks > CLOCKS as u64 || named > clocks {
        return Err(Refusal::new(59, 0));
    }
    let mut defined = ClockSet::default();
    for (index, record) in records.iter().take(WORDS).enumerate() {
        // "An implicit clock used without a definition above" (M-101)
        let known = |clock| clock < named || defined.contains(clock);
        let in_order = well_formed(record, clocks)
            && record.operands().all(known)
            && record.defines().is_none_or(|clock| defined.insert(clock));
        if !in_order {
            return Err(Refusal::new(59, index + 1));
        }
    }
    if records.len() > WORDS {
        return Err(Refusal::new(59, WORDS + 1));
    }
    Ok(())
}

/// Whether a record has no "clock number not below the clock count", no "clock
/// twice" and no "await number out of range", "nothing else of it being
/// tested"; nor "a delay number or the list's length (none included)" out of
/// range, which "in a record made by hand … is 59" (M-105).
fn well_formed(record: &Record, clocks: u64) -> bool {
    let mut named = ClockSet::default();
    record
        .clocks()
        .all(|clock| clock < clocks && named.insert(clock))
        && match record.kind {
            Kind::Await => AWAIT_NUMBERS.contains(&record.number),
            Kind::Deferred => record.delays.in_range(),
            _ => true,
        }
}

/// A set of clock numbers below 32.
#[derive(Default)]
struct ClockSet(u32);

impl ClockSet {
    fn contains(&self, clock: u64) -> bool {
        self.0 & Self::bit(clock) != 0
    }

    /// Puts a clock in; false if it was in already, or has no place here.
    fn insert(&mut self, clock: u64) -> bool {
        let bit = Self::bit(clock);
        let fresh = self.0 & bit != bit;
        self.0 |= bit;
        fresh
    }

    /// The clock's bit; none where it has no place here.
    fn bit(clock: u64) -> u32 {
        if clock < CLOCKS as u64 {
            1 << clock
        } else {
            0
        }
    }
}

/// 60: "configuration word out of range, or a word beyond the records not 0",
/// which since M-105 speaks of pairs, "the place the pair's".
pub(crate) fn check_words(
    records: &[Record],
    configuration: &Configuration,
) -> Result<(), Refusal> {
    let ranges = records.iter().map(Record::ranges);
    let beyond = iter::repeat([0..=0, 0..=0]);
    match first_outside(ranges.chain(beyond), configuration) {
        Some(index) => Err(Refusal::new(60, index + 1)),
        None => Ok(()),
    }
}

/// The index of the first pair that has a word out of its range.
fn first_outside(
    ranges: impl Iterator<Item = [RangeInclusive<i64>; 2]>,
    configuration: &Configuration,
) -> Option<usize> {
    let within = |pair: &Pair, ranges: [RangeInclusive<i64>; 2]| {
        let mut each = pair.iter().zip(ranges);
        each.all(|(word, range)| range.contains(word))
    };
    configuration
        .iter()
        .zip(ranges)
        .position(|(pair, ranges)| !within(pair, ranges))
}

/// 61: "tick set with a bit at or above the clock count, place 0", where M-101
/// has the named count: "a tick set holds those alone, which 61 counts".
fn check_ticks(named: u64, ticks: u32) -> Result<(), Refusal> {
    let bits = u32::BITS - ticks.leading_zeros();
    if u64::from(bits) > named {
        return Err(Refusal::new(61, 0));
    }
    Ok(())
}
