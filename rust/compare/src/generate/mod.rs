//! Random questions, in groups.

pub mod damage;
pub mod nested;
pub mod orders;
pub mod recording_limits;
pub mod recordings;
pub mod records;
pub mod table_limits;
pub mod tables;
pub mod ticks;

use crate::case::Case;
use crate::random::Random;
use ccsl::UnknownNames;
use recordings::{Plan, Recording};
use second_opinion::Table;
use tables::Size;

/// What a question is about.
#[derive(Clone, Copy, Debug, PartialEq, Eq, Hash)]
pub enum Group {
    /// Reading a table without faults.
    Table,
    /// A table at the limits 10 to 20 and 22, read or run.
    TableLimits,
    /// A table that is damaged, read or run.
    DamagedTable,
    /// A run of a few steps.
    ShortRun,
    /// A run of up to some hundred steps.
    MediumRun,
    /// A run of a recording of up to 65,536 bytes.
    LongRun,
    /// A recording at the limits 31 to 44.
    RecordingLimits,
    /// A recording at the limit 30.
    RecordingLength,
    /// A recording that is damaged.
    DamagedRecording,
    /// The start words of records.
    Start,
    /// A single step.
    Step,
    /// The same-place question.
    SamePlace,
    /// The same-place question, answered by search.
    SamePlaceBySearch,
    /// The working order.
    Order,
}

/// The groups, and how often each comes up.
pub const GROUPS: [(usize, Group); 14] = [
    (600, Group::Table),
    (1700, Group::TableLimits),
    (900, Group::DamagedTable),
    (1700, Group::ShortRun),
    (160, Group::MediumRun),
    (20, Group::LongRun),
    (1900, Group::RecordingLimits),
    (20, Group::RecordingLength),
    (1200, Group::DamagedRecording),
    (600, Group::Start),
    (1800, Group::Step),
    (900, Group::SamePlace),
    (310, Group::SamePlaceBySearch),
    (900, Group::Order),
];

/// A random question.
pub fn any(random: &mut Random) -> (Group, Case) {
    let group = random.pick_by_weight(&GROUPS);
    (group, of(random, group))
}

/// A random question of a group.
pub fn of(random: &mut Random, group: Group) -> Case {
    match group {
        Group::Table => Case::Read {
            text: any_table(random),
        },
        Group::TableLimits => {
            let text = table_limits::text(random);
            read_or_run(random, text)
        }
        Group::DamagedTable => {
            let mut text = any_table(random);
            damage::damage(random, &mut text);
            read_or_run(random, text)
        }
        Group::ShortRun => run(random, Plan::small),
        Group::MediumRun => run(random, Plan::medium),
        Group::LongRun => run(random, Plan::long),
        Group::RecordingLimits => recording_limits(random),
        Group::RecordingLength => changed_recording(random, Plan::small, recording_limits::length),
        Group::DamagedRecording => {
            let plan = random.pick_by_weight(&[
                (300, Plan::small as fn(&mut Random) -> Plan),
                (10, Plan::medium),
                (1, Plan::long),
            ]);
            changed_recording(random, plan, damage::damage)
        }
        Group::Start => records::start(random),
        Group::Step => records::step(random),
        Group::SamePlace => records::place(random),
        Group::SamePlaceBySearch => records::search(random),
        Group::Order => orders::order(random),
    }
}

fn any_table(random: &mut Random) -> Vec<u8> {
    let size = Size::any(random);
    tables::text(random, size)
}

/// A table without faults and a recording of its clocks.
fn table_and_recording(
    random: &mut Random,
    plan: fn(&mut Random) -> Plan,
) -> (Vec<u8>, Table, Recording) {
    let text = any_table(random);
    let table = second_opinion::read_table(&text).unwrap_or_default();
    let plan = plan(random);
    let recording = recordings::recording(random, &table, plan);
    (text, table, recording)
}

fn run(random: &mut Random, plan: fn(&mut Random) -> Plan) -> Case {
    let (table, _, recording) = table_and_recording(random, plan);
    let recording = recording.write(random);
    run_of(random, table, recording)
}

/// A run of texts. Unknown names are refused once in three times: a third of the recordings have some,
/// and most of these are to come to their steps.
fn run_of(random: &mut Random, table: Vec<u8>, recording: Vec<u8>) -> Case {
    let unknown = if random.once_in(3) {
        UnknownNames::Refused
    } else {
        UnknownNames::Ignored
    };
    Case::Run {
        table,
        recording,
        unknown,
    }
}

/// A run of a recording whose text is changed.
fn changed_recording(
    random: &mut Random,
    plan: fn(&mut Random) -> Plan,
    change: fn(&mut Random, &mut Vec<u8>),
) -> Case {
    let (table, _, recording) = table_and_recording(random, plan);
    let mut recording = recording.write(random);
    change(random, &mut recording);
    run_of(random, table, recording)
}

fn recording_limits(random: &mut Random) -> Case {
    let (text, table, mut recording) = table_and_recording(random, Plan::small);
    recording_limits::spoil(random, &table, &mut recording);
    let mut recording = recording.write(random);
    if random.once_in(10) {
        recording_limits::strange_byte(random, &mut recording);
    }
    run_of(random, text, recording)
}

/// Reads a table, or runs it with a recording of its clocks, if it has any.
fn read_or_run(random: &mut Random, text: Vec<u8>) -> Case {
    if random.once_in(2) {
        return Case::Read { text };
    }
    let table = second_opinion::read_table(&text).unwrap_or_default();
    let plan = Plan::small(random);
    let recording = recordings::recording(random, &table, plan).write(random);
    run_of(random, text, recording)
}
