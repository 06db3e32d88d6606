//! The calls of the proved library that an account is made of. A test puts a wrong answer in the place
//! of one of them.

use ccsl::{
    Clocks, Configuration, Reading, Record, Refusal, Report, StepAnswer, Table, UnknownNames,
};

/// What is asked of the library: a run, the table, the steps as read, and single steps.
pub trait Library {
    fn run(&self, table: &[u8], recording: &[u8], unknown: UnknownNames) -> Report {
        ccsl::run_with(table, recording, unknown)
    }

    fn read_table(&self, table: &[u8]) -> Result<Table, Refusal> {
        ccsl::read_table(table)
    }

    fn read_recording(&self, table: &[u8], recording: &[u8], unknown: UnknownNames) -> Reading {
        ccsl::read_recording(table, recording, unknown)
    }

    fn start_words(&self, records: &[Record], clocks: Clocks) -> Result<Configuration, Refusal> {
        ccsl::start_words(records, clocks)
    }

    fn step(
        &self,
        records: &[Record],
        clocks: Clocks,
        words: &mut Configuration,
        ticks: u32,
    ) -> StepAnswer {
        ccsl::step(records, clocks, words, ticks)
    }
}

/// The proved library.
pub struct Proved;

impl Library for Proved {}
