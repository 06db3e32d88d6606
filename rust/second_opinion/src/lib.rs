//! Kernel clock constraints over event recordings: a second opinion.
//!
//! "It reads a table in the textual form of simple kernel CCSL and a recording
//! as a Value Change Dump. It judges the steps and gives verdict, number of
//! accepted steps, and configuration. Other public questions: one step on a
//! given configuration, and whether two configurations stand at the same
//! place."
//!
//! Since M-101 a line may be nested: each right side in parentheses is an
//! implicit clock with a record of its own. The calls on records are told how
//! many clocks are named, then how many there are, implicit ones included.
//!
//! Since M-102 there is one more question: the definition records "in working
//! order".
//!
//! Since M-103 a whole run is told what becomes of "a variable whose name the
//! table lacks": it is refused "by default", or ignored.
//!
//! Since M-105 there are delays, and "every constraint's part of a configuration
//! becomes two words".
//!
//! Since M-106 a mark is refused at "the first byte that spoils" it.
//!
//! One more call reads a recording and gives its steps, with nothing judged.
//!
//! The crate is written from the scope paper (document 01) and the change
//! requests (document 02) alone, and shares nothing with the monitor that it is
//! held against. Quoted sentences in these comments are the scope paper's, or a
//! request's where one is named.

#![forbid(unsafe_code)]
#![warn(missing_docs)]

mod body;
mod delay;
mod order;
mod place;
mod reading;
mod recording;
mod rule;
mod run;
mod step;
mod table;

pub use body::RecordedStep;
pub use delay::Delays;
pub use order::definition_order;
pub use place::{same_place, told_apart, SamePlace};
pub use reading::{read_recording, Reading};
pub use recording::UnknownNames;
pub use rule::{judge, start_word, Kind, Record};
pub use run::{run, Report, Verdict};
pub use step::{start_words, step, StepAnswer};
pub use table::{read_table, Table};

/// "A configuration is 64 words, one a constraint in table order, the rest 0";
/// since M-105 64 pairs of words.
pub const WORDS: usize = 64;

/// A constraint's two words: "for a delay, the pending ticks … and the numbers
/// used; for all others the second is 0" (M-105), the first being w.
pub type Pair = [i64; 2];

/// The pairs of all constraints, in table order.
pub type Configuration = [Pair; WORDS];

/// The most clocks that a table, or a list of records, may speak of.
pub(crate) const CLOCKS: usize = 32;

/// A refusal: its number, and the place that the paper gives it.
#[derive(Clone, Copy, Debug, PartialEq, Eq, Hash)]
pub struct Refusal {
    /// The number of the condition, as in "Where each refusal is checked".
    pub number: u64,
    /// A line, an offset, a record or a word, as the number says.
    pub place: u64,
}

impl Refusal {
    pub(crate) fn new(number: u64, place: usize) -> Self {
        Refusal {
            number,
            place: place as u64,
        }
    }
}
