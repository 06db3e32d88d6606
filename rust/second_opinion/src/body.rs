//! The recording's body: its marks and changes, read step by step.

use crate::recording::{self, Variable, Variables, Word, Words};
use crate::{Refusal, UnknownNames};

/// The values that a change may open with.
const VALUES: [char; 6] = ['0', '1', 'x', 'X', 'z', 'Z'];

/// A step of a recording.
#[derive(Clone, Copy, Debug, PartialEq, Eq, Hash)]
pub struct RecordedStep {
    /// The recorded time, which "comes from the file".
    pub time: u64,
    /// The offset of the mark that starts the step.
    pub mark: u64,
    /// The named clocks that tick, bit k for clock k; implicit ones "are not
    /// recorded" (M-101), and "a mark without ticks is an empty step".
    pub ticks: u32,
}

/// A body, which gives its steps in turn: each "as soon as a word opening with
/// `#` or the end is met, before that mark's digits are read"; a step with a
/// word that is refused is not given, and behind a refusal nothing is to be
/// asked for.
pub(crate) struct Body<'r> {
    words: Words<'r>,
    variables: Variables<'r>,
    /// The mark that ended the step before.
    mark: Option<Word<'r>>,
    /// The time of the step before.
    last: Option<u64>,
}

impl<'r> Body<'r> {
    /// The body of a recording, whose header is read by these names.
    pub fn of(
        recording: &'r [u8],
        names: &[String],
        unknown: UnknownNames,
    ) -> Result<Self, Refusal> {
        let mut words = Words::of(recording::text(recording)?);
        let variables = recording::read_header(&mut words, names, unknown)?;
        Ok(Body {
            words,
            variables,
            mark: None,
            last: None,
        })
    }

    /// The step that a word opens, up to the next mark.
    fn opened_by(&mut self, word: Word) -> Result<RecordedStep, Refusal> {
        let Some(digits) = word.text.strip_prefix('#') else {
            id(word)?; // 40 goes before 42, "change before any mark"
            return Err(word.refuse(42));
        };
        let mut step = mark(word, digits, self.last)?;
        self.last = Some(step.time);
        for word in self.words.by_ref() {
            if word.text.starts_with('#') {
                self.mark = Some(word);
                break;
            }
            change(word, &self.variables, &mut step)?;
        }
        Ok(step)
    }
}

impl Iterator for Body<'_> {
    type Item = Result<RecordedStep, Refusal>;

    fn next(&mut self) -> Option<Self::Item> {
        let word = self.mark.take().or_else(|| self.words.next())?;
        Some(self.opened_by(word))
    }
}

/// "In the body `#` and one or more decimal digits start a step at that time."
/// Asked in this order: 40 a byte that is no digit, or none at all; 41 a "time
/// above 2^64 - 1"; 41 one "not above the last". The first two have "the offset
/// of the first byte that spoils a mark"; "a time not above the last and a bad
/// change still point at the word" (M-106).
fn mark(word: Word, digits: &str, last: Option<u64>) -> Result<RecordedStep, Refusal> {
    // `digits` is what stands behind the one byte `#`.
    let spoilt_by = |number, index: usize| word.refuse_at(number, 1 + index);
    // "A mark with a byte that is no digit is 40 at the first such byte, however
    // large its digits" (M-106).
    if let Some(index) = digits.bytes().position(|byte| !byte.is_ascii_digit()) {
        return Err(spoilt_by(40, index));
    }
    // "for a bare `#`, the byte after it" (M-106), which the recording may lack
    if digits.is_empty() {
        return Err(spoilt_by(40, 0));
    }
    let time = digits
        .parse()
        .map_err(|_| spoilt_by(41, too_large_from(digits)))?;
    if last.is_some_and(|last| time <= last) {
        return Err(word.refuse(41));
    }
    Ok(RecordedStep {
        time,
        mark: word.offset as u64,
        ticks: 0,
    })
}

/// The index of "the digit that takes the time above 2^64 - 1" (M-106), in
/// digits that do: the first with which what is there so far can't be read.
/// Leading zeros are left aside, and behind them a few digits are enough.
fn too_large_from(digits: &str) -> usize {
    let counting = digits.trim_start_matches('0');
    let is_read = |length: &usize| counting[..*length].parse::<u64>().is_ok();
    let zeros = digits.len() - counting.len();
    zeros + (1..=counting.len()).take_while(is_read).count()
}

/// The id of a change: "Each of 0, 1, x, X, z, Z before an id is now a tick"
/// (M-100). 40 where the word is no such change.
fn id(word: Word<'_>) -> Result<&str, Refusal> {
    word.text
        .strip_prefix(VALUES)
        .filter(|id| !id.is_empty())
        .ok_or_else(|| word.refuse(40))
}

/// A change in an open step. Asked in this order: 40 no such change, 43 id
/// undeclared, 44 "a table clock's second tick in a step".
fn change(word: Word, variables: &Variables, step: &mut RecordedStep) -> Result<(), Refusal> {
    let variable = variables.get(id(word)?).ok_or_else(|| word.refuse(43))?;
    if let Variable::Clock(clock) = variable {
        let bit = 1 << clock;
        if step.ticks & bit != 0 {
            return Err(word.refuse(44));
        }
        step.ticks |= bit;
    }
    Ok(())
}
