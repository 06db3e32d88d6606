//! The recording's words and its header.
//!
//! Since M-103 the header refuses variables with names that the table lacks,
//! unless it is told to ignore them.

use std::collections::{HashMap, HashSet};

use crate::Refusal;

/// The most bytes a recording may have (30).
const RECORDING_BYTES: usize = 65_536;

/// The most variables a header may declare (37).
const VARIABLES: usize = 128;

/// The most bytes a declared id may have.
const ID_BYTES: usize = 4;

/// "Words are parted by bytes 9, 10, 13, 32."
const PARTING: [char; 4] = ['\t', '\n', '\r', ' '];

/// The recording as text, after the checks "before words".
pub(crate) fn text(recording: &[u8]) -> Result<&str, Refusal> {
    if recording.len() > RECORDING_BYTES {
        return Err(Refusal::new(30, 0));
    }
    // "31 byte that is neither a parting byte nor 33 to 126"
    let allowed = |byte: u8| matches!(byte, 9 | 10 | 13 | 32..=126);
    if let Some(offset) = recording.iter().position(|&byte| !allowed(byte)) {
        return Err(Refusal::new(31, offset));
    }
    std::str::from_utf8(recording).map_err(|error| Refusal::new(31, error.valid_up_to()))
}

/// A word and where it stands.
#[derive(Clone, Copy)]
pub(crate) struct Word<'r> {
    pub offset: usize,
    pub text: &'r str,
}

impl Word<'_> {
    /// A refusal at this word.
    pub fn refuse(&self, number: u64) -> Refusal {
        self.refuse_at(number, 0)
    }

    /// A refusal at a byte of this word, or at the one behind it (M-106).
    pub fn refuse_at(&self, number: u64, index: usize) -> Refusal {
        Refusal::new(number, self.offset + index)
    }
}

/// The words still to be read.
pub(crate) struct Words<'r> {
    text: &'r str,
    at: usize,
}

impl<'r> Words<'r> {
    pub fn of(text: &'r str) -> Self {
        Words { text, at: 0 }
    }

    /// "36 recording ends before the header does", at the "recording's length".
    fn cut_off(&self) -> Refusal {
        Refusal::new(36, self.text.len())
    }
}

impl<'r> Iterator for Words<'r> {
    type Item = Word<'r>;

    fn next(&mut self) -> Option<Word<'r>> {
        let rest = self.text.get(self.at..)?;
        let start = rest.find(|c| !PARTING.contains(&c))?;
        let opened = rest.get(start..)?;
        let length = opened.find(PARTING).unwrap_or(opened.len());
        let offset = self.at + start;
        self.at = offset + length;
        let text = opened.get(..length)?;
        Some(Word { offset, text })
    }
}

/// What becomes of "a variable whose name the table lacks" (M-103).
#[derive(Clone, Copy, Debug, PartialEq, Eq, Hash)]
pub enum UnknownNames {
    /// "The whole run now refuses, by default," such a variable: 38 (M-103).
    Refused,
    /// With "the choice to ignore" (M-103) such a variable "is ignored in the
    /// body".
    Ignored,
}

/// What an id of the header stands for.
#[derive(Clone, Copy)]
pub(crate) enum Variable {
    /// A clock of the table.
    Clock(usize),
    /// "A variable with a name that the table lacks is ignored in the body",
    /// where `UnknownNames::Ignored` lets it pass.
    Ignored,
}

/// The declared variables by their ids.
pub(crate) type Variables<'r> = HashMap<&'r str, Variable>;

/// Reads the header, and leaves the words of the body.
pub(crate) fn read_header<'r>(
    words: &mut Words<'r>,
    names: &[String],
    unknown: UnknownNames,
) -> Result<Variables<'r>, Refusal> {
    let mut header = Header::of(names, unknown);
    while let Some(command) = words.next() {
        match command.text {
            "$date" | "$version" | "$comment" | "$timescale" | "$scope" | "$upscope" => {
                words
                    .find(|word| word.text == "$end")
                    .ok_or_else(|| words.cut_off())?;
            }
            "$var" => header.declare(command, words)?,
            "$enddefinitions" => return header.close(command, words),
            _ => return Err(command.refuse(32)),
        }
    }
    Err(words.cut_off())
}

/// What the header has declared so far.
struct Header<'t, 'r> {
    clocks: HashMap<&'t str, usize>,
    unknown: UnknownNames,
    declared: HashSet<usize>,
    variables: Variables<'r>,
}

impl<'t, 'r> Header<'t, 'r> {
    fn of(names: &'t [String], unknown: UnknownNames) -> Self {
        let numbered = names.iter().enumerate();
        Header {
            clocks: numbered
                .map(|(clock, name)| (name.as_str(), clock))
                .collect(),
            unknown,
            declared: HashSet::new(),
            variables: HashMap::new(),
        }
    }

    /// "A variable is the six words `$var event 1 id name $end`, id 1 to 4
    /// bytes, any word serving as name." With fewer words left it is 36: "a
    /// command whose words run out has this refusal and no other". Then 33, 34,
    /// 38 and 37 are asked: 38 "between 34 and 37, with the command's offset"
    /// (M-103).
    fn declare(&mut self, command: Word<'r>, words: &mut Words<'r>) -> Result<(), Refusal> {
        let rest: Vec<&str> = words.by_ref().take(5).map(|word| word.text).collect();
        let [sort, size, id, name, end] = rest[..] else {
            return Err(words.cut_off());
        };
        if (sort, size, end) != ("event", "1", "$end") || id.len() > ID_BYTES {
            return Err(command.refuse(33));
        }
        let clock = self.clocks.get(name).copied();
        let clock_again = clock.is_some_and(|clock| self.declared.contains(&clock));
        if self.variables.contains_key(id) || clock_again {
            return Err(command.refuse(34));
        }
        if clock.is_none() && self.unknown == UnknownNames::Refused {
            return Err(command.refuse(38));
        }
        if self.variables.len() == VARIABLES {
            return Err(command.refuse(37));
        }
        self.declared.extend(clock);
        let variable = clock.map_or(Variable::Ignored, Variable::Clock);
        self.variables.insert(id, variable);
        Ok(())
    }

    /// "`$enddefinitions $end` closes the header"; then 35 is asked, "a table
    /// clock undeclared".
    fn close(self, command: Word, words: &mut Words) -> Result<Variables<'r>, Refusal> {
        let end = words.next().ok_or_else(|| words.cut_off())?;
        if end.text != "$end" {
            return Err(command.refuse(32));
        }
        if self.declared.len() < self.clocks.len() {
            return Err(command.refuse(35));
        }
        Ok(self.variables)
    }
}
