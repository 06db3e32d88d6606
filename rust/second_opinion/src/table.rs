//! The table text.

use std::collections::{HashMap, HashSet};
use std::mem;

use crate::rule::AWAIT_NUMBERS;
use crate::{Delays, Kind, Record, Refusal, CLOCKS, WORDS};

/// The most bytes a table may have (10).
const TABLE_BYTES: usize = 4_096;

/// The most bytes a name may have (13).
const NAME_BYTES: usize = 16;

/// "The form words below are not names"; "`deferred` and `for` become form
/// words" (M-105).
const FORM_WORDS: [&str; 13] = [
    "isSubClockOf",
    "strictly",
    "precedes",
    "clockDef",
    "clockUnion",
    "clockInter",
    "lub",
    "glb",
    "await",
    "sampled",
    "upto",
    "deferred",
    "for",
];

/// The most parentheses that may stand open (19).
const OPEN_PARENTHESES: usize = 16;

/// A table that was read. The default is what a refused table leaves: no
/// records, no names, and both counts 0.
#[derive(Clone, Debug, Default, PartialEq, Eq)]
pub struct Table {
    /// The constraints, in table order, those of the implicit clocks straight
    /// before the constraint of their line.
    pub records: Vec<Record>,
    /// The names of the named clocks, in the order of their numbers.
    pub names: Vec<String>,
    /// How many clocks are named; these have the numbers below it.
    pub named: u64,
    /// How many clocks there are, named and implicit.
    pub clocks: u64,
}

/// Reads a table: "One constraint a line".
pub fn read_table(text: &[u8]) -> Result<Table, Refusal> {
    if text.len() > TABLE_BYTES {
        return Err(Refusal::new(10, 0));
    }
    let mut reader = Reader::default();
    for (index, line) in text.split(|&byte| byte == b'\n').enumerate() {
        let number = index + 1;
        reader
            .read_line(line, number)
            .map_err(|condition| Refusal::new(condition, number))?;
    }
    Ok(reader.table())
}

/// What the lines so far have brought.
#[derive(Default)]
struct Reader<'t> {
    constraints: Vec<(Constraint<'t>, usize)>,
    names: Vec<&'t str>,
    defined: HashSet<&'t str>,
    implicit: usize,
}

impl<'t> Reader<'t> {
    /// Reads one line, and gives the number of the condition that refuses it.
    /// The conditions of a line are asked "in number order", 19 and 20 "both
    /// between 11 and 12" (M-101), 22 "after 14" (M-105).
    fn read_line(&mut self, line: &'t [u8], number: usize) -> Result<(), u64> {
        let text = printable(line).ok_or(11u64)?;
        let words = words(text);
        if words.is_empty() {
            return Ok(()); // "blank lines count as lines and mean nothing"
        }
        check_parentheses(&words)?;
        let constraint = Constraint::fit(&words).ok_or(12u64)?;
        // In a form whatever looks like a name is one, at any depth.
        let names: Vec<&str> = words.into_iter().filter(|word| is_name(word)).collect();
        if names.iter().any(|name| name.len() > NAME_BYTES) {
            return Err(13);
        }
        if !constraint.forms().all(Form::number_in_range) {
            return Err(14);
        }
        if !constraint.forms().all(Form::delays_in_range) {
            return Err(22);
        }
        if named_twice(&names) {
            return Err(15);
        }
        if constraint
            .defined
            .is_some_and(|name| self.defined.contains(name))
        {
            return Err(16);
        }
        let new_names = names.iter().filter(|name| !self.names.contains(name));
        let implicit = self.implicit + constraint.inner.len();
        if self.names.len() + new_names.count() + implicit > CLOCKS {
            return Err(17);
        }
        // One record for each line so far, for each implicit clock, and for
        // this line.
        if self.constraints.len() + implicit + 1 > WORDS {
            return Err(18);
        }
        for name in names {
            if !self.names.contains(&name) {
                self.names.push(name);
            }
        }
        self.defined.extend(constraint.defined);
        self.implicit = implicit;
        self.constraints.push((constraint, number));
        Ok(())
    }

    /// The records of all lines, now that all names are known: implicit clocks
    /// are numbered "after the named clocks' numbers" (M-101).
    fn table(self) -> Table {
        let named = self.names.len() as u64;
        let numbers: HashMap<&str, u64> = self.names.iter().copied().zip(0..).collect();
        let mut records = Vec::new();
        let mut clocks = named;
        for (constraint, line) in &self.constraints {
            // The line's first inner expression has this number.
            let first_inner = clocks;
            let clock = |part: Part| match part {
                Part::Word(name) => numbers[name],
                Part::Inner(index) => first_inner + index as u64,
            };
            let record = |defined: Option<u64>, form: &Form| Record {
                kind: form.kind,
                defined: defined.unwrap_or_default(),
                first: clock(form.first),
                second: form.second.map_or(0, clock),
                number: form.number,
                delays: form.delays().unwrap_or_default(),
                line: *line as u64,
            };
            for form in &constraint.inner {
                records.push(record(Some(clocks), form));
                clocks += 1;
            }
            let defined = constraint.defined.map(|name| clock(Part::Word(name)));
            records.push(record(defined, &constraint.own));
        }
        Table {
            records,
            names: self.names.into_iter().map(str::to_owned).collect(),
            named,
            clocks,
        }
    }
}

/// A line that fits a form, its names and digits still of any length.
struct Constraint<'t> {
    /// The right sides in parentheses, in the order of their closing
    /// parentheses: "inner before outer, left before right" (M-101).
    inner: Vec<Form<'t>>,
    /// The name left of `clockDef`.
    defined: Option<&'t str>,
    /// What is left of the line with each inner right side as one part.
    own: Form<'t>,
}

impl<'t> Constraint<'t> {
    /// The form that the words of a line fit, if there is one.
    ///
    /// One pass over the words. An opening parenthesis puts aside what stands
    /// before it; the closing one takes it up again, with the right side
    /// between the two as a single part of it.
    fn fit(words: &[&'t str]) -> Option<Self> {
        let mut inner = Vec::new();
        let mut put_aside = Vec::new();
        let mut parts = Vec::new();
        for &word in words {
            match word {
                "(" => put_aside.push(mem::take(&mut parts)),
                ")" => {
                    let form = Form::right_side(&parts)?;
                    parts = put_aside.pop()?;
                    parts.push(Part::Inner(inner.len()));
                    inner.push(form);
                }
                _ => parts.push(Part::Word(word)),
            }
        }
        let (defined, own) = match parts[..] {
            [Part::Word(c), Part::Word("clockDef"), ref right @ ..] if is_name(c) => {
                (Some(c), Form::right_side(right)?)
            }
            ref both_sides => (None, Form::relation(both_sides)?),
        };
        // What is still put aside has lost its partner, which is 20.
        put_aside.is_empty().then_some(Constraint {
            inner,
            defined,
            own,
        })
    }

    /// All forms of the line.
    fn forms(&self) -> impl Iterator<Item = &Form<'t>> {
        self.inner.iter().chain([&self.own])
    }
}

/// A part of a line, or of what stands between two parentheses.
#[derive(Clone, Copy)]
enum Part<'t> {
    /// A word, which as an operand must be a name.
    Word(&'t str),
    /// A right side in parentheses, by its index among those of the line.
    Inner(usize),
}

impl Part<'_> {
    /// "An operand, also that of `await n`, may be a right side of clockDef in
    /// parentheses" (M-101); else it is a name.
    fn is_operand(self) -> bool {
        match self {
            Part::Word(word) => is_name(word),
            Part::Inner(_) => true,
        }
    }
}

/// A relation or a right side, without the clock that is defined.
struct Form<'t> {
    kind: Kind,
    first: Part<'t>,
    second: Option<Part<'t>>,
    number: u64,
    /// The numbers of a delay, as many as there are and each of any value.
    list: Vec<u64>,
}

impl<'t> Form<'t> {
    /// The relation that these parts are, if they are one.
    fn relation(parts: &[Part<'t>]) -> Option<Self> {
        use Part::Word;
        match *parts {
            [a, Word("="), b] => Self::of_two(Kind::Coincides, a, b),
            [a, Word("#"), b] => Self::of_two(Kind::Excludes, a, b),
            [a, Word("isSubClockOf"), b] => Self::of_two(Kind::SubClock, a, b),
            [a, Word("strictly"), Word("precedes"), b] => {
                Self::of_two(Kind::StrictlyPrecedes, a, b)
            }
            [a, Word("precedes"), b] => Self::of_two(Kind::Precedes, a, b),
            _ => None,
        }
    }

    /// The right side of clockDef that these parts are, if they are one.
    fn right_side(parts: &[Part<'t>]) -> Option<Self> {
        use Part::Word;
        match *parts {
            [Word("await"), Word(n), a] => Self::awaiting(n, a),
            [a, Word("clockUnion"), b] => Self::of_two(Kind::Union, a, b),
            [a, Word("clockInter"), b] => Self::of_two(Kind::Inter, a, b),
            [a, Word("lub"), b] => Self::of_two(Kind::Lub, a, b),
            [a, Word("glb"), b] => Self::of_two(Kind::Glb, a, b),
            [a, Word("strictly"), Word("sampled"), b] => Self::of_two(Kind::StrictlySampled, a, b),
            [a, Word("sampled"), b] => Self::of_two(Kind::Sampled, a, b),
            [a, Word("upto"), b] => Self::of_two(Kind::Upto, a, b),
            [a, Word("deferred"), b, Word("for"), ref list @ ..] => Self::deferring(a, b, list),
            _ => None,
        }
    }

    fn of_two(kind: Kind, a: Part<'t>, b: Part<'t>) -> Option<Self> {
        (a.is_operand() && b.is_operand()).then_some(Form {
            kind,
            first: a,
            second: Some(b),
            number: 0,
            list: Vec::new(),
        })
    }

    fn awaiting(n: &str, a: Part<'t>) -> Option<Self> {
        let number = value(n)?;
        a.is_operand().then_some(Form {
            kind: Kind::Await,
            first: a,
            second: None,
            number,
            list: Vec::new(),
        })
    }

    /// The list behind `for` has digit runs alone, "none included" (M-105).
    fn deferring(a: Part<'t>, b: Part<'t>, list: &[Part<'t>]) -> Option<Self> {
        let number = |part: &Part| match part {
            Part::Word(word) => value(word),
            Part::Inner(_) => None,
        };
        let list = list.iter().map(number).collect::<Option<_>>()?;
        let form = Self::of_two(Kind::Deferred, a, b)?;
        Some(Form { list, ..form })
    }

    /// Whether the form is no "await number outside 1 to 1,000,000".
    fn number_in_range(&self) -> bool {
        self.kind != Kind::Await || AWAIT_NUMBERS.contains(&self.number)
    }

    /// Whether the form is none in which "a delay number or the list's length
    /// (none included) is out of range" (M-105).
    fn delays_in_range(&self) -> bool {
        self.kind != Kind::Deferred || self.delays().is_some()
    }

    /// The list of a delay that is in range.
    fn delays(&self) -> Option<Delays> {
        Delays::of(&self.list)
    }
}

/// The words of a line: "parted by one or more spaces", and "a parenthesis is a
/// word even without spaces" (M-101).
fn words(line: &str) -> Vec<&str> {
    let mut words = Vec::new();
    let mut rest = line.trim_start_matches(' ');
    while !rest.is_empty() {
        let length = rest.find([' ', '(', ')']).unwrap_or(rest.len());
        let (word, behind) = rest.split_at(length.max(1));
        words.push(word);
        rest = behind.trim_start_matches(' ');
    }
    words
}

/// "19 when over sixteen parentheses stand open, a closer without partner
/// closing none; 20 when one has no partner" (M-101). 19 goes first, wherever
/// the two stand in the line.
fn check_parentheses(words: &[&str]) -> Result<(), u64> {
    let mut open = 0;
    let mut without_partner = false;
    for &word in words {
        match word {
            "(" if open == OPEN_PARENTHESES => return Err(19),
            "(" => open += 1,
            ")" if open == 0 => without_partner = true,
            ")" => open -= 1,
            _ => {}
        }
    }
    if without_partner || open > 0 {
        return Err(20);
    }
    Ok(())
}

/// "15 speaks of the whole line" (M-101).
fn named_twice(names: &[&str]) -> bool {
    let mut seen = HashSet::new();
    !names.iter().all(|name| seen.insert(name))
}

/// The line as text, unless it has a "byte outside 32 to 126".
fn printable(line: &[u8]) -> Option<&str> {
    let all_printable = line.iter().all(|byte| (32..=126).contains(byte));
    std::str::from_utf8(line).ok().filter(|_| all_printable)
}

/// "A name is a letter, then letters, digits or underscores; the form words
/// below are not names."
fn is_name(word: &str) -> bool {
    word.starts_with(|letter: char| letter.is_ascii_alphabetic())
        && word.chars().all(|c| c.is_ascii_alphanumeric() || c == '_')
        && !FORM_WORDS.contains(&word)
}

/// The value of a run of digits, unless the word is none. A value that no `u64`
/// holds counts as the largest, which is out of an await number's range as well,
/// and of a delay's.
fn value(word: &str) -> Option<u64> {
    word.chars().try_fold(0u64, |value, c| {
        let digit = c.to_digit(10)?;
        Some(value.saturating_mul(10).saturating_add(u64::from(digit)))
    })
}
