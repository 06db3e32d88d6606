//! Random tables that are read without a refusal.

use super::nested::{is_parenthesis, nest};
use crate::monitors::{defines, KINDS};
use crate::random::Random;
use second_opinion::{Delays, Kind, Record};
use std::ops::Range;

/// A word of a text.
pub type Word = Vec<u8>;

/// A table as lines of words, each parenthesis being one; a line without words is blank.
#[derive(Clone, Debug, Default)]
pub struct Lines(pub Vec<Vec<Word>>);

/// The words that are no names.
pub const FORM_WORDS: [&str; 13] = [
    "isSubClockOf",
    "strictly",
    "precedes",
    "clockDef",
    "clockUnion",
    "clockInter",
    "lub",
    "glb",
    "await",
    "sampled",
    "upto",
    "deferred",
    "for",
];

const LETTERS: &[u8] = b"abcdefghijklmnopqrstuvwxyzABCDEFGHIJKLMNOPQRSTUVWXYZ";
const NAME_BYTES: &[u8] = b"abcdefghijklmnopqrstuvwxyzABCDEFGHIJKLMNOPQRSTUVWXYZ0123456789_";

/// How large a table is: named clocks to choose from, lines, implicit clocks.
#[derive(Clone, Copy, Debug)]
pub struct Size {
    pub clocks: usize,
    pub constraints: usize,
    pub implicit: usize,
}

impl Size {
    /// Mostly small, sometimes as large as a table may be; mostly without implicit clocks.
    pub fn any(random: &mut Random) -> Size {
        let (clocks, constraints) = match random.below(40) {
            0 => (2, 0),
            1..=29 => (random.within(2..=5), random.within(1..=4)),
            30..=37 => (random.within(3..=12), random.within(4..=16)),
            _ => (random.within(8..=32), random.within(16..=64)),
        };
        let flat = Size {
            clocks,
            constraints,
            implicit: 0,
        };
        if random.once_in(6) {
            flat.nested(random)
        } else {
            flat
        }
    }

    /// Some clocks more, so that there is something to nest, and implicit ones, as far as a table
    /// may have so many.
    pub fn nested(self, random: &mut Random) -> Size {
        let clocks = (self.clocks + random.within(1..=4)).min(32);
        let implicit = match random.below(8) {
            0..=4 => random.within(1..=3),
            5 | 6 => random.within(4..=10),
            _ => random.within(10..=26),
        };
        let room = (32 - clocks).min(64 - self.constraints);
        Size {
            clocks,
            implicit: implicit.min(room),
            ..self
        }
    }
}

/// A random table of the size, and the names of its clocks.
pub fn lines(random: &mut Random, size: Size) -> (Lines, Vec<Word>) {
    let longest = if size.constraints > 24 { 6 } else { 16 };
    let names = names(random, size.clocks, longest);
    let mut lines: Vec<Vec<Word>> = constraints(random, size)
        .iter()
        .map(|record| words(random, record, &names))
        .collect();
    nest_some(random, &mut lines, &names, size.implicit);
    while random.once_in(4) {
        lines.insert(random.below(lines.len() + 1), Vec::new());
    }
    (Lines(lines), names)
}

/// So many operands of the lines become expressions in parentheses, of all lines or of one.
fn nest_some(random: &mut Random, lines: &mut [Vec<Word>], names: &[Word], times: usize) {
    if lines.is_empty() {
        return;
    }
    let one = random.once_in(2).then(|| random.below(lines.len()));
    for _ in 0..times {
        let place = one.unwrap_or_else(|| random.below(lines.len()));
        nest(random, &mut lines[place], names);
    }
}

/// A random table's text, of at most 4,096 bytes.
pub fn text(random: &mut Random, size: Size) -> Vec<u8> {
    let (mut lines, _) = lines(random, size);
    loop {
        let text = lines.write(random);
        if text.len() <= 4096 {
            return text;
        }
        lines.0.pop();
    }
}

/// Different names, of at most so many bytes.
pub fn names(random: &mut Random, count: usize, longest: usize) -> Vec<Word> {
    let mut names: Vec<Word> = Vec::new();
    while names.len() < count {
        let name = name(random, longest);
        if !names.contains(&name) {
            names.push(name);
        }
    }
    names
}

/// A name of at most so many bytes, mostly short.
fn name(random: &mut Random, longest: usize) -> Word {
    let length = if random.once_in(4) {
        random.within(1..=longest)
    } else {
        random.within(1..=3)
    };
    let name = name_of_length(random, length);
    if FORM_WORDS.iter().any(|word| word.as_bytes() == name) {
        return b"a".to_vec();
    }
    name
}

/// A letter, then letters, digits or underscores.
pub fn name_of_length(random: &mut Random, length: usize) -> Word {
    let mut name = vec![random.pick(LETTERS)];
    name.extend((1..length).map(|_| random.pick(NAME_BYTES)));
    name
}

/// Constraints over clocks below the count, each clock defined once at most.
fn constraints(random: &mut Random, size: Size) -> Vec<Record> {
    let mut defined = vec![false; size.clocks];
    let mut found: Vec<Record> = Vec::new();
    while found.len() < size.constraints {
        let record = constraint(random, size.clocks);
        let names = if defines(record.kind) && record.kind != Kind::Await {
            3
        } else {
            2
        };
        if names > size.clocks || defines(record.kind) && defined[record.defined as usize] {
            continue;
        }
        if defines(record.kind) {
            defined[record.defined as usize] = true;
        }
        found.push(record);
    }
    found
}

/// One constraint over different clocks below the count, as far as there are so many.
fn constraint(random: &mut Random, clocks: usize) -> Record {
    let mut chosen: Vec<u64> = Vec::new();
    while chosen.len() < clocks.min(3) {
        let clock = random.below(clocks) as u64;
        if !chosen.contains(&clock) {
            chosen.push(clock);
        }
    }
    let at = |place: usize| chosen.get(place).copied().unwrap_or(0);
    Record {
        kind: kind_of(random, &KINDS[1..]),
        first: at(0),
        second: at(1),
        defined: at(chosen.len() - 1),
        number: await_number(random),
        delays: delays(random),
        line: 0,
    }
}

/// One of the kinds, a delay more often than any other if it is among them.
pub fn kind_of(random: &mut Random, kinds: &[Kind]) -> Kind {
    if kinds.contains(&Kind::Deferred) && random.once_in(6) {
        return Kind::Deferred;
    }
    random.pick(kinds)
}

/// Mostly small, since recordings are short.
fn await_number(random: &mut Random) -> u64 {
    random.pick(&[1, 1, 1, 2, 2, 2, 3, 3, 4, 5, 10, 50, 999_999, 1_000_000])
}

/// The list of a delay, with zeros behind it: mostly a few small numbers, since recordings are short.
pub fn delays(random: &mut Random) -> Delays {
    let length = match random.below(6) {
        0 => 8,
        1 => random.within(1..=8),
        _ => random.within(1..=3),
    };
    let largest = random.pick(&[1, 3, 3, 5, 8, 32]);
    let mut numbers = [0; 8];
    for number in &mut numbers[..length] {
        *number = match random.below(12) {
            0 => 32,
            1 => random.within(1..=32),
            _ => random.within(1..=largest),
        } as u8;
    }
    Delays {
        numbers,
        length: length as u64,
    }
}

/// The words of a constraint's line.
pub fn words(random: &mut Random, record: &Record, names: &[Word]) -> Vec<Word> {
    let name = |clock: u64| names[clock as usize].clone();
    let (a, b, c) = (
        name(record.first),
        name(record.second),
        name(record.defined),
    );
    let form = |text: &str| {
        text.split(' ')
            .map(|word| word.as_bytes().to_vec())
            .collect::<Vec<Word>>()
    };
    let relation = |middle: &str| [vec![a.clone()], form(middle), vec![b.clone()]].concat();
    let definition = |middle: &str| {
        [
            vec![c.clone()],
            form("clockDef"),
            vec![a.clone()],
            form(middle),
            vec![b.clone()],
        ]
        .concat()
    };
    match record.kind {
        Kind::Empty => Vec::new(),
        Kind::Coincides => relation("="),
        Kind::Excludes => relation("#"),
        Kind::SubClock => relation("isSubClockOf"),
        Kind::StrictlyPrecedes => relation("strictly precedes"),
        Kind::Precedes => relation("precedes"),
        Kind::Union => definition("clockUnion"),
        Kind::Inter => definition("clockInter"),
        Kind::Lub => definition("lub"),
        Kind::Glb => definition("glb"),
        Kind::Await => [
            vec![c.clone()],
            form("clockDef await"),
            vec![digits(random, record.number), a.clone()],
        ]
        .concat(),
        Kind::StrictlySampled => definition("strictly sampled"),
        Kind::Sampled => definition("sampled"),
        Kind::Upto => definition("upto"),
        Kind::Deferred => [
            definition("deferred"),
            form("for"),
            record.delays.numbers[..record.delays.length as usize]
                .iter()
                .map(|number| digits(random, u64::from(*number)))
                .collect(),
        ]
        .concat(),
    }
}

/// The words of a right side of clockDef with a name and, as far as there is one, another.
pub fn right_side(random: &mut Random, name: &Word, other: Option<Word>) -> Vec<Word> {
    let kinds: Vec<Kind> = KINDS.into_iter().filter(|kind| defines(*kind)).collect();
    let kind = if other.is_some() {
        kind_of(random, &kinds)
    } else {
        Kind::Await
    };
    let first = if other.is_some() { random.below(2) } else { 0 };
    let record = Record {
        kind,
        defined: 0,
        first: first as u64,
        second: 1 - first as u64,
        number: await_number(random),
        delays: delays(random),
        line: 0,
    };
    let names = [name.clone(), other.unwrap_or_default()];
    let line = words(random, &record, &names);
    line[2..].to_vec()
}

/// The places of the names in a line.
pub fn names_in(line: &[Word]) -> Vec<usize> {
    let is_name = |word: &Word| {
        word.first().is_some_and(u8::is_ascii_alphabetic)
            && !FORM_WORDS.iter().any(|form| form.as_bytes() == word)
    };
    (0..line.len())
        .filter(|place| is_name(&line[*place]))
        .collect()
}

/// Where in a text the numbers of each list stand that a `for` opens.
pub fn lists_in(text: &[u8]) -> Vec<Vec<Range<usize>>> {
    let mut lists: Vec<Vec<Range<usize>>> = Vec::new();
    let (mut open, mut start) = (false, 0);
    for word in text.split(|byte| b" \n()".contains(byte)) {
        let end = start + word.len();
        open &= word.iter().all(u8::is_ascii_digit);
        match lists.last_mut() {
            Some(list) if open && !word.is_empty() => list.push(start..end),
            _ => {}
        }
        if word == b"for" {
            lists.push(Vec::new());
            open = true;
        }
        open &= text.get(end) == Some(&b' ');
        start = end + 1;
    }
    lists
}

/// The digits of a number, sometimes with zeros before them.
pub fn digits(random: &mut Random, number: u64) -> Word {
    let zeros = if random.once_in(8) {
        random.within(1..=4)
    } else {
        0
    };
    [vec![b'0'; zeros], number.to_string().into_bytes()].concat()
}

/// How the words of a text are parted.
#[derive(Clone, Copy)]
struct Style {
    /// Whether there are more spaces than are needed.
    wide: bool,
    /// How many spaces stand beside a parenthesis at least; as it comes where none is given.
    beside: Option<usize>,
}

impl Lines {
    /// The text, with spaces as a person would type them, or more.
    pub fn write(&self, random: &mut Random) -> Vec<u8> {
        let style = Style {
            wide: random.once_in(3),
            beside: random.pick(&[Some(0), Some(1), None]),
        };
        let mut text = Vec::new();
        for (number, line) in self.0.iter().enumerate() {
            if number > 0 {
                text.push(b'\n');
            }
            write_line(random, line, style, &mut text);
        }
        if !random.once_in(3) {
            text.push(b'\n');
        }
        text
    }
}

fn write_line(random: &mut Random, line: &[Word], style: Style, text: &mut Vec<u8>) {
    let spaces = |random: &mut Random, least: usize| {
        least
            + if style.wide && random.once_in(3) {
                random.within(1..=3)
            } else {
                0
            }
    };
    let before = spaces(random, 0);
    text.extend(vec![b' '; before]);
    for (place, word) in line.iter().enumerate() {
        if place > 0 {
            let least = if is_parenthesis(word) || is_parenthesis(&line[place - 1]) {
                style.beside.unwrap_or_else(|| random.below(2))
            } else {
                1
            };
            let between = spaces(random, least);
            text.extend(vec![b' '; between]);
        }
        text.extend(word);
    }
    let behind = spaces(random, 0);
    text.extend(vec![b' '; behind]);
}

#[cfg(test)]
mod tests {
    use super::*;

    #[test]
    fn lists_are_found_up_to_the_end_of_their_line_or_parenthesis() {
        let lists = |text: &str| {
            let lists = lists_in(text.as_bytes()).into_iter();
            let numbers = |list: Vec<Range<usize>>| -> Vec<String> {
                list.into_iter()
                    .map(|place| text[place].to_string())
                    .collect()
            };
            lists.map(numbers).collect::<Vec<_>>()
        };
        assert_eq!(lists("c clockDef a deferred b for 2 03"), [["2", "03"]]);
        assert_eq!(lists("c clockDef a deferred b for\n5"), [[""; 0]]);
        assert_eq!(
            lists("(a deferred b for 2  3)= (d deferred e for 4 x 5)"),
            [vec!["2", "3"], vec!["4"]]
        );
        assert_eq!(lists("a deferred b for(2)"), [[""; 0]]);
    }
}
