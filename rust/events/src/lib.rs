//! Makes a recording that the checker takes out of one that a simulator wrote (VCD, IEEE 1364).
//!
//! Taken out are the variables that are no `event 1`, with their changes, and of the body the blocks
//! of `$dumpvars`, `$dumpall`, `$dumpon` and `$dumpoff` and the comments. All else is left as it
//! stands, byte for byte: the checker refuses what it has no place for.

mod said;
mod words;

use said::Said;
use std::collections::HashSet;
use words::Words;

/// What is left of a recording, and what there is to say of it, one line each.
pub struct Filtered {
    pub recording: Vec<u8>,
    pub said: Vec<String>,
}

/// The commands whose blocks hold values that were dumped, and no change.
const DUMPS: [&[u8]; 4] = [b"$dumpvars", b"$dumpall", b"$dumpon", DUMP_OFF];

/// It says that nothing more is recorded. By IEEE 1364 its block has an `x` for every variable.
const DUMP_OFF: &[u8] = b"$dumpoff";

/// What the checker takes for a value of an event.
const VALUES: [u8; 6] = *b"01xXzZ";

/// The commands of the header that hold text, up to their `$end`.
const TEXTS: [&[u8]; 6] = [
    b"$date",
    b"$version",
    b"$comment",
    b"$timescale",
    b"$scope",
    b"$upscope",
];

/// Takes out of a recording what is no tick of an event.
pub fn events(recording: &[u8]) -> Filtered {
    let (blank, mut words) = Words::new(recording);
    let mut left = blank.to_vec();
    let mut filter = Filter::default();
    while !words.is_empty() {
        let (piece, behind) = match filter.in_body {
            false => filter.of_header(words),
            true => filter.of_body(words),
        };
        if piece == Piece::Left {
            left.extend(words.up_to(behind));
        }
        words = behind;
    }
    Filtered {
        recording: left,
        said: filter.said.lines(filter.in_body),
    }
}

/// What becomes of some words that stand together.
#[derive(PartialEq)]
enum Piece {
    Left,
    Taken,
}

/// What is known of the words so far.
#[derive(Default)]
struct Filter<'a> {
    in_body: bool,
    /// The ids of the variables that are left.
    events: HashSet<&'a [u8]>,
    /// The ids of those that are taken out.
    others: HashSet<&'a [u8]>,
    said: Said,
}

impl<'a> Filter<'a> {
    /// The piece of the header that stands here, and what stands behind it.
    fn of_header(&mut self, here: Words<'a>) -> (Piece, Words<'a>) {
        let mut rest = here;
        let command = rest.next().unwrap_or(b"");
        let found = match command {
            b"$var" => self.variable(rest),
            b"$enddefinitions" => {
                self.in_body = true;
                behind_end(rest).map(|behind| (Piece::Left, behind))
            }
            _ if TEXTS.contains(&command) => behind_end(rest).map(|behind| (Piece::Left, behind)),
            _ => Some((Piece::Left, rest)),
        };
        found.unwrap_or_else(|| self.open(command, rest))
    }

    /// A variable: `$var type size id name`, any more words, and `$end`. None where they run out.
    fn variable(&mut self, mut rest: Words<'a>) -> Option<(Piece, Words<'a>)> {
        let (kind, size) = (rest.next()?, rest.next()?);
        let (id, name) = (rest.next()?, rest.next()?);
        let behind = behind_end(rest)?;
        if (kind, size) == (b"event", b"1") {
            self.events.insert(id);
            return Some((Piece::Left, behind));
        }
        self.others.insert(id);
        self.said.variable(kind, size, name);
        Some((Piece::Taken, behind))
    }

    /// The piece of the body that stands here, and what stands behind it.
    fn of_body(&mut self, here: Words<'a>) -> (Piece, Words<'a>) {
        let mut rest = here;
        let word = rest.next().unwrap_or(b"");
        let found = match word {
            [b'#', time @ ..] => {
                self.said.mark(time);
                Some((Piece::Left, rest))
            }
            b"$comment" => behind_end(rest).map(|behind| {
                self.said.comment(rest.up_to(behind));
                (Piece::Taken, behind)
            }),
            _ if DUMPS.contains(&word) => self.values(rest).map(|(events, behind)| {
                self.said.block(word, events && word != DUMP_OFF);
                (Piece::Taken, behind)
            }),
            _ => Some(self.change(word, rest)),
        };
        found.unwrap_or_else(|| self.open(word, rest))
    }

    /// Values up to `$end`: whether an event is among them as if it had ticked, and what stands
    /// behind them. None where a mark or another command comes first, so that no tick is lost.
    fn values(&self, mut rest: Words<'a>) -> Option<(bool, Words<'a>)> {
        let mut events = false;
        loop {
            match rest.next()? {
                b"$end" => return Some((events, rest)),
                [b'#' | b'$', ..] => return None,
                word if has_id_behind(word) => drop(rest.next()?),
                word => events |= self.is_tick(word),
            }
        }
    }

    /// A change, or any other word of the body.
    fn change(&mut self, word: &'a [u8], mut rest: Words<'a>) -> (Piece, Words<'a>) {
        let id = match has_id_behind(word) {
            true => rest.next().unwrap_or(b""),
            false => &word[1..],
        };
        if self.others.contains(id) && !self.events.contains(id) && word[0] != b'$' {
            self.said.change();
            return (Piece::Taken, rest);
        }
        if self.is_tick(word) {
            self.said.tick();
        }
        (Piece::Left, rest)
    }

    /// Whether a word is a tick of a variable that is left.
    fn is_tick(&self, word: &[u8]) -> bool {
        VALUES.contains(&word[0]) && self.events.contains(&word[1..])
    }

    /// A command without an `$end` of its own is left.
    fn open(&mut self, command: &[u8], rest: Words<'a>) -> (Piece, Words<'a>) {
        self.said.open(command);
        (Piece::Left, rest)
    }
}

/// What stands behind the first `$end`.
fn behind_end(mut rest: Words) -> Option<Words> {
    rest.find(|word| word == b"$end").map(|_| rest)
}

/// A vector, a real number and a string have their id in a word of its own.
fn has_id_behind(value: &[u8]) -> bool {
    matches!(value[0], b'b' | b'B' | b'r' | b'R' | b's' | b'S')
}
