//! Which part of a refused table line is meant. This is for show alone: the library has refused the
//! line, and where no such part is found, the whole line is marked.

use std::ops::Range;

/// The part of a line that its refusal means.
pub fn part(number: u64, line: &[u8]) -> Range<usize> {
    let found = match number {
        11 => bad_byte(line),
        13 => words(line)
            .into_iter()
            .find(|word| is_name(&line[word.clone()]) && word.len() > 16),
        14 => await_number(line),
        15 => twice(line).map(|(_, second)| second),
        16 => words(line).into_iter().next(),
        19 => open_parentheses(line).1,
        20 => open_parentheses(line).0,
        22 => delay(line).map(|delay| delay.part),
        _ => None,
    };
    found.unwrap_or_else(|| whole(line))
}

/// The line without the spaces at its ends.
fn whole(line: &[u8]) -> Range<usize> {
    let solid = |byte: &u8| *byte != b' ';
    match (line.iter().position(solid), line.iter().rposition(solid)) {
        (Some(first), Some(last)) => first..last + 1,
        _ => 0..line.len(),
    }
}

fn bad_byte(line: &[u8]) -> Option<Range<usize>> {
    let place = line.iter().position(|byte| !(32..=126).contains(byte))?;
    Some(place..place + 1)
}

/// The words of a line; a parenthesis is a word by itself.
fn words(line: &[u8]) -> Vec<Range<usize>> {
    let mut words: Vec<Range<usize>> = Vec::new();
    let mut open = false;
    for (i, byte) in line.iter().enumerate() {
        let alone = matches!(byte, b'(' | b')');
        match words.last_mut() {
            Some(word) if open && !alone && *byte != b' ' => word.end = i + 1,
            _ if *byte != b' ' => words.push(i..i + 1),
            _ => {}
        }
        open = *byte != b' ' && !alone;
    }
    words
}

/// Whether a word of a line that fits a form is a name or a word of the form, and no number or sign.
fn is_name(word: &[u8]) -> bool {
    word.first().is_some_and(u8::is_ascii_alphabetic)
}

/// The first number of an await that is out of range.
fn await_number(line: &[u8]) -> Option<Range<usize>> {
    let words = words(line);
    let numbers = words
        .windows(2)
        .filter(|pair| &line[pair[0].clone()] == b"await");
    let mut numbers = numbers.map(|pair| pair[1].clone());
    numbers.find(|number| !value_within(&line[number.clone()], 1_000_000))
}

/// Whether digits say a number from 1 to a limit.
fn value_within(digits: &[u8], limit: u64) -> bool {
    let digit = |byte: &u8| u64::from(byte.wrapping_sub(b'0'));
    let value = digits.iter().fold(0u64, |value, byte| {
        value.saturating_mul(10).saturating_add(digit(byte))
    });
    (1..=limit).contains(&value)
}

/// Where the first name that stands twice stands, and where it stands again.
pub fn twice(line: &[u8]) -> Option<(Range<usize>, Range<usize>)> {
    let words = words(line);
    words.iter().enumerate().find_map(|(i, second)| {
        let text = &line[second.clone()];
        let same = |first: &&Range<usize>| &line[(*first).clone()] == text;
        let first = words[..i].iter().find(same)?;
        let is_clock = is_name(text) && !FORM_WORDS.contains(&text);
        is_clock.then(|| (first.clone(), second.clone()))
    })
}

const FORM_WORDS: [&[u8]; 13] = [
    b"isSubClockOf",
    b"strictly",
    b"precedes",
    b"clockDef",
    b"clockUnion",
    b"clockInter",
    b"lub",
    b"glb",
    b"await",
    b"sampled",
    b"upto",
    b"deferred",
    b"for",
];

/// The parenthesis without a partner, a closing one first, else the outermost that is left open; and
/// the one with which the seventeenth stands open.
fn open_parentheses(line: &[u8]) -> (Option<Range<usize>>, Option<Range<usize>>) {
    let mut open = Vec::new();
    let (mut without, mut seventeenth) = (None, None);
    for (i, byte) in line.iter().enumerate() {
        match byte {
            b'(' => open.push(i..i + 1),
            b')' if open.pop().is_none() => without = without.or(Some(i..i + 1)),
            _ => {}
        }
        if open.len() > 16 && seventeenth.is_none() {
            seventeenth = Some(i..i + 1);
        }
    }
    (without.or(open.first().cloned()), seventeenth)
}

/// What is wrong with a delay.
struct Delay {
    /// The number that is out of range, or the `for` of a list that is too short or too long.
    part: Range<usize>,
    /// Of such a list, how many numbers it has.
    count: Option<usize>,
}

/// The first delay of a line with which something is wrong.
fn delay(line: &[u8]) -> Option<Delay> {
    let words = words(line);
    let is_for = |i: &usize| &line[words[*i].clone()] == b"for";
    let mut lists = (0..words.len()).filter(is_for);
    lists.find_map(|i| {
        let is_number = |word: &&Range<usize>| line[word.start].is_ascii_digit();
        let list: Vec<&Range<usize>> = words[i + 1..].iter().take_while(is_number).collect();
        let out = |number: &&&Range<usize>| !value_within(&line[(**number).clone()], 32);
        let (part, count) = match (list.iter().find(out), list.len()) {
            (Some(number), _) => ((*number).clone(), None),
            (None, 1..=8) => return None,
            (None, count) => (words[i].clone(), Some(count)),
        };
        Some(Delay { part, count })
    })
}

/// How many numbers the list of a delay has, where these are too few or too many.
pub fn list_length(line: &[u8]) -> Option<usize> {
    delay(line)?.count
}
