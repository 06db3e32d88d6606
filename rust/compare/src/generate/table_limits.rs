//! Tables at both sides of the limits 10 to 20 and 22.

use super::nested::{closer, depths, is_parenthesis, nest, nest_deepest, opener, pairs};
use super::tables::{digits, lines, name_of_length, names_in, Lines, Size, Word, FORM_WORDS};
use crate::random::Random;

/// A fault, or something that is just no fault, put into the lines of a table.
type Spoil = fn(&mut Random, &mut Lines);

const SPOILS: [(usize, Spoil); 12] = [
    (6, shape),
    (3, long_name),
    (2, form_word_for_name),
    (4, await_number),
    (4, delay_list),
    (2, delay_shape),
    (5, delay_beside_others),
    (4, named_twice),
    (4, defined_twice),
    (2, many_clocks),
    (2, many_constraints),
    (1, blank),
];

/// The same with parentheses.
const NESTED_SPOILS: [(usize, Spoil); 10] = [
    (3, pair_around),
    (2, inner_relation),
    (4, without_partner),
    (4, deep),
    (3, inner_await),
    (3, inner_delay),
    (2, delay_beside_others),
    (1, many_names),
    (2, many_clocks),
    (2, many_constraints),
];

/// A table with one to three such things, sometimes of a limited length or with a byte that may not
/// stand in it.
pub fn text(random: &mut Random) -> Vec<u8> {
    let size = Size::any(random);
    let nested = size.implicit > 0 || random.once_in(6);
    let (mut lines, _) = lines(random, size);
    for _ in 0..random.pick_by_weight(&[(6, 1), (3, 2), (1, 3)]) {
        if nested && !random.once_in(3) {
            random.pick_by_weight(&NESTED_SPOILS)(random, &mut lines);
        } else {
            random.pick_by_weight(&SPOILS)(random, &mut lines);
        }
    }
    let mut text = lines.write(random);
    if random.once_in(6) {
        strange_byte(random, &mut text);
    }
    if random.once_in(12) {
        length(random, &mut text);
    }
    text
}

/// 12, or not: a line's words are changed.
fn shape(random: &mut Random, lines: &mut Lines) {
    if lines.0.is_empty() {
        lines.0.push(vec![any_word(random)]);
    }
    let place = random.below(lines.0.len());
    let line = &mut lines.0[place];
    let at = random.below(line.len() + 1);
    match random.below(6) {
        0 => line.insert(at, any_word(random)),
        1 if at < line.len() => drop(line.remove(at)),
        2 if at < line.len() => line[at] = any_word(random),
        3 if at + 1 < line.len() => line.swap(at, at + 1),
        4 if at + 1 < line.len() => {
            let next = line.remove(at + 1);
            line[at].extend(next);
        }
        _ => line.truncate(at),
    }
}

/// A word of a form, a name, a number, or nothing of that kind.
fn any_word(random: &mut Random) -> Word {
    match random.below(8) {
        0..=2 => random.pick(&FORM_WORDS).as_bytes().to_vec(),
        3 => random
            .pick(&[
                "=", "#", "==", "a=b", "a#", "1a", "_a", "a-b", "a_", "A9", "Lub", "LUB", "await2",
                "(", "~", "-1", "+1", "1.0",
            ])
            .as_bytes()
            .to_vec(),
        4 => digits(random, 12),
        5 => name_of_length(random, 40),
        _ => {
            let length = random.within(1..=2);
            name_of_length(random, length)
        }
    }
}

/// A line that is not blank, if there is one.
fn some_line<'a>(random: &mut Random, lines: &'a mut Lines) -> Option<&'a mut Vec<Word>> {
    let places: Vec<usize> = (0..lines.0.len())
        .filter(|place| !lines.0[*place].is_empty())
        .collect();
    if places.is_empty() {
        return None;
    }
    let place = random.pick(&places);
    Some(&mut lines.0[place])
}

/// A line that is not blank, if there is one, with some operands in parentheses.
fn some_nested_line<'a>(random: &mut Random, lines: &'a mut Lines) -> Option<&'a mut Vec<Word>> {
    let names = clocks_of(lines);
    let line = some_line(random, lines)?;
    while pairs(line) < 8 && random.once_in(2) {
        nest(random, line, &names);
    }
    Some(line)
}

/// 12: a pair of parentheses around nothing, a word, the line, what stands behind `clockDef`, what
/// stands in parentheses already, or any words.
fn pair_around(random: &mut Random, lines: &mut Lines) {
    let Some(line) = some_nested_line(random, lines) else {
        return;
    };
    let (one, other) = (random.below(line.len() + 1), random.below(line.len() + 1));
    let (from, to) = match random.below(6) {
        0 => (one, one),
        1 => (one, line.len().min(one + 1)),
        2 => (0, line.len()),
        3 => (line.len().min(2), line.len()),
        4 => group(random, line).unwrap_or((one, one)),
        _ => (one.min(other), one.max(other)),
    };
    line.insert(to, closer());
    line.insert(from, opener());
}

/// Where an expression in parentheses begins and ends, if the line has one.
fn group(random: &mut Random, line: &[Word]) -> Option<(usize, usize)> {
    let openers: Vec<usize> = (0..line.len())
        .filter(|place| line[*place] == b"(")
        .collect();
    if openers.is_empty() {
        return None;
    }
    let from = random.pick(&openers);
    let depths = depths(line);
    let to = (from..line.len()).find(|place| depths[*place] < depths[from])?;
    Some((from, to + 1))
}

/// 12: a word of a form that stands in parentheses becomes one of a relation or of a line.
fn inner_relation(random: &mut Random, lines: &mut Lines) {
    let Some(line) = some_nested_line(random, lines) else {
        return;
    };
    let depths = depths(line);
    let is_form_word = |word: &Word| FORM_WORDS.iter().any(|form| form.as_bytes() == word);
    let places: Vec<usize> = (0..line.len())
        .filter(|place| depths[*place] > 0 && is_form_word(&line[*place]))
        .collect();
    if !places.is_empty() {
        let words = "= # isSubClockOf precedes clockDef";
        line[random.pick(&places)] = random.pick_word(words).as_bytes().to_vec();
    }
}

/// 20 and its other side: a parenthesis is dropped, added, turned round or put elsewhere.
fn without_partner(random: &mut Random, lines: &mut Lines) {
    let Some(line) = some_nested_line(random, lines) else {
        return;
    };
    let places: Vec<usize> = (0..line.len())
        .filter(|place| is_parenthesis(&line[*place]))
        .collect();
    let new = random.pick(&[opener(), closer()]);
    let at = random.below(line.len() + 1);
    if places.is_empty() {
        return line.insert(at, new);
    }
    let (one, other) = (random.pick(&places), random.pick(&places));
    match random.below(4) {
        0 => drop(line.remove(one)),
        1 => line[one] = new,
        2 => line.swap(one, other),
        _ => line.insert(at, new),
    }
}

/// 19 and its other side: a line that is sixteen deep or about that, or parentheses that open
/// without closing, after some that close without being open.
fn deep(random: &mut Random, lines: &mut Lines) {
    let names = clocks_of(lines);
    let Some(line) = some_line(random, lines) else {
        return;
    };
    if random.once_in(2) {
        let wanted = random.within(15..=18);
        while nest_deepest(random, line, &names, wanted) {}
        return;
    }
    let at = random.below(line.len() + 1);
    let openers = random.pick(&[15, 16, 17, 17, 18, 33]);
    line.splice(at..at, vec![opener(); openers]);
    if random.once_in(3) {
        let behind = random.within(at + openers..=line.len());
        let closers = openers - random.below(2);
        line.splice(behind..behind, vec![closer(); closers]);
    }
    while random.once_in(2) {
        let before = random.below(at + 1);
        line.insert(before, closer());
    }
}

/// 13 and its other side: a name of 16 bytes, 17 or more.
fn long_name(random: &mut Random, lines: &mut Lines) {
    let length = random.pick(&[15, 16, 16, 17, 17, 18, 64, 256, 257, 272]);
    let name = name_of_length(random, length);
    let Some(line) = some_line(random, lines) else {
        return;
    };
    let places = names_in(line);
    if !places.is_empty() {
        line[random.pick(&places)] = name;
    }
}

/// Numbers about the ends of the range, and about powers of two.
const NUMBERS: &str = "0 1 2 999999 1000000 1000001 1000002 000 01 0001000000 0001000001 9999999 \
    10000000 4294967296 4294967297 18446744073709551616 18446744073709551617 \
    340282366920938463463374607431768211457";

/// The words of an await with a number at an edge.
fn awaited(random: &mut Random) -> Vec<Word> {
    let number = match random.below(10) {
        0 => vec![b'9'; random.within(1..=120)],
        1 => [
            vec![b'0'; random.within(1..=120)],
            random.pick_word(NUMBERS).as_bytes().to_vec(),
        ]
        .concat(),
        _ => random.pick_word(NUMBERS).as_bytes().to_vec(),
    };
    vec![b"await".to_vec(), number, name_of_length(random, 4)]
}

/// 14 and its other side: a line with await.
fn await_number(random: &mut Random, lines: &mut Lines) {
    let name = vec![name_of_length(random, 5), b"clockDef".to_vec()];
    let line = [name, awaited(random)].concat();
    let place = random.below(lines.0.len() + 1);
    lines.0.insert(place, line);
}

/// 14 and its other side: a line with await in parentheses, also behind another await.
fn inner_await(random: &mut Random, lines: &mut Lines) {
    let inner = awaited(random);
    let mut line = line_around(random, inner);
    if random.once_in(2) {
        nest(random, &mut line, &clocks_of(lines));
    }
    insert(random, lines, line);
}

/// A line with these words of a right side in parentheses: on either side of a relation, or as an
/// operand of a definition.
fn line_around(random: &mut Random, inside: Vec<Word>) -> Vec<Word> {
    let name = vec![name_of_length(random, 5)];
    let inner = [vec![opener()], inside, vec![closer()]].concat();
    match random.below(6) {
        0 => [inner, words_of("#"), name].concat(),
        1 => [inner, words_of("="), name].concat(),
        2 => [name, words_of("precedes"), inner].concat(),
        3 => [name, words_of("clockDef await 2"), inner].concat(),
        4 => [name, words_of("clockDef"), inner, words_of("upto q")].concat(),
        _ => [
            name,
            words_of("clockDef q deferred"),
            inner,
            words_of("for 1 2"),
        ]
        .concat(),
    }
}

/// The words of a text.
fn words_of(text: &str) -> Vec<Word> {
    text.split(' ')
        .map(|word| word.as_bytes().to_vec())
        .collect()
}

/// Puts a line at any place.
fn insert(random: &mut Random, lines: &mut Lines, line: Vec<Word>) {
    let place = random.below(lines.0.len() + 1);
    lines.0.insert(place, line);
}

/// Delay numbers about the ends of their range, and about powers of two.
const DELAYS: &str = "0 1 2 31 32 33 34 00 01 033 0032 0033 99 132 255 256 257 258 288 289 65537 \
    4294967296 4294967297 4294967298 18446744073709551616 18446744073709551617 \
    340282366920938463463374607431768211457";

/// A delay number at an edge, also one of very many digits.
fn delay_number(random: &mut Random) -> Word {
    match random.below(12) {
        0 => vec![b'9'; random.within(1..=120)],
        1 => [
            vec![b'0'; random.within(1..=120)],
            random.pick_word(DELAYS).as_bytes().to_vec(),
        ]
        .concat(),
        2..=4 => random.within(0..=33).to_string().into_bytes(),
        _ => random.pick_word(DELAYS).as_bytes().to_vec(),
    }
}

/// The words of a delay with a list at an edge: of no number to nine, or of a number of them about 256,
/// and mostly with one number about the ends of its range.
fn deferred(random: &mut Random) -> Vec<Word> {
    let length = match random.below(24) {
        0 => random.pick(&[10, 16, 17, 255, 256, 257, 264]),
        1..=3 => 0,
        4..=8 => random.within(7..=9),
        _ => random.within(0..=9),
    };
    let number = |random: &mut Random| {
        let number = random.within(1..=32) as u64;
        digits(random, number)
    };
    let mut list: Vec<Word> = (0..length).map(|_| number(random)).collect();
    if !list.is_empty() && !random.once_in(3) {
        let place = random.below(list.len());
        list[place] = delay_number(random);
    }
    let (a, b) = (name_of_length(random, 3), name_of_length(random, 4));
    let form = |word: &str| word.as_bytes().to_vec();
    [vec![a, form("deferred"), b, form("for")], list].concat()
}

/// A line with such a delay, flat or in parentheses.
fn delay_line(random: &mut Random) -> Vec<Word> {
    let inside = deferred(random);
    if random.once_in(3) {
        return line_around(random, inside);
    }
    let name = vec![name_of_length(random, 5)];
    [name, words_of("clockDef"), inside].concat()
}

/// 22 and its other side: a line with a delay.
fn delay_list(random: &mut Random, lines: &mut Lines) {
    let line = delay_line(random);
    insert(random, lines, line);
}

/// 22 and its other side: a line with a delay in parentheses, beside others.
fn inner_delay(random: &mut Random, lines: &mut Lines) {
    let inside = deferred(random);
    let mut line = line_around(random, inside);
    while random.once_in(2) {
        nest(random, &mut line, &clocks_of(lines));
    }
    insert(random, lines, line);
}

/// 12: a delay without `for` or without `deferred`, or with something else among its numbers.
fn delay_shape(random: &mut Random, lines: &mut Lines) {
    let mut line = delay_line(random);
    let place_of = |line: &[Word], form: &[u8]| line.iter().position(|word| word == form);
    let list = place_of(&line, b"for").map_or(line.len(), |place| place + 1);
    let numbers = line[list..]
        .iter()
        .take_while(|word| word[0].is_ascii_digit());
    let at = random.within(list..=list + numbers.count());
    match random.below(4) {
        0 => drop(line.remove(list - 1)),
        1 => line.retain(|word| word != b"deferred"),
        2 => drop(line.splice(
            at..at,
            words_of(random.pick(&["( 2 )", "( )", "( x )", "x for 2"])),
        )),
        _ => {
            let words = "x 2,3 2x -1 +1 1.0 for deferred For 0x2 = # ,";
            line.insert(at, random.pick_word(words).as_bytes().to_vec());
        }
    }
    insert(random, lines, line);
}

/// 12 and its other side: one of the words of a delay, or one that is nearly so, stands for a name.
fn form_word_for_name(random: &mut Random, lines: &mut Lines) {
    let Some(line) = some_line(random, lines) else {
        return;
    };
    let places = names_in(line);
    if !places.is_empty() {
        let words = "deferred for deferred for For FOR fo fort for_ for1 Deferred deferred_ defer";
        line[random.pick(&places)] = random.pick_word(words).as_bytes().to_vec();
    }
}

/// 22 beside each other limit of a line, so that the one that is asked first can be seen.
fn delay_beside_others(random: &mut Random, lines: &mut Lines) {
    let mut one = Lines(vec![delay_line(random)]);
    match random.below(12) {
        0 => shape(random, &mut one),
        1 => pair_around(random, &mut one),
        2 => long_name(random, &mut one),
        3 | 4 => nest_await(random, &mut one.0[0]),
        5 => named_twice(random, &mut one),
        6 | 7 => define_again(random, lines, &mut one.0[0]),
        8 => deep(random, &mut one),
        9 => without_partner(random, &mut one),
        10 => many_clocks(random, lines),
        _ => many_constraints(random, lines),
    }
    let place = match random.below(3) {
        0 => random.below(lines.0.len() + 1),
        _ => lines.0.len(),
    };
    lines.0.splice(place..place, one.0);
}

/// One of the operands of a line becomes an await with a number at an edge.
fn nest_await(random: &mut Random, line: &mut Vec<Word>) {
    let mut places = names_in(line);
    places.retain(|place| *place > 0);
    if !places.is_empty() {
        let place = random.pick(&places);
        let inner = [vec![opener()], awaited(random), vec![closer()]].concat();
        line.splice(place..=place, inner);
    }
}

/// A line that defines a clock defines one that the lines define already, if they do.
fn define_again(random: &mut Random, lines: &Lines, line: &mut [Word]) {
    let defines = |line: &[Word]| line.get(1).is_some_and(|word| word == b"clockDef");
    let defined: Vec<Word> = lines
        .0
        .iter()
        .filter(|line| defines(line))
        .map(|line| line[0].clone())
        .collect();
    if defines(line) && !defined.is_empty() {
        line[0] = random.pick(&defined);
    }
}

/// 15, or 17: a line of more names than a table may have, often with one of them twice.
fn many_names(random: &mut Random, lines: &mut Lines) {
    let wanted = random.within(33..=60);
    let names: Vec<Word> = (0..wanted)
        .map(|number| format!("Q{number}").into_bytes())
        .collect();
    let mut line = vec![names[0].clone(), b"=".to_vec(), names[1].clone()];
    for _ in 0..2 * wanted {
        nest(random, &mut line, &names);
    }
    if !random.once_in(3) {
        twice(random, &mut line);
    }
    let place = random.below(lines.0.len() + 1);
    lines.0.insert(place, line);
}

/// 15: a clock stands twice in a line, at any depths.
fn named_twice(random: &mut Random, lines: &mut Lines) {
    if let Some(line) = some_line(random, lines) {
        twice(random, line);
    }
}

/// One name of a line is put in the place of another.
fn twice(random: &mut Random, line: &mut [Word]) {
    let places = names_in(line);
    if places.len() > 1 {
        let (from, to) = (random.pick(&places), random.pick(&places));
        line[to] = line[from].clone();
    }
}

/// 16 and its other side: a clock is defined again, or related after it was defined.
fn defined_twice(random: &mut Random, lines: &mut Lines) {
    let Some(line) = some_line(random, lines) else {
        return;
    };
    let first = names_in(line).first().copied().unwrap_or(0);
    let defined = line[first].clone();
    let (a, b) = (name_of_length(random, 2), name_of_length(random, 3));
    let again = match random.below(4) {
        0 => vec![
            defined,
            b"clockDef".to_vec(),
            b"await".to_vec(),
            b"1".to_vec(),
            a,
        ],
        1 => vec![defined, b"=".to_vec(), a],
        2 => vec![a, b"clockDef".to_vec(), defined, b"upto".to_vec(), b],
        _ => vec![defined, b"clockDef".to_vec(), a, b"glb".to_vec(), b],
    };
    let place = random.below(lines.0.len() + 1);
    lines.0.insert(place, again);
}

/// The different names in the lines.
fn clocks_of(lines: &Lines) -> Vec<Word> {
    let mut names: Vec<Word> = Vec::new();
    for line in &lines.0 {
        for place in names_in(line) {
            if !names.contains(&line[place]) {
                names.push(line[place].clone());
            }
        }
    }
    names
}

/// The pairs of parentheses in the lines.
fn pairs_of(lines: &Lines) -> usize {
    lines.0.iter().map(|line| pairs(line)).sum()
}

/// 17 and its other side: relations of new clocks, and implicit ones, up to 31 clocks or more; the
/// last line may bring two or three. The lines may have such names already: a line that brought none
/// is left, and the next one's numbers are higher.
fn many_clocks(random: &mut Random, lines: &mut Lines) {
    let wanted = random.within(30..=34);
    let count_of = |lines: &Lines| clocks_of(lines).len() + pairs_of(lines);
    let mut count = count_of(lines);
    let mut skipped = 0;
    let new = |number: usize| format!("Q{number}").into_bytes();
    let nesting = pairs_of(lines) > 0 && random.once_in(2);
    while count < wanted {
        if nesting && !random.once_in(4) {
            let names = clocks_of(lines);
            if some_line(random, lines).is_some_and(|line| nest(random, line, &names)) {
                count += 1;
                continue;
            }
        }
        let next = count + skipped;
        let line = match random.below(3) {
            0 => vec![new(next), b"#".to_vec(), new(next + 1)],
            1 => vec![
                new(next),
                b"clockDef".to_vec(),
                new(next + 1),
                b"lub".to_vec(),
                new(next + 2),
            ],
            _ => vec![new(next.saturating_sub(1)), b"precedes".to_vec(), new(next)],
        };
        lines.0.push(line);
        let before = count;
        count = count_of(lines);
        skipped += usize::from(count == before);
    }
}

/// 18 and its other side: 63 to 66 constraints, those of implicit clocks included, some lines being
/// blank.
fn many_constraints(random: &mut Random, lines: &mut Lines) {
    let wanted = random.within(63..=66);
    let old: Vec<Vec<Word>> = lines
        .0
        .iter()
        .filter(|line| line.len() == 3)
        .cloned()
        .collect();
    let names = clocks_of(lines);
    if pairs_of(lines) > 0 && random.once_in(2) {
        for _ in 0..random.below(24) {
            if let Some(line) = some_line(random, lines) {
                nest(random, line, &names);
            }
        }
    }
    let implicit = pairs_of(lines);
    while lines.0.iter().filter(|line| !line.is_empty()).count() + implicit < wanted {
        let line = if old.is_empty() {
            vec![b"a".to_vec(), b"#".to_vec(), b"b".to_vec()]
        } else {
            random.pick(&old)
        };
        lines.0.push(line);
        if random.once_in(10) {
            lines.0.push(Vec::new());
        }
    }
}

/// Blank lines at any place, so that lines and constraints are numbered differently.
fn blank(random: &mut Random, lines: &mut Lines) {
    for _ in 0..random.within(1..=3) {
        lines.0.insert(random.below(lines.0.len() + 1), Vec::new());
    }
}

/// 11 and its other side: one byte put in.
pub fn strange_byte(random: &mut Random, text: &mut Vec<u8>) {
    let byte = random.pick(&[0, 9, 10, 11, 12, 13, 31, 32, 33, 126, 127, 128, 160, 255]);
    text.insert(random.below(text.len() + 1), byte);
}

/// 10 and its other side: 4,095 to 4,098 bytes, by spaces, newlines or something else at the end or
/// the beginning.
fn length(random: &mut Random, text: &mut Vec<u8>) {
    let wanted = random.within(4095..=4098);
    let byte = random.pick(b"  \n\na\t");
    if text.len() < wanted {
        let more = vec![byte; wanted - text.len()];
        let place = if random.once_in(2) { text.len() } else { 0 };
        text.splice(place..place, more);
    }
}

#[cfg(test)]
mod tests {
    use super::*;

    #[test]
    fn clocks_are_added_where_the_lines_have_names_of_the_new_kind() {
        for pair in 0..200 {
            let named = |number: usize| format!("Q{number}").into_bytes();
            let relation = |number| vec![named(number), b"#".to_vec(), named(number + 1)];
            let mut lines = Lines((5..9).map(relation).collect());
            many_clocks(&mut Random::of_pair(33, pair), &mut lines);
            assert!((30..=36).contains(&clocks_of(&lines).len()));
        }
    }
}
