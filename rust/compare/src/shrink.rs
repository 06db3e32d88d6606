//! The smallest input that can be found on which two monitors still differ: pieces are taken out
//! and numbers made 0, greedily.

use crate::case::Case;
use crate::monitors::{defines, operands};
use ccsl::{Clocks, UnknownNames};
use second_opinion::{Configuration, Kind, Pair, Record, WORDS};
use std::cell::Cell;
use std::cmp::Ordering;

/// Whether two monitors differ on a case; no answer where the search has taken too long.
type Differs<'a> = &'a dyn Fn(&Case) -> Option<bool>;

/// Bytes that are handed to the monitors before the search for a smaller case ends; some seconds'
/// worth.
const BUDGET: usize = 300_000_000;

/// A smaller case that still differs, from which nothing more can be taken, or not in reasonable
/// time.
pub fn smallest(case: &Case, differs: &dyn Fn(&Case) -> bool) -> Case {
    let left = Cell::new(BUDGET);
    let differs = |case: &Case| {
        left.set(left.get().checked_sub(size(case))?);
        Some(differs(case))
    };
    let mut best = case.clone();
    loop {
        let next = simpler(shorter(&best, &differs), &differs);
        if next == best {
            return best;
        }
        best = next;
    }
}

/// About the bytes of a case.
fn size(case: &Case) -> usize {
    1000 + match case {
        Case::Run {
            table, recording, ..
        }
        | Case::Reading {
            table, recording, ..
        } => table.len() + recording.len(),
        Case::Read { text } => text.len(),
        _ => 64 * records(case).len(),
    }
}

/// The case with lines, words, bytes, pairs of parentheses or records taken out.
fn shorter(case: &Case, differs: Differs) -> Case {
    match case {
        Case::Run {
            table,
            recording,
            unknown,
        }
        | Case::Reading {
            table,
            recording,
            unknown,
        } => {
            let with =
                |table: &[u8], recording: &[u8]| with_texts(case, table, recording, *unknown);
            let table = shorter_table(table, &|text| differs(&with(text, recording)));
            let recording = shorter_text(recording, &|text| differs(&with(&table, text)));
            with(&table, &recording)
        }
        Case::Read { text } => Case::Read {
            text: shorter_table(text, &|text| {
                differs(&Case::Read {
                    text: text.to_vec(),
                })
            }),
        },
        _ => {
            let rows = fewer(rows(case), &|rows| differs(&with_rows(case, rows)));
            with_rows(case, &rows)
        }
    }
}

/// The run or the reading with these texts and this choice.
fn with_texts(case: &Case, table: &[u8], recording: &[u8], unknown: UnknownNames) -> Case {
    let (table, recording) = (table.to_vec(), recording.to_vec());
    match case {
        Case::Reading { .. } => Case::Reading {
            table,
            recording,
            unknown,
        },
        _ => Case::Run {
            table,
            recording,
            unknown,
        },
    }
}

/// The list with pieces taken out, large ones first, as long as it is still wanted.
fn fewer<T: Clone>(mut list: Vec<T>, wanted: &dyn Fn(&[T]) -> Option<bool>) -> Vec<T> {
    let mut size = list.len();
    while size > 0 {
        let mut at = 0;
        while at < list.len() {
            let mut rest = list.clone();
            rest.drain(at..list.len().min(at + size));
            match wanted(&rest) {
                Some(true) => list = rest,
                Some(false) => at += size,
                None => return list,
            }
        }
        size /= 2;
    }
    list
}

/// The text with lines, variables, commands and steps, words and bytes taken out.
fn shorter_text(text: &[u8], wanted: &dyn Fn(&[u8]) -> Option<bool>) -> Vec<u8> {
    let mut text = text.to_vec();
    for starts in [
        starts_of_lines,
        starts_of_variables,
        starts_of_commands,
        starts_of_words,
        |_: &[u8], _: usize| true,
    ] {
        text = fewer(pieces(&text, starts), &|pieces| wanted(&pieces.concat())).concat();
    }
    text
}

/// The same of a table, and pairs of parentheses.
fn shorter_table(text: &[u8], wanted: &dyn Fn(&[u8]) -> Option<bool>) -> Vec<u8> {
    let mut text = shorter_text(text, wanted);
    while let Some(next) = pairs(&text)
        .into_iter()
        .flat_map(|pair| without_pair(&text, pair))
        .find(|next| wanted(next) == Some(true))
    {
        text = next;
    }
    text
}

/// The places of the parentheses that have a partner, outer pairs first.
fn pairs(text: &[u8]) -> Vec<(usize, usize)> {
    let mut open = Vec::new();
    let mut pairs = Vec::new();
    for (place, byte) in text.iter().enumerate() {
        match byte {
            b'(' => open.push(place),
            b')' => pairs.extend(open.pop().map(|from| (from, place))),
            b'\n' => open.clear(),
            _ => {}
        }
    }
    pairs.sort();
    pairs
}

/// The texts with one part of what stands between two parentheses in their place, or without the two
/// alone.
fn without_pair(text: &[u8], (from, to): (usize, usize)) -> Vec<Vec<u8>> {
    let between = &text[from + 1..to];
    let mut parts = parts(between);
    parts.push(between);
    parts
        .into_iter()
        .map(|part| [&text[..from], part, &text[to + 1..]].concat())
        .collect()
}

/// The words that stand in no parentheses, and what stands in each of the outermost ones, with them.
fn parts(text: &[u8]) -> Vec<&[u8]> {
    let outer = pairs(text);
    let mut parts = Vec::new();
    let mut at = 0;
    while at < text.len() {
        let pair = outer.iter().find(|(from, _)| *from == at);
        let parting = |byte: &u8| b" ()".contains(byte);
        let behind = match pair {
            Some((_, to)) => to + 1,
            None => {
                at + text[at..]
                    .iter()
                    .position(parting)
                    .unwrap_or(text.len() - at)
            }
        };
        if behind > at {
            parts.push(&text[at..behind]);
        }
        at = behind.max(at + 1);
    }
    parts
}

/// The text cut before each place that starts something.
fn pieces(text: &[u8], starts: fn(&[u8], usize) -> bool) -> Vec<&[u8]> {
    let mut ends: Vec<usize> = (1..text.len()).filter(|at| starts(text, *at)).collect();
    ends.push(text.len());
    let mut from = 0;
    let piece = |to| {
        let piece = &text[from..to];
        from = to;
        piece
    };
    ends.into_iter().map(piece).collect()
}

fn starts_of_lines(text: &[u8], at: usize) -> bool {
    text[at - 1] == b'\n'
}

fn starts_of_words(text: &[u8], at: usize) -> bool {
    text[at - 1].is_ascii_whitespace() && !text[at].is_ascii_whitespace()
}

/// The starts of variables, whatever looks like a command in them, and of the end of the header.
fn starts_of_variables(text: &[u8], at: usize) -> bool {
    let rest = &text[at..];
    starts_of_words(text, at) && (rest.starts_with(b"$var") || rest.starts_with(b"$enddef"))
}

fn starts_of_commands(text: &[u8], at: usize) -> bool {
    let rest = &text[at..];
    let is_end = rest
        .strip_prefix(b"$end")
        .is_some_and(|behind| behind.first().is_none_or(u8::is_ascii_whitespace));
    starts_of_words(text, at) && (rest.starts_with(b"#") || rest.starts_with(b"$") && !is_end)
}

/// A record with its pairs in the first and the second configuration.
type Row = (Record, Pair, Pair);

/// The configurations of a case; a single step has the same one twice, start words and orders ask of
/// none.
fn configurations(case: &Case) -> (&Configuration, &Configuration) {
    match case {
        Case::Start { .. } | Case::Order { .. } => (&[[0, 0]; WORDS], &[[0, 0]; WORDS]),
        Case::Step { words, .. } => (words, words),
        Case::Place { first, second, .. } | Case::Search { first, second, .. } => (first, second),
        Case::Run { .. } | Case::Reading { .. } | Case::Read { .. } => {
            unreachable!("texts have no configuration")
        }
    }
}

fn records(case: &Case) -> &[Record] {
    case.on_records().map_or(&[], |(records, _)| records)
}

fn rows(case: &Case) -> Vec<Row> {
    let (first, second) = configurations(case);
    let pair = |words: &Configuration, place: usize| words.get(place).copied().unwrap_or_default();
    records(case)
        .iter()
        .enumerate()
        .map(|(place, record)| (*record, pair(first, place), pair(second, place)))
        .collect()
}

/// The case with these rows for its records; the pairs beyond the records stay beyond them.
fn with_rows(case: &Case, rows: &[Row]) -> Case {
    let old = records(case).len().min(WORDS);
    let moved = |words: &Configuration, pair: fn(&Row) -> Pair| {
        let mut moved = [[0, 0]; WORDS];
        let all = rows
            .iter()
            .take(WORDS)
            .map(pair)
            .chain(words[old..].iter().copied());
        moved.iter_mut().zip(all).for_each(|(to, from)| *to = from);
        moved
    };
    let mut case = case.clone();
    match &mut case {
        Case::Start { records, .. } | Case::Order { records, .. } => {
            *records = rows.iter().map(|row| row.0).collect();
        }
        Case::Step { records, words, .. } => {
            *words = moved(words, |row| row.1);
            *records = rows.iter().map(|row| row.0).collect();
        }
        Case::Place {
            records,
            first,
            second,
            ..
        }
        | Case::Search {
            records,
            first,
            second,
            ..
        } => {
            *first = moved(first, |row| row.1);
            *second = moved(second, |row| row.2);
            *records = rows.iter().map(|row| row.0).collect();
        }
        Case::Run { .. } | Case::Reading { .. } | Case::Read { .. } => {}
    }
    case
}

/// The case with definitions taken out, numbers made 0 or less, and unknown names refused, which is
/// the default, one after another.
fn simpler(mut case: Case, differs: Differs) -> Case {
    while let Some(next) = simplifications(&case)
        .into_iter()
        .find(|next| *next != case && differs(next) == Some(true))
    {
        case = next;
    }
    case
}

/// All cases that have one definition or one number less, or the default choice.
fn simplifications(case: &Case) -> Vec<Case> {
    let mut found = without_definition(case);
    for place in 0..records(case).len() {
        for field in 0..5 {
            let mut rows = rows(case);
            *field_of(&mut rows[place].0, field) = 0;
            found.push(with_rows(case, &rows));
        }
        found.extend(shorter_lists(case, place));
    }
    if let Some(clocks) = clocks(case) {
        found.extend(lower_counts(clocks).map(|clocks| with_clocks(case, clocks)));
        found.extend((0..clocks.count.min(32)).filter_map(|clock| without_clock(case, clock)));
    }
    match case {
        Case::Step { words, ticks, .. } => {
            found.extend((0..32).map(|bit| with_step(case, *words, ticks & !(1 << bit))));
            let lower = lowered(words).into_iter();
            found.extend(lower.map(|words| with_step(case, words, *ticks)));
        }
        Case::Place { first, second, .. } | Case::Search { first, second, .. } => {
            let one = lowered(first).into_iter().map(|words| (words, *second));
            let other = lowered(second).into_iter().map(|words| (*first, words));
            let both = lowered_alike(first, second);
            let all = one.chain(other).chain(both);
            found.extend(all.map(|(one, other)| with_place(case, one, other)));
        }
        Case::Run {
            table,
            recording,
            unknown,
        }
        | Case::Reading {
            table,
            recording,
            unknown,
        } => found.extend(simpler_texts(case, table, recording, *unknown)),
        Case::Read { text } => {
            let read = |text| Case::Read { text };
            found.extend(with_short_names(text, b"").map(|(text, _)| read(text)));
            found.extend(flattened(text).into_iter().map(read));
        }
        Case::Start { .. } | Case::Order { .. } => {}
    }
    found
}

/// The run or the reading with the default choice, shorter names or a simpler table.
fn simpler_texts(case: &Case, table: &[u8], recording: &[u8], unknown: UnknownNames) -> Vec<Case> {
    let mut found = vec![with_texts(case, table, recording, UnknownNames::Refused)];
    let renamed = with_short_names(table, recording);
    found.extend(renamed.map(|(table, recording)| with_texts(case, &table, &recording, unknown)));
    // The variables that fewer names leave are ignored, until they are taken out.
    let fewer = without_line(table).into_iter().chain(flattened(table));
    found.extend(fewer.map(|table| with_texts(case, &table, recording, UnknownNames::Ignored)));
    found
}

/// The tables without one of the lines.
fn without_line(text: &[u8]) -> Vec<Vec<u8>> {
    let lines = pieces(text, starts_of_lines);
    let without = |place: usize| {
        let mut lines = lines.clone();
        lines.remove(place);
        lines.concat()
    };
    let is_line = |place: &usize| !lines[*place].is_empty();
    (0..lines.len()).filter(is_line).map(without).collect()
}

/// The table and the recording with a letter for a longer name.
fn with_short_names<'a>(
    table: &'a [u8],
    recording: &'a [u8],
) -> impl Iterator<Item = (Vec<u8>, Vec<u8>)> + 'a {
    let table_words = || table.split(|byte| b" \n()".contains(byte));
    let is_free = move |letter: &u8| !table_words().any(|word| word == [*letter]);
    let letter = (b'a'..=b'z').find(is_free);
    let names = second_opinion::read_table(table).map_or(Vec::new(), |table| table.names);
    let longer = names.into_iter().filter(|name| name.len() > 1);
    longer.filter_map(move |name| {
        let (name, letter) = (name.as_bytes(), letter?);
        Some((
            renamed(table, b" \n()", name, letter),
            renamed(recording, b" \n\t\r", name, letter),
        ))
    })
}

/// The text with a letter for each word that is this name.
fn renamed(text: &[u8], parting: &[u8], name: &[u8], letter: u8) -> Vec<u8> {
    let mut renamed = Vec::new();
    for piece in text.split_inclusive(|byte| parting.contains(byte)) {
        match piece.strip_prefix(name) {
            Some(behind) if behind.is_empty() || parting.contains(&behind[0]) => {
                renamed.push(letter);
                renamed.extend(behind);
            }
            _ => renamed.extend(piece),
        }
    }
    renamed
}

/// The tables with one line made a definition by what stands in a pair of its parentheses.
fn flattened(text: &[u8]) -> Vec<Vec<u8>> {
    let mut found = Vec::new();
    for (from, to) in pairs(text) {
        let start = text[..from].iter().rposition(|byte| *byte == b'\n');
        let start = start.map_or(0, |place| place + 1);
        let end = text[to..].iter().position(|byte| *byte == b'\n');
        let end = end.map_or(text.len(), |length| to + length);
        let outside = [&text[start..from], b" ", &text[to + 1..end]].concat();
        for name in outside.split(|byte| b" ()".contains(byte)) {
            if name.first().is_some_and(u8::is_ascii_alphabetic) {
                let line = [name, b" clockDef ", &text[from + 1..to]].concat();
                found.push([&text[..start], &line, &text[end..]].concat());
            }
        }
    }
    found.retain(|flat| flat.len() < text.len());
    found
}

/// The cases without one of the definitions, with one of its operands for the clock that it defines:
/// of a circle that leaves a shorter one.
fn without_definition(case: &Case) -> Vec<Case> {
    let mut found = Vec::new();
    for (place, record) in records(case).iter().enumerate() {
        if !defines(record.kind) {
            continue;
        }
        for operand in operands(record) {
            let mut rows = rows(case);
            rows.remove(place);
            rows.iter_mut()
                .flat_map(|row| clocks_of(&mut row.0))
                .filter(|clock| **clock == record.defined)
                .for_each(|clock| *clock = operand);
            found.push(with_rows(case, &rows));
        }
    }
    found
}

fn field_of(record: &mut Record, field: usize) -> &mut u64 {
    match field {
        0 => &mut record.defined,
        1 => &mut record.first,
        2 => &mut record.second,
        3 => &mut record.number,
        _ => &mut record.line,
    }
}

/// The counts of a case on records.
fn clocks(case: &Case) -> Option<Clocks> {
    case.on_records().map(|(_, clocks)| clocks)
}

fn with_clocks(case: &Case, new: Clocks) -> Case {
    let mut case = case.clone();
    match &mut case {
        Case::Start { clocks, .. }
        | Case::Step { clocks, .. }
        | Case::Place { clocks, .. }
        | Case::Search { clocks, .. }
        | Case::Order { clocks, .. } => *clocks = new,
        Case::Run { .. } | Case::Reading { .. } | Case::Read { .. } => {}
    }
    case
}

/// Lower counts that are tried: of both, of all clocks, of the named ones.
fn lower_counts(clocks: Clocks) -> impl Iterator<Item = Clocks> {
    let Clocks { named, count } = clocks;
    let of_both = lower(count).map(move |count| Clocks {
        named: named.min(count),
        count,
    });
    let of_all = lower(count).map(move |count| Clocks { named, count });
    let of_named = lower(named).map(move |named| Clocks { named, count });
    of_both.chain(of_all).chain(of_named)
}

fn lower(count: u32) -> impl Iterator<Item = u32> {
    [0, 2, 3, 33, count.saturating_sub(1)]
        .into_iter()
        .filter(move |lower| *lower < count)
}

/// The case without a clock that no record names and that does not tick: those above it are numbered
/// one lower.
fn without_clock(case: &Case, clock: u32) -> Option<Case> {
    let mut case = with_clocks(case, clocks_without(clocks(case)?, clock));
    let mut rows = rows(&case);
    for (record, ..) in &mut rows {
        for number in clocks_of(record) {
            match (*number).cmp(&u64::from(clock)) {
                Ordering::Less => {}
                Ordering::Equal => return None,
                Ordering::Greater => *number -= 1,
            }
        }
    }
    if let Case::Step { ticks, .. } = &mut case {
        let below = (1 << clock) - 1;
        if *ticks >> clock & 1 == 1 {
            return None;
        }
        *ticks = *ticks & below | *ticks >> 1 & !below;
    }
    Some(with_rows(&case, &rows))
}

fn clocks_without(clocks: Clocks, clock: u32) -> Clocks {
    let less = |count: u32| if clock < count { count - 1 } else { count };
    Clocks {
        named: less(clocks.named),
        count: less(clocks.count),
    }
}

/// The numbers of the clocks that a record names.
fn clocks_of(record: &mut Record) -> Vec<&mut u64> {
    let Record {
        kind,
        defined,
        first,
        second,
        ..
    } = record;
    match kind {
        Kind::Empty => vec![],
        Kind::Await => vec![defined, first],
        kind if defines(*kind) => vec![defined, first, second],
        _ => vec![first, second],
    }
}

/// The cases in which the list of one record has other lengths or numbers, all lower; and those without
/// one of its numbers, which is then not among those used.
fn shorter_lists(case: &Case, place: usize) -> Vec<Case> {
    let rows = rows(case);
    let delays = rows[place].0.delays;
    let mut found = Vec::new();
    let mut with = |change: &dyn Fn(&mut Row)| {
        let mut rows = rows.clone();
        change(&mut rows[place]);
        found.push(with_rows(case, &rows));
    };
    for length in [0, 1, 8, 9].into_iter().filter(|l| *l < delays.length) {
        with(&|row| row.0.delays.length = length);
    }
    for at in (0..8).filter(|at| (*at as u64) < delays.length && delays.length <= 8) {
        with(&|(record, one, other)| {
            record.delays.numbers.copy_within(at + 1.., at);
            record.delays.numbers[7] = 0;
            record.delays.length -= 1;
            for used in [&mut one[1], &mut other[1]] {
                *used -= i64::from(*used > at as i64);
            }
        });
    }
    for (at, number) in delays.numbers.into_iter().enumerate() {
        for lower in [0, 1, number / 2].into_iter().filter(|l| *l < number) {
            with(&|row| row.0.delays.numbers[at] = lower);
        }
    }
    found
}

/// Each word of a configuration, by its place and its half of the pair there.
fn halves() -> impl Iterator<Item = (usize, usize)> {
    (0..WORDS).flat_map(|place| [(place, 0), (place, 1)])
}

/// The configurations with one word made 0, or without one of its bits.
fn lowered(words: &Configuration) -> Vec<Configuration> {
    let mut found = Vec::new();
    for (place, half) in halves() {
        for lower in lower_words(words[place][half]) {
            let mut words = *words;
            words[place][half] = lower;
            found.push(words);
        }
    }
    found
}

/// 0, and of a pending word what is left without one of its bits.
fn lower_words(word: i64) -> Vec<i64> {
    let bits = (0..32).map(|bit| 1 << bit);
    let bits = bits.filter(|bit| (0..1 << 32).contains(&word) && word & bit != 0);
    let mut lower = vec![0; usize::from(word != 0)];
    lower.extend(bits.map(|bit| word ^ bit).filter(|left| *left != 0));
    lower
}

/// The two configurations with one word that they share made lower in both.
fn lowered_alike(
    first: &Configuration,
    second: &Configuration,
) -> Vec<(Configuration, Configuration)> {
    let mut found = Vec::new();
    for (place, half) in halves().filter(|(p, h)| first[*p][*h] == second[*p][*h]) {
        for lower in lower_words(first[place][half]) {
            let (mut one, mut other) = (*first, *second);
            (one[place][half], other[place][half]) = (lower, lower);
            found.push((one, other));
        }
    }
    found
}

fn with_step(case: &Case, new_words: Configuration, new_ticks: u32) -> Case {
    let mut case = case.clone();
    if let Case::Step { words, ticks, .. } = &mut case {
        (*words, *ticks) = (new_words, new_ticks);
    }
    case
}

fn with_place(case: &Case, one: Configuration, other: Configuration) -> Case {
    let mut case = case.clone();
    if let Case::Place { first, second, .. } | Case::Search { first, second, .. } = &mut case {
        (*first, *second) = (one, other);
    }
    case
}

#[cfg(test)]
mod tests {
    use super::*;
    use second_opinion::Delays;

    #[test]
    fn a_text_shrinks_to_what_is_needed() {
        let wanted = |text: &[u8]| Some(text.windows(3).any(|three| three == b"lub"));
        assert_eq!(
            shorter_text(b"a = b\nc clockDef a lub b\nb # c\n", &wanted),
            b"lub"
        );
    }

    #[test]
    fn a_command_goes_up_to_its_end_whatever_parts_the_words() {
        let commands = [
            "$enddefinitions $end ",
            "#0 1! ",
            "#1 ",
            "$var event 1 ! a $end",
        ];
        for parting in ["\t", "\n", "\r", " "] {
            let commands = commands.map(|command| command.replace(' ', parting));
            let text = commands.concat();
            let pieces = pieces(text.as_bytes(), starts_of_commands);
            assert_eq!(
                pieces,
                commands.each_ref().map(|command| command.as_bytes())
            );
        }
    }

    #[test]
    fn a_variable_is_taken_out_whatever_its_id_looks_like() {
        let text = b"$var event 1 # a $end $var event 1 $ b $end $enddefinitions $end #0 x";
        let wanted = |text: &[u8]| {
            let ends = text.ends_with(b"$enddefinitions $end #0 x");
            let words = text.split(u8::is_ascii_whitespace).count();
            Some(ends && [4, 10, 16].contains(&words))
        };
        assert_eq!(shorter_text(text, &wanted), b"$enddefinitions $end #0 x");
    }

    #[test]
    fn a_run_shrinks_to_the_default_choice_or_keeps_its_own() {
        let run = |table: &[u8], recording: &[u8], unknown| Case::Run {
            table: table.to_vec(),
            recording: recording.to_vec(),
            unknown,
        };
        let shrunk = |choice, wanted: &dyn Fn(UnknownNames) -> bool| {
            let differs = |case: &Case| match case {
                Case::Run {
                    table,
                    recording,
                    unknown,
                } => table.contains(&b'#') && recording.contains(&b'7') && wanted(*unknown),
                _ => false,
            };
            smallest(&run(b"a # b", b"$enddefinitions $end #7", choice), &differs)
        };
        for choice in [UnknownNames::Refused, UnknownNames::Ignored] {
            let any = shrunk(choice, &|_| true);
            assert!(any == run(b"#", b"7", UnknownNames::Refused), "{any}");
            let own = shrunk(choice, &|unknown| unknown == choice);
            assert!(own == run(b"#", b"7", choice), "{own}");
        }
    }

    #[test]
    fn parentheses_are_taken_out_in_pairs() {
        let table = b"a = b\n((a lub b) upto (await 2 c)) precedes d\n";
        let wanted = |text: &[u8]| {
            let read = second_opinion::read_table(text);
            Some(read.is_ok_and(|table| table.records.iter().any(|r| r.kind == Kind::Await)))
        };
        let left = shorter_table(table, &wanted);
        assert_eq!(left, b"(await 2 c)precedes d", "{}", left.escape_ascii());
    }

    #[test]
    fn a_run_that_differs_with_both_choices_is_soon_as_small_as_can_be() {
        let case = Case::Run {
            table: b"a # b\nb # c".to_vec(),
            recording: b"#7 #8".to_vec(),
            unknown: UnknownNames::Refused,
        };
        let asked = Cell::new(0);
        let differs = |case: &Case| {
            asked.set(asked.get() + 1);
            matches!(case, Case::Run { recording, .. } if recording.contains(&b'7'))
        };
        let smallest = smallest(&case, &differs);
        let Case::Run {
            table,
            recording,
            unknown,
        } = &smallest
        else {
            panic!("{smallest}")
        };
        let texts = (table.as_slice(), recording.as_slice());
        assert_eq!(texts, (&b""[..], &b"7"[..]), "{smallest}");
        assert_eq!(*unknown, UnknownNames::Refused, "{smallest}");
        assert!(asked.get() < 100, "asked {} times", asked.get());
    }

    #[test]
    fn a_run_shrinks_to_a_flat_line_of_short_names() {
        let case = Case::Run {
            table: b"x = y\nlong precedes (one glb (two upto three))".to_vec(),
            recording: b"$var event 1 ! two $end $var event 1 \" one $end".to_vec(),
            unknown: UnknownNames::Refused,
        };
        let differs = |case: &Case| match case {
            Case::Run {
                table, recording, ..
            } => second_opinion::read_table(table).is_ok_and(|table| {
                let upto = table.records.iter().find(|r| r.kind == Kind::Upto);
                let name = upto.map(|record| {
                    format!("$var event 1 ! {} ", table.names[record.first as usize])
                });
                name.is_some_and(|name| String::from_utf8_lossy(recording).contains(&name))
            }),
            _ => false,
        };
        let found = smallest(&case, &differs);
        let Case::Run {
            table, recording, ..
        } = &found
        else {
            panic!("{found}")
        };
        let read = second_opinion::read_table(table).expect("a table");
        assert_eq!((read.records.len(), table.len()), (1, 19), "{found}");
        assert_eq!(recording.len(), 17, "{found}");
    }

    #[test]
    fn counts_shrink_with_the_numbers_of_the_clocks() {
        let record = |kind, defined, first, second| Record {
            kind,
            defined,
            first,
            second,
            number: 0,
            delays: Delays::default(),
            line: 0,
        };
        let case = |named, count, records, ticks| Case::Step {
            records,
            clocks: Clocks { named, count },
            words: [[0, 0]; WORDS],
            ticks,
        };
        let long = case(
            9,
            20,
            vec![
                record(Kind::Lub, 11, 3, 7),
                record(Kind::Excludes, 0, 11, 4),
            ],
            1 << 3 | 1 << 4 | 1 << 7,
        );
        let asked = |case: &Case| {
            let Case::Step {
                records,
                clocks: Clocks { named, count },
                words,
                ticks,
            } = case
            else {
                return false;
            };
            let mut words = *words;
            let (named, count) = ((*named).into(), (*count).into());
            let answer = second_opinion::step(records, named, count, &mut words, *ticks);
            let implicit = records.last().is_some_and(|record| record.first >= named);
            implicit && answer == second_opinion::StepAnswer::Violated(2)
        };
        let short = case(
            2,
            3,
            vec![record(Kind::Lub, 2, 0, 1), record(Kind::Excludes, 0, 2, 0)],
            0b11,
        );
        let found = smallest(&long, &asked);
        assert!(found == short, "{found}");
    }

    #[test]
    fn a_circle_shrinks_to_two_records() {
        let definition = |kind, defined, first, second| Record {
            kind,
            defined,
            first,
            second,
            number: 1,
            delays: Delays::default(),
            line: 0,
        };
        let mut circle: Vec<Record> = (0..9)
            .map(|clock| definition(Kind::Upto, clock, 20, clock + 1))
            .collect();
        circle.push(definition(Kind::Await, 9, 0, 0));
        let case = Case::Order {
            records: circle,
            clocks: Clocks::all_named(32),
        };
        let has_circle = |case: &Case| {
            let (records, clocks) = case.on_records().expect("a question on records");
            let (named, count) = (clocks.named.into(), clocks.count.into());
            let order = second_opinion::definition_order(records, named, count);
            order.is_err_and(|refusal| refusal.number == 21)
        };
        let found = smallest(&case, &has_circle);
        assert_eq!(records(&found).len(), 2, "{found}");
    }

    #[test]
    fn a_delay_shrinks_to_a_short_list_and_few_bits() {
        let delay = |numbers, length| Record {
            kind: Kind::Deferred,
            defined: 0,
            first: 1,
            second: 2,
            number: 0,
            delays: Delays { numbers, length },
            line: 0,
        };
        let place = |record, one, other| {
            let (mut first, mut second) = ([[0, 0]; WORDS], [[0, 0]; WORDS]);
            (first[0], second[0]) = (one, other);
            Case::Place {
                records: vec![record],
                clocks: Clocks::all_named(3),
                first,
                second,
            }
        };
        let differs = |case: &Case| {
            let Case::Place {
                records,
                clocks,
                first,
                second,
            } = case
            else {
                return false;
            };
            let (named, count) = (clocks.named.into(), clocks.count.into());
            let answer = second_opinion::same_place(records, named, count, first, second);
            answer == second_opinion::SamePlace::Different && first[0][0] & second[0][0] & 4 == 4
        };
        let long = place(delay([9, 32, 7, 4, 5, 6, 255, 0], 6), [0xF7, 2], [0xF7, 5]);
        let short = place(delay([1, 0, 0, 0, 0, 0, 0, 0], 1), [4, 0], [4, 1]);
        let found = smallest(&long, &differs);
        assert!(found == short, "{found}");
    }

    #[test]
    fn records_shrink_with_their_words() {
        let record = |kind, line| Record {
            kind,
            defined: 9,
            first: 1,
            second: 2,
            number: 7,
            delays: Delays::default(),
            line,
        };
        let mut words = [[0, 0]; WORDS];
        words[..4].copy_from_slice(&[[5, 0], [6, 0], [7, 0], [8, 0]]);
        let case = Case::Step {
            records: vec![
                record(Kind::Union, 1),
                record(Kind::Lub, 2),
                record(Kind::Glb, 3),
            ],
            clocks: Clocks::all_named(40),
            words,
            ticks: 7,
        };
        let differs = |case: &Case| match case {
            Case::Step {
                records,
                words,
                ticks,
                ..
            } => {
                let glb = records.iter().position(|record| record.kind == Kind::Glb);
                ticks & 2 == 2 && glb.is_some_and(|place| words[place] == [7, 0])
            }
            _ => false,
        };
        let mut left = [[0, 0]; WORDS];
        left[0] = [7, 0];
        let glb = Record {
            kind: Kind::Glb,
            defined: 0,
            first: 0,
            second: 0,
            number: 0,
            delays: Delays::default(),
            line: 0,
        };
        assert!(
            smallest(&case, &differs)
                == Case::Step {
                    records: vec![glb],
                    clocks: Clocks::all_named(0),
                    words: left,
                    ticks: 2
                }
        );
    }
}
