//! A deliberately wrong monitor is found, and what is reported is small.

mod common;

use ccsl::{Clocks, UnknownNames};
use common::{found, names_of, words_from};
use compare::case::{Answer, Case, Read};
use compare::generate::tables::FORM_WORDS;
use compare::generate::ticks::all;
use compare::monitors::{defines, operands, second};
use compare::Mismatch;
use second_opinion::{judge, read_table, Kind, Record, Refusal, Report, StepAnswer, Verdict};

/// A monitor that reads `glb` as `lub`.
fn glb_is_lub(case: &Case) -> Answer {
    let mut case = case.clone();
    if let Case::Run { table, .. } = &mut case {
        *table = String::from_utf8_lossy(table)
            .replace(" glb ", " lub ")
            .into_bytes();
    }
    second(&case)
}

/// A monitor that lets a word pass its million.
fn no_gap_limit(case: &Case) -> Answer {
    match second(case) {
        Answer::Step(StepAnswer::Refused(refusal), words) if refusal.number == 51 => {
            Answer::Step(StepAnswer::Accepted, words)
        }
        answer => answer,
    }
}

/// A monitor that starts with zeros.
fn starts_with_zeros(case: &Case) -> Answer {
    match second(case) {
        Answer::Start(Ok(_)) => Answer::Start(Ok([[0, 0]; second_opinion::WORDS])),
        answer => answer,
    }
}

/// Whether a word is a change with another value than `1`.
fn other_value(word: &[u8]) -> bool {
    word.len() > 1 && b"0xXzZ".contains(&word[0])
}

/// A monitor that is blind to every change with another value than `1`.
fn only_ones_tick(case: &Case) -> Answer {
    let mut case = case.clone();
    if let Case::Run { recording, .. } = &mut case {
        let words = recording.split_mut(u8::is_ascii_whitespace);
        words
            .skip_while(|word| *word != b"$enddefinitions")
            .filter(|word| other_value(word))
            .for_each(|word| word.fill(b' '));
    }
    second(&case)
}

/// A monitor that breaks off at a step at time 7.
fn breaks_off(case: &Case) -> Answer {
    if let Case::Run { recording, .. } = case {
        assert!(!recording.windows(3).any(|three| three == b"#7 "), "time 7");
    }
    second(case)
}

/// Whether a record defines an implicit clock.
fn is_implicit(record: &Record, clocks: Clocks) -> bool {
    defines(record.kind) && record.defined >= u64::from(clocks.named)
}

/// The record with other numbers for its clocks: `met` has the old ones in the order of the new.
fn renumbered(record: &Record, met: &[u64]) -> Record {
    let new = |old: u64| met.iter().position(|met| *met == old).expect("all are met") as u64;
    Record {
        defined: new(record.defined),
        first: new(record.first),
        second: new(record.second),
        ..*record
    }
}

/// A monitor that numbers implicit clocks as they are met, before the names behind them.
fn numbers_as_met(case: &Case) -> Answer {
    let mut answer = second(case);
    if let (Case::Read { text }, Answer::Read(Ok(read))) = (case, &mut answer) {
        let mut implicit = u64::from(read.counts.named)..;
        let mut met = Vec::new();
        for word in text.split_inclusive(|byte| b" \n()".contains(byte)) {
            let (last, name) = word.split_last().expect("no piece is empty");
            let name = if b" \n()".contains(last) { name } else { word };
            let named = |clock: &(String, _)| clock.0.as_bytes() == name;
            if let Some(clock) = read.clocks.iter().position(named) {
                if !met.contains(&(clock as u64)) {
                    met.push(clock as u64);
                }
            }
            if *last == b')' {
                met.extend(implicit.next());
            }
        }
        for record in &mut read.records {
            *record = renumbered(record, &met);
        }
    }
    answer
}

/// The places of the records of a line's expressions below the record at `place`, in the order that
/// `order` gives a record and those of its left and its right operand.
fn walk(read: &Read, place: usize, order: fn([Vec<usize>; 3]) -> Vec<usize>) -> Vec<usize> {
    let record = &read.records[place];
    let below = |clock: u64| {
        let defining = |other: &Record| is_implicit(other, read.counts) && other.defined == clock;
        let place = read.records.iter().position(defining);
        place.map_or(Vec::new(), |place| walk(read, place, order))
    };
    let left = below(record.first);
    let right = match record.kind {
        Kind::Await => Vec::new(),
        _ => below(record.second),
    };
    if is_implicit(record, read.counts) {
        order([vec![place], left, right])
    } else {
        [order([vec![], left, right]), vec![place]].concat()
    }
}

/// A monitor that has the records of a line's expressions in another order.
fn reordered(case: &Case, order: fn([Vec<usize>; 3]) -> Vec<usize>) -> Answer {
    let mut answer = second(case);
    if let Answer::Read(Ok(read)) = &mut answer {
        let own = (0..read.records.len()).filter(|p| !is_implicit(&read.records[*p], read.counts));
        let places: Vec<usize> = own.flat_map(|place| walk(read, place, order)).collect();
        let records: Vec<Record> = places.iter().map(|place| read.records[*place]).collect();
        let implicit = records.iter().filter(|r| is_implicit(r, read.counts));
        let met: Vec<u64> = (0..u64::from(read.counts.named))
            .chain(implicit.map(|record| record.defined))
            .collect();
        read.records = records.iter().map(|r| renumbered(r, &met)).collect();
        if let Ok(words) = &mut read.start {
            let old = *words;
            for (word, place) in words.iter_mut().zip(places) {
                *word = old[place];
            }
        }
    }
    answer
}

/// A monitor that puts an outer expression before its inner ones.
fn outer_first(case: &Case) -> Answer {
    reordered(case, |[own, left, right]| [own, left, right].concat())
}

/// A monitor that puts the right operand's expressions before the left one's.
fn right_first(case: &Case) -> Answer {
    reordered(case, |[own, left, right]| [right, left, own].concat())
}

/// A monitor that works the ticks of implicit clocks out with words that the step has moved.
fn ticks_by_moved_words(case: &Case) -> Answer {
    let answer = second(case);
    let Case::Step {
        records,
        clocks,
        words,
        mut ticks,
    } = case
    else {
        return answer;
    };
    if answer.refusal().is_some() {
        return answer;
    }
    let mut moved = *words;
    for (record, word) in records.iter().zip(&mut moved) {
        if is_implicit(record, *clocks) {
            let with = ticks | 1 << record.defined;
            let both = [ticks, with].map(|ticks| judge(record, *word, ticks));
            *word = both
                .into_iter()
                .find(|(holds, _)| *holds)
                .map_or(*word, |(_, after)| after);
            if judge(record, *word, with).0 {
                ticks = with;
            }
        }
    }
    for (place, record) in records.iter().enumerate() {
        if !is_implicit(record, *clocks) {
            let (holds, after) = judge(record, words[place], ticks);
            if !holds {
                return Answer::Step(StepAnswer::Violated(place as u64 + 1), *words);
            }
            moved[place] = after;
        }
    }
    Answer::Step(StepAnswer::Accepted, moved)
}

/// A monitor that asks 61 by the clock count.
fn implicit_clocks_in_tick_sets(case: &Case) -> Answer {
    let answer = second(case);
    let mut case = case.clone();
    if let Case::Step { clocks, ticks, .. } = &mut case {
        let is_61 = answer.refusal().is_some_and(|refusal| refusal.number == 61);
        if is_61 && *ticks & !all(clocks.count) == 0 {
            *ticks &= all(clocks.named);
            return second(&case);
        }
    }
    answer
}

/// The line of a table at a place, from 1.
fn line_at(text: &[u8], place: u64) -> &[u8] {
    let mut lines = text.split(|byte| *byte == b'\n');
    lines
        .nth(place.saturating_sub(1) as usize)
        .unwrap_or_default()
}

/// A monitor for which a parenthesis that closes without partner closes one that is still to come.
fn closes_without_partner(case: &Case) -> Answer {
    let mut answer = second(case);
    if let (Case::Read { text }, Answer::Read(Err(refusal))) = (case, &mut answer) {
        let mut open = 0;
        let depths = line_at(text, refusal.place).iter().map(|byte| {
            match byte {
                b'(' => open += 1,
                b')' => open -= 1,
                _ => {}
            }
            open
        });
        if refusal.number == 19 && depths.max() <= Some(16) {
            refusal.number = 20;
        }
    }
    answer
}

/// The names of a line.
fn names(line: &[u8]) -> Vec<&[u8]> {
    line.split(|byte| b" ()".contains(byte))
        .filter(|word| word.first().is_some_and(u8::is_ascii_alphabetic))
        .filter(|word| !FORM_WORDS.iter().any(|form| form.as_bytes() == *word))
        .collect()
}

/// A monitor that asks 15 of a line's first 32 names alone.
fn fifteen_of_32_names(case: &Case) -> Answer {
    let mut answer = second(case);
    if let (Case::Read { text }, Answer::Read(Err(refusal))) = (case, &mut answer) {
        let mut first = names(line_at(text, refusal.place));
        first.truncate(32);
        first.sort();
        if refusal.number == 15 && first.windows(2).all(|two| two[0] != two[1]) {
            refusal.number = 17;
        }
    }
    answer
}

/// The numbers, from 1, of the records that define an operand of one of these.
fn below(records: &[Record], numbers: &[usize]) -> Vec<usize> {
    let used = numbers.iter().map(|number| &records[number - 1]);
    let used: Vec<u64> = used.flat_map(operands).collect();
    definitions(records)
        .filter(|number| used.contains(&records[number - 1].defined))
        .collect()
}

/// The numbers of the definitions.
fn definitions(records: &[Record]) -> impl Iterator<Item = usize> + '_ {
    (1..=records.len()).filter(|number| defines(records[number - 1].kind))
}

/// The definitions that can be listed: each time those that `take` takes of the ready ones.
fn listed(records: &[Record], take: fn(Vec<usize>) -> Vec<usize>) -> Vec<usize> {
    let mut list = Vec::new();
    loop {
        let waits = |number: &usize| !list.contains(number);
        let is_ready = |number: &usize| !below(records, &[*number]).iter().any(waits);
        let ready = definitions(records).filter(waits).filter(is_ready);
        let next = take(ready.collect());
        if next.is_empty() {
            return list;
        }
        list.extend(next);
    }
}

/// The definitions that can't be listed.
fn unlisted(records: &[Record]) -> Vec<usize> {
    let list = listed(records, |ready| ready);
    definitions(records)
        .filter(|number| !list.contains(number))
        .collect()
}

/// A monitor that gives another list than the second one.
fn other_list(case: &Case, list: fn(&[Record], Vec<usize>) -> Vec<usize>) -> Answer {
    match (case, second(case)) {
        (Case::Order { records, .. }, Answer::Order(Ok(order))) => {
            Answer::Order(Ok(list(records, order)))
        }
        (_, answer) => answer,
    }
}

/// A monitor that lists the definitions in the order of the records.
fn in_record_order(case: &Case) -> Answer {
    other_list(case, |_, mut order| {
        order.sort();
        order
    })
}

/// A monitor that takes the highest ready record each time.
fn highest_first(case: &Case) -> Answer {
    other_list(case, |records, _| {
        listed(records, |ready| ready.into_iter().rev().take(1).collect())
    })
}

/// A monitor that takes all ready records before it looks again.
fn in_rounds(case: &Case) -> Answer {
    other_list(case, |records, _| listed(records, |ready| ready))
}

/// A monitor that numbers the definitions among themselves.
fn definitions_numbered(case: &Case) -> Answer {
    other_list(case, |records, order| {
        let up_to = |last: usize| definitions(records).filter(|n| *n <= last).count();
        order.into_iter().map(up_to).collect()
    })
}

/// A monitor for which an await rests on its b, too.
fn await_of_two(case: &Case) -> Answer {
    let mut two = case.clone();
    if let Case::Order { records, .. } = &mut two {
        for record in records {
            if record.kind == Kind::Await {
                record.kind = Kind::Union;
            }
        }
    }
    let (answer, wrong) = (second(case), second(&two));
    let is_59 = |answer: &Answer| answer.refusal().is_some_and(|refusal| refusal.number == 59);
    if is_59(&answer) || is_59(&wrong) {
        answer
    } else {
        wrong
    }
}

/// A monitor that gives another answer than 21.
fn other_than_21(case: &Case, other: fn(&[Record]) -> Result<Vec<usize>, usize>) -> Answer {
    match (case, second(case)) {
        (Case::Order { records, .. }, Answer::Order(Err(refusal))) if refusal.number == 21 => {
            Answer::Order(other(records).map_err(|place| Refusal {
                place: place as u64,
                ..refusal
            }))
        }
        (_, answer) => answer,
    }
}

/// A monitor that never gives 21, and lists what can be listed.
fn no_circles(case: &Case) -> Answer {
    other_than_21(case, |records| {
        Ok(listed(records, |ready| ready.into_iter().take(1).collect()))
    })
}

/// A monitor that has 21 at the first record that can't be listed.
fn first_unlisted(case: &Case) -> Answer {
    other_than_21(case, |records| Err(unlisted(records)[0]))
}

/// A monitor that has 21 also at a record between two circles.
fn between_circles(case: &Case) -> Answer {
    other_than_21(case, |records| {
        let mut left = unlisted(records);
        for _ in 0..left.len() {
            let used = below(records, &left);
            left.retain(|number| used.contains(number));
        }
        Err(left[0])
    })
}

/// A monitor that gives the 21 of the records above the one that 59 is about.
fn circle_before_59(case: &Case) -> Answer {
    let answer = second(case);
    let mut above = case.clone();
    if let (Case::Order { records, .. }, Some(refusal)) = (&mut above, answer.refusal()) {
        if refusal.number == 59 && refusal.place > 0 {
            records.truncate(refusal.place as usize - 1);
            let earlier = second(&above);
            if earlier.refusal().is_some() {
                return earlier;
            }
        }
    }
    answer
}

/// The monitor's answer to a run with this choice, and to all else as it is.
fn with_choice(case: &Case, choice: UnknownNames) -> Answer {
    let mut case = case.clone();
    if let Case::Run { unknown, .. } = &mut case {
        *unknown = choice;
    }
    second(&case)
}

/// A monitor that ignores unknown names under both choices.
fn never_38(case: &Case) -> Answer {
    with_choice(case, UnknownNames::Ignored)
}

/// A monitor that refuses unknown names under both choices.
fn always_38(case: &Case) -> Answer {
    with_choice(case, UnknownNames::Refused)
}

/// A monitor for which every name is known by a table without names.
fn all_known_by_no_names(case: &Case) -> Answer {
    match case {
        Case::Run { table, .. } if names_of(table).is_empty() => never_38(case),
        _ => second(case),
    }
}

/// A monitor for which letter case does not count in the names of variables.
fn whatever_the_case(case: &Case) -> Answer {
    let mut case = case.clone();
    if let Case::Run {
        table, recording, ..
    } = &mut case
    {
        let names = names_of(table);
        let words = words_from(recording, 0).map(|(at, word)| (at, word.to_vec()));
        let words: Vec<(usize, Vec<u8>)> = words.collect();
        for variable in words.windows(5).filter(|words| words[0].1 == b"$var") {
            let (at, name) = &variable[4];
            let is_it = |known: &&String| known.as_bytes().eq_ignore_ascii_case(name);
            if let Some(known) = names.iter().find(is_it) {
                recording[*at..at + known.len()].copy_from_slice(known.as_bytes());
            }
        }
    }
    second(&case)
}

/// A monitor that refuses a run as `other` says, where it says something.
fn refused_otherwise(case: &Case, other: impl Fn(Refusal) -> Option<Refusal>) -> Answer {
    let mut answer = second(case);
    if let Answer::Run(Report {
        verdict: Verdict::Refused(refusal),
        ..
    }) = &mut answer
    {
        *refusal = other(*refusal).unwrap_or(*refusal);
    }
    answer
}

/// A monitor that gives another answer where unknown names are refused and the run is refused with
/// this number.
fn other_than(
    case: &Case,
    number: u64,
    other: fn(&[u8], &[u8], Refusal) -> Option<Refusal>,
) -> Answer {
    let Case::Run {
        table,
        recording,
        unknown: UnknownNames::Refused,
    } = case
    else {
        return second(case);
    };
    refused_otherwise(case, |refusal| {
        (refusal.number == number).then(|| other(table, recording, refusal))?
    })
}

/// 38 for another refusal of a variable, if its name is there and the table lacks it.
fn unknown_first(table: &[u8], recording: &[u8], refusal: Refusal) -> Option<Refusal> {
    let (_, name) = words_from(recording, refusal.place as usize).nth(4)?;
    let is_known = names_of(table).iter().any(|known| known.as_bytes() == name);
    (!is_known).then_some(Refusal {
        number: 38,
        ..refusal
    })
}

/// A monitor that asks 38 before 34.
fn unknown_before_34(case: &Case) -> Answer {
    other_than(case, 34, unknown_first)
}

/// A monitor that asks 38 before 33.
fn unknown_before_33(case: &Case) -> Answer {
    other_than(case, 33, unknown_first)
}

/// A monitor that asks 38 before 36, of a variable that is cut off behind its name.
fn unknown_before_36(case: &Case) -> Answer {
    other_than(case, 36, |table, recording, refusal| {
        let words: Vec<(usize, &[u8])> = words_from(recording, 0).collect();
        let (place, command) = words[words.len().checked_sub(5)?];
        let place = place as u64;
        (command == b"$var")
            .then(|| unknown_first(table, recording, Refusal { place, ..refusal }))?
    })
}

/// A monitor that has 38 at the name.
fn unknown_at_its_name(case: &Case) -> Answer {
    other_than(case, 38, |_, recording, refusal| {
        let (place, _) = words_from(recording, refusal.place as usize).nth(4)?;
        let place = place as u64;
        Some(Refusal { place, ..refusal })
    })
}

/// A monitor that has 38 at the end of the header, as 35.
fn unknown_at_the_end(case: &Case) -> Answer {
    other_than(case, 38, |_, recording, refusal| {
        let mut behind = words_from(recording, refusal.place as usize).skip(6);
        let (place, _) = behind.find(|(_, word)| *word == b"$enddefinitions")?;
        let place = place as u64;
        Some(Refusal { place, ..refusal })
    })
}

/// A monitor that asks 35 before 38.
fn unknown_behind_35(case: &Case) -> Answer {
    let (answer, ignored) = (second(case), never_38(case));
    let is = |answer: &Answer, number| answer.refusal().is_some_and(|r| r.number == number);
    if is(&answer, 38) && is(&ignored, 35) {
        return ignored;
    }
    answer
}

/// A monitor that leaves zeros with 38.
fn zeros_with_38(case: &Case) -> Answer {
    let mut answer = second(case);
    let is_38 = answer.refusal().is_some_and(|refusal| refusal.number == 38);
    if let (true, Answer::Run(report)) = (is_38, &mut answer) {
        report.configuration = [[0, 0]; second_opinion::WORDS];
    }
    answer
}

/// How a mark is refused: its bytes behind the `#`, the number, and the place counted from the `#`.
struct Spoilt<'a> {
    bytes: &'a [u8],
    number: u64,
    at: usize,
}

impl Spoilt<'_> {
    /// Whether one of the bytes is no digit.
    fn has_other_bytes(&self) -> bool {
        self.number == 40 && !self.bytes.is_empty()
    }

    /// Whether the digits are too many for a time.
    fn is_too_large(&self) -> bool {
        self.number == 41 && self.at > 0
    }

    /// The number of leading zeros.
    fn zeros(&self) -> usize {
        self.bytes.iter().take_while(|byte| **byte == b'0').count()
    }
}

/// A monitor that refuses a mark with another number or at another place, where `other` has them.
fn other_mark(case: &Case, other: fn(Spoilt) -> Option<(u64, usize)>) -> Answer {
    let Case::Run { recording, .. } = case else {
        return second(case);
    };
    refused_otherwise(case, |Refusal { number, place }| {
        let place = place as usize;
        let is_refused = |(start, word): &(usize, &[u8])| {
            [40, 41].contains(&number) && (*start..=start + word.len()).contains(&place)
        };
        let (start, word) = words_from(recording, 0).find(is_refused)?;
        let bytes = word.strip_prefix(b"#")?;
        let at = place - start;
        let (number, at) = other(Spoilt { bytes, number, at })?;
        let place = (start + at) as u64;
        Some(Refusal { number, place })
    })
}

/// A monitor that has 40 of a byte that is no digit at the word.
fn no_digit_at_the_word(case: &Case) -> Answer {
    other_mark(case, |mark| mark.has_other_bytes().then_some((40, 0)))
}

/// A monitor that has 40 at the last byte that is no digit.
fn last_no_digit(case: &Case) -> Answer {
    other_mark(case, |Spoilt { bytes, .. }| {
        let last = bytes.iter().rposition(|byte| !byte.is_ascii_digit())?;
        Some((40, 1 + last))
    })
}

/// A monitor that has 40 of a bare `#` at the `#`.
fn bare_at_the_word(case: &Case) -> Answer {
    other_mark(case, |mark| mark.bytes.is_empty().then_some((40, 0)))
}

/// A monitor that has 41 of a time too large at the word.
fn too_large_at_the_word(case: &Case) -> Answer {
    other_mark(case, |mark| mark.is_too_large().then_some((41, 0)))
}

/// A monitor that has 41 of a time too large one byte too low.
fn too_large_from_the_word(case: &Case) -> Answer {
    other_mark(case, |mark| mark.is_too_large().then(|| (41, mark.at - 1)))
}

/// A monitor that does not count the zeros before a time too large.
fn too_large_without_zeros(case: &Case) -> Answer {
    other_mark(case, |mark| {
        mark.is_too_large().then(|| (41, mark.at - mark.zeros()))
    })
}

/// A monitor that has 41 of a time too large always at the twentieth digit behind the zeros.
fn too_large_at_the_twentieth(case: &Case) -> Answer {
    other_mark(case, |mark| {
        mark.is_too_large().then(|| (41, mark.zeros() + 20))
    })
}

/// A monitor that reads a mark byte by byte, and so asks 41 of the digits before it meets a byte that
/// is none.
fn too_large_before_no_digit(case: &Case) -> Answer {
    other_mark(case, |Spoilt { bytes, .. }| {
        let mut digits = bytes.iter().take_while(|byte| byte.is_ascii_digit());
        let mut time = 0;
        let last = digits.position(|digit| {
            time = time * 10 + u128::from(digit - b'0');
            time > u128::from(u64::MAX)
        })?;
        Some((41, 1 + last))
    })
}

/// A monitor that has 41 of a time not above the last at its digits.
fn not_above_at_its_digits(case: &Case) -> Answer {
    other_mark(case, |mark| {
        (mark.number == 41 && mark.at == 0).then_some((41, 1))
    })
}

/// The table, the recording and the choice of a run.
#[track_caller]
fn run_of(mismatch: &Mismatch) -> (&[u8], &[u8], UnknownNames) {
    match &mismatch.case {
        Case::Run {
            table,
            recording,
            unknown,
        } => (table, recording, *unknown),
        _ => panic!("{mismatch}"),
    }
}

#[test]
fn a_wrong_form_is_found_with_one_constraint() {
    let mismatch = found(glb_is_lub);
    let (table, recording, _) = run_of(&mismatch);
    let table = read_table(table).unwrap_or_else(|_| panic!("{mismatch}"));
    assert_eq!(table.records.len(), 1, "{mismatch}");
    assert_eq!(table.records[0].kind, Kind::Glb, "{mismatch}");
    assert!(recording.len() < 120, "{mismatch}");
    assert_ne!(mismatch.one, mismatch.other);
}

#[test]
fn a_missing_limit_is_found_with_one_record() {
    let mismatch = found(no_gap_limit);
    let Case::Step { records, words, .. } = &mismatch.case else {
        panic!("{mismatch}")
    };
    assert_eq!(records.len(), 1, "{mismatch}");
    assert_eq!(words[0][0].abs(), 1_000_000, "{mismatch}");
    assert_eq!(words[0][1], 0, "{mismatch}");
    assert!(words[1..].iter().all(|pair| *pair == [0, 0]), "{mismatch}");
}

#[test]
fn wrong_start_words_are_found_with_one_record() {
    let mismatch = found(starts_with_zeros);
    let Case::Start { records, .. } = &mismatch.case else {
        panic!("{mismatch}")
    };
    assert_eq!(records.len(), 1, "{mismatch}");
}

#[test]
fn a_value_that_is_no_tick_is_found_with_one_change() {
    let mismatch = found(only_ones_tick);
    let Case::Run { recording, .. } = &mismatch.case else {
        panic!("{mismatch}")
    };
    let words = recording.split(u8::is_ascii_whitespace);
    assert_eq!(
        words.filter(|word| other_value(word)).count(),
        1,
        "{mismatch}"
    );
    assert!(recording.len() < 120, "{mismatch}");
}

#[test]
fn a_monitor_that_breaks_off_is_found_with_its_message() {
    let mismatch = found(breaks_off);
    assert_eq!(
        mismatch.other,
        Answer::Panicked("time 7".to_string()),
        "{mismatch}"
    );
    let (table, recording, _) = run_of(&mismatch);
    assert_eq!((table, recording), (&b""[..], &b"#7 "[..]), "{mismatch}");
}

/// What is found is a run with this choice, by a table of so many lines, of a recording of so many
/// bytes.
#[track_caller]
fn assert_run_of(wrong: fn(&Case) -> Answer, choice: UnknownNames, lines: usize, bytes: usize) {
    let mismatch = found(wrong);
    let (table, recording, unknown) = run_of(&mismatch);
    let records = read_table(table).map_or(Vec::new(), |table| table.records);
    let last = records.last().map_or(0, |record| record.line as usize);
    assert_eq!(unknown, choice, "{mismatch}");
    assert_eq!((last, recording.len()), (lines, bytes), "{mismatch}");
}

/// The bytes of `$var event 1 ! a $end`.
const VARIABLE: usize = 21;

#[test]
fn an_unknown_name_that_is_ignored_is_found_with_one_variable() {
    assert_run_of(never_38, UnknownNames::Refused, 0, VARIABLE);
    assert_run_of(all_known_by_no_names, UnknownNames::Refused, 0, VARIABLE);
    assert_run_of(whatever_the_case, UnknownNames::Refused, 1, VARIABLE);
}

#[test]
fn an_unknown_name_that_is_refused_unasked_is_found_with_one_variable() {
    assert_run_of(always_38, UnknownNames::Ignored, 0, VARIABLE);
}

#[test]
fn a_wrong_order_of_38_is_found_with_one_or_two_variables() {
    let two = VARIABLE + 1 + VARIABLE;
    assert_run_of(unknown_before_34, UnknownNames::Refused, 1, two);
    // Six words, of which only the first has to be a certain one, and five of them.
    assert_run_of(unknown_before_33, UnknownNames::Refused, 0, 14);
    assert_run_of(unknown_before_36, UnknownNames::Refused, 0, 12);
    let with_end = VARIABLE + 1 + "$enddefinitions $end".len();
    assert_run_of(unknown_behind_35, UnknownNames::Refused, 1, with_end);
}

#[test]
fn a_wrong_place_of_38_is_found_with_one_variable() {
    assert_run_of(unknown_at_its_name, UnknownNames::Refused, 0, VARIABLE);
    let with_end = VARIABLE + 1 + "$enddefinitions".len();
    assert_run_of(unknown_at_the_end, UnknownNames::Refused, 0, with_end);
}

#[test]
fn words_that_are_no_start_words_with_38_are_found_with_one_variable() {
    assert_run_of(zeros_with_38, UnknownNames::Refused, 1, VARIABLE);
}

/// What is found is a run by no table, of a recording whose body is as long as one of these.
#[track_caller]
fn assert_body_of(wrong: fn(&Case) -> Answer, bodies: &[&str]) {
    let mismatch = found(wrong);
    let (table, recording, unknown) = run_of(&mismatch);
    assert_eq!(
        (table, unknown),
        (&b""[..], UnknownNames::Refused),
        "{mismatch}"
    );
    let as_long = |body: &&str| "$enddefinitions $end ".len() + body.len() == recording.len();
    assert!(bodies.iter().any(as_long), "{mismatch}");
}

#[test]
fn a_wrong_place_of_40_in_a_mark_is_found_with_one_mark() {
    assert_body_of(no_digit_at_the_word, &["#x"]);
    assert_body_of(last_no_digit, &["#xx"]);
    assert_body_of(bare_at_the_word, &["#"]);
}

#[test]
fn a_wrong_place_of_41_is_found_with_one_mark_or_two() {
    // Of each the second is longer, and has no digit that can be taken out.
    let too_large = ["#18446744073709551616", "#100000000000000000000"];
    assert_body_of(too_large_at_the_word, &too_large);
    assert_body_of(too_large_from_the_word, &too_large);
    let with_zero = ["#018446744073709551616", "#0100000000000000000000"];
    assert_body_of(too_large_without_zeros, &with_zero);
    assert_body_of(too_large_at_the_twentieth, &too_large[1..]);
    assert_body_of(not_above_at_its_digits, &["#0 #0", "#18 #9"]);
}

#[test]
fn a_time_too_large_before_a_byte_that_is_no_digit_is_found_with_one_mark() {
    let both = ["#18446744073709551616x", "#100000000000000000000x"];
    assert_body_of(too_large_before_no_digit, &both);
}

/// What is found is a table of at most so many lines, with at most so many expressions in parentheses.
#[track_caller]
fn assert_lines(mismatch: &Mismatch, lines: usize, most: usize) {
    let Case::Read { text } = &mismatch.case else {
        panic!("{mismatch}")
    };
    let table = read_table(text).unwrap_or_else(|_| panic!("{mismatch}"));
    let implicit = (table.clocks - table.named) as usize;
    assert!(table.records.len() <= implicit + lines, "{mismatch}");
    assert!(implicit <= most, "{mismatch}");
}

#[test]
fn implicit_clocks_before_later_names_are_found_with_one_line_or_two() {
    assert_lines(&found(numbers_as_met), 2, 1);
}

#[test]
fn expressions_in_another_order_are_found_with_two_or_three_of_them() {
    assert_lines(&found(outer_first), 1, 2);
    assert_lines(&found(right_first), 1, 3);
}

#[test]
fn implicit_ticks_by_moved_words_are_found_with_two_records() {
    let mismatch = found(ticks_by_moved_words);
    let Case::Step {
        records, clocks, ..
    } = &mismatch.case
    else {
        panic!("{mismatch}")
    };
    assert_eq!(records.len(), 2, "{mismatch}");
    assert!(is_implicit(&records[0], *clocks), "{mismatch}");
}

#[test]
fn a_tick_set_with_implicit_clocks_is_found_with_one_clock() {
    let mismatch = found(implicit_clocks_in_tick_sets);
    let Case::Step {
        records,
        clocks,
        ticks,
        ..
    } = &mismatch.case
    else {
        panic!("{mismatch}")
    };
    let one_implicit = Clocks { named: 0, count: 1 };
    assert_eq!(
        (records.len(), *clocks, *ticks),
        (0, one_implicit, 1),
        "{mismatch}"
    );
}

#[test]
fn a_closing_parenthesis_without_partner_is_found_with_seventeen_openers() {
    let mismatch = found(closes_without_partner);
    let Case::Read { text } = &mismatch.case else {
        panic!("{mismatch}")
    };
    assert_eq!(*text, b")(((((((((((((((((", "{mismatch}");
}

#[test]
fn a_name_that_stands_twice_is_found_with_33_names_or_34() {
    let mismatch = found(fifteen_of_32_names);
    let Case::Read { text } = &mismatch.case else {
        panic!("{mismatch}")
    };
    assert!((33..=34).contains(&names(text).len()), "{mismatch}");
}

/// What is found is a question for the order of so many records.
#[track_caller]
fn assert_order_of(count: usize, wrong: fn(&Case) -> Answer) {
    let mismatch = found(wrong);
    let Case::Order { records, .. } = &mismatch.case else {
        panic!("{mismatch}")
    };
    assert_eq!(records.len(), count, "{mismatch}");
}

#[test]
fn wrong_lists_are_found_with_two_or_three_records() {
    assert_order_of(2, in_record_order);
    assert_order_of(2, highest_first);
    assert_order_of(3, in_rounds);
    assert_order_of(2, definitions_numbered);
    assert_order_of(2, await_of_two);
}

#[test]
fn a_circle_that_is_not_refused_is_found_with_two_records() {
    assert_order_of(2, no_circles);
}

#[test]
fn wrong_places_of_21_are_found_with_the_circles_and_a_record() {
    assert_order_of(3, first_unlisted);
    assert_order_of(5, between_circles);
}

#[test]
fn a_circle_before_59_is_found_with_three_records() {
    assert_order_of(3, circle_before_59);
}

#[test]
fn a_mismatch_is_printed_with_its_seed_and_pair() {
    let mismatch = found(glb_is_lub);
    let printed = mismatch.to_string();
    assert!(printed.contains("seed 21, pair "), "{printed}");
    assert!(printed.contains("unknown names: Refused"), "{printed}");
    assert!(
        printed.contains(" clockDef ") && printed.contains(" glb "),
        "{printed}"
    );
}
