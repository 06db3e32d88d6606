//! The random questions have delays in every way that matters.

mod common;

use ccsl::Clocks;
use common::{count, Seen};
use compare::case::{Answer, Case};
use compare::generate::recordings::{recording, Plan, Recording};
use compare::generate::tables::{self, lists_in, Size};
use compare::generate::{self, Group};
use compare::monitors::{defines, second};
use compare::random::Random;
use second_opinion::{
    judge, read_table, start_words, step, Configuration, Delays, Kind, Record, Refusal, StepAnswer,
    Table,
};
use std::ops::Range;

#[track_caller]
fn assert_all(seen: &Seen, least: u64) {
    assert!(seen.values().all(|times| *times >= least), "{seen:#?}");
}

/// The numbers of the lists in a text, as they are written.
fn written(text: &[u8]) -> Vec<Vec<&[u8]>> {
    let of = |list: Vec<Range<usize>>| list.into_iter().map(|place| &text[place]).collect();
    lists_in(text).into_iter().map(of).collect()
}

/// The value of digits, as far as it matters.
fn value(digits: &[u8]) -> u64 {
    digits.iter().fold(0, |value: u64, digit| {
        let tens = value.saturating_mul(10);
        tens.saturating_add(u64::from(digit - b'0'))
    })
}

fn is_bad(list: &[&[u8]]) -> bool {
    let mut values = list.iter().map(|number| value(number));
    !(1..=8).contains(&list.len()) || values.any(|value| !(1..=32).contains(&value))
}

/// The text up to a line's end, with a proper list for each list of that line.
fn mended(text: &[u8], place: usize) -> Vec<u8> {
    let mut lines: Vec<Vec<u8>> = text
        .split(|byte| *byte == b'\n')
        .map(<[u8]>::to_vec)
        .collect();
    lines.truncate(place);
    if let Some(line) = lines.last_mut() {
        for list in lists_in(line).into_iter().rev() {
            let (from, to) = match (list.first(), list.last()) {
                (Some(first), Some(last)) => (first.start, last.end),
                _ => continue,
            };
            line.splice(from..to, *b"1");
        }
        let empty = String::from_utf8_lossy(line).replace("for)", "for 1)");
        *line = empty.into_bytes();
        if line.trim_ascii_end().ends_with(b"for") {
            line.extend(b" 1");
        }
    }
    lines.join(&b'\n')
}

/// Of a refused table, whose line is `line`: why it is 22, and what else it is.
fn count_22(seen: &mut Seen, text: &[u8], line: &[u8], refusal: Refusal) {
    let lists = written(line);
    let bad: Vec<&Vec<&[u8]>> = lists.iter().filter(|list| is_bad(list)).collect();
    let is_22 = refusal.number == 22;
    for number in [11, 12, 13, 14, 19, 20] {
        let words = format!("{number} before 22");
        count(seen, &words, refusal.number == number && !bad.is_empty());
    }
    let alone = is_22 && bad.len() == 1;
    for length in [0, 9, 10, 256, 257, 264] {
        let words = format!("22 by {length} numbers");
        count(seen, &words, alone && bad[0].len() == length);
    }
    for number in [0, 33, 34, 255, 256, 257, 65_537, 4_294_967_297] {
        let words = format!("22 by {number} alone");
        let in_list = |number| bad[0].iter().any(|digits| value(digits) == number);
        let is_there = alone && bad[0].len() <= 8 && in_list(number);
        count(seen, &words, is_there);
    }
    let digits = |length| alone && bad[0].iter().any(|digits| digits.len() > length);
    count(seen, "22 by over 60 digits", digits(60));
    let nested = alone && line.contains(&b'(');
    count(seen, "22 in parentheses", nested);
    if !is_22 {
        return;
    }
    let mended = mended(text, refusal.place as usize);
    let next = read_table(&mended).err();
    let next = next.filter(|next| next.place == refusal.place);
    let next = next.map(|next| next.number);
    count(seen, "22 alone", next.is_none());
    for number in [15, 16, 17, 18] {
        count(seen, &format!("22 before {number}"), next == Some(number));
    }
}

/// Of a line that is 12: what is wrong with its delay.
fn count_12(seen: &mut Seen, line: &[u8]) {
    let words = line.split(|byte| b" ()".contains(byte));
    let words: Vec<&[u8]> = words.filter(|word| !word.is_empty()).collect();
    let has = |form: &[u8]| words.contains(&form);
    let behind = |form: &[u8]| {
        let place = words.iter().position(|word| *word == form);
        place.and_then(|place| words.get(place + 1)).copied()
    };
    count(seen, "no for", has(b"deferred") && !has(b"for"));
    count(seen, "no deferred", has(b"for") && !has(b"deferred"));
    let text = String::from_utf8_lossy(line).replace(' ', "");
    count(seen, "for (2)", text.contains("for(2)"));
    count(seen, "for x", behind(b"for") == Some(b"x"));
    count(seen, "for 2,3", has(b"2,3"));
    for form in ["for", "deferred"] {
        let first = words.first() == Some(&form.as_bytes());
        count(seen, &format!("{form} for the first name"), first);
        let last = words.last() == Some(&form.as_bytes());
        let relation = [&b"#"[..], b"=", b"precedes", b"isSubClockOf"];
        let is_relation = relation.iter().any(|form| has(form)) && !has(b"clockDef");
        count(
            seen,
            &format!("{form} for the last name"),
            last && is_relation,
        );
    }
}

/// Of a table that is read: where its delays stand and which lists they have.
fn count_read(seen: &mut Seen, text: &[u8], table: &Table) {
    let is_delay = |record: &&Record| record.kind == Kind::Deferred;
    let uses = |clock: u64, kinds: &[Kind], first: bool| {
        table.records.iter().any(|record| {
            let operand = if first { record.first } else { record.second };
            kinds.contains(&record.kind) && operand == clock
        })
    };
    for record in table.records.iter().filter(is_delay) {
        let Record {
            defined, delays, ..
        } = *record;
        let implicit = defined >= table.named;
        let relations = [Kind::Coincides, Kind::Excludes, Kind::Precedes];
        count(seen, "flat", !implicit);
        for (words, kinds, first) in [
            ("left of a relation", &relations[..], true),
            ("right of a relation", &relations, false),
            ("in an await", &[Kind::Await], true),
            ("left in a delay", &[Kind::Deferred], true),
            ("right in a delay", &[Kind::Deferred], false),
            ("in an upto", &[Kind::Upto], true),
        ] {
            count(seen, words, implicit && uses(defined, kinds, first));
        }
        let inside = record.first >= table.named || record.second >= table.named;
        count(seen, "an expression in it", inside);
        for length in 1..=8 {
            count(seen, &format!("{length} numbers"), delays.length == length);
        }
        for number in 1..=32 {
            let list = &delays.numbers[..delays.length as usize];
            count(seen, &format!("number {number}"), list.contains(&number));
        }
    }
    let longest = written(text).concat().into_iter().map(<[u8]>::len).max();
    count(seen, "leading zeros", longest > Some(2));
    count(seen, "very many leading zeros", longest > Some(60));
    for name in ["For", "for_", "fort", "Deferred", "defer"] {
        let is_there = table.names.iter().any(|known| known == name);
        count(seen, &format!("a clock named {name}"), is_there);
    }
}

#[test]
fn tables_with_delays_come_up_in_every_way() {
    let mut seen = Seen::new();
    for pair in 0..30_000 {
        let random = &mut Random::of_pair(51, pair);
        let (Case::Read { text } | Case::Run { table: text, .. }) =
            generate::of(random, Group::TableLimits)
        else {
            panic!("no table")
        };
        match read_table(&text) {
            Ok(table) => count_read(&mut seen, &text, &table),
            Err(refusal) => {
                let mut lines = text.split(|byte| *byte == b'\n');
                let line = lines.nth((refusal.place as usize).saturating_sub(1));
                let line = line.unwrap_or_default();
                count_22(&mut seen, &text, line, refusal);
                if refusal.number == 12 {
                    count_12(&mut seen, line);
                }
            }
        }
    }
    assert_all(&seen, 1);
}

/// The tick sets of a recording.
fn sets(recording: &Recording) -> Vec<u32> {
    let mut sets: Vec<u32> = Vec::new();
    let ids = &recording.ids[..recording.clocks];
    for word in &recording.body {
        if word.starts_with(b"#") {
            sets.push(0);
        } else if let Some(clock) = ids.iter().position(|id| *id == word[1..]) {
            if let Some(set) = sets.last_mut() {
                *set |= 1 << clock;
            }
        }
    }
    sets
}

/// The ticks beside a set, implicit ones included.
fn completed(table: &Table, words: &Configuration, mut set: u32) -> u32 {
    for (record, pair) in table.records.iter().zip(words) {
        let implicit = defines(record.kind) && record.defined >= table.named;
        if implicit && judge(record, *pair, set | 1 << record.defined).0 {
            set |= 1 << record.defined;
        }
    }
    set
}

/// A delay in a step of a run that is accepted.
fn count_delay(seen: &mut Seen, record: &Record, named: u64, words: [[i64; 2]; 2], set: u32) {
    let [before, after] = words;
    let ticks = |clock: u64| set >> clock & 1 == 1;
    let (a, b, c) = (
        ticks(record.first),
        ticks(record.second),
        ticks(record.defined),
    );
    let kind = if record.defined < named {
        "named"
    } else {
        "implicit"
    };
    let mut seen = |words: &str, is_there| count(seen, &format!("{kind}: {words}"), is_there);
    let list = &record.delays.numbers[..record.delays.length as usize];
    let number = list.get(before[1] as usize).filter(|_| a);
    let bit = number.map_or(0, |number| 1i64 << (number - 1));
    let left = before[0] >> u32::from(b);
    seen("c ticks", c);
    seen("b ticks, none due", b && !c);
    seen("b ticks, another pending", b && !c && before[0] != 0);
    seen("due without b", before[0] & 1 == 1 && !b);
    seen("a beside b", number.is_some() && b);
    seen("a beside b and c", number.is_some() && b && c);
    seen("1 planned beside b", number == Some(&1) && b);
    seen("a with the list used up", a && number.is_none());
    seen("two on one tick of b", left & bit != 0);
    seen("planned before one that pends", bit != 0 && left > bit);
    seen(
        "planned behind one that pends",
        bit != 0 && left != 0 && left < bit,
    );
    seen("32 planned", number == Some(&32));
    seen(
        "the last number",
        number.is_some() && after[1] == list.len() as i64,
    );
    seen("the last of eight", a && after[1] == 8 && before[1] == 7);
}

/// Of a run: its steps with delays, and how long some stay pending.
fn count_run(seen: &mut Seen, table: &Table, sets: &[u32]) {
    let mut words = start_words(&table.records, table.named, table.clocks).expect("a table");
    let mut since = [0; second_opinion::WORDS];
    for set in sets {
        let (before, ticks) = (words, completed(table, &words, *set));
        let answer = step(&table.records, table.named, table.clocks, &mut words, *set);
        if answer != StepAnswer::Accepted {
            let Some(StepAnswer::Violated(record)) = Some(answer) else {
                continue;
            };
            let delay = table.records[record as usize - 1].kind == Kind::Deferred;
            count(seen, "violated", delay);
            break;
        }
        for (place, record) in table.records.iter().enumerate() {
            if record.kind != Kind::Deferred {
                continue;
            }
            let pairs = [before[place], words[place]];
            count_delay(seen, record, table.named, pairs, ticks);
            let due = ticks >> record.defined & 1 == 1;
            for steps in [50, 100, 300] {
                let words = format!("c ticks after {steps} pending steps");
                count(seen, &words, due && since[place] >= steps);
            }
            since[place] = if words[place][0] == 0 {
                0
            } else {
                since[place] + 1
            };
        }
    }
}

#[test]
fn recordings_with_delays_come_up_in_every_way() {
    let mut seen = Seen::new();
    for (plan, pairs) in [
        (Plan::small as fn(&mut Random) -> Plan, 3000),
        (Plan::medium, 1000),
        (Plan::long, 30),
    ] {
        for pair in 0..pairs {
            let random = &mut Random::of_pair(52, pair);
            let size = Size::any(random);
            let text = tables::text(random, size);
            let table = read_table(&text).expect("a table");
            if !table.records.iter().any(|r| r.kind == Kind::Deferred) {
                continue;
            }
            let plan = plan(random);
            count_run(&mut seen, &table, &sets(&recording(random, &table, plan)));
        }
    }
    assert_all(&seen, 2);
}

/// Whether a list of a record made by hand is in range.
fn is_proper(Delays { numbers, length }: Delays) -> bool {
    let mut list = numbers.iter().take(length as usize);
    (1..=8).contains(&length) && list.all(|number| (1..=32).contains(number))
}

/// Of records made by hand: their lists, by the place at which they are refused.
fn count_lists(seen: &mut Seen, records: &[Record], refusal: Option<Refusal>) {
    let bad = |record: &Record| record.kind == Kind::Deferred && !is_proper(record.delays);
    let at = refusal.filter(|r| r.number == 59 && r.place > 0);
    let at = at.and_then(|refusal| records.get(refusal.place as usize - 1));
    if let Some(record) = at.filter(|record| bad(record)) {
        let Delays { numbers, length } = record.delays;
        for edge in [0, 9, 255, 256, 257, 264, 1 << 32, (1 << 32) + 1, u64::MAX] {
            count(seen, &format!("59 by {edge} numbers"), length == edge);
        }
        for edge in [0, 33, 64, 128, 255] {
            let list = &numbers[..length.min(8) as usize];
            let is_there = length <= 8 && list.contains(&edge);
            count(seen, &format!("59 by number {edge}"), is_there);
        }
    }
    if refusal.is_none() {
        let delays = records.iter().filter(|r| r.kind == Kind::Deferred);
        let past =
            |r: &Record| r.delays.numbers[r.delays.length as usize..].iter().max() > Some(&32);
        count(seen, "anything past a length", delays.clone().any(past));
        count(
            seen,
            "eight numbers",
            delays.clone().any(|r| r.delays.length == 8),
        );
        let others = records.iter().filter(|r| r.kind != Kind::Deferred);
        let free = |r: &Record| r.delays != Delays::default() && !is_proper(r.delays);
        count(seen, "any list of another kind", others.clone().any(free));
    }
}

/// Of a configuration: which of its words are out of range, at the place of 60.
fn count_words(
    seen: &mut Seen,
    group: Group,
    records: &[Record],
    words: &Configuration,
    refusal: Option<Refusal>,
) {
    let Some(Refusal { number: 60, place }) = refusal else {
        return;
    };
    let mut seen = |words: &str, is| count(seen, &format!("{group:?}: 60 by {words}"), is);
    let [first, other] = words[place as usize - 1];
    match records.get(place as usize - 1) {
        Some(Record {
            kind: Kind::Deferred,
            delays,
            ..
        }) => {
            for edge in [-1, 1 << 32, (1 << 32) + 1, i64::MIN, i64::MAX] {
                seen(&format!("pending {edge}"), first == edge);
            }
            let length = delays.length as i64;
            let pending = (0..1 << 32).contains(&first);
            seen("one used too many", pending && other == length + 1);
            for edge in [-1, i64::MIN, i64::MAX, 1 << 32] {
                seen(&format!("used {edge}"), pending && other == edge);
            }
            seen("both", !pending && !(0..=length).contains(&other));
        }
        Some(_) => {
            seen("another kind's second word", other != 0);
            seen("both words of another kind", first < 0 && other != 0);
        }
        None => {
            seen("a second word beyond", first == 0 && other != 0);
            seen("both words beyond", first != 0 && other != 0);
        }
    }
}

/// Of start words and of a working order: which delays have them.
fn count_start_and_order(seen: &mut Seen, records: &[Record], named: u64, answer: &Answer) {
    let mut delays = records.iter().filter(|r| r.kind == Kind::Deferred);
    let moved = |list: &[usize]| {
        let at = |number: &usize| records[number - 1].kind == Kind::Deferred;
        list.windows(2).any(|two| two[0] > two[1] && at(&two[1]))
    };
    match answer {
        Answer::Start(Ok(_)) => {
            count(
                seen,
                "started, named",
                delays.clone().any(|r| r.defined < named),
            );
            count(
                seen,
                "started, implicit",
                delays.any(|r| r.defined >= named),
            );
        }
        Answer::Order(Ok(list)) => count(seen, "listed behind a higher record", moved(list)),
        Answer::Order(Err(Refusal { number: 21, place })) => {
            let record = &records[*place as usize - 1];
            count(seen, "on a circle", record.kind == Kind::Deferred);
        }
        _ => {}
    }
}

#[test]
fn records_and_pairs_of_delays_come_up_in_every_way() {
    let mut seen = Seen::new();
    for pair in 0..40_000 {
        let random = &mut Random::of_pair(53, pair);
        let group = random.pick(&[Group::Start, Group::Step, Group::SamePlace, Group::Order]);
        let case = generate::of(random, group);
        let answer = second(&case);
        let refusal = answer.refusal();
        let (records, clocks) = case.on_records().expect("a question on records");
        count_lists(&mut seen, records, refusal);
        count_start_and_order(&mut seen, records, clocks.named.into(), &answer);
        match &case {
            Case::Step { words, ticks, .. } => {
                count_words(&mut seen, group, records, words, refusal);
                count_step(&mut seen, records, clocks, words, *ticks, &answer);
            }
            Case::Place { first, second, .. } => {
                count_words(&mut seen, group, records, first, refusal);
                count_words(&mut seen, group, records, second, refusal);
            }
            _ => {}
        }
    }
    assert_all(&seen, 1);
}

/// Of a single step with a delay: how it ends.
fn count_step(
    seen: &mut Seen,
    records: &[Record],
    clocks: Clocks,
    words: &Configuration,
    set: u32,
    answer: &Answer,
) {
    let table = Table {
        records: records.to_vec(),
        names: Vec::new(),
        named: clocks.named.into(),
        clocks: clocks.count.into(),
    };
    let delay = |place: usize| records[place].kind == Kind::Deferred;
    match answer {
        Answer::Step(StepAnswer::Accepted, after) => {
            let ticks = completed(&table, words, set);
            for place in (0..records.len()).filter(|place| delay(*place)) {
                let pairs = [words[place], after[place]];
                count_delay(seen, &records[place], table.named, pairs, ticks);
                let top = words[place][0] >> 31 & 1 == 1;
                count(seen, "bit 31 is pending", top);
                count(
                    seen,
                    "all 32 bits are pending",
                    words[place][0] == 0xFFFF_FFFF,
                );
            }
        }
        Answer::Step(StepAnswer::Violated(record), _) => {
            count(seen, "violated", delay(*record as usize - 1));
        }
        _ => {}
    }
}

#[test]
fn places_of_delays_come_up_in_every_way() {
    let mut seen = Seen::new();
    for (group, pairs) in [(Group::SamePlace, 20_000), (Group::SamePlaceBySearch, 3000)] {
        for pair in 0..pairs {
            let case = generate::of(&mut Random::of_pair(54, pair), group);
            let (Case::Place {
                records,
                first,
                second: other,
                ..
            }
            | Case::Search {
                records,
                first,
                second: other,
                ..
            }) = &case
            else {
                panic!("{case}")
            };
            if second(&case).refusal().is_some() {
                continue;
            }
            let places = (0..records.len()).filter(|place| first[*place] != other[*place]);
            let mut places = places.filter(|place| records[*place].kind == Kind::Deferred);
            let (Some(place), None) = (places.next(), places.next()) else {
                continue;
            };
            let ([p, u], [q, v]) = (first[place], other[place]);
            let mut seen = |words: &str, is| count(&mut seen, &format!("{group:?}: {words}"), is);
            seen("pending alone", p != q && u == v);
            seen("used alone", p == q && u != v);
            seen("used alone, some pending", p == q && u != v && p != 0);
            seen("both", p != q && u != v);
            seen("bit 31 alone", p ^ q == 1 << 31 && u == v);
            seen("used by one", p == q && (u - v).abs() == 1);
            seen(
                "none and all",
                u.min(v) == 0 && u.max(v) == records[place].delays.length as i64,
            );
        }
    }
    assert_all(&seen, 5);
}
