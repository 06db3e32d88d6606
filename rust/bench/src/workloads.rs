//! The inputs that are measured, the same for both monitors.

use second_opinion::{Configuration, Kind, Record, WORDS};
use std::hint::black_box;

/// An input, prepared for both monitors.
pub enum Input {
    /// A table and a recording.
    Run { table: Vec<u8>, recording: Vec<u8> },
    /// A table that is read alone, and the number of the limit that it breaks, 0 where it breaks
    /// none.
    Read { text: Vec<u8>, number: u64 },
    /// Records, as numbers for the library and as they are; the step ticks every clock.
    Step {
        numbers: Vec<u64>,
        records: Vec<Record>,
        words: Configuration,
    },
    /// Records with delays, as numbers and as they are; the step ticks every clock, each time from the
    /// same words, since it moves them.
    Again {
        numbers: Vec<u64>,
        records: Vec<Record>,
        words: Configuration,
    },
    /// Records, as numbers and as they are, and two equal configurations.
    Place {
        numbers: Vec<u64>,
        records: Vec<Record>,
        words: Configuration,
    },
    /// Records whose working order is asked for, and the number of the limit that they break, 0 where
    /// they break none.
    Order {
        numbers: Vec<u64>,
        records: Vec<Record>,
        number: u64,
    },
}

/// Clocks of the tables with many constraints.
const CLOCKS: u32 = 32;

/// Named clocks of the table with nested lines; as many are implicit.
const NAMED: u32 = 16;

/// Clocks of the table with delays that are delays; the other two are their operands.
const DELAYS: usize = 30;

/// Numbers in the list of each delay.
const LIST: usize = 8;

/// Bytes of the tables that are read alone: as many as a table may have.
const TABLE_BYTES: usize = 4096;

/// The names of the workloads.
pub const WORKLOADS: [&str; 17] = [
    "dense",
    "wide",
    "marks",
    "nested",
    "delays",
    "read_flat",
    "read_deep",
    "read_names",
    "read_twice",
    "read_words",
    "read_openers",
    "step",
    "step_delays",
    "same_place",
    "place_delays",
    "order",
    "order_circle",
];

/// What the workloads are, for a reader of the table.
pub const ABOUT: &str = "\
Runs, by the recording's size in bytes; names that the table lacks are ignored:
- dense: 64 constraints on 32 clocks, every clock ticks in every step
- wide: 128 variables, most of them not in the table, the changes on those declared last
- marks: 64 constraints on 32 clocks, marks alone
- nested: 64 constraints, 16 of them of expressions in parentheses up to five deep, all 16 named
  clocks tick in every step
- delays: 64 constraints on 32 clocks, 30 of them delays with lists of eight numbers; b ticks in every
  step and a in every 32nd, so that each delay plans and fires eight times, in the first 257 steps

Tables that are read alone, by their size in bytes:
- read_flat: 64 lines without parentheses
- read_deep: one line of expressions sixteen deep, refused with 17
- read_names: one line of as many different names as fit, refused with 17
- read_twice: read_names with its last two names the same, refused with 15
- read_words: one line of as many names as fit, and nothing else, refused with 12
- read_openers: one line of opening parentheses, refused with 19

Calls, by the number of records:
- step: all 32 clocks tick, on the first constraints of dense
- step_delays: the same on the first constraints of delays, from words with which each delay fires
  and plans; they are set before each step
- same_place: two equal configurations, on the first constraints of dense
- place_delays: the same on the first constraints of delays
- order: the working order of at most 31 definitions below as many relations or more, each of which
  rests on the two above it
- order_circle: 32 definitions in one circle, below 32 relations, refused with 21

The lists that the library writes are set to 0 before each run. Records are handed to it as
prepared numbers.";

/// The sizes that a workload is measured at.
pub fn sizes(workload: &str) -> Vec<usize> {
    let powers = match workload {
        "step" | "step_delays" | "same_place" | "place_delays" | "order" => 0..=6,
        "order_circle" => 6..=6,
        _ if workload.starts_with("read_") => 12..=12,
        _ => 10..=16,
    };
    powers
        .map(|k| 1 << k)
        .filter(|size| input(workload, *size).is_some())
        .collect()
}

/// The input of a workload; none where the recording's header alone is larger than the size, where a
/// table that is read alone is to have another size, or there is no such workload.
pub fn input(workload: &str, size: usize) -> Option<Input> {
    match workload {
        "dense" => run(
            dense_table(),
            declarations(CLOCKS),
            |time| format!("#{time}\n{}", ticks(CLOCKS)),
            size,
        ),
        "wide" => run(
            wide_table(),
            wide_declarations(),
            |time| format!("#{time}\n1zz\n1zy\n1zw\n1x123\n1x122\n"),
            size,
        ),
        "marks" => run(
            dense_table(),
            declarations(CLOCKS),
            |time| format!("#{time}\n"),
            size,
        ),
        "nested" => run(
            nested_table(),
            declarations(NAMED),
            |time| format!("#{time}\n{}", ticks(NAMED)),
            size,
        ),
        "delays" => run(
            delays_table(),
            declarations(CLOCKS),
            |time| format!("#{time}\n{}", delays_ticks(time)),
            size,
        ),
        "read_flat" => read(flat_text(), 0, size),
        "read_deep" => read(deep_text(), 17, size),
        "read_names" => read(names_text(), 17, size),
        "read_twice" => read(twice_text(), 15, size),
        "read_words" => read("a ".repeat(TABLE_BYTES / 2), 12, size),
        "read_openers" => read("(".repeat(TABLE_BYTES), 19, size),
        "step" => Some(records(&dense_table(), size)).map(|(numbers, records)| Input::Step {
            numbers,
            records,
            words: [[0, 0]; WORDS],
        }),
        "step_delays" => {
            Some(records(&delays_table(), size)).map(|(numbers, records)| Input::Again {
                words: due(&records),
                numbers,
                records,
            })
        }
        "same_place" => {
            Some(records(&dense_table(), size)).map(|(numbers, records)| Input::Place {
                numbers,
                records,
                words: [[0, 0]; WORDS],
            })
        }
        "place_delays" => {
            Some(records(&delays_table(), size)).map(|(numbers, records)| Input::Place {
                words: due(&records),
                numbers,
                records,
            })
        }
        "order" => Some(order(size, (size / 2).min(31), above, 0)),
        "order_circle" => Some(order(size, size / 2, around, 21)),
        _ => None,
    }
}

/// A recording of at most `size` bytes: the header, then as many whole steps as there is room for.
fn run(
    table: String,
    header: String,
    step: impl Fn(usize) -> String,
    size: usize,
) -> Option<Input> {
    let mut recording = header;
    if recording.len() > size {
        return None;
    }
    for time in 0.. {
        let step = step(time);
        if recording.len() + step.len() > size {
            break;
        }
        recording.push_str(&step);
    }
    Some(Input::Run {
        table: table.into_bytes(),
        recording: recording.into_bytes(),
    })
}

/// 64 constraints on 32 clocks, all of which may tick together.
fn dense_table() -> String {
    let mut rows: Vec<String> = Vec::new();
    rows.extend((0..31).map(|i| format!("c{i} precedes c{}", i + 1)));
    rows.extend((0..30).map(|i| format!("c{i} precedes c{}", i + 2)));
    rows.extend(["c0 precedes c31", "c3 = c4", "c9 isSubClockOf c8"].map(String::from));
    rows.join("\n") + "\n"
}

/// The id of a clock.
fn id(clock: u32) -> char {
    char::from(b'!' + clock as u8)
}

/// 48 lines on 16 clocks, all of which may tick together, with 16 expressions in parentheses, six of
/// them in the first line.
fn nested_table() -> String {
    let mut rows = vec![
        "(((((c0 lub c1) clockUnion c2) glb c3) clockInter c4) upto (await 9 c5)) isSubClockOf c6"
            .to_string(),
    ];
    rows.extend((0..3).map(|i| {
        let [a, b, c, d] = [0, 1, 2, 3].map(|k| 4 * i + k);
        format!("((c{a} lub c{b}) clockInter c{c}) precedes c{d}")
    }));
    rows.extend((0..4).map(|i| {
        let [a, b, c] = [0, 4, 8].map(|k| i + k);
        format!("c{a} precedes (c{b} clockUnion c{c})")
    }));
    rows.extend((0..15).map(|i| format!("c{i} precedes c{}", i + 1)));
    rows.extend((0..14).map(|i| format!("c{i} precedes c{}", i + 2)));
    rows.extend((0..11).map(|i| format!("c{i} isSubClockOf c{}", i + 3)));
    rows.join("\n") + "\n"
}

/// 30 delays of c0 by c1, and 34 relations that hold where c1 ticks in every step, and where all 32
/// clocks tick together.
fn delays_table() -> String {
    let delays = || 2..2 + DELAYS;
    let mut rows: Vec<String> = Vec::new();
    rows.extend(delays().map(|i| {
        let list: String = (0..LIST).map(|k| format!(" {}", delay(i, k))).collect();
        format!("c{i} clockDef c0 deferred c1 for{list}")
    }));
    rows.extend(delays().map(|i| format!("c{i} isSubClockOf c1")));
    let others = [
        "c0 isSubClockOf c1",
        "c1 precedes c0",
        "c0 precedes c2",
        "c0 precedes c3",
    ];
    rows.extend(others.map(String::from));
    rows.join("\n") + "\n"
}

/// Number k, from 0, in the list of the delay i: 1 to 32.
fn delay(i: usize, k: usize) -> usize {
    1 + (7 * i + 11 * k) % 32
}

/// The changes at a time: c1 ticks always, c0 at every 32nd time, and so a delay ticks as many times
/// after that as its next number says.
fn delays_ticks(time: usize) -> String {
    let ticks = |clock: &usize| match clock {
        0 => time.is_multiple_of(32),
        1 => true,
        i => (0..LIST).any(|k| time == 32 * k + delay(*i, k)),
    };
    (0..CLOCKS as usize)
        .filter(ticks)
        .map(|clock| format!("1{}\n", id(clock as u32)))
        .collect()
}

/// The words with which each delay has a tick due and its list before it.
fn due(records: &[Record]) -> Configuration {
    let mut words = [[0, 0]; WORDS];
    for (pair, record) in words.iter_mut().zip(records) {
        pair[0] = i64::from(record.kind == Kind::Deferred);
    }
    words
}

/// A table's text, made as long as a table may be with spaces at its end; none of another size.
fn read(text: String, number: u64, size: usize) -> Option<Input> {
    (size == TABLE_BYTES).then(|| Input::Read {
        text: format!("{text:TABLE_BYTES$}").into_bytes(),
        number,
    })
}

/// 64 lines on 32 clocks with names of 16 bytes, each clock defined.
fn flat_text() -> String {
    let name = |clock: usize| format!("clock_of_bench{:02}", clock % 32);
    let relation = |i: usize| format!("{} strictly precedes {}", name(i), name(i + 1));
    let definition = |i: usize| {
        let form = if i < 24 { "strictly sampled" } else { "upto" };
        format!(
            "{} clockDef {} {form} {}",
            name(i),
            name(i + 1),
            name(i + 2)
        )
    };
    let rows: Vec<String> = (0..32)
        .map(relation)
        .chain((0..32).map(definition))
        .collect();
    rows.join("\n") + "\n"
}

/// One line, a relation of a name and an expression of as many different names as fit; `left` says how
/// many of so many names an expression has in its left operand.
fn line(left: fn(usize) -> usize) -> String {
    let letters = || (b'a'..=b'z').chain(b'A'..=b'Z').map(char::from);
    let names: Vec<String> = letters()
        .flat_map(|one| letters().map(move |other| format!("{one}{other}")))
        .collect();
    let line = |count: usize| format!("c ={}", operand(&names[..count], left));
    let counts: Vec<usize> = (2..TABLE_BYTES / 4).collect();
    let fitting = counts.partition_point(|count| line(*count).len() <= TABLE_BYTES);
    line(counts[fitting - 1])
}

/// A name, or an expression of several in parentheses.
fn operand(names: &[String], left: fn(usize) -> usize) -> String {
    if let [name] = names {
        return name.clone();
    }
    let (one, other) = names.split_at(left(names.len()));
    let [one, other] = [one, other].map(|names| operand(names, left));
    let before = if one.ends_with(')') { "" } else { " " };
    let behind = if other.starts_with('(') { "" } else { " " };
    format!("({one}{before}lub{behind}{other})")
}

/// A line that is sixteen deep: left operands have twice as many names as right ones.
fn deep_text() -> String {
    line(|names| names - (names / 3).max(1))
}

/// A line in which as many names fit as can be: both operands have as many.
fn names_text() -> String {
    line(|names| names / 2)
}

/// The same, where the last name is the one before it.
fn twice_text() -> String {
    let text = names_text();
    let (before, last) = text.rsplit_once("lub ").expect("two operands");
    let (_, name) = before.trim_end().rsplit_once('(').expect("an expression");
    let behind = last.trim_start_matches(char::is_alphabetic);
    format!("{before}lub {name}{behind}")
}

fn declarations(clocks: u32) -> String {
    let variables: String = (0..clocks)
        .map(|clock| format!("$var event 1 {} c{clock} $end\n", id(clock)))
        .collect();
    variables + "$enddefinitions $end\n"
}

fn ticks(clocks: u32) -> String {
    (0..clocks)
        .map(|clock| format!("1{}\n", id(clock)))
        .collect()
}

fn wide_table() -> String {
    "a = b\nc isSubClockOf a\nd clockDef a clockUnion c\n".to_string()
}

fn wide_declarations() -> String {
    let ignored: String = (0..124)
        .map(|i| format!("$var event 1 x{i} n{i} $end\n"))
        .collect();
    let known = ["zz a", "zy b", "zx c", "zw d"]
        .map(|variable| format!("$var event 1 {variable} $end\n"))
        .concat();
    ignored + &known + "$enddefinitions $end\n"
}

/// So many records: relations, and below them definitions.
fn order(size: usize, definitions: usize, definition: fn(usize) -> String, number: u64) -> Input {
    let relation = |i: usize| format!("c{} = c{}", i % 31, i % 31 + 1);
    let rows: Vec<String> = (definitions..size)
        .map(relation)
        .chain((0..definitions).map(definition))
        .collect();
    let (numbers, records) = records_of(&rows.join("\n"));
    Input::Order {
        numbers,
        records,
        number,
    }
}

/// A definition that rests on the two above it.
fn above(i: usize) -> String {
    match i {
        0 => "c1 clockDef await 1 c0".to_string(),
        _ => format!("c{} clockDef c{i} lub c{}", i + 1, i - 1),
    }
}

/// A definition that rests on the one below it, the last of 32 on the first.
fn around(i: usize) -> String {
    format!("c{i} clockDef await 1 c{}", (i + 1) % 32)
}

/// The first records of a table without parentheses.
fn records(table: &str, count: usize) -> (Vec<u64>, Vec<Record>) {
    let lines: Vec<&str> = table.lines().take(count).collect();
    records_of(&lines.join("\n"))
}

/// The records of a table, as numbers and as they are.
fn records_of(text: &str) -> (Vec<u64>, Vec<Record>) {
    let read = ccsl::read_table(text.as_bytes()).expect("the table is read");
    let other = second_opinion::read_table(text.as_bytes()).expect("the table is read");
    (ccsl::numbers(&read.records), other.records)
}

impl Input {
    /// Asks the proved library once; whether it accepted, or read or refused as expected.
    pub fn library(&mut self) -> bool {
        match self {
            Input::Run { table, recording } => {
                let mut answer = [0; ccsl::raw::RUN_ANSWER];
                let mut words = [0; ccsl::raw::WORDS];
                ccsl::raw::run(
                    black_box(table),
                    black_box(recording),
                    ccsl::raw::UNKNOWN_IGNORED,
                    &mut answer,
                    &mut words,
                );
                black_box(&words);
                black_box(answer)[0] == 0
            }
            Input::Read { text, number } => {
                let mut answer = [0; ccsl::raw::READ_ANSWER];
                let mut records = [0; ccsl::raw::RECORDS * ccsl::raw::RECORD];
                let mut names = [0; ccsl::raw::CLOCKS * 2];
                ccsl::raw::read_table(black_box(text), &mut answer, &mut records, &mut names);
                black_box((&records, &names));
                black_box(answer)[1] == *number
            }
            Input::Step { numbers, words, .. } => library_step(numbers, words),
            Input::Again { numbers, words, .. } => library_step(numbers, &mut words.clone()),
            Input::Place { numbers, words, .. } => {
                let mut answer = [0; ccsl::raw::PLACE_ANSWER];
                ccsl::raw::same_place(
                    black_box(numbers),
                    CLOCKS,
                    CLOCKS,
                    black_box(words.as_flattened()),
                    words.as_flattened(),
                    &mut answer,
                );
                black_box(answer)[0] == 0
            }
            Input::Order {
                numbers, number, ..
            } => {
                let mut answer = [0; ccsl::raw::ORDER_ANSWER];
                let mut order = [0; ccsl::raw::CLOCKS];
                ccsl::raw::definition_order(
                    black_box(numbers),
                    CLOCKS,
                    CLOCKS,
                    &mut answer,
                    &mut order,
                );
                black_box(&order);
                black_box(answer)[1] == *number
            }
        }
    }

    /// Asks the separately written monitor once; whether it accepted, or read or refused as
    /// expected.
    pub fn rust(&mut self) -> bool {
        match self {
            Input::Run { table, recording } => {
                let report = black_box(second_opinion::run(
                    black_box(table),
                    black_box(recording),
                    second_opinion::UnknownNames::Ignored,
                ));
                report.verdict == second_opinion::Verdict::Accepted
            }
            Input::Read { text, number } => {
                let read = black_box(second_opinion::read_table(black_box(text)));
                read.map_or_else(|refusal| refusal.number, |_| 0) == *number
            }
            Input::Step { records, words, .. } => rust_step(records, words),
            Input::Again { records, words, .. } => rust_step(records, &mut words.clone()),
            Input::Place { records, words, .. } => {
                let answer = second_opinion::same_place(
                    black_box(records),
                    u64::from(CLOCKS),
                    u64::from(CLOCKS),
                    black_box(words),
                    words,
                );
                black_box(answer) == second_opinion::SamePlace::Same
            }
            Input::Order {
                records, number, ..
            } => {
                let order = black_box(second_opinion::definition_order(
                    black_box(records),
                    u64::from(CLOCKS),
                    u64::from(CLOCKS),
                ));
                order.map_or_else(|refusal| refusal.number, |_| 0) == *number
            }
        }
    }

    /// Asks nobody.
    pub fn nothing(&mut self) -> bool {
        black_box(true)
    }
}

/// Whether the proved library accepts a step in which every clock ticks.
fn library_step(numbers: &[u64], words: &mut Configuration) -> bool {
    let mut answer = [0; ccsl::raw::STEP_ANSWER];
    ccsl::raw::step(
        black_box(numbers),
        CLOCKS,
        CLOCKS,
        black_box(words).as_flattened_mut(),
        u32::MAX,
        &mut answer,
    );
    black_box(answer)[0] == 0
}

/// Whether the separately written monitor does.
fn rust_step(records: &[Record], words: &mut Configuration) -> bool {
    let answer = second_opinion::step(
        black_box(records),
        u64::from(CLOCKS),
        u64::from(CLOCKS),
        black_box(words),
        u32::MAX,
    );
    black_box(answer) == second_opinion::StepAnswer::Accepted
}

#[cfg(test)]
mod tests {
    use super::*;

    #[test]
    fn every_input_is_answered_as_expected() {
        for workload in WORKLOADS {
            let sizes = sizes(workload);
            assert!(!sizes.is_empty(), "{workload}");
            for size in sizes {
                let mut input = input(workload, size).expect("the size is one of this workload");
                assert!(input.library() && input.rust(), "{workload} {size}");
            }
        }
    }

    #[test]
    fn the_nested_table_has_64_constraints_and_32_clocks() {
        let table = second_opinion::read_table(nested_table().as_bytes()).expect("it is read");
        assert_eq!(
            (table.records.len(), table.named, table.clocks),
            (WORDS, u64::from(NAMED), u64::from(CLOCKS))
        );
    }

    #[test]
    fn the_delays_plan_and_fire_and_are_used_up() {
        let table = second_opinion::read_table(delays_table().as_bytes()).expect("it is read");
        let delays = |records: &[Record]| {
            let is_delay = |record: &&Record| record.kind == Kind::Deferred;
            records.iter().filter(is_delay).count()
        };
        assert_eq!(
            (table.records.len(), table.clocks, delays(&table.records)),
            (WORDS, u64::from(CLOCKS), DELAYS)
        );
        let changes: String = (0..=32 * LIST).map(delays_ticks).collect();
        let ticks = |clock: usize| {
            let change = format!("1{}", id(clock as u32));
            changes.lines().filter(|line| **line == change).count()
        };
        assert_eq!((ticks(0), ticks(1)), (LIST + 1, 32 * LIST + 1));
        assert!((2..2 + DELAYS).all(|clock| ticks(clock) == LIST));
        let Some(Input::Run { table, recording }) = input("delays", 1 << 16) else {
            panic!("it is a run")
        };
        let ignored = second_opinion::UnknownNames::Ignored;
        let report = second_opinion::run(&table, &recording, ignored);
        assert_eq!(report.configuration[..DELAYS], [[0, LIST as i64]; DELAYS]);
    }

    #[test]
    fn tables_that_are_read_alone_are_as_long_as_a_table_may_be() {
        let read = |workload: &&str| workload.starts_with("read_");
        for workload in WORKLOADS.into_iter().filter(read) {
            let Some(Input::Read { text, .. }) = input(workload, TABLE_BYTES) else {
                panic!("{workload}")
            };
            let behind = text.iter().rev().take_while(|byte| **byte == b' ').count();
            assert_eq!(text.len(), TABLE_BYTES, "{workload}");
            assert!(behind < 100, "{workload}: {behind} spaces at the end");
        }
    }

    #[test]
    fn the_deep_line_is_sixteen_deep() {
        let mut open = 0;
        let depths = deep_text().into_bytes().into_iter().map(|byte| {
            match byte {
                b'(' => open += 1,
                b')' => open -= 1,
                _ => {}
            }
            open
        });
        assert_eq!(depths.max(), Some(16));
    }
}
