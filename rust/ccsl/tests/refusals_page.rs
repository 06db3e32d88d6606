//! The page of refusals for trainees, `docs/refusals.md`: each number has its heading, each block
//! on it the answer that it states, each mark of its tables the place, and each number of a run its
//! folder in `examples/refusals`.
//!
//! A block is fenced with ```` ```step ````, ```` ```same-place ```` or ```` ```order ````, one item a
//! line:
//!
//! - `clocks 3`, and `named 2` where not all of them are named
//! - `record precedes c=0 a=0 b=1 n=0`, and of a delay its list: `record deferred c=2 a=0 b=1 for=2,3`
//! - `words 1 5/2`, a pair a record, its first word alone where the second is 0; or `first 1 5/2` and
//!   `second 1 5/2`
//! - `ticks 0 1`
//! - `answer accepted`, `violated 1`, `same`, `different`, `listed 2 1` or `refused 51 1`

use ccsl::{
    Clocks, Configuration, Delays, Kind, Record, Report, SamePlace, StepAnswer, KINDS, PAIRS,
};
use std::fs;
use std::path::{Path, PathBuf};

/// The numbers of a run with unknown names ignored, the one more with unknown names refused, and those
/// of the calls on records.
const OF_A_RUN: [u64; 25] = [
    10, 11, 12, 13, 14, 15, 16, 17, 18, 19, 20, 22, 30, 31, 32, 33, 34, 35, 36, 37, 40, 41, 42, 43,
    44,
];
const OF_A_STRICT_RUN: u64 = 38;
const OF_A_CALL: [u64; 5] = [21, 51, 59, 60, 61];

/// The words for the kinds, in the order of [`KINDS`].
const WORDS_OF_KINDS: [&str; 15] = [
    "empty",
    "coincides",
    "excludes",
    "sub-clock",
    "strictly-precedes",
    "precedes",
    "union",
    "inter",
    "lub",
    "glb",
    "await",
    "strictly-sampled",
    "sampled",
    "upto",
    "deferred",
];

/// The call that a block asks.
#[derive(Clone, Copy, Debug, PartialEq)]
enum Asked {
    Step,
    SamePlace,
    Order,
}

/// A block of the page.
struct Block {
    asked: Asked,
    records: Vec<Record>,
    clocks: Clocks,
    /// Of `words` or `first`, and of `second`.
    configurations: [Configuration; 2],
    ticks: u32,
    answer: String,
}

fn repository() -> PathBuf {
    Path::new(env!("CARGO_MANIFEST_DIR")).join("../..")
}

fn page() -> String {
    let path = repository().join("docs/refusals.md");
    fs::read_to_string(&path).unwrap_or_else(|e| panic!("{}: {e}", path.display()))
}

/// The blocks of the page, each with the number of its first line.
fn blocks(page: &str) -> Vec<(usize, Block)> {
    let mut lines = page.lines().enumerate();
    let mut found = Vec::new();
    while let Some((number, line)) = lines.next() {
        let asked = match line.trim() {
            "```step" => Asked::Step,
            "```same-place" => Asked::SamePlace,
            "```order" => Asked::Order,
            _ => continue,
        };
        let items: Vec<&str> = lines
            .by_ref()
            .map(|(_, line)| line.trim())
            .take_while(|line| *line != "```")
            .collect();
        found.push((number + 1, block(asked, &items, number + 1)));
    }
    found
}

fn block(asked: Asked, items: &[&str], at: usize) -> Block {
    let mut block = Block {
        asked,
        records: Vec::new(),
        clocks: Clocks::all_named(0),
        configurations: [[[0; 2]; PAIRS]; 2],
        ticks: 0,
        answer: String::new(),
    };
    let mut named = None;
    for item in items.iter().filter(|item| !item.is_empty()) {
        let (word, rest) = item.split_once(' ').unwrap_or((item, ""));
        match word {
            "clocks" => block.clocks = Clocks::all_named(number(rest, at)),
            "named" => named = Some(number(rest, at)),
            "record" => block.records.push(record(rest, at)),
            "words" | "first" => block.configurations[0] = configuration(rest, at),
            "second" => block.configurations[1] = configuration(rest, at),
            "ticks" => {
                block.ticks = rest
                    .split_whitespace()
                    .fold(0, |set, clock| set | 1 << number::<u32>(clock, at))
            }
            "answer" => block.answer = rest.split_whitespace().collect::<Vec<_>>().join(" "),
            _ => panic!("line {at}: no such item: {item}"),
        }
    }
    block.clocks.named = named.unwrap_or(block.clocks.count);
    block
}

fn number<T: std::str::FromStr>(word: &str, at: usize) -> T {
    word.trim()
        .parse()
        .unwrap_or_else(|_| panic!("line {at}: no number: {word}"))
}

fn configuration(words: &str, at: usize) -> Configuration {
    let mut all = [[0; 2]; PAIRS];
    for (place, pair) in words.split_whitespace().enumerate() {
        let (first, second) = pair.split_once('/').unwrap_or((pair, "0"));
        all[place] = [number(first, at), number(second, at)];
    }
    all
}

fn record(words: &str, at: usize) -> Record {
    let mut words = words.split_whitespace();
    let name = words.next().unwrap_or("");
    let kind = WORDS_OF_KINDS
        .iter()
        .position(|k| *k == name)
        .unwrap_or_else(|| panic!("line {at}: no such kind: {name}"));
    let mut record = Record {
        kind: KINDS[kind],
        defined: 0,
        first: 0,
        second: 0,
        number: 0,
        delays: Delays::default(),
        line: 0,
    };
    for word in words {
        let (field, value) = word.split_once('=').unwrap_or((word, ""));
        match field {
            "c" => record.defined = number(value, at),
            "a" => record.first = number(value, at),
            "b" => record.second = number(value, at),
            "n" => record.number = number(value, at),
            "for" => record.delays = delays(value, at),
            _ => panic!("line {at}: no such field: {word}"),
        }
    }
    record
}

/// The list of a delay, its numbers parted by commas; `for=` is the empty list.
fn delays(list: &str, at: usize) -> Delays {
    let words = list.split(',').filter(|word| !word.is_empty());
    Delays::of(&words.map(|word| number(word, at)).collect::<Vec<u8>>())
}

/// What the library answers, in the words of the page.
fn answer(block: &Block) -> String {
    match block.asked {
        Asked::Step => step(block),
        Asked::SamePlace => same_place(block),
        Asked::Order => order(block),
    }
}

/// A step that is not accepted must leave the configuration alone.
fn step(block: &Block) -> String {
    let first = block.configurations[0];
    let mut words = first;
    let answer = ccsl::step(&block.records, block.clocks, &mut words, block.ticks);
    assert!(
        answer == StepAnswer::Accepted || words == first,
        "{answer:?} moved the configuration"
    );
    match answer {
        StepAnswer::Accepted => "accepted".to_string(),
        StepAnswer::Violated(record) => format!("violated {record}"),
        StepAnswer::Refused(refusal) => refusal.to_string(),
    }
}

fn same_place(block: &Block) -> String {
    let [first, second] = block.configurations;
    match ccsl::same_place(&block.records, block.clocks, &first, &second) {
        SamePlace::Same => "same".to_string(),
        SamePlace::Different => "different".to_string(),
        SamePlace::Refused(refusal) => refusal.to_string(),
    }
}

fn order(block: &Block) -> String {
    match ccsl::definition_order(&block.records, block.clocks) {
        Ok(order) => order.iter().fold("listed".to_string(), |text, number| {
            format!("{text} {number}")
        }),
        Err(refusal) => refusal.to_string(),
    }
}

#[test]
fn every_number_has_its_heading() {
    let page = page();
    for number in OF_A_RUN.iter().chain(&[OF_A_STRICT_RUN]).chain(&OF_A_CALL) {
        let heading = format!("## {number}");
        let is_heading = |line: &str| {
            line.strip_prefix(&heading)
                .is_some_and(|rest| !rest.starts_with(|c: char| c.is_ascii_digit()))
        };
        assert!(
            page.lines().any(is_heading),
            "docs/refusals.md has no heading {heading}"
        );
    }
}

#[test]
fn every_block_has_the_answer_that_it_states() {
    for (at, block) in blocks(&page()) {
        assert_eq!(
            answer(&block),
            block.answer,
            "docs/refusals.md, block in line {at}"
        );
    }
}

#[test]
fn every_number_of_a_call_has_a_block() {
    let blocks = blocks(&page());
    for number in OF_A_CALL {
        let start = format!("refused {number} ");
        assert!(
            blocks
                .iter()
                .any(|(_, block)| block.answer.starts_with(&start)),
            "docs/refusals.md has no block for {number}"
        );
    }
}

/// The marks of the page's tables, each with the number of its heading and the place that is stated.
fn marks(page: &str) -> Vec<(u64, &str, u64)> {
    let (mut heading, mut found) = (0, Vec::new());
    for (at, line) in page.lines().enumerate() {
        if let Some(title) = line.strip_prefix("## ") {
            heading = number(title.split(' ').next().unwrap_or(""), at);
        } else if let Some((mark, rest)) = line
            .strip_prefix("| `#")
            .and_then(|row| row.split_once("` | "))
        {
            let place = rest.split(" | ").next().unwrap_or("");
            found.push((heading, mark, number(place, at)));
        }
    }
    found
}

/// The answer where this stands behind the `#` of a mark at the offset 300, which closes a step.
fn mark_at_300(mark: &str, behind: &str) -> Report {
    let header = "$enddefinitions $end #0";
    let recording = format!("{header:300}#{mark}{behind}");
    ccsl::run(b"", recording.as_bytes())
}

#[test]
fn every_mark_has_the_place_that_is_stated() {
    let page = page();
    let marks = marks(&page);
    for heading in [40, 41] {
        assert!(
            marks.iter().any(|(number, _, _)| *number == heading),
            "docs/refusals.md has no mark for {heading}"
        );
    }
    for (number, mark, place) in marks {
        for behind in ["", " #9", "\n"] {
            let refused = format!("refused {number} {place}\nsteps 1\nconfig\n");
            assert_eq!(mark_at_300(mark, behind).to_string(), refused, "#{mark}");
        }
    }
}

#[test]
fn marks_are_read() {
    let page =
        "## 40 a\n| Mark | Place | It |\n|---|--:|---|\n| `#12ms` | 303 | the `m` |\n## 41\n\
        | `#` | 1 | b |\n";
    assert_eq!(marks(page), [(40, "12ms", 303), (41, "", 1)]);
}

/// What a file in the folder of a number has.
fn example(number: u64, file: &str) -> String {
    let path = repository().join(format!("examples/refusals/{number}/{file}"));
    fs::read_to_string(&path).unwrap_or_else(|e| panic!("{}: {e}", path.display()))
}

#[test]
fn every_number_of_a_run_has_a_folder() {
    let printed = OF_A_RUN.map(|number| (number, example(number, "printed")));
    let strict = (OF_A_STRICT_RUN, example(OF_A_STRICT_RUN, "strict"));
    for (number, text) in printed.into_iter().chain([strict]) {
        assert!(
            text.starts_with(&format!("refused {number} ")),
            "{number}: {text}"
        );
    }
    let ignored = example(OF_A_STRICT_RUN, "printed");
    assert!(!ignored.starts_with("refused "), "{ignored}");
}

#[test]
fn blocks_are_read() {
    let page = "text\n```step\nclocks 3\nrecord await c=2 a=1 n=2\n\
        record deferred c=0 a=1 b=2 for=2,3\nwords 2 6/1\nticks 0 1\nanswer  refused 51  1\n```\n\
        ```same-place\nnamed 1\nclocks 2\nfirst -1/3\nsecond 1\n```\n```order\n\
        record deferred for=\n```\n";
    let blocks = blocks(page);
    assert_eq!(
        blocks.iter().map(|(at, _)| *at).collect::<Vec<_>>(),
        [2, 10, 16]
    );
    let (one, two) = (&blocks[0].1, &blocks[1].1);
    assert_eq!(
        blocks.iter().map(|(_, b)| b.asked).collect::<Vec<_>>(),
        [Asked::Step, Asked::SamePlace, Asked::Order]
    );
    assert_eq!(
        (one.clocks, one.ticks, one.answer.as_str()),
        (Clocks::all_named(3), 0b011, "refused 51 1")
    );
    assert_eq!(
        one.records[0],
        Record {
            kind: Kind::Await,
            defined: 2,
            first: 1,
            second: 0,
            number: 2,
            delays: Delays::default(),
            line: 0
        }
    );
    assert_eq!(
        (one.records[1].kind, one.records[1].delays),
        (Kind::Deferred, Delays::of(&[2, 3]))
    );
    assert_eq!(blocks[2].1.records[0].delays, Delays::default());
    assert_eq!(one.configurations[0][..3], [[2, 0], [6, 1], [0, 0]]);
    assert_eq!((two.clocks.named, two.clocks.count), (1, 2));
    assert_eq!(
        (two.configurations[0][0], two.configurations[1][0]),
        ([-1, 3], [1, 0])
    );
}
