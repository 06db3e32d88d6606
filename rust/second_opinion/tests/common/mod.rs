//! What several test files share.
#![allow(dead_code)]

use second_opinion::*;

pub const MILLION: i64 = 1_000_000;

pub const KINDS: [Kind; 15] = [
    Kind::Empty,
    Kind::Coincides,
    Kind::Excludes,
    Kind::SubClock,
    Kind::StrictlyPrecedes,
    Kind::Precedes,
    Kind::Union,
    Kind::Inter,
    Kind::Lub,
    Kind::Glb,
    Kind::Await,
    Kind::StrictlySampled,
    Kind::Sampled,
    Kind::Upto,
    Kind::Deferred,
];

/// The tick of a, b and c in the records that `record` makes.
pub const A: u32 = 1;
pub const B: u32 = 2;
pub const C: u32 = 4;

/// A record over a = 0, b = 1 and c = 2, with 3 clocks in all. The number means
/// something to await alone, and the list to a delay alone.
pub fn record(kind: Kind) -> Record {
    Record {
        kind,
        defined: 2,
        first: 0,
        second: 1,
        number: 6,
        delays: delays(&[2, 3]),
        line: 1,
    }
}

pub fn awaiting(number: u64) -> Record {
    Record {
        number,
        ..record(Kind::Await)
    }
}

/// A list of at most eight numbers, with zeros past its length.
pub fn delays(list: &[u8]) -> Delays {
    let mut numbers = [0; 8];
    numbers[..list.len()].copy_from_slice(list);
    Delays {
        numbers,
        length: list.len() as u64,
    }
}

pub fn deferring(list: &[u8]) -> Record {
    Record {
        delays: delays(list),
        ..record(Kind::Deferred)
    }
}

/// A configuration that begins with these pairs.
pub fn pairs(first: &[Pair]) -> Configuration {
    let mut configuration = [[0, 0]; WORDS];
    configuration[..first.len()].copy_from_slice(first);
    configuration
}

/// A configuration that begins with these words, each with 0 as its second:
/// "for all others the second is 0" (M-105).
pub fn words(first: &[i64]) -> Configuration {
    let first: Vec<Pair> = first.iter().map(|&word| [word, 0]).collect();
    pairs(&first)
}

/// One record other than a delay, judged by its word.
pub fn judged(record: &Record, word: i64, ticks: u32) -> (bool, i64) {
    let (holds, [after, second]) = judge(record, [word, 0], ticks);
    assert_eq!(second, 0);
    (holds, after)
}

/// Whether a record, judged by itself, accepts a continuation from a pair.
pub fn accepts(record: &Record, mut pair: Pair, continuation: &[u32]) -> bool {
    continuation.iter().all(|&ticks| {
        let (holds, after) = judge(record, pair, ticks);
        pair = after;
        holds
    })
}

/// A single step by value, all clocks being named.
pub fn stepped(
    records: &[Record],
    clocks: u64,
    mut configuration: Configuration,
    ticks: u32,
) -> (StepAnswer, Configuration) {
    let answer = step(records, clocks, clocks, &mut configuration, ticks);
    (answer, configuration)
}

pub fn refusal(number: u64, place: usize) -> Refusal {
    Refusal {
        number,
        place: place as u64,
    }
}

pub fn refused(number: u64, place: usize) -> StepAnswer {
    StepAnswer::Refused(refusal(number, place))
}

/// What the order question refuses, 21 aside.
pub fn order_refusal(records: &[Record], named: u64, clocks: u64) -> Option<Refusal> {
    let refused = definition_order(records, named, clocks).err();
    refused.filter(|refusal| refusal.number != 21)
}

/// The refusal of a table that must have one.
pub fn table_refusal(text: impl AsRef<[u8]>) -> (u64, u64) {
    let refusal = read_table(text.as_ref()).expect_err("a refused table");
    (refusal.number, refusal.place)
}

pub fn table(text: impl AsRef<[u8]>) -> Table {
    read_table(text.as_ref()).expect("an accepted table")
}

/// Declares a as `!`, b as `"` and c as `%`, and closes the header.
pub const HEADER: &str =
    "$var event 1 ! a $end $var event 1 \" b $end $var event 1 % c $end $enddefinitions $end ";

/// "the form words below are not names"; "`deferred` and `for` become form
/// words" (M-105)
pub const FORM_WORDS: [&str; 13] = [
    "isSubClockOf",
    "strictly",
    "precedes",
    "clockDef",
    "clockUnion",
    "clockInter",
    "lub",
    "glb",
    "await",
    "sampled",
    "upto",
    "deferred",
    "for",
];

/// The commands that the header skips "up to their `$end`".
pub const SKIPPED: [&str; 6] = [
    "$date",
    "$version",
    "$comment",
    "$timescale",
    "$scope",
    "$upscope",
];

/// "Each of 0, 1, x, X, z, Z before an id is now a tick" (M-100).
pub const VALUES: [&str; 6] = ["0", "1", "x", "X", "z", "Z"];

/// A run with the choice to ignore names that the table lacks (M-103).
pub fn run_ignoring(table: &[u8], recording: &[u8]) -> Report {
    run(table, recording, UnknownNames::Ignored)
}

/// The verdict and the steps of a run that ignores unknown names.
pub fn verdict(table: &str, recording: impl AsRef<[u8]>) -> (Verdict, u64) {
    let report = run_ignoring(table.as_bytes(), recording.as_ref());
    (report.verdict, report.steps)
}

pub fn refused_run(number: u64, place: usize, steps: u64) -> (Verdict, u64) {
    (Verdict::Refused(refusal(number, place)), steps)
}

/// `a` over `b`, as read from a table: the defined clock and the number are
/// those of a relation, 0.
pub fn relation(kind: Kind, a: u64, b: u64, line: u64) -> Record {
    Record {
        kind,
        defined: 0,
        first: a,
        second: b,
        number: 0,
        delays: Delays::default(),
        line,
    }
}

/// `c clockDef a … b`, as read from a table.
pub fn definition(kind: Kind, c: u64, a: u64, b: u64, line: u64) -> Record {
    Record {
        defined: c,
        ..relation(kind, a, b, line)
    }
}

/// `c clockDef await n a`, as read from a table.
pub fn await_definition(c: u64, n: u64, a: u64, line: u64) -> Record {
    Record {
        number: n,
        ..definition(Kind::Await, c, a, 0, line)
    }
}

/// `c clockDef a deferred b for …`, as read from a table.
pub fn delay_definition(c: u64, a: u64, b: u64, list: &[u8], line: u64) -> Record {
    Record {
        delays: delays(list),
        ..definition(Kind::Deferred, c, a, b, line)
    }
}

/// A small generator of numbers, the same on every run.
pub struct Numbers(pub u64);

impl Numbers {
    pub fn next(&mut self) -> u64 {
        self.0 = self
            .0
            .wrapping_mul(6364136223846793005)
            .wrapping_add(1442695040888963407);
        self.0 >> 33
    }

    pub fn below(&mut self, bound: u64) -> u64 {
        self.next() % bound
    }

    pub fn pick<T: Copy>(&mut self, from: &[T]) -> T {
        from[self.below(from.len() as u64) as usize]
    }
}
