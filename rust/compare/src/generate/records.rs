//! Records, configurations and tick sets for start words, the single step and the same-place
//! question, mostly such as are not refused.

use super::tables::{self, kind_of, Size};
use super::ticks::{self, Judged};
use crate::case::{table_clocks, Case};
use crate::monitors::{defines, KINDS};
use crate::random::Random;
use ccsl::Clocks;
use second_opinion::{Configuration, Delays, Kind, Pair, Record, WORDS};

const MILLION: i64 = 1_000_000;

/// Numbers of clocks at which something could go wrong.
const CLOCKS: [u64; 13] = [
    0,
    1,
    31,
    32,
    33,
    63,
    64,
    255,
    256,
    258,
    1 << 32,
    (1 << 32) + 1,
    u64::MAX,
];

/// Counts of clocks, named or all, at which something could go wrong.
const COUNTS: [u32; 13] = [
    0,
    1,
    31,
    32,
    33,
    34,
    64,
    255,
    256,
    257,
    258,
    65_538,
    u32::MAX,
];

/// Records over a number of clocks, well formed.
pub struct Material {
    pub records: Vec<Record>,
    pub clocks: Clocks,
}

/// A question about start words.
pub fn start(random: &mut Random) -> Case {
    let Material {
        mut records,
        mut clocks,
    } = Material::any(random);
    while random.once_in(2) {
        spoil_records(random, &mut records, &mut clocks);
    }
    Case::Start { records, clocks }
}

/// A question about one step.
pub fn step(random: &mut Random) -> Case {
    let Material {
        mut records,
        mut clocks,
    } = Material::any(random);
    let mut words = configuration(random, &records, pair);
    let judged = Judged::new(&records, clocks.named);
    let mut set = match random.below(10) {
        0..=5 => judged.holding(random, &words),
        6 | 7 => judged.failing(random, &words).unwrap_or(0),
        _ => ticks::any(random, clocks.named),
    };
    while random.once_in(4) {
        match random.below(5) {
            0 | 1 => spoil_records(random, &mut records, &mut clocks),
            2 | 3 => spoil_words(random, &records, &mut words),
            _ => set |= 1 << bit_above(random, clocks),
        }
    }
    Case::Step {
        records,
        clocks,
        words,
        ticks: set,
    }
}

/// 61: a bit at or above the named count, mostly an implicit clock's where there is one.
fn bit_above(random: &mut Random, clocks: Clocks) -> usize {
    let lowest = clocks.named.min(31) as usize;
    let highest = clocks.count.saturating_sub(1).min(31) as usize;
    if lowest <= highest && !random.once_in(3) {
        random.within(lowest..=highest)
    } else {
        random.within(lowest..=31)
    }
}

/// A question about two configurations.
pub fn place(random: &mut Random) -> Case {
    let Material {
        mut records,
        mut clocks,
    } = Material::any(random);
    let mut first = configuration(random, &records, pair);
    let mut second = first;
    match random.below(4) {
        0 => second = configuration(random, &records, pair),
        1 | 2 if !records.is_empty() => {
            let place = random.below(records.len());
            second[place] = other_pair(random, &records[place], first[place]);
        }
        _ => {}
    }
    while random.once_in(4) {
        match random.below(4) {
            0 | 1 => spoil_records(random, &mut records, &mut clocks),
            2 => spoil_words(random, &records, &mut first),
            _ => spoil_words(random, &records, &mut second),
        }
    }
    Case::Place {
        records,
        clocks,
        first,
        second,
    }
}

/// A question about two configurations of few clocks and small words, whose continuations can all
/// be looked at; sometimes delays have any numbers and any pairs.
pub fn search(random: &mut Random) -> Case {
    let named = random.within(2..=5) as u32;
    let implicit = if random.once_in(4) {
        random.within(1..=2) as u32
    } else {
        0
    };
    let clocks = Clocks {
        named,
        count: named + implicit,
    };
    let count = random.within(1..=3);
    let Material { mut records, .. } = Material::of(random, clocks, count);
    let long = random.once_in(4);
    for record in &mut records {
        match record.kind {
            Kind::Await => record.number = random.within(1..=6) as u64,
            Kind::Deferred if !long => record.delays = small_delays(random, record.delays),
            _ => {}
        }
    }
    let pair = if long { pair_for_search } else { small_pair };
    let first = configuration(random, &records, pair);
    let mut second = first;
    let place = random.below(records.len());
    if !random.once_in(3) {
        second[place] = other_for_search(random, &records[place], first[place], long);
    }
    Case::Search {
        records,
        clocks,
        first,
        second,
        depth: 16,
    }
}

/// A pair that a search can tell from another, if it is another: of a delay often with the same pending
/// ticks.
fn other_for_search(random: &mut Random, record: &Record, one: Pair, long: bool) -> Pair {
    match record.kind {
        Kind::Deferred if long => other_pair(random, record, one),
        Kind::Deferred if random.once_in(3) => [one[0], small_pair(random, record)[1]],
        _ => small_pair(random, record),
    }
}

/// A list of at most three numbers, each at most three, of a proper one.
fn small_delays(random: &mut Random, delays: Delays) -> Delays {
    Delays {
        numbers: delays.numbers.map(|_| random.within(1..=3) as u8),
        length: delays.length.min(3),
    }
}

impl Material {
    /// Mostly few records over few clocks, some of them often implicit; sometimes those of a table.
    fn any(random: &mut Random) -> Material {
        if random.once_in(16) {
            return Material::of_table(random);
        }
        let named = match random.below(12) {
            0 => random.within(0..=2),
            1 | 2 => random.within(6..=32),
            3 => 32,
            _ => random.within(2..=5),
        };
        let implicit = match random.below(24) {
            0..=2 => random.within(1..=3),
            3 => random.within(1..=10),
            4 => 32 - named,
            _ => 0,
        };
        let clocks = Clocks {
            named: named as u32,
            count: (named + implicit).min(32) as u32,
        };
        let count = match random.below(20) {
            0 => 0,
            1 => random.within(62..=64),
            2 | 3 => random.within(6..=64),
            _ => random.within(1..=5),
        };
        Material::of(random, clocks, count)
    }

    /// The records of a nested table.
    fn of_table(random: &mut Random) -> Material {
        let size = Size::any(random).nested(random);
        let text = tables::text(random, size);
        let table = second_opinion::read_table(&text).unwrap_or_default();
        Material {
            clocks: table_clocks(&table),
            records: table.records,
        }
    }

    fn of(random: &mut Random, clocks: Clocks, count: usize) -> Material {
        let mut records: Vec<Record> = Vec::new();
        let mut defined = Vec::new();
        while records.len() < count {
            let record = record(random, clocks, &defined);
            if defines(record.kind) {
                if defined.contains(&record.defined) {
                    continue;
                }
                defined.push(record.defined);
            }
            records.push(record);
        }
        Material { records, clocks }
    }
}

/// A record over different clocks, with anything where its kind names nothing. It uses an implicit
/// clock only where it is among those that are defined above, and defines often one that is not.
pub fn record(random: &mut Random, clocks: Clocks, defined: &[u64]) -> Record {
    let is_named = |clock: &u64| *clock < u64::from(clocks.named);
    let (mut order, waiting): (Vec<u64>, Vec<u64>) =
        (0..u64::from(clocks.count)).partition(|clock| is_named(clock) || defined.contains(clock));
    random.shuffle(&mut order);
    let kinds: Vec<Kind> = KINDS
        .into_iter()
        .filter(|kind| match kind {
            Kind::Empty => true,
            Kind::Await => !order.is_empty() && clocks.count > 1,
            kind if defines(*kind) => order.len() > 1 && clocks.count > 2,
            _ => order.len() > 1,
        })
        .collect();
    let mut kind = kind_of(random, &kinds);
    while !waiting.is_empty() && !defines(kind) && random.once_in(2) {
        kind = kind_of(random, &kinds);
    }
    let others: Vec<u64> = order
        .iter()
        .skip(2)
        .copied()
        .chain(waiting.clone())
        .collect();
    let number = number(random, kind);
    let pair = !matches!(kind, Kind::Empty | Kind::Await);
    Record {
        kind,
        first: if kind == Kind::Empty {
            free(random)
        } else {
            order[0]
        },
        second: if pair { order[1] } else { free(random) },
        defined: match kind {
            kind if !defines(kind) => free(random),
            _ if !waiting.is_empty() && !random.once_in(4) => random.pick(&waiting),
            Kind::Await if others.is_empty() => order[1],
            _ => random.pick(&others),
        },
        number,
        delays: delays(random, kind),
        line: free(random),
    }
}

/// A number for an await, or for a kind that names none.
pub fn number(random: &mut Random, kind: Kind) -> u64 {
    match kind {
        Kind::Await => random.pick(&[1, 1, 2, 2, 3, 10, 999_999, 1_000_000]),
        _ => free(random),
    }
}

/// A list for a delay, often with anything past its length; or one for a kind that has none.
pub fn delays(random: &mut Random, kind: Kind) -> Delays {
    if kind != Kind::Deferred {
        return if random.once_in(4) {
            any_delays(random)
        } else {
            Delays::default()
        };
    }
    let Delays {
        mut numbers,
        length,
    } = tables::delays(random);
    if random.once_in(2) {
        numbers[length as usize..].copy_from_slice(&any_delays(random).numbers[length as usize..]);
    }
    Delays { numbers, length }
}

/// A list of any length with any numbers, mostly such as stand at an edge.
fn any_delays(random: &mut Random) -> Delays {
    let edges = [0, 1, 2, 31, 32, 33, 34, 64, 127, 128, 160, 254, 255];
    let lengths = [
        9,
        10,
        16,
        255,
        256,
        257,
        264,
        1 << 32,
        (1 << 32) + 1,
        1 << 63,
        u64::MAX,
    ];
    let mut numbers = tables::delays(random).numbers;
    for number in &mut numbers {
        if random.once_in(3) {
            *number = if random.once_in(2) {
                random.pick(&edges)
            } else {
                random.below(256) as u8
            };
        }
    }
    Delays {
        numbers,
        length: match random.below(3) {
            0 => random.pick(&lengths),
            _ => random.below(10) as u64,
        },
    }
}

/// A number for a field that means nothing.
pub fn free(random: &mut Random) -> u64 {
    if random.once_in(4) {
        random.pick(&CLOCKS)
    } else {
        0
    }
}

/// A configuration with pairs by the rule.
fn configuration(
    random: &mut Random,
    records: &[Record],
    pair: fn(&mut Random, &Record) -> Pair,
) -> Configuration {
    let mut words = [[0, 0]; WORDS];
    for (place, record) in records.iter().enumerate().take(WORDS) {
        words[place] = pair(random, record);
    }
    words
}

/// A pair in range, often at an edge.
pub fn pair(random: &mut Random, record: &Record) -> Pair {
    let used = match record.kind {
        Kind::Deferred => used(random, record),
        _ => 0,
    };
    [word(random, record), used]
}

/// How many numbers of a list are used, often none or all.
fn used(random: &mut Random, record: &Record) -> i64 {
    let length = record.delays.length as usize;
    let any = random.within(0..=length);
    random.pick(&[0, any, any, length]) as i64
}

/// A pair in range, for a delay often with one of the words of another pair, or with a pending word of
/// one bit more or less.
fn other_pair(random: &mut Random, record: &Record, one: Pair) -> Pair {
    let other = pair(random, record);
    let random_bit = random.below(32);
    match random.below(4) {
        _ if record.kind != Kind::Deferred => other,
        0 => [one[0], other[1]],
        1 => [other[0], one[1]],
        2 => [one[0] ^ 1 << random.pick(&[0, 31, random_bit]), one[1]],
        _ => other,
    }
}

/// A word in range, often at an edge.
fn word(random: &mut Random, record: &Record) -> i64 {
    let gap = match random.below(8) {
        0..=3 => random.within(0..=3) as i64,
        4 => MILLION - 1,
        5 | 6 => MILLION,
        _ => random.within(0..=1_000_000) as i64,
    };
    match record.kind {
        Kind::StrictlyPrecedes | Kind::Precedes => gap,
        Kind::Lub | Kind::Glb => gap * random.pick(&[1, -1]),
        Kind::Await => random
            .pick(&[0, 1, 2, gap, record.number as i64 - 1, record.number as i64])
            .min(record.number as i64),
        Kind::Deferred => pending(random),
        _ => small_word(random, record),
    }
}

/// Pending ticks in range: none, few, many, the next one, the last one or all.
fn pending(random: &mut Random) -> i64 {
    let any = random.bits() >> 32;
    let few = any & random.bits() & random.bits();
    let edges = [0, 0, 1, 2, 3, 1 << 31, (1 << 31) + 1, u64::from(u32::MAX)];
    let edge = random.pick(&edges);
    random.pick(&[any, few, few | 1, edge, edge]) as i64
}

/// A pair in range, with words from -6 to 7 and at most three numbers used.
fn small_pair(random: &mut Random, record: &Record) -> Pair {
    let used = match record.kind {
        Kind::Deferred => random.within(0..=record.delays.length.min(3) as usize) as i64,
        _ => 0,
    };
    [small_word(random, record), used]
}

/// The same but for delays, which have any.
fn pair_for_search(random: &mut Random, record: &Record) -> Pair {
    match record.kind {
        Kind::Deferred => pair(random, record),
        _ => small_pair(random, record),
    }
}

/// A word in range, from -6 to 7.
fn small_word(random: &mut Random, record: &Record) -> i64 {
    let small = random.within(0..=6) as i64;
    match record.kind {
        Kind::StrictlyPrecedes | Kind::Precedes => small,
        Kind::Lub | Kind::Glb => small * random.pick(&[1, -1]),
        Kind::Await => small.min(record.number as i64),
        Kind::StrictlySampled | Kind::Sampled => small.min(2),
        Kind::Upto => small.min(1),
        Kind::Deferred => random.below(8) as i64,
        _ => 0,
    }
}

/// 59 and its other side.
pub fn spoil_records(random: &mut Random, records: &mut Vec<Record>, clocks: &mut Clocks) {
    if records.is_empty() || random.once_in(5) {
        return spoil_counts(random, clocks);
    }
    if random.once_in(8) {
        let many = random.pick(&[63, 64, 65, 66, 67, 70, 200]);
        let more = records[0];
        return records.resize(
            records.len().max(many),
            Record {
                kind: random.pick(&[Kind::Empty, Kind::Excludes, more.kind]),
                ..more
            },
        );
    }
    let (place, other) = (random.below(records.len()), random.below(records.len()));
    if random.once_in(6) {
        return spoil_order(random, records, place, other);
    }
    let at_edge = [
        u64::from(clocks.named),
        u64::from(clocks.count),
        u64::from(clocks.count) + 1,
        random.pick(&CLOCKS),
    ];
    let defined = records[other].defined;
    if random.once_in(5) {
        return spoil_delays(random, &mut records[place]);
    }
    let record = &mut records[place];
    match random.below(8) {
        0 => record.first = random.pick(&at_edge),
        1 => record.second = random.pick(&at_edge),
        2 => record.defined = random.pick(&at_edge),
        3 => record.second = record.first,
        4 => record.defined = record.first,
        5 => record.defined = record.second,
        6 => {
            record.number =
                random.pick(&[0, 1, 1_000_000, 1_000_001, 1 << 32, (1 << 32) + 1, u64::MAX])
        }
        _ => record.defined = defined,
    }
}

/// Any list, or one that is nearly proper; often of a record that becomes a delay.
fn spoil_delays(random: &mut Random, record: &mut Record) {
    if !random.once_in(3) {
        record.kind = Kind::Deferred;
    }
    let place = random.below(8);
    match random.below(4) {
        0 => record.delays = any_delays(random),
        1 => record.delays.length = any_delays(random).length,
        2 => {
            record.delays = tables::delays(random);
            record.delays.numbers[place] = random.pick(&[0, 1, 32, 33, 255]);
        }
        _ => record.delays.length = random.pick(&[0, 1, 7, 8, 9, 9]),
    }
}

/// Another number of clocks, or of named ones, also more than there are.
fn spoil_counts(random: &mut Random, clocks: &mut Clocks) {
    match random.below(8) {
        0 | 1 => *clocks = Clocks::all_named(random.pick(&COUNTS)),
        2 => clocks.count = random.pick(&COUNTS),
        3 => clocks.named = random.pick(&COUNTS),
        4 => clocks.named = clocks.count.saturating_add(1),
        5 => clocks.named = clocks.named.saturating_add(1),
        6 => clocks.named = clocks.named.saturating_sub(1),
        _ => clocks.named = random.below(clocks.count.min(32) as usize + 1) as u32,
    }
}

/// Two records change places, or one is gone, so that a definition may stand below its use or
/// nowhere.
fn spoil_order(random: &mut Random, records: &mut Vec<Record>, place: usize, other: usize) {
    match random.below(3) {
        0 => records.swap(place, other),
        1 => records[place].kind = Kind::Empty,
        _ => drop(records.remove(place)),
    }
}

/// 60 and its other side: one of the words of a pair, or both.
fn spoil_words(random: &mut Random, records: &[Record], words: &mut Configuration) {
    let places = if random.once_in(3) {
        WORDS
    } else {
        records.len().clamp(1, WORDS)
    };
    let is_delay = |place: &usize| records[*place].kind == Kind::Deferred;
    let delays: Vec<usize> = (0..records.len().min(WORDS)).filter(is_delay).collect();
    let place = if delays.is_empty() || random.once_in(2) {
        random.below(places)
    } else {
        random.pick(&delays)
    };
    let record = records.get(place);
    let half = random.below(2);
    words[place][half] = strange_word(random, record, half);
    if random.once_in(4) {
        words[place][1 - half] = strange_word(random, record, 1 - half);
    }
}

/// A word at an edge, often that of the record's range.
fn strange_word(random: &mut Random, record: Option<&Record>, half: usize) -> i64 {
    let edges = [
        -1,
        1,
        2,
        3,
        -MILLION,
        MILLION,
        -MILLION - 1,
        MILLION + 1,
        i64::MIN,
        i64::MAX,
        1 << 31,
        (1 << 32) - 1,
        1 << 32,
        -(1 << 32),
        (1 << 32) + 1,
    ];
    let at_edge =
        |random: &mut Random, last: u64| (last as i64).saturating_add(random.pick(&[-1, 0, 1]));
    match (record.map(|record| record.kind), half) {
        (Some(Kind::Await), 0) if random.once_in(2) => {
            at_edge(random, record.map_or(0, |record| record.number))
        }
        (Some(Kind::Deferred), 0) if random.once_in(2) => at_edge(random, u64::from(u32::MAX)),
        (Some(Kind::Deferred), 1) if random.once_in(2) => {
            at_edge(random, record.map_or(0, |record| record.delays.length))
        }
        _ => random.pick(&edges),
    }
}
