//! Random recordings of a table's clocks, which the table accepts for long.

use super::tables::{digits, Word};
use super::ticks::{self, Judged};
use crate::monitors::operands;
use crate::random::Random;
use second_opinion::{start_word, Kind, Pair, Table};

/// A recording as words: the commands of the header, the last of which is `$enddefinitions $end`,
/// and the body.
#[derive(Clone, Debug, Default)]
pub struct Recording {
    pub header: Vec<Vec<Word>>,
    pub body: Vec<Word>,
    /// The ids of the table's named clocks in the order of their numbers, then those of the ignored
    /// variables.
    pub ids: Vec<Word>,
    /// How many of the ids belong to clocks of the table.
    pub clocks: usize,
}

/// What a recording is made of.
#[derive(Clone, Copy, Debug)]
pub struct Plan {
    /// Steps to look for.
    pub steps: usize,
    /// Bytes that the recording may have.
    pub bytes: usize,
    /// Whether a step that some constraint refuses comes last.
    pub violated: bool,
}

impl Plan {
    /// A few steps, about half of the recordings ending in a violation.
    pub fn small(random: &mut Random) -> Plan {
        Plan {
            steps: random.within(0..=12),
            bytes: 65_536,
            violated: random.once_in(2),
        }
    }

    /// Up to some hundred steps.
    pub fn medium(random: &mut Random) -> Plan {
        Plan {
            steps: random.within(20..=300),
            bytes: 65_536,
            violated: random.once_in(2),
        }
    }

    /// As many steps as a recording may hold.
    pub fn long(random: &mut Random) -> Plan {
        Plan {
            steps: 40_000,
            bytes: 65_536 - random.within(0..=20_000),
            violated: random.once_in(2),
        }
    }
}

/// A word from a text.
pub fn word(text: &str) -> Word {
    text.as_bytes().to_vec()
}

/// The words of a text.
pub fn command(text: &str) -> Vec<Word> {
    text.split(' ').map(word).collect()
}

/// A declaration.
pub fn variable(id: &[u8], name: &[u8]) -> Vec<Word> {
    vec![
        word("$var"),
        word("event"),
        word("1"),
        id.to_vec(),
        name.to_vec(),
        word("$end"),
    ]
}

/// A recording of the table's clocks.
pub fn recording(random: &mut Random, table: &Table, plan: Plan) -> Recording {
    let ignored = if random.once_in(3) {
        random.within(1..=4)
    } else {
        0
    };
    let clocks = table.names.len();
    let ids = ids(random, clocks + ignored);
    let mut recording = Recording {
        header: header(random, table, &ids),
        body: Vec::new(),
        ids,
        clocks,
    };
    body(random, table, plan, &mut recording);
    recording
}

/// Different ids of 1 to 4 bytes: in order, as recorders give them, or any.
fn ids(random: &mut Random, count: usize) -> Vec<Word> {
    if random.once_in(2) {
        return (0..count).map(|place| vec![b'!' + place as u8]).collect();
    }
    let longest = random.within(1..=4);
    let mut ids: Vec<Word> = Vec::new();
    while ids.len() < count {
        let id = any_id(random, longest);
        if !ids.contains(&id) {
            ids.push(id);
        }
    }
    ids
}

/// An id of at most so many bytes, sometimes one that looks like something else.
pub fn any_id(random: &mut Random, longest: usize) -> Word {
    if random.once_in(12) {
        return word(random.pick_word("0 1 x Z # $end #0 00 11 xx z# $var 1! 0\" ~~~~"));
    }
    (0..random.within(1..=longest))
        .map(|_| random.within(33..=126) as u8)
        .collect()
}

/// The declarations in any order, with the commands that say nothing between them.
fn header(random: &mut Random, table: &Table, ids: &[Word]) -> Vec<Vec<Word>> {
    let known = table.names.len();
    let mut commands: Vec<Vec<Word>> = Vec::new();
    for (place, id) in ids.iter().enumerate() {
        let name = if place < known {
            table.names[place].clone().into_bytes()
        } else {
            ignored_name(random, table)
        };
        commands.push(variable(id, &name));
    }
    if random.once_in(2) {
        random.shuffle(&mut commands);
    }
    while random.once_in(2) {
        commands.insert(random.below(commands.len() + 1), skipped(random));
    }
    commands.push(command("$enddefinitions $end"));
    commands
}

/// A name that the table lacks.
fn ignored_name(random: &mut Random, table: &Table) -> Word {
    let names = "other clk x $end [3:0] a.b = await for deferred 0 a_name_of_over_16_bytes #0 $var";
    let name = random.pick_word(names);
    if table.names.iter().any(|known| known == name) {
        return word("~");
    }
    word(name)
}

/// A command that the header skips.
fn skipped(random: &mut Random) -> Vec<Word> {
    let commands = [
        "$date today $end",
        "$date $end",
        "$version $var event 1 ! a $end",
        "$comment $enddefinitions #0 1! $comment $end",
        "$comment $end",
        "$timescale 1ns $end",
        "$timescale 1 us $end",
        "$scope module top $end",
        "$upscope $end",
    ];
    command(random.pick(&commands))
}

/// When marks come and how they are written.
struct Times {
    next: Option<u64>,
    period: u64,
    /// A mark at every sampling period, or only where something ticks.
    every: bool,
}

impl Times {
    fn any(random: &mut Random) -> Times {
        let first = match random.below(10) {
            0 => u64::MAX - 3,
            1 => u64::MAX - 400_000,
            2 => 1_000_000,
            _ => random.below(2) as u64,
        };
        Times {
            next: Some(first),
            period: random.pick(&[1, 1, 2, 10, 1000]),
            every: random.once_in(2),
        }
    }

    /// The next time, if there is one.
    fn take(&mut self, random: &mut Random) -> Option<u64> {
        let now = self.next?;
        let periods = if self.every {
            1
        } else {
            random.within(1..=3) as u64
        };
        self.next = now.checked_add(self.period * periods);
        Some(now)
    }
}

/// Clocks that tick seldom, so that the delays they are operands of stay pending for long.
struct Slow {
    clocks: u32,
    /// They may tick once in so many steps.
    times: usize,
}

impl Slow {
    /// None, or operands of delays: all, those whose ticks are counted, or any.
    fn any(random: &mut Random, table: &Table) -> Slow {
        let delays = table.records.iter().filter(|r| r.kind == Kind::Deferred);
        let set = |set: u32, clock: u64| set | 1 << clock;
        let all = delays.clone().flat_map(operands).fold(0, set);
        let counted = delays.map(|record| record.second).fold(0, set);
        let some = all & ticks::any(random, 32);
        Slow {
            clocks: random.pick(&[0, 0, all, counted, counted, some])
                & ticks::all(table.named as u32),
            times: random.pick(&[4, 20, 60, 200]),
        }
    }

    /// Those that may not tick in this step.
    fn resting(&self, random: &mut Random) -> u32 {
        if self.clocks == 0 || random.once_in(self.times) {
            0
        } else {
            self.clocks
        }
    }
}

/// Steps that hold, one after another, and one that fails where the plan has it.
fn body(random: &mut Random, table: &Table, plan: Plan, recording: &mut Recording) {
    let judged = Judged::new(&table.records, table.named as u32);
    let mut words: Vec<Pair> = table.records.iter().map(start_word).collect();
    let mut times = Times::any(random);
    let slow = Slow::any(random, table);
    let plain = random.once_in(2);
    let mut left = plan.bytes.saturating_sub(size(recording) + 300);
    for _ in 0..plan.steps {
        let resting = times.every && !random.once_in(3);
        let set = if resting {
            0
        } else {
            let without = slow.resting(random);
            judged.holding_without(random, &words, without)
        };
        if set == 0 && !times.every {
            continue;
        }
        let Some(time) = times.take(random) else {
            return;
        };
        let step = step_words(random, time, set, recording, plain);
        let bytes: usize = step.iter().map(|word| word.len() + 1).sum();
        if bytes > left {
            break;
        }
        left -= bytes;
        recording.body.extend(step);
        judged.step(&mut words, set);
    }
    if plan.violated {
        if let Some(set) = judged.failing(random, &words) {
            violation(random, set, &mut times, recording, plain);
        }
    }
}

/// A step that fails, and perhaps something behind it, which a run does not read: a strange mark, or
/// steps with any ticks.
fn violation(
    random: &mut Random,
    set: u32,
    times: &mut Times,
    recording: &mut Recording,
    plain: bool,
) {
    let mut next = Some(set);
    while let (Some(set), Some(time)) = (next, times.take(random)) {
        let step = step_words(random, time, set, recording, plain);
        recording.body.extend(step);
        next = random.once_in(3).then(|| ticks::any(random, 32));
    }
    if random.once_in(2) {
        let words = "# #0 #18446744073709551615 #x #99999999999999999999 ##";
        recording.body.push(word(random.pick_word(words)));
    }
}

/// Any value of a change.
pub fn value(random: &mut Random) -> u8 {
    random.pick(b"01xXzZ")
}

/// The words of one step: its mark, its ticks in any order and with any values, and ticks of ignored
/// variables between them; in order, with the value `1` and alone, if it is to be plain.
fn step_words(
    random: &mut Random,
    time: u64,
    set: u32,
    recording: &Recording,
    plain: bool,
) -> Vec<Word> {
    let mut changes: Vec<Word> = Vec::new();
    for (clock, id) in recording.ids.iter().enumerate().take(recording.clocks) {
        if set >> clock & 1 == 1 {
            let value = if plain { b'1' } else { value(random) };
            changes.push(change(value, id));
        }
    }
    if !plain {
        let ignored = &recording.ids[recording.clocks..];
        while !ignored.is_empty() && random.once_in(2) {
            changes.push(change(value(random), &random.pick(ignored)));
        }
        random.shuffle(&mut changes);
    }
    let digits = if plain {
        time.to_string().into_bytes()
    } else {
        digits(random, time)
    };
    changes.insert(0, [b"#".to_vec(), digits].concat());
    changes
}

/// A change: its value, then the id.
pub fn change(value: u8, id: &[u8]) -> Word {
    [&[value], id].concat()
}

/// Bytes of the recording with one byte between any two words.
fn size(recording: &Recording) -> usize {
    recording
        .header
        .iter()
        .flatten()
        .chain(&recording.body)
        .map(|word| word.len() + 1)
        .sum()
}

impl Recording {
    /// The text: a line a command and a word, or words parted in every way there is.
    pub fn write(&self, random: &mut Random) -> Vec<u8> {
        let wild = size(self) < 50_000 && random.once_in(3);
        let mut text = Vec::new();
        if wild && random.once_in(2) {
            parting(random, wild, b' ', &mut text);
        }
        let words = self.header.iter().flatten().chain(&self.body);
        for (place, word) in words.enumerate() {
            if place > 0 {
                let byte = if word.starts_with(b"$") && !word.starts_with(b"$end")
                    || word.starts_with(b"#")
                {
                    b'\n'
                } else {
                    b' '
                };
                parting(random, wild, byte, &mut text);
            }
            text.extend(word);
        }
        if random.once_in(2) {
            parting(random, wild, b'\n', &mut text);
        }
        text
    }
}

/// One byte between words; or one or more of all that part them.
fn parting(random: &mut Random, wild: bool, byte: u8, text: &mut Vec<u8>) {
    if !wild {
        text.push(byte);
        return;
    }
    text.push(random.pick(b"\t\n\r "));
    while random.once_in(5) {
        text.push(random.pick(b"\t\n\r "));
    }
}
