//! Tick sets on which all records hold, found by mending random ones; and some on which one fails.
//! A set has named clocks alone; the ticks of the implicit ones are worked out beside it.

use crate::monitors::{defines, operands};
use crate::random::Random;
use second_opinion::{judge, Pair, Record};

/// The set of all clocks below the count.
pub fn all(clocks: u32) -> u32 {
    if clocks >= 32 {
        u32::MAX
    } else {
        (1 << clocks) - 1
    }
}

/// A random set: few, about half or most of the clocks.
pub fn any(random: &mut Random, clocks: u32) -> u32 {
    let bits = random.bits();
    let (low, high) = (bits as u32, (bits >> 32) as u32);
    let set = match random.below(4) {
        0 => low & high,
        1 => low | high,
        2 => low & high & random.bits() as u32,
        _ => low,
    };
    set & all(clocks)
}

/// Records that limit 59 lets pass, for which sets are looked for.
pub struct Judged<'a> {
    records: &'a [Record],
    named: u32,
    /// The places of the records that define an implicit clock.
    implicit: Vec<usize>,
    /// By record: each named clock that it names or rests on, as a bit; of a definition the defined
    /// one several times, so that it is mostly the one to change.
    changes: Vec<Vec<u32>>,
}

impl<'a> Judged<'a> {
    pub fn new(records: &'a [Record], named: u32) -> Judged<'a> {
        // By clock: itself, or the named clocks that its definition rests on.
        let mut under: [u32; 32] = std::array::from_fn(|clock| 1 << clock);
        let mut implicit = Vec::new();
        let mut changes = Vec::new();
        for (place, record) in records.iter().enumerate() {
            let mut clocks = operands(record);
            if defines(record.kind) && record.defined >= u64::from(named) {
                let all = clocks.iter().map(|clock| under[*clock as usize]);
                under[record.defined as usize] = all.fold(0, |set, more| set | more);
                implicit.push(place);
            } else if defines(record.kind) {
                clocks.extend(vec![record.defined; clocks.len() + 1]);
            }
            let bits = clocks.iter().map(|clock| bits(under[*clock as usize]));
            changes.push(bits.flatten().collect());
        }
        Judged {
            records,
            named,
            implicit,
            changes,
        }
    }

    /// The set with the implicit clocks that tick beside it.
    fn completed(&self, words: &[Pair], mut set: u32) -> u32 {
        for place in &self.implicit {
            let with = set | 1 << self.records[*place].defined;
            if judge(&self.records[*place], words[*place], with).0 {
                set = with;
            }
        }
        set
    }

    /// Whether all records hold on the set.
    fn holds(&self, words: &[Pair], set: u32) -> bool {
        let ticks = self.completed(words, set);
        self.records
            .iter()
            .zip(words)
            .all(|(record, pair)| judge(record, *pair, ticks).0)
    }

    /// Moves the words by a set on which all records hold.
    pub fn step(&self, words: &mut [Pair], set: u32) {
        let ticks = self.completed(words, set);
        for (record, pair) in self.records.iter().zip(words) {
            *pair = judge(record, *pair, ticks).1;
        }
    }

    /// A set on which all records hold: a random one, mended; the empty one where that fails several
    /// times.
    pub fn holding(&self, random: &mut Random, words: &[Pair]) -> u32 {
        self.holding_without(random, words, 0)
    }

    /// Such a set without some of the clocks.
    pub fn holding_without(&self, random: &mut Random, words: &[Pair], without: u32) -> u32 {
        for _ in 0..4 {
            let set = any(random, self.named) & !without;
            if let Some(mended) = self.mended(random, words, set) {
                if mended != 0 && mended & without == 0 {
                    return mended;
                }
            }
        }
        0
    }

    /// A set on which some record fails, if one is found.
    pub fn failing(&self, random: &mut Random, words: &[Pair]) -> Option<u32> {
        for _ in 0..8 {
            let mut set = self.holding(random, words);
            if self.named > 0 {
                set ^= 1 << random.below(self.named as usize);
            }
            if !self.holds(words, set) {
                return Some(set);
            }
        }
        None
    }

    /// Goes round the records and mends those that fail, until all hold or it has taken too long.
    fn mended(&self, random: &mut Random, words: &[Pair], mut set: u32) -> Option<u32> {
        let mut ticks = self.completed(words, set);
        for round in 0..8 {
            let mut whole = true;
            for (place, (record, pair)) in self.records.iter().zip(words).enumerate() {
                if !judge(record, *pair, ticks).0 {
                    whole = false;
                    set = self.mended_for(random, words, place, set, round > 3);
                    ticks = self.completed(words, set);
                }
            }
            if whole {
                return Some(set);
            }
        }
        None
    }

    /// The set with one clock more or less, so that the record at the place holds; with one less,
    /// where that is asked for and possible.
    fn mended_for(
        &self,
        random: &mut Random,
        words: &[Pair],
        place: usize,
        set: u32,
        fewer: bool,
    ) -> u32 {
        let record = &self.records[place];
        let mends = |change: &u32| {
            let ticks = self.completed(words, set ^ change);
            judge(record, words[place], ticks).0
        };
        let changes = self.changes[place].iter().copied();
        let mut changes: Vec<u32> = changes.filter(mends).collect();
        if fewer && changes.iter().any(|change| set & change != 0) {
            changes.retain(|change| set & change != 0);
        }
        if changes.is_empty() {
            return 0;
        }
        set ^ random.pick(&changes)
    }
}

/// The bits of a set, each by itself.
fn bits(set: u32) -> impl Iterator<Item = u32> {
    (0..32)
        .map(|clock| 1 << clock)
        .filter(move |bit| set & bit != 0)
}
