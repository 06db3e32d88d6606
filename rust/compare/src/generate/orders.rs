//! Records for the working order: definitions that rest on each other in chains and circles, with
//! relations and empty records between.

use super::records::{delays, free, number, record, spoil_records, Material};
use super::tables::kind_of;
use crate::case::Case;
use crate::monitors::{defines, KINDS};
use crate::random::Random;
use ccsl::Clocks;
use second_opinion::{Kind, Record, WORDS};

/// The most clocks.
const CLOCKS: usize = 32;

/// A question about the working order.
pub fn order(random: &mut Random) -> Case {
    let Material {
        mut records,
        mut clocks,
    } = Definitions::any(random).material(random);
    while random.once_in(4) {
        spoil_records(random, &mut records, &mut clocks);
    }
    Case::Order { records, clocks }
}

/// Definitions that have no place yet, over clocks that have no number yet. Clock n is defined by
/// definition n; the clocks behind those are free.
struct Definitions {
    /// The operands of each definition, one or two.
    operands: Vec<Vec<usize>>,
    clocks: usize,
}

impl Definitions {
    /// Chains and circles, few or many.
    fn any(random: &mut Random) -> Definitions {
        let count = match random.below(6) {
            0..=2 => random.within(1..=6),
            3 | 4 => random.within(2..=20),
            _ => random.within(21..=CLOCKS),
        };
        let free = random.within(0..=3);
        let mut definitions = Definitions {
            operands: Vec::new(),
            clocks: (count + free).clamp(2, CLOCKS),
        };
        let longest = random.pick(&[1, 3, 10, CLOCKS]);
        let circles = random.pick(&[0, 0, 1, 2]);
        let crossed = circles > 0 && random.once_in(4);
        while definitions.operands.len() < count {
            let left = count - definitions.operands.len();
            let length = random.within(1..=longest.min(left));
            let circle = length > 1 && random.below(2) < circles;
            definitions.add_chain(random, length, circle, crossed);
        }
        definitions
    }

    /// Adds definitions of which each rests on the next and, in a circle, the last on the first. Other
    /// operands are clocks of chains to come or free ones, or any where chains are crossed. So there
    /// is no circle but those asked for, unless chains are crossed or no clock is free.
    fn add_chain(&mut self, random: &mut Random, length: usize, circle: bool, crossed: bool) {
        let start = self.operands.len();
        let end = start + length;
        for place in start..end {
            let mut own = Vec::new();
            if place + 1 < end {
                own.push(place + 1);
            } else if circle {
                own.push(start);
            }
            if own.is_empty() || random.once_in(2) {
                let any = crossed && random.once_in(4) || own.is_empty() && end == self.clocks;
                let others = if any { 0 } else { end }..self.clocks;
                let others = others.filter(|clock| *clock != place && !own.contains(clock));
                let others: Vec<usize> = others.collect();
                if !others.is_empty() {
                    own.push(random.pick(&others));
                }
            }
            random.shuffle(&mut own);
            self.operands.push(own);
        }
    }

    /// The definitions in some order, with records between them.
    fn material(&self, random: &mut Random) -> Material {
        let mut order: Vec<usize> = (0..self.operands.len()).collect();
        match random.below(4) {
            0 => {}
            1 => order.reverse(),
            _ => random.shuffle(&mut order),
        }
        let (numbers, clocks) = self.numbered(random, &order);
        let room = WORDS - order.len();
        let between = match random.below(6) {
            0..=2 => 0,
            3 => random.within(1..=4),
            4 => random.within(0..=room),
            _ => room,
        };
        let mut slots: Vec<Option<usize>> = order.into_iter().map(Some).collect();
        for _ in 0..between {
            slots.insert(random.within(0..=slots.len()), None);
        }
        let mut defined = Vec::new();
        let mut records = Vec::new();
        for slot in slots {
            records.push(match slot {
                Some(definition) => {
                    defined.push(numbers[definition]);
                    let operands = self.operands[definition].iter();
                    let operands: Vec<u64> = operands.map(|clock| numbers[*clock]).collect();
                    definition_of(random, clocks, numbers[definition], &operands)
                }
                None => no_definition(random, clocks, &defined),
            });
        }
        Material { records, clocks }
    }

    /// Numbers for the clocks. Often some are implicit, of those whose definition stands above all its
    /// uses.
    fn numbered(&self, random: &mut Random, order: &[usize]) -> (Vec<u64>, Clocks) {
        let mut may_be_implicit = vec![false; self.clocks];
        let mut used = Vec::new();
        for definition in order {
            may_be_implicit[*definition] = !used.contains(definition);
            used.extend(&self.operands[*definition]);
        }
        let share = random.pick(&[0, 0, 1, 3]);
        let (mut all, mut implicit): (Vec<usize>, Vec<usize>) = (0..self.clocks)
            .partition(|clock| !may_be_implicit[*clock] || random.below(4) >= share);
        random.shuffle(&mut all);
        random.shuffle(&mut implicit);
        let named = all.len() as u32;
        all.extend(implicit);
        let mut numbers = vec![0; self.clocks];
        for (number, clock) in (0..).zip(all) {
            numbers[clock] = number;
        }
        let count = self.clocks as u32;
        (numbers, Clocks { named, count })
    }
}

/// A definition of a clock by one operand or two; an await often has another clock where it names
/// nothing.
fn definition_of(random: &mut Random, clocks: Clocks, defined: u64, operands: &[u64]) -> Record {
    let kind = match operands {
        [_] => Kind::Await,
        _ => {
            let of_two = |kind: &Kind| defines(*kind) && *kind != Kind::Await;
            let kinds: Vec<Kind> = KINDS.into_iter().filter(of_two).collect();
            kind_of(random, &kinds)
        }
    };
    Record {
        kind,
        defined,
        first: operands[0],
        second: match operands {
            [_, second] => *second,
            _ if random.once_in(2) => random.below(clocks.count as usize) as u64,
            _ => free(random),
        },
        number: number(random, kind),
        delays: delays(random, kind),
        line: free(random),
    }
}

/// A relation or an empty record, below definitions of these clocks.
fn no_definition(random: &mut Random, clocks: Clocks, defined: &[u64]) -> Record {
    loop {
        let record = record(random, clocks, defined);
        if !defines(record.kind) {
            return record;
        }
    }
}
