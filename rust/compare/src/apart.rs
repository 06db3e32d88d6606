//! Continuations that tell the two pairs of a delay apart, made for the pairs: some have over 70 sets,
//! which no search of all continuations comes to.

use second_opinion::{judge, Delays, Kind, Pair, Record};

/// The bits of a pending word.
const BITS: usize = 32;

/// How long continuations can all be looked at: as long as is asked for, but of a delay with many or
/// large numbers or pending ticks only short ones.
pub fn searchable(record: &Record, one: Pair, other: Pair, depth: usize) -> usize {
    let Delays { numbers, length } = record.delays;
    let list = numbers.iter().take(length as usize);
    let small = length <= 3 && list.max() <= Some(&3) && one[0].max(other[0]) < 8;
    if record.kind == Kind::Deferred && !small {
        return depth.min(3);
    }
    depth
}

/// Whether a delay tells two pairs apart by the continuation that is made for them, judged from both.
/// The record is one that limit 59 lets pass, and the pairs are such that 60 does.
pub fn delay_tells(record: &Record, one: Pair, other: Pair) -> bool {
    let tells = |sets: Vec<u32>| accepts(record, one, &sets) != accepts(record, other, &sets);
    record.kind == Kind::Deferred && continuation(record, one, other).is_some_and(tells)
}

/// Whether a record, judged by itself, accepts a continuation from a pair.
fn accepts(record: &Record, mut pair: Pair, sets: &[u32]) -> bool {
    sets.iter().all(|set| {
        let (holds, after) = judge(record, pair, *set);
        pair = after;
        holds
    })
}

/// The continuation: ticks of b up to the first that is planned in one of the pairs alone; or, where
/// the pending ticks are equal, all that takes the one with more numbers used to the end of its list,
/// what the other has then planned, and the tick that only the other still plans.
fn continuation(record: &Record, one: Pair, other: Pair) -> Option<Vec<u32>> {
    let [a, b] = [record.first, record.second].map(|clock| 1 << clock);
    let due = b | 1 << record.defined;
    let ticks_of_b = |pending: i64, count: usize| {
        let set = move |bit: usize| if pending >> bit & 1 == 1 { due } else { b };
        (0..count).map(set)
    };
    let differing = one[0] ^ other[0];
    if differing != 0 {
        let common = ticks_of_b(one[0], differing.trailing_zeros() as usize);
        return Some(common.chain([due]).collect());
    }
    let (fewer, more) = (one[1].min(other[1]), one[1].max(other[1]));
    let left = (record.delays.length as i64 - more) as usize;
    let mut list = record.delays.numbers.into_iter().skip(fewer as usize);
    let planned = list.by_ref().take(left);
    let planned = planned.fold(0, |pending, number| pending | 1 << (number - 1));
    let last = list.next().filter(|_| fewer < more)?;
    let mut sets: Vec<u32> = ticks_of_b(one[0], BITS).collect();
    sets.extend(vec![a; left]);
    sets.extend(ticks_of_b(planned, BITS));
    sets.push(a);
    sets.extend(ticks_of_b(1 << (last - 1), last.into()));
    Some(sets)
}

#[cfg(test)]
mod tests {
    use super::*;
    use crate::generate::records::{delays, pair};
    use crate::random::Random;
    use second_opinion::told_apart;

    fn delay(random: &mut Random) -> Record {
        Record {
            kind: Kind::Deferred,
            defined: 0,
            first: 1,
            second: 2,
            number: 0,
            delays: delays(random, Kind::Deferred),
            line: 0,
        }
    }

    #[test]
    fn unequal_pairs_of_a_delay_are_told_apart_and_equal_ones_are_not() {
        let (mut pending, mut used) = (0, 0);
        for number in 0..20_000 {
            let random = &mut Random::of_pair(41, number);
            let record = delay(random);
            let (one, mut other) = (pair(random, &record), pair(random, &record));
            if random.once_in(2) {
                other[0] = one[0];
            }
            let tells = delay_tells(&record, one, other);
            assert_eq!(tells, one != other, "{record:?} {one:?} {other:?}");
            pending += u64::from(one[0] != other[0]);
            used += u64::from(one[0] == other[0] && one[1] != other[1]);
        }
        assert!(
            pending > 5000 && used > 3000,
            "{pending} by pending, {used} by used"
        );
    }

    #[test]
    fn a_search_finds_a_continuation_wherever_one_can_be_made_for_a_small_delay() {
        for number in 0..300 {
            let random = &mut Random::of_pair(42, number);
            let mut record = delay(random);
            record.delays.length = record.delays.length.min(3);
            let small = record.delays.numbers.map(|number| number.clamp(1, 3));
            record.delays.numbers = small;
            let mut small_pair = || {
                let used = random.within(0..=record.delays.length as usize);
                [random.below(8) as i64, used as i64]
            };
            let (one, other) = (small_pair(), small_pair());
            let found = told_apart(&record, 3, 3, one, other, 16).is_some();
            assert_eq!(found, delay_tells(&record, one, other));
        }
    }

    #[test]
    fn a_continuation_tells_pairs_apart_only_where_it_is_accepted_from_one_of_them() {
        let mut record = delay(&mut Random::of_pair(43, 0));
        (record.delays.numbers, record.delays.length) = ([2, 2, 0, 0, 0, 0, 0, 0], 2);
        let sets = continuation(&record, [1, 0], [1, 1]).expect("made for unequal pairs");
        let (a, b, due) = (0b010, 0b100, 0b101);
        let idle = [
            [b; 31].as_slice(),
            &[a],
            &[b, due],
            &[b; 30],
            &[a],
            &[b, due],
        ]
        .concat();
        assert_eq!(sets, [&[due], idle.as_slice()].concat());
        assert!(accepts(&record, [1, 0], &sets));
        assert!(!accepts(&record, [1, 1], &sets));
    }
}
