//! The delay: `c clockDef a deferred b for 2 3` (M-105).
//!
//! "Each tick of a takes the next number n of the list; c then ticks with the
//! n-th tick of b strictly after that step."
//!
//! What is planned is kept here as counts of ticks of b, and no bit is ever
//! touched: the pending word is only what the counts are written down as.

use std::collections::BTreeSet;
use std::ops::RangeInclusive;

use crate::Pair;

/// "The list holds one to eight numbers" (M-105).
const LIST_LENGTHS: RangeInclusive<u64> = 1..=8;

/// "each 1 to 32" (M-105).
const DELAY_NUMBERS: RangeInclusive<u8> = 1..=32;

/// The list of a delay: the first `length` of the numbers. Those past the length
/// mean nothing.
#[derive(Clone, Copy, Debug, PartialEq, Eq, Hash, Default)]
pub struct Delays {
    /// The numbers, in the order in which they are taken.
    pub numbers: [u8; 8],
    /// How many of them the list holds.
    pub length: u64,
}

impl Delays {
    /// The list of these numbers, unless "a delay number or the list's length
    /// (none included) is out of range" (M-105).
    pub(crate) fn of(list: &[u64]) -> Option<Self> {
        let mut delays = Delays {
            length: list.len() as u64,
            ..Delays::default()
        };
        for (number, &value) in delays.numbers.iter_mut().zip(list) {
            *number = u8::try_from(value).ok()?;
        }
        delays.in_range().then_some(delays)
    }

    /// Whether the length and each number of the list are in range.
    pub(crate) fn in_range(&self) -> bool {
        let mut list = self.list().iter();
        LIST_LENGTHS.contains(&self.length) && list.all(|number| DELAY_NUMBERS.contains(number))
    }

    /// The numbers of the list; of a list that is too long, those there are.
    fn list(&self) -> &[u8] {
        let length = usize::try_from(self.length).ok();
        let held = length.and_then(|length| self.numbers.get(..length));
        held.unwrap_or(&self.numbers)
    }

    /// The number that the next tick of a takes, so many being used; none "with
    /// the list used up" (M-105).
    fn next(&self, used: i64) -> Option<u8> {
        let used = usize::try_from(used).ok()?;
        self.list().get(used).copied()
    }
}

/// The planned ticks of c. Each is how many ticks of b are still to come for it,
/// its own included, so they are 1 to 64. "Delays falling on one tick of b make
/// one tick of c" (M-105), so none is there twice.
struct Planned(BTreeSet<u32>);

impl Planned {
    /// What a pending word says: "bit k - 1 for the k-th next tick of b" (M-105).
    /// A word out of range is read as if it were 64 such bits; it is refused (60)
    /// before that matters.
    fn of(pending: i64) -> Self {
        let mut counts = BTreeSet::new();
        let mut rest = pending as u64;
        for count in 1.. {
            if rest == 0 {
                break;
            }
            if rest % 2 == 1 {
                counts.insert(count);
            }
            rest /= 2;
        }
        Planned(counts)
    }

    /// The pending word: the k-th next tick of b is worth 2^(k - 1).
    fn pending(&self) -> i64 {
        let worth = |count: &u32| 2u64.pow(count - 1);
        self.0.iter().map(worth).sum::<u64>() as i64
    }

    /// Whether the next tick of b is one that c ticks with.
    fn next_is_due(&self) -> bool {
        self.0.contains(&1)
    }

    /// A tick of b: each planned tick has one less to wait for, and the one that
    /// was due is over.
    fn count_down(self) -> Self {
        let left = self.0.into_iter().map(|count| count - 1);
        Planned(left.filter(|&count| count > 0).collect())
    }

    /// One more planned tick. A number out of range, which is refused (59) before
    /// it matters, plans nothing.
    fn plan(&mut self, number: u8) {
        if DELAY_NUMBERS.contains(&number) {
            self.0.insert(number.into());
        }
    }
}

/// Whether c ticks on a tick of b.
pub(crate) fn due_with_b(pending: i64) -> bool {
    Planned::of(pending).next_is_due()
}

/// The pair after a step: "the pending ticks … and the numbers used" (M-105).
///
/// b goes first, since a number counts ticks of b "strictly after that step": a
/// tick of b beside a counts for earlier plans alone.
pub(crate) fn pair_after(delays: &Delays, [pending, used]: Pair, a: bool, b: bool) -> Pair {
    let mut planned = Planned::of(pending);
    if b {
        planned = planned.count_down();
    }
    match delays.next(used).filter(|_| a) {
        Some(number) => {
            planned.plan(number);
            [planned.pending(), used + 1]
        }
        // "With the list used up, a tick of a plans nothing" (M-105).
        None => [planned.pending(), used],
    }
}

#[cfg(test)]
mod tests {
    use super::*;

    #[test]
    fn a_pending_word_is_the_sum_of_its_counts_and_back() {
        let counts = |pending| -> Vec<u32> { Planned::of(pending).0.into_iter().collect() };
        assert_eq!(counts(0), []);
        assert_eq!(counts(1), [1]);
        assert_eq!(counts(6), [2, 3]);
        assert_eq!(counts(1 << 31), [32]);
        assert_eq!(counts(u32::MAX.into()), (1..=32).collect::<Vec<u32>>());
        assert_eq!(counts(-1), (1..=64).collect::<Vec<u32>>());
        for pending in [0, 1, 5, 6, 0xFFFF_FFFF, 1 << 32, i64::MAX, i64::MIN, -7] {
            assert_eq!(Planned::of(pending).pending(), pending);
        }
    }

    #[test]
    fn a_list_out_of_range_is_none() {
        assert_eq!(Delays::of(&[]), None);
        assert_eq!(Delays::of(&[0]), None);
        assert_eq!(Delays::of(&[1, 33]), None);
        assert_eq!(Delays::of(&[256 + 2]), None);
        assert_eq!(Delays::of(&[1; 9]), None);
        let list = Delays {
            numbers: [32, 1, 0, 0, 0, 0, 0, 0],
            length: 2,
        };
        assert_eq!(Delays::of(&[32, 1]), Some(list));
    }
}
