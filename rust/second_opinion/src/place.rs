//! Whether two configurations stand at the same place.
//!
//! "A continuation is a finite list of sets of clock numbers below the clock
//! count; the list may be empty, and so may any set. One record judges it with
//! a w of its own … No other record and no answer of a call comes in." Two
//! configurations stand at the same place when every record accepts the same
//! continuations from its pair of words in the one and from its pair in the
//! other.
//!
//! "The same-place rule treats them as clocks that a continuation sets freely"
//! (M-101): implicit clocks are clocks below the clock count like all others.

use std::collections::HashSet;

use crate::step::{check_records, check_words};
use crate::{judge, Configuration, Pair, Record, Refusal, CLOCKS};

/// The answer to the same-place question.
#[derive(Clone, Copy, Debug, PartialEq, Eq)]
pub enum SamePlace {
    /// No record tells the two configurations apart.
    Same,
    /// Some record accepts a continuation from the one and not from the other.
    Different,
    /// The question was not asked of proper records and words.
    Refused(Refusal),
}

/// Whether two configurations stand at the same place, by rule: they do exactly
/// when each record's pair in the one is its pair in the other: "the same-place
/// rule … and 60 speak of pairs" (M-105).
///
/// Equal pairs are judged alike, set for set. Unequal ones, both in range, are
/// always told apart: 59 makes a record's clocks distinct and lets each tick or
/// not as we like, and 51 is set aside. Of all forms but the delay the second
/// word is 0, so the first words are unequal, v < w. What tells them apart, and
/// from which word it is not accepted:
///
/// * no word of its own: 0 is the only word in range, so none are unequal.
/// * `strictly precedes`, `precedes`: v + 1 times {b}; the last fails from v,
///   which has come to 0.
/// * `lub`, 0 ≤ v: v + 1 times {b, c}; the last fails from v, where c now asks
///   for both. w ≤ 0: the same with {a, c}, -w + 1 times, failing from w.
///   v < 0 < w: {b} fails from w alone.
/// * `glb`, 0 ≤ v: v + 1 times {b}; the last fails from v, where c now ticks on
///   either. w ≤ 0: the same with {a}, failing from w. v < 0 < w: {b} fails
///   from v alone.
/// * `await`, v > 0: v times {a}; the last fails from v, where c is due and from
///   w not yet. v = 0: w times {a} fails from w, and 0 never asks for c.
/// * `strictly sampled`: 1 asks for c on {b}, 0 and 2 do not; {a}, {b} fails
///   from 2, and not from 0.
/// * `sampled`: 1 asks for c on {b}, 0 and 2 do not; {a, b} fails from 2, and
///   not from 0.
/// * `upto`: {a} fails from 1, and not from 0.
/// * `deferred`, pending ticks unequal: let the k-th next tick of b be the first
///   that is planned in one of the pairs alone. k - 1 times {b} or {b, c}, as
///   both have planned, then {b, c}; the last fails from the other pair.
/// * `deferred`, pending ticks p equal, numbers used u < v, the list's length l:
///   D(p), l - v times {a}, D(q), {a}, n - 1 times {b}, then {b, c}. Here D(x)
///   is 32 times {b} or {b, c}, as x has planned; q is what the l - v numbers
///   after u plan, and n is the number after those. It fails from v, whose last
///   l - v numbers plan something else than q, so that D(q) fails, or else are
///   used up with it, so that nothing is planned at the end.
///
/// `told_apart` looks for such continuations without knowing any of this.
///
/// The named count is asked by 59 alone.
pub fn same_place(
    records: &[Record],
    named: u64,
    clocks: u64,
    first: &Configuration,
    second: &Configuration,
) -> SamePlace {
    let checked = check_records(records, named, clocks)
        .and_then(|()| check_words(records, first))
        .and_then(|()| check_words(records, second));
    if let Err(refusal) = checked {
        return SamePlace::Refused(refusal);
    }
    // Beyond the records all is 0 by now.
    if first == second {
        SamePlace::Same
    } else {
        SamePlace::Different
    }
}

/// Two pairs that one continuation leads to, and how it came there.
struct Reached {
    pairs: (Pair, Pair),
    length: usize,
    came_by: Option<(usize, u32)>,
}

/// By search: a continuation of at most `depth` sets of clocks below `clocks`
/// that the record, judged by itself, accepts from one of the two pairs and not
/// from the other. The shortest are tried first.
///
/// A record looks at its own clocks alone, so of all tick sets that agree on
/// those only the one without any other clock is tried. The named count changes
/// nothing here, since continuations set named and implicit clocks alike; it is
/// taken so that all calls are told the same.
pub fn told_apart(
    record: &Record,
    _named: u64,
    clocks: u64,
    one: Pair,
    other: Pair,
    depth: usize,
) -> Option<Vec<u32>> {
    let sets = tick_sets(record, clocks);
    let mut seen = HashSet::from([(one, other)]);
    let mut reached = vec![Reached {
        pairs: (one, other),
        length: 0,
        came_by: None,
    }];
    let mut next = 0;
    while let Some(&Reached { pairs, length, .. }) = reached.get(next) {
        if length == depth {
            break; // what follows is at least as long
        }
        for &set in &sets {
            let (one_holds, one_after) = judge(record, pairs.0, set);
            let (other_holds, other_after) = judge(record, pairs.1, set);
            if one_holds != other_holds {
                return Some(continuation(&reached, next, set));
            }
            let after = (one_after, other_after);
            if one_holds && seen.insert(after) {
                reached.push(Reached {
                    pairs: after,
                    length: length + 1,
                    came_by: Some((next, set)),
                });
            }
        }
        next += 1;
    }
    None
}

/// All sets of the record's own clocks below the clock count.
fn tick_sets(record: &Record, clocks: u64) -> Vec<u32> {
    record
        .clocks()
        .filter(|&clock| clock < clocks.min(CLOCKS as u64))
        .fold(vec![0], |without, clock| {
            let with = without.iter().map(|set| set | 1 << clock);
            without.iter().copied().chain(with).collect()
        })
}

/// The sets that lead to the place reached, and one more.
fn continuation(reached: &[Reached], place: usize, last: u32) -> Vec<u32> {
    let back = |came_by: &(usize, u32)| reached.get(came_by.0)?.came_by;
    let start = reached.get(place).and_then(|there| there.came_by);
    let mut sets = vec![last];
    sets.extend(std::iter::successors(start, back).map(|(_, set)| set));
    sets.reverse();
    sets
}
