//! The rule of `same_place` held against the search of `told_apart`, and the
//! search against all continuations there are.

mod common;

use common::*;
use second_opinion::*;

/// The pairs in the form's ranges whose words are within ±6, of a delay within
/// ±7.
fn small_pairs(kind: Kind) -> Vec<Pair> {
    let words = match kind {
        Kind::StrictlyPrecedes | Kind::Precedes | Kind::Await => 0..=6,
        Kind::Lub | Kind::Glb => -6..=6,
        Kind::StrictlySampled | Kind::Sampled => 0..=2,
        Kind::Upto => 0..=1,
        Kind::Deferred => 0..=7,
        _ => 0..=0,
    };
    // The list of `record` has two numbers.
    let seconds: &[i64] = if kind == Kind::Deferred {
        &[0, 1, 2]
    } else {
        &[0]
    };
    words
        .flat_map(|word| seconds.iter().map(move |&second| [word, second]))
        .collect()
}

/// Every form, with its clocks in the usual places and elsewhere.
fn records() -> Vec<(Record, u64)> {
    let usual = KINDS.map(|kind| (record(kind), 3));
    let moved = KINDS.map(|kind| {
        let record = Record {
            defined: 1,
            first: 31,
            second: 4,
            ..record(kind)
        };
        (record, 32)
    });
    usual.into_iter().chain(moved).collect()
}

/// Every record with two small pairs of its own.
fn cases() -> Vec<(Record, u64, Pair, Pair)> {
    let mut cases = Vec::new();
    for (record, clocks) in records() {
        let pairs = small_pairs(record.kind);
        for &one in &pairs {
            cases.extend(pairs.iter().map(|&other| (record, clocks, one, other)));
        }
    }
    cases
}

fn rule(record: Record, clocks: u64, one: Pair, other: Pair) -> SamePlace {
    same_place(&[record], clocks, clocks, &pairs(&[one]), &pairs(&[other]))
}

#[test]
fn the_rule_says_what_the_search_finds_for_all_forms_and_small_pairs() {
    let mut apart = 0;
    for (record, clocks, one, other) in cases() {
        let found = told_apart(&record, clocks, clocks, one, other, 8);
        let expected = match &found {
            Some(_) => SamePlace::Different,
            None => SamePlace::Same,
        };
        let context = format!("{record:?} {one:?} {other:?} {found:?}");
        assert_eq!(rule(record, clocks, one, other), expected, "{context}");
        if let Some(continuation) = found {
            apart += 1;
            let answers = [one, other].map(|pair| accepts(&record, pair, &continuation));
            assert_ne!(answers[0], answers[1], "{context}");
        }
    }
    // 42 for each precedence and for await, 156 for lub and for glb, 6 for each
    // sampling, 2 for upto and, with its 24 pairs, 552 for the delay; all of it
    // twice.
    assert_eq!(apart, 2 * (3 * 42 + 2 * 156 + 2 * 6 + 2 + 552));
}

#[test]
fn the_same_place_is_not_told_apart_by_longer_continuations_either() {
    for (record, clocks) in records() {
        for pair in small_pairs(record.kind) {
            assert_eq!(rule(record, clocks, pair, pair), SamePlace::Same);
            assert_eq!(told_apart(&record, clocks, clocks, pair, pair, 200), None);
        }
    }
}

/// All lists of at most `depth` tick sets of three clocks.
fn continuations(depth: usize) -> Vec<Vec<u32>> {
    let mut all = vec![vec![]];
    let mut longest = all.clone();
    for _ in 0..depth {
        longest = longest
            .iter()
            .flat_map(|list| (0..8).map(move |set| [list.as_slice(), &[set]].concat()))
            .collect();
        all.extend(longest.iter().cloned());
    }
    all
}

#[test]
fn the_search_misses_nothing_that_all_continuations_up_to_4_sets_show() {
    let all = continuations(4);
    assert_eq!(all.len(), 1 + 8 + 64 + 512 + 4096);
    let usual = cases().into_iter().filter(|&(_, clocks, ..)| clocks == 3);
    for (record, clocks, one, other) in usual {
        let shortest = all
            .iter()
            .find(|list| accepts(&record, one, list) != accepts(&record, other, list));
        let found = told_apart(&record, clocks, clocks, one, other, 4);
        let lengths = (shortest.map(Vec::len), found.as_ref().map(Vec::len));
        assert_eq!(lengths.0, lengths.1, "{record:?} {one:?} {other:?}");
    }
}

#[test]
fn a_record_looks_at_its_own_clocks_alone() {
    for kind in KINDS {
        let record = Record {
            defined: 4,
            first: 1,
            second: 3,
            ..record(kind)
        };
        for pair in small_pairs(kind) {
            for ticks in 0..32u32 {
                let own = ticks & 0b11010;
                let answers = (judge(&record, pair, ticks), judge(&record, pair, own));
                assert_eq!(answers.0, answers.1, "{kind:?} {pair:?} {ticks}");
            }
        }
    }
}

#[test]
fn the_papers_precedes_at_0_and_at_1() {
    let record = record(Kind::Precedes);
    assert!(accepts(&record, [0, 0], &[A, B]));
    assert!(!accepts(&record, [0, 0], &[B, A]));
    assert!(accepts(&record, [1, 0], &[A, B]));
    assert!(accepts(&record, [1, 0], &[B, A]));
    let found = told_apart(&record, 3, 3, [0, 0], [1, 0], 1);
    assert_eq!(found, Some(vec![B]));
}

#[test]
fn the_empty_continuation_tells_nothing_apart() {
    for (record, clocks, one, other) in cases() {
        assert_eq!(told_apart(&record, clocks, clocks, one, other, 0), None);
    }
}

#[test]
fn the_lengths_that_are_needed() {
    let length = |kind, one, other| {
        let found = told_apart(&record(kind), 3, 3, [one, 0], [other, 0], 50);
        found.map(|continuation| continuation.len())
    };
    assert_eq!(length(Kind::StrictlyPrecedes, 4, 9), Some(5));
    assert_eq!(length(Kind::Precedes, 0, 9), Some(1));
    assert_eq!(length(Kind::Lub, 3, 5), Some(4));
    assert_eq!(length(Kind::Lub, -3, -5), Some(4));
    assert_eq!(length(Kind::Lub, -3, 5), Some(1));
    assert_eq!(length(Kind::Glb, 30, 40), Some(31));
    assert_eq!(length(Kind::Glb, 0, -1), Some(1));
    assert_eq!(length(Kind::Await, 0, 6), Some(6));
    assert_eq!(length(Kind::Await, 5, 6), Some(5));
    assert_eq!(length(Kind::StrictlySampled, 0, 2), Some(2));
    assert_eq!(length(Kind::Sampled, 0, 2), Some(1));
    assert_eq!(length(Kind::Upto, 0, 1), Some(1));
    assert_eq!(length(Kind::Deferred, 0, 1), Some(1));
    assert_eq!(length(Kind::Deferred, 5, 1), Some(3));
    // The list is 2 3. {a} plans the second next tick of b where no number is
    // used, the third where one is, and none where both are.
    let length = |one, other| {
        let found = told_apart(&record(Kind::Deferred), 3, 3, one, other, 50);
        found.map(|continuation| continuation.len())
    };
    assert_eq!(length([0, 0], [0, 1]), Some(3));
    assert_eq!(length([0, 0], [0, 2]), Some(3));
    assert_eq!(length([0, 1], [0, 2]), Some(4));
    // Both next ticks of b are planned. {a} at once plans the second of them
    // again; {a, b, c} plans the third, so {b, c} and {b, c} follow, or {b}.
    assert_eq!(length([3, 0], [3, 2]), Some(3));
}

#[test]
fn a_depth_that_does_not_suffice_finds_nothing() {
    let record = record(Kind::Precedes);
    let search = |depth| told_apart(&record, 3, 3, [4, 0], [9, 0], depth);
    assert_eq!(search(4), None);
    assert_eq!(search(5), Some(vec![B; 5]));
}

/// What the comment on `same_place` says tells v < w apart, the words of any form
/// but the delay, and from which of the two it is not accepted (`true`: from v).
fn as_the_rule_says(kind: Kind, v: i64, w: i64) -> (Vec<u32>, bool) {
    let times = |count: i64, set: u32| vec![set; count as usize];
    match kind {
        Kind::StrictlyPrecedes | Kind::Precedes => (times(v + 1, B), true),
        Kind::Lub if v >= 0 => (times(v + 1, B | C), true),
        Kind::Lub if w <= 0 => (times(-w + 1, A | C), false),
        Kind::Lub => (vec![B], false),
        Kind::Glb if v >= 0 => (times(v + 1, B), true),
        Kind::Glb if w <= 0 => (times(-w + 1, A), false),
        Kind::Glb => (vec![B], true),
        Kind::Await if v > 0 => (times(v, A), true),
        Kind::Await => (times(w, A), false),
        Kind::StrictlySampled | Kind::Sampled if v == 1 => (vec![B], true),
        Kind::StrictlySampled | Kind::Sampled if w == 1 => (vec![B], false),
        Kind::StrictlySampled => (vec![A, B], false),
        Kind::Sampled => (vec![A | B], false),
        Kind::Upto => (vec![A], false),
        _ => panic!("{kind:?} has one word in range"),
    }
}

fn try_what_the_rule_says(record: Record, v: i64, w: i64) {
    let (continuation, fails_from_v) = as_the_rule_says(record.kind, v, w);
    let answers = [v, w].map(|word| accepts(&record, [word, 0], &continuation));
    assert_eq!(answers, [!fails_from_v, fails_from_v], "{record:?} {v} {w}");
    assert_eq!(rule(record, 3, [v, 0], [w, 0]), SamePlace::Different);
    assert_eq!(rule(record, 3, [w, 0], [v, 0]), SamePlace::Different);
}

#[test]
fn the_reasons_of_the_rule_hold_for_small_words() {
    let usual = cases().into_iter().filter(|&(_, clocks, ..)| clocks == 3);
    let others = usual.filter(|(record, ..)| record.kind != Kind::Deferred);
    for (record, _, [v, _], [w, _]) in others.filter(|&(_, _, v, w)| v < w) {
        try_what_the_rule_says(record, v, w);
    }
}

#[test]
fn the_reasons_of_the_rule_hold_at_the_ends_of_the_ranges() {
    for kind in [Kind::StrictlyPrecedes, Kind::Precedes, Kind::Lub, Kind::Glb] {
        for (v, w) in [(0, MILLION), (1, MILLION), (MILLION - 1, MILLION)] {
            try_what_the_rule_says(record(kind), v, w);
        }
    }
    for kind in [Kind::Lub, Kind::Glb] {
        for (v, w) in [(-MILLION, 1 - MILLION), (-MILLION, 0), (-MILLION, MILLION)] {
            try_what_the_rule_says(record(kind), v, w);
        }
    }
    for (v, w) in [(0, MILLION), (1, MILLION), (MILLION - 1, MILLION)] {
        try_what_the_rule_says(awaiting(1_000_000), v, w);
    }
}

#[test]
fn one_record_that_tells_apart_is_enough() {
    let records = KINDS.map(|kind| Record {
        defined: 2 + kind as u64,
        ..record(kind)
    });
    let start: Vec<Pair> = records.iter().map(start_word).collect();
    let one = pairs(&start);
    assert_eq!(same_place(&records, 20, 20, &one, &one), SamePlace::Same);
    for (index, kind) in KINDS.into_iter().enumerate() {
        for moved in small_pairs(kind) {
            let mut other = one;
            other[index] = moved;
            let expected = if moved == one[index] {
                SamePlace::Same
            } else {
                SamePlace::Different
            };
            assert_eq!(same_place(&records, 20, 20, &one, &other), expected);
            assert_eq!(same_place(&records, 20, 20, &other, &one), expected);
        }
    }
}

/// D(x): 32 times {b} or {b, c}, as the bits of x say from the lowest.
fn drained(x: i64) -> Vec<u32> {
    let set = |bit: u32| if x >> bit & 1 == 1 { B | C } else { B };
    (0..32).map(set).collect()
}

/// What the comment on `same_place` says tells two pairs of a delay apart, and
/// the pair from which it is accepted.
fn as_the_rule_says_of_a_delay(list: &[u8], one: Pair, other: Pair) -> (Vec<u32>, Pair) {
    let low = (one[0] ^ other[0]).trailing_zeros() as usize;
    if low < 32 {
        let mut continuation = drained(one[0]);
        continuation.truncate(low);
        continuation.push(B | C);
        let has = one[0] >> low & 1 == 1;
        return (continuation, if has { one } else { other });
    }
    let (first, last) = if one[1] < other[1] {
        (one, other)
    } else {
        (other, one)
    };
    let (u, left) = (first[1] as usize, list.len() - last[1] as usize);
    let q = list[u..u + left].iter().fold(0, |q, n| q | 1 << (n - 1));
    let n = list[u + left] as usize;
    let parts = [
        drained(one[0]),
        vec![A; left],
        drained(q),
        vec![A],
        vec![B; n - 1],
        vec![B | C],
    ];
    (parts.concat(), first)
}

fn try_what_the_rule_says_of_a_delay(list: &[u8], one: Pair, other: Pair) {
    let record = deferring(list);
    let (continuation, accepted_from) = as_the_rule_says_of_a_delay(list, one, other);
    let context = format!("{list:?} {one:?} {other:?}");
    for pair in [one, other] {
        let accepted = accepts(&record, pair, &continuation);
        assert_eq!(accepted, pair == accepted_from, "{context} {pair:?}");
    }
    assert_eq!(rule(record, 3, one, other), SamePlace::Different);
    assert_eq!(rule(record, 3, other, one), SamePlace::Different);
    assert_eq!(rule(record, 3, one, one), SamePlace::Same);
}

#[test]
fn reading_59_the_reasons_of_the_rule_hold_for_small_pairs_of_delays() {
    let small = small_pairs(Kind::Deferred);
    for list in [[2, 3], [3, 2], [2, 2], [1, 1], [32, 1], [1, 32], [32, 32]] {
        for &one in &small {
            for &other in small.iter().filter(|&&other| other != one) {
                try_what_the_rule_says_of_a_delay(&list, one, other);
            }
        }
    }
}

/// A pending word, with few bits, with many or with any.
fn random_pending(numbers: &mut Numbers) -> i64 {
    let mut bits = || (numbers.next() << 16 ^ numbers.next()) & 0xFFFF_FFFF;
    let pending = match bits() % 5 {
        0 => 0,
        1 => 1 << (bits() % 32),
        2 => bits() & bits() & bits(),
        3 => bits() | bits() | bits(),
        _ => bits(),
    };
    pending as i64
}

#[test]
fn reading_59_the_reasons_of_the_rule_hold_for_random_pairs_of_delays() {
    let mut numbers = Numbers(59);
    let (mut by_pending, mut by_used) = (0, 0);
    for _ in 0..10_000 {
        // A narrow choice makes lists whose parts plan the same.
        let most = numbers.pick(&[1, 2, 3, 32]);
        let length = 1 + numbers.below(8) as usize;
        let list: Vec<u8> = (0..length).map(|_| 1 + numbers.below(most) as u8).collect();
        let mut used = || numbers.below(length as u64 + 1) as i64;
        let used = (used(), used());
        let one = [random_pending(&mut numbers), used.0];
        let pending = match numbers.below(4) {
            0 => random_pending(&mut numbers),
            1 => one[0] ^ 1 << numbers.below(32),
            _ => one[0],
        };
        let other = [pending, used.1];
        if one == other {
            assert_eq!(rule(deferring(&list), 3, one, other), SamePlace::Same);
            continue;
        }
        try_what_the_rule_says_of_a_delay(&list, one, other);
        if one[0] == pending {
            by_used += 1;
        } else {
            by_pending += 1;
        }
    }
    assert!(
        by_pending > 3000 && by_used > 3000,
        "{by_pending} {by_used}"
    );
}

#[test]
fn reading_59_the_search_tells_all_small_pairs_of_small_lists_apart() {
    for list in [[1, 1], [2, 2], [1, 2], [2, 1], [3, 3]] {
        let record = deferring(&list);
        for one in small_pairs(Kind::Deferred) {
            for other in small_pairs(Kind::Deferred) {
                let found = told_apart(&record, 3, 3, one, other, 12);
                assert_eq!(found.is_some(), one != other, "{list:?} {one:?} {other:?}");
                if let Some(continuation) = found {
                    let answers = [one, other].map(|pair| accepts(&record, pair, &continuation));
                    assert_ne!(answers[0], answers[1]);
                }
            }
        }
    }
}
