//! Randomised comparison of two monitors: the proved library, and one that was written separately
//! from documents 01 and 02.
//!
//! A pair is one question asked of both, with every part of both answers compared; where it is about
//! records or a table that is read, their working order is asked, too, and where it is a run, the
//! reading of its recording. Pair `n` of a seed is always the same question.

pub mod apart;
pub mod case;
pub mod generate;
pub mod monitors;
pub mod random;
pub mod shrink;
pub mod tally;

use case::{Answer, Case};
use generate::Group;
use monitors::{ask, Monitor};
use random::Random;
use std::fmt;
use std::ops::Range;
use tally::Tally;

/// A pair on which the two differ, and the smallest question on which they still do.
#[derive(Clone)]
pub struct Mismatch {
    pub seed: u64,
    pub pair: u64,
    pub group: Group,
    pub case: Case,
    pub one: Answer,
    pub other: Answer,
}

/// Asks both monitors the pairs of a seed. `progress` is told the counts after each pair.
pub fn compare(
    seed: u64,
    pairs: Range<u64>,
    one: Monitor,
    other: Monitor,
    progress: &mut dyn FnMut(&Tally),
) -> Result<Tally, Box<Mismatch>> {
    compare_by(seed, pairs, generate::any, one, other, progress)
}

/// The same with questions of one group alone.
pub fn compare_group(
    seed: u64,
    pairs: Range<u64>,
    group: Group,
    one: Monitor,
    other: Monitor,
) -> Result<Tally, Box<Mismatch>> {
    compare_by(
        seed,
        pairs,
        |random| (group, generate::of(random, group)),
        one,
        other,
        &mut |_| {},
    )
}

fn compare_by(
    seed: u64,
    pairs: Range<u64>,
    question: impl Fn(&mut Random) -> (Group, Case),
    one: Monitor,
    other: Monitor,
    progress: &mut dyn FnMut(&Tally),
) -> Result<Tally, Box<Mismatch>> {
    let mut tally = Tally::default();
    for pair in pairs {
        let (group, case) = question(&mut Random::of_pair(seed, pair));
        let mut next = Some(case);
        while let Some(case) = next {
            let answer = ask(one, &case);
            if answer != ask(other, &case) {
                return Err(Box::new(mismatch(seed, pair, group, &case, one, other)));
            }
            tally.count(&case, &answer);
            next = case.next();
        }
        tally.count_pair(group);
        progress(&tally);
    }
    Ok(tally)
}

/// The mismatch of a pair, with its question made as small as can be.
fn mismatch(
    seed: u64,
    pair: u64,
    group: Group,
    case: &Case,
    one: Monitor,
    other: Monitor,
) -> Mismatch {
    let case = shrink::smallest(case, &|case| ask(one, case) != ask(other, case));
    Mismatch {
        seed,
        pair,
        group,
        one: ask(one, &case),
        other: ask(other, &case),
        case,
    }
}

impl fmt::Display for Mismatch {
    fn fmt(&self, f: &mut fmt::Formatter<'_>) -> fmt::Result {
        let Mismatch {
            seed, pair, group, ..
        } = self;
        writeln!(
            f,
            "the answers differ: seed {seed}, pair {pair} ({group:?})"
        )?;
        writeln!(f, "the smallest question found on which they do:")?;
        write!(
            f,
            "{}\nfirst:  {:?}\nsecond: {:?}",
            self.case, self.one, self.other
        )
    }
}

impl fmt::Debug for Mismatch {
    fn fmt(&self, f: &mut fmt::Formatter<'_>) -> fmt::Result {
        fmt::Display::fmt(self, f)
    }
}
