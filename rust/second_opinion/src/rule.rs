//! One constraint judged by itself: the table under "Table text".

use std::cmp::Ordering;
use std::ops::RangeInclusive;

use crate::delay::{self, Delays};
use crate::Pair;

/// The gap limit: precedence counts from 0 to a million, lub and glb count a
/// million either way.
const MILLION: i64 = 1_000_000;

/// An await number lies in 1 to 1,000,000.
pub(crate) const AWAIT_NUMBERS: RangeInclusive<u64> = 1..=1_000_000;

/// The form of a constraint.
#[derive(Clone, Copy, Debug, PartialEq, Eq, Hash)]
pub enum Kind {
    /// A slot without a constraint: "it names no clock, always holds and keeps
    /// word 0".
    Empty,
    /// `a = b`
    Coincides,
    /// `a # b`
    Excludes,
    /// `a isSubClockOf b`
    SubClock,
    /// `a strictly precedes b`
    StrictlyPrecedes,
    /// `a precedes b`
    Precedes,
    /// `c clockDef a clockUnion b`
    Union,
    /// `c clockDef a clockInter b`
    Inter,
    /// `c clockDef a lub b`
    Lub,
    /// `c clockDef a glb b`
    Glb,
    /// `c clockDef await n a`
    Await,
    /// `c clockDef a strictly sampled b`
    StrictlySampled,
    /// `c clockDef a sampled b`
    Sampled,
    /// `c clockDef a upto b`
    Upto,
    /// `c clockDef a deferred b for n …` (M-105)
    Deferred,
}

impl Kind {
    /// Whether the form is a definition `c clockDef …`.
    fn defines(self) -> bool {
        use Kind::*;
        match self {
            Empty | Coincides | Excludes | SubClock | StrictlyPrecedes | Precedes => false,
            Union | Inter | Lub | Glb | Await | StrictlySampled | Sampled | Upto | Deferred => true,
        }
    }
}

/// c, a, b, n, the list of a delay and the table line; what the kind does not
/// name means nothing.
#[derive(Clone, Copy, Debug, PartialEq, Eq, Hash)]
pub struct Record {
    /// The form.
    pub kind: Kind,
    /// The number of clock c.
    pub defined: u64,
    /// The number of clock a.
    pub first: u64,
    /// The number of clock b.
    pub second: u64,
    /// The await number n.
    pub number: u64,
    /// The list of a delay; where a table is read, no numbers in any other form.
    pub delays: Delays,
    /// The table line, from 1.
    pub line: u64,
}

impl Record {
    /// The clock that the record defines; a relation defines nothing.
    pub(crate) fn defines(&self) -> Option<u64> {
        self.kind.defines().then_some(self.defined)
    }

    /// The clocks that the form uses: a and b, or await's a alone.
    pub(crate) fn operands(&self) -> impl Iterator<Item = u64> {
        let first = (self.kind != Kind::Empty).then_some(self.first);
        let second = (!matches!(self.kind, Kind::Empty | Kind::Await)).then_some(self.second);
        [first, second].into_iter().flatten()
    }

    /// The clocks that the form names, in the order c, a, b.
    pub(crate) fn clocks(&self) -> impl Iterator<Item = u64> {
        self.defines().into_iter().chain(self.operands())
    }

    /// The ranges of the record's two words.
    pub(crate) fn ranges(&self) -> [RangeInclusive<i64>; 2] {
        let word = match self.kind {
            Kind::StrictlyPrecedes | Kind::Precedes => 0..=MILLION,
            Kind::Lub | Kind::Glb => -MILLION..=MILLION,
            Kind::Await | Kind::StrictlySampled | Kind::Sampled | Kind::Upto => {
                0..=start_word(self)[0]
            }
            // "pending 0 to 2^32 - 1" (M-105)
            Kind::Deferred => 0..=4_294_967_295,
            // "Stateless words are 0, their only value in range."
            _ => 0..=0,
        };
        let second = match self.kind {
            // "used 0 to the list's length" (M-105)
            Kind::Deferred => 0..=i64::try_from(self.delays.length).unwrap_or(i64::MAX),
            // "for all others the second is 0" (M-105)
            _ => 0..=0,
        };
        [word, second]
    }
}

/// The start pair of a record: its start word, and 0. A delay has nothing
/// pending yet and no number used.
///
/// An await number that no `i64` holds is far out of range, and refused (14,
/// 59) before its word matters; it gives the largest word here.
pub fn start_word(record: &Record) -> Pair {
    let word = match record.kind {
        Kind::Await => i64::try_from(record.number).unwrap_or(i64::MAX),
        Kind::StrictlySampled | Kind::Sampled => 2,
        Kind::Upto => 1,
        _ => 0,
    };
    [word, 0]
}

/// Which of a record's three clocks tick in a step.
#[derive(Clone, Copy)]
struct Ticks {
    c: bool,
    a: bool,
    b: bool,
}

impl Ticks {
    fn of(record: &Record, ticks: u32) -> Self {
        let in_step = |clock: u64| clock < 32 && ticks & (1 << clock) != 0;
        Ticks {
            c: in_step(record.defined),
            a: in_step(record.first),
            b: in_step(record.second),
        }
    }
}

/// One record judged by itself: whether it holds with its words `pair` on the
/// tick set, and its pair after (without limit 51).
///
/// A record that fails moves nothing, so the pair after is then the pair given.
/// A clock number that no tick set can hold never ticks, and a count that would
/// leave `i64` stays at its end; neither can happen behind refusals 59 and 60.
pub fn judge(record: &Record, pair: Pair, ticks: u32) -> (bool, Pair) {
    let ticks = Ticks::of(record, ticks);
    if holds(record.kind, pair[0], ticks) {
        (true, pair_after(record, pair, ticks))
    } else {
        (false, pair)
    }
}

/// The column "Holds when". "All formulas use the words from before the step."
fn holds(kind: Kind, word: i64, Ticks { c, a, b }: Ticks) -> bool {
    match kind {
        Kind::Empty => true,
        // "both or neither tick"
        Kind::Coincides => a == b,
        // "not both"
        Kind::Excludes => !(a && b),
        // "a in F only with b"
        Kind::SubClock => !a || b,
        // "w > 0, or b not in F"
        Kind::StrictlyPrecedes => word > 0 || !b,
        // "w > 0, or b only with a"
        Kind::Precedes => word > 0 || !b || a,
        // "c exactly when a or b"
        Kind::Union => c == (a || b),
        // "c exactly when a and b"
        Kind::Inter => c == (a && b),
        // "c exactly when: w > 0, b; w < 0, a; w = 0, both"
        Kind::Lub => match word.cmp(&0) {
            Ordering::Greater => c == b,
            Ordering::Less => c == a,
            Ordering::Equal => c == (a && b),
        },
        // "c exactly when: w > 0, a; w < 0, b; w = 0, either"
        Kind::Glb => match word.cmp(&0) {
            Ordering::Greater => c == a,
            Ordering::Less => c == b,
            Ordering::Equal => c == (a || b),
        },
        // "c exactly when w = 1 and a"
        Kind::Await => c == (word == 1 && a),
        // "c exactly when w = 1 and b"
        Kind::StrictlySampled => c == (word == 1 && b),
        // "c exactly when w = 2, a and b; w = 1, b; w = 0, never"
        Kind::Sampled => match word {
            2 => c == (a && b),
            1 => c == b,
            _ => !c,
        },
        // "c exactly when w = 1, a and not b"
        Kind::Upto => c == (word == 1 && a && !b),
        // "c then ticks with the n-th tick of b" (M-105), and never without b
        Kind::Deferred => c == (b && delay::due_with_b(word)),
    }
}

/// The change in the column "Word: start, range, change". The second word is a
/// delay's alone to change.
fn pair_after(record: &Record, [word, second]: Pair, Ticks { a, b, .. }: Ticks) -> Pair {
    let after = match record.kind {
        Kind::Deferred => return delay::pair_after(&record.delays, [word, second], a, b),
        // "keeps word 0, also where one is handed in"
        Kind::Empty => return [0, 0],
        // "none"
        Kind::Coincides | Kind::Excludes | Kind::SubClock | Kind::Union | Kind::Inter => word,
        // "plus 1 for a, minus 1 for b"
        Kind::StrictlyPrecedes | Kind::Precedes | Kind::Lub | Kind::Glb => {
            word.saturating_add(i64::from(a) - i64::from(b))
        }
        // "minus 1 for a while w > 0"
        Kind::Await if a && word > 0 => word - 1,
        Kind::Await => word,
        // "2 to 1 on a; 1 to 0 on b"
        Kind::StrictlySampled => match word {
            2 if a => 1,
            1 if b => 0,
            _ => word,
        },
        // "from 2: to 0 on both, to 1 on a alone; 1 to 0 on b"
        Kind::Sampled => match word {
            2 if a && b => 0,
            2 if a => 1,
            1 if b => 0,
            _ => word,
        },
        // "1 to 0 on b"
        Kind::Upto if word == 1 && b => 0,
        Kind::Upto => word,
    };
    [after, second]
}
