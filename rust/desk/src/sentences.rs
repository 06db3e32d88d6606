//! The sentence of each form, and why a constraint fails in a step. That it fails the library says:
//! here the words and the ticks are only told.

use crate::account::defines;
use crate::names;
use crate::words::{and, ordinal, Named};
use ccsl::{Kind, Pair, Record, Table};

/// What a constraint asks of each step, in one sentence.
pub fn rule(table: &Table, record: &Record) -> String {
    let Named { a, b, c } = Named::of(table, record);
    match record.kind {
        Kind::Empty => "it always holds".to_string(),
        Kind::Coincides => format!("{a} and {b} tick together or not at all"),
        Kind::Excludes => format!("{a} and {b} never tick in the same step"),
        Kind::SubClock => format!("{a} ticks only with {b}"),
        Kind::StrictlyPrecedes => format!(
            "each tick of {b} needs an earlier tick of {a} of its own; one in the same step does not count"
        ),
        Kind::Precedes => {
            format!("each tick of {b} needs a tick of {a} of its own, earlier or in the same step")
        }
        Kind::Union => format!("{c} ticks exactly when {a} or {b} ticks"),
        Kind::Inter => format!("{c} ticks exactly when {a} and {b} both tick"),
        Kind::Lub => format!(
            "{c} ticks with {a} or {b}, whichever is behind; where they are level, when both tick"
        ),
        Kind::Glb => format!(
            "{c} ticks with {a} or {b}, whichever is ahead; where they are level, when either ticks"
        ),
        Kind::Await => {
            let nth = ordinal(record.number as i64);
            format!("{c} ticks once, with the {nth} tick of {a}")
        }
        Kind::StrictlySampled => format!(
            "{c} ticks once, with the first tick of {b} after {a} has ticked; one in the same step does not count"
        ),
        Kind::Sampled => format!(
            "{c} ticks once, with the first tick of {b} after {a} has ticked; one in the same step counts"
        ),
        Kind::Upto => {
            format!("{c} ticks with {a} until {b} ticks; in the step in which {b} ticks it is already silent")
        }
        Kind::Deferred => format!(
            "each tick of {a} takes the next number n of the list {}, and {c} ticks with the n-th tick of {b} after that step, and at no other; delays that end together make one tick, and once the list is used up {a} starts nothing more",
            names::delays(record).iter().map(u8::to_string).collect::<Vec<_>>().join(" ")
        ),
    }
}

/// A constraint that fails in a step: the names of its clocks, the word before the step, and which of
/// the clocks tick in it.
struct Failing<'a> {
    record: &'a Record,
    named: Named,
    word: i64,
    ticks: [bool; 2],
}

/// Why a constraint fails in a step, in one sentence, from its pair before the step and the ticks.
pub fn reason(table: &Table, record: &Record, pair: Pair, ticked: impl Fn(u64) -> bool) -> String {
    let failing = Failing {
        record,
        named: Named::of(table, record),
        word: pair[0],
        ticks: [ticked(record.first), ticked(record.second)],
    };
    let Named { a, b, c } = &failing.named;
    match record.kind {
        Kind::Coincides if !failing.ticks[0] => format!("{b} ticked and {a} did not"),
        Kind::Coincides | Kind::SubClock => format!("{a} ticked and {b} did not"),
        Kind::Excludes => format!("{a} and {b} both ticked"),
        Kind::StrictlyPrecedes if failing.ticks[0] => {
            format!("{b} ticked, and no {a} was waiting; the {a} of this step does not count")
        }
        Kind::StrictlyPrecedes => format!("{b} ticked, and no {a} was waiting"),
        Kind::Precedes => format!("{b} ticked, no {a} was waiting, and {a} did not tick"),
        kind if !defines(kind) => String::new(),
        _ if ticked(record.defined) => {
            format!("{c} ticked and was not due, since {}", failing.not_due())
        }
        _ => format!("{c} did not tick and was due, since {}", failing.due()),
    }
}

impl Failing<'_> {
    /// What made the defined clock due.
    fn due(&self) -> String {
        let Named { a, b, .. } = &self.named;
        match (self.record.kind, self.word) {
            (Kind::Lub, 1..) => format!("{b}, which was behind, ticked"),
            (Kind::Lub, ..=-1) => format!("{a}, which was behind, ticked"),
            (Kind::Lub | Kind::Glb, 0) if self.ticks == [true; 2] => {
                format!("{a} and {b} were level and both ticked")
            }
            (Kind::Glb, 1..) => format!("{a}, which was ahead, ticked"),
            (Kind::Glb, ..=-1) => format!("{b}, which was ahead, ticked"),
            (Kind::Glb, 0) => format!("{a} and {b} were level and {} ticked", self.operands()),
            (Kind::Await, _) => {
                format!(
                    "this was the {} tick of {a}",
                    ordinal(self.record.number as i64)
                )
            }
            (Kind::Sampled, 2) => format!("{a} ticked for the first time and {b} with it"),
            (Kind::StrictlySampled | Kind::Sampled, _) => {
                format!("it waited for {b}, which ticked")
            }
            (Kind::Upto, _) => format!("{a} ticked before any {b}"),
            (Kind::Deferred, _) => format!("a delay ended with this tick of {b}"),
            _ => format!("{} ticked", self.operands()),
        }
    }

    /// What the defined clock lacked to be due.
    fn not_due(&self) -> String {
        let Named { a, b, .. } = &self.named;
        let [first, second] = self.ticks;
        match (self.record.kind, self.word) {
            (Kind::Lub, 1..) => format!("{b}, which was behind, did not tick"),
            (Kind::Lub, ..=-1) => format!("{a}, which was behind, did not tick"),
            (Kind::Lub, 0) => format!("{a} and {b} were level and did not both tick"),
            (Kind::Glb, 1..) => format!("{a}, which was ahead, did not tick"),
            (Kind::Glb, ..=-1) => format!("{b}, which was ahead, did not tick"),
            (Kind::Inter, _) if first => format!("{b} did not tick"),
            (Kind::Inter, _) if second => format!("{a} did not tick"),
            (Kind::Await | Kind::StrictlySampled | Kind::Sampled, 0) => {
                "it had had its turn already".to_string()
            }
            (Kind::Await, 1) => format!("{a} did not tick"),
            (Kind::Await, n) => {
                let came = if first { "only one" } else { "none" };
                format!("{n} more ticks of {a} were to come, and {came} came")
            }
            (Kind::StrictlySampled, 2) => format!("{a} had not ticked before this step"),
            (Kind::Sampled, 2) if first => format!("{b} did not tick with {a}"),
            (Kind::Sampled, 2) => format!("{a} had not ticked yet"),
            (Kind::StrictlySampled | Kind::Sampled, _) => {
                format!("it waited for {b}, which did not tick")
            }
            (Kind::Upto, 0) => format!("{b} had ticked before"),
            (Kind::Upto, _) if second => format!("{b} ticked in this step"),
            (Kind::Upto, _) => format!("{a} did not tick"),
            (Kind::Deferred, _) if !second => format!("{b} did not tick"),
            (Kind::Deferred, 0) => "no delay was running".to_string(),
            (Kind::Deferred, _) => format!("no delay ended with this tick of {b}"),
            _ => format!("neither {a} nor {b} ticked"),
        }
    }

    /// The operands that ticked.
    fn operands(&self) -> String {
        let Named { a, b, .. } = &self.named;
        let ticked: Vec<String> = [a, b]
            .into_iter()
            .zip(self.ticks)
            .filter(|(_, ticked)| *ticked)
            .map(|(name, _)| name.clone())
            .collect();
        and(&ticked)
    }
}
