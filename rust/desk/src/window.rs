//! What is shown of an account, on whatever it is drawn: which steps, which clocks, and the words of the
//! violated constraint.

use crate::account::{remembers, Account, Ending};
use crate::{lines, names};
use ccsl::{Kind, Pair};
use std::ops::Range;

/// Which steps are asked for, by their recorded times, and how many characters a line may have.
#[derive(Clone, Copy, Debug, PartialEq, Eq)]
pub struct Options {
    pub from: Option<u64>,
    pub to: Option<u64>,
    pub width: usize,
}

/// All times, and 80 characters.
impl Default for Options {
    fn default() -> Options {
        Options {
            from: None,
            to: None,
            width: 80,
        }
    }
}

/// So many steps are drawn where no times are asked for.
pub const FEW: usize = 50;
/// So many of them stand behind the violated one.
const BEHIND: usize = 5;

/// A clock that is shown: a named one by its name, an implicit one by its expression.
pub struct Row {
    pub clock: u64,
    pub name: String,
    /// Whether it stands in the violated line.
    pub of_the_line: bool,
}

/// The violated step and the record that fails in it, both counted from 0, and the record's line.
pub struct Violation {
    pub step: usize,
    pub record: usize,
    pub kind: Kind,
    pub line: u64,
    /// The line as it is written.
    pub text: String,
}

/// What is shown. Steps are counted from 0.
pub struct Window<'a> {
    pub account: &'a Account<'a>,
    pub options: Options,
    pub violation: Option<Violation>,
    pub rows: Vec<Row>,
    /// How many steps there are to show: all that were read, of a refused run those accepted.
    pub total: usize,
    /// The steps that are shown.
    pub steps: Range<usize>,
}

impl<'a> Window<'a> {
    /// All steps with a time that is asked for.
    pub fn asked(account: &'a Account<'a>, options: &Options) -> Window<'a> {
        let total = match account.ending {
            Ending::Refused(_) => account.accepted(),
            _ => account.steps.len(),
        };
        let times = &account.steps[..total];
        let (from, to) = (options.from.unwrap_or(0), options.to.unwrap_or(u64::MAX));
        let start = times.partition_point(|step| step.time.0 < from);
        let end = times.partition_point(|step| step.time.0 <= to);
        let violation = violation(account);
        Window {
            account,
            options: *options,
            rows: rows(account, violation.as_ref().map(|violated| violated.line)),
            violation,
            total,
            steps: start..end.max(start),
        }
    }

    /// The steps with a time that is asked for; where none is, those around the violation.
    pub fn around(account: &'a Account<'a>, options: &Options) -> Window<'a> {
        let mut window = Window::asked(account, options);
        if options.from.is_none() && options.to.is_none() && window.steps.len() > FEW {
            let end = window.end(BEHIND);
            window.steps = end.saturating_sub(FEW)..end;
        }
        window
    }

    /// Where the steps end of which not all can be shown: so many behind the violated one, or with
    /// the last.
    pub fn end(&self, behind: usize) -> usize {
        match &self.violation {
            Some(violated) if self.steps.contains(&violated.step) => {
                self.steps.end.min(violated.step + 1 + behind)
            }
            _ => self.steps.end,
        }
    }

    pub fn time(&self, step: usize) -> u64 {
        self.account.steps[step].time.0
    }

    /// Whether a step was judged: those behind the violated one were not.
    pub fn judged(&self, step: usize) -> bool {
        step < self.account.words.len()
    }

    pub fn is_violated(&self, step: usize) -> bool {
        let violated = self.violation.as_ref();
        violated.is_some_and(|violated| violated.step == step)
    }

    /// Whether a step is the first shown that was not judged.
    pub fn stands_apart(&self, step: usize) -> bool {
        !self.judged(step) && (step == self.steps.start || self.judged(step - 1))
    }

    /// What the words of the violated constraint are called: none where it remembers nothing.
    pub fn labels(&self) -> &'static [&'static str] {
        match &self.violation {
            Some(violated) if violated.kind == Kind::Deferred => &["pending:", "used:"],
            Some(violated) if remembers(violated.kind) => &["word:"],
            _ => &[],
        }
    }

    /// The words of the violated constraint before a step, where it remembers something and the step
    /// was judged.
    pub fn words(&self, step: usize) -> Option<Pair> {
        let violated = self.violation.as_ref()?;
        let shown = remembers(violated.kind) && self.judged(step);
        shown.then(|| self.account.words[step][violated.record])
    }
}

fn violation(account: &Account) -> Option<Violation> {
    let Ending::Violated { step, record } = account.ending else {
        return None;
    };
    let found = account.table.records.get(record)?;
    Some(Violation {
        step,
        record,
        kind: found.kind,
        line: found.line,
        text: lines::text(account.input.table, found.line),
    })
}

/// All named clocks, and the implicit ones of the violated line.
fn rows(account: &Account, line: Option<u64>) -> Vec<Row> {
    let table = &account.table;
    let of_the_line = || table.records.iter().filter(|r| Some(r.line) == line);
    let marked: Vec<u64> = of_the_line().flat_map(names::clocks).collect();
    let implicit = of_the_line().filter(|record| account.is_implicit(record));
    (0..table.clocks.len() as u64)
        .chain(implicit.map(|record| record.defined))
        .map(|clock| Row {
            clock,
            name: names::clock(table, clock),
            of_the_line: marked.contains(&clock),
        })
        .collect()
}
