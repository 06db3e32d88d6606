//! A violation in words: the line, the step, the words before it, and the sentence of the form that
//! failed.

use crate::account::Account;
use crate::json::Json;
use crate::why::Told;
use crate::words::Says;
use crate::{lines, names, sentences};
use ccsl::{Record, Time};

/// A clock of the violated line.
struct Clock {
    name: String,
    implicit: bool,
    ticked: bool,
    /// The last step before the violated one in which it ticked, from 1, and its time.
    last: Option<(usize, Time)>,
}

/// A line that fails in the step, with its reason.
struct Failed {
    line: u64,
    text: String,
    reason: String,
}

/// What is told of a violation.
pub struct Violated {
    /// The line that the run names.
    failed: Failed,
    /// The violated step, from 1, and its time.
    step: usize,
    time: Time,
    clocks: Vec<Clock>,
    /// The pairs before the step, in the order of `config`: those of the line's expressions, then that
    /// of its own constraint.
    before: Vec<Says>,
    rule: String,
    others: Vec<Failed>,
}

impl Violated {
    /// The account of a step in which a record fails, both counted from 0.
    pub fn of(account: &Account, step: usize, record: usize) -> Violated {
        let own = &account.table.records[record];
        let mut records = account.table.records.iter();
        let first = records.position(|other| other.line == own.line);
        let places = first.unwrap_or(record)..record + 1;
        let others = account.failing(step);
        Violated {
            failed: failed(account, step, record),
            step: step + 1,
            time: account.steps[step].time,
            clocks: lines::clocks(account, places.clone())
                .into_iter()
                .map(|clock| seen(account, step, clock))
                .collect(),
            before: places
                .map(|place| {
                    let record = &account.table.records[place];
                    Says::of(&account.table, record, account.words[step][place])
                })
                .collect(),
            rule: sentences::rule(&account.table, own),
            others: others
                .into_iter()
                .filter(|other| *other != record)
                .map(|other| failed(account, step, other))
                .collect(),
        }
    }
}

fn failed(account: &Account, step: usize, place: usize) -> Failed {
    let record: &Record = &account.table.records[place];
    let ticked = |clock| account.ticks(step, clock).unwrap_or(false);
    let pair = account.words[step][place];
    Failed {
        line: record.line,
        text: lines::text(account.input.table, record.line),
        reason: sentences::reason(&account.table, record, pair, ticked),
    }
}

fn seen(account: &Account, step: usize, clock: u64) -> Clock {
    let ticked = |step: &usize| account.ticks(*step, clock).unwrap_or(false);
    Clock {
        name: names::clock(&account.table, clock),
        implicit: !account.is_named(clock),
        ticked: ticked(&step),
        last: (0..step)
            .rev()
            .find(ticked)
            .map(|last| (last + 1, account.steps[last].time)),
    }
}

impl Clock {
    fn ticked(&self) -> String {
        let what = if self.ticked {
            "ticked"
        } else {
            "did not tick"
        };
        format!("{} {what}", self.name)
    }

    fn last(&self) -> String {
        match self.last {
            Some((step, time)) => format!("{} in step {step} at time {time}", self.name),
            None => format!("{} never", self.name),
        }
    }

    fn json(&self) -> Json {
        let last = self.last.map_or(Json::Null, |(step, time)| {
            Json::Object(vec![
                ("step", Json::number(step as u64)),
                ("time", Json::number(time.0)),
            ])
        });
        Json::Object(vec![
            ("clock", Json::text(&self.name)),
            ("implicit", Json::Bool(self.implicit)),
            ("ticked", Json::Bool(self.ticked)),
            ("last", last),
        ])
    }
}

impl Failed {
    fn fields(&self) -> Vec<(&'static str, Json)> {
        vec![
            ("line", Json::number(self.line)),
            ("text", Json::text(&self.text)),
            ("reason", Json::text(&self.reason)),
        ]
    }
}

impl Told for Violated {
    fn lines(&self) -> Vec<String> {
        let Failed { line, text, reason } = &self.failed;
        let each = |which: bool, tell: fn(&Clock) -> String| {
            let clocks = self.clocks.iter().filter(|clock| clock.implicit == which);
            clocks.map(tell).collect::<Vec<_>>().join(", ")
        };
        let (step, time) = (self.step, self.time);
        let named = each(false, Clock::ticked);
        let mut lines = vec![
            format!("line {line}: {text}"),
            format!("step {step}, at time {time}: {named}"),
        ];
        let implicit = each(true, Clock::ticked);
        if !implicit.is_empty() {
            lines.push(format!("worked out: {implicit}"));
        }
        let before = self.before.iter();
        lines.extend(before.map(|words| format!("before it, {}", words.text())));
        lines.push(format!("the rule: {}", self.rule));
        lines.push(format!("so: {reason}"));
        let last: Vec<String> = self.clocks.iter().map(Clock::last).collect();
        lines.push(format!("last ticked before: {}", last.join(", ")));
        for Failed { line, text, reason } in &self.others {
            lines.push(format!("line {line} fails too: {text}"));
            lines.push(format!("so: {reason}"));
        }
        if self.others.is_empty() {
            lines.push("nothing else fails in this step".to_string());
        }
        lines
    }

    fn json(&self) -> Json {
        let mut fields = self.failed.fields();
        fields.extend([
            ("rule", Json::text(&self.rule)),
            ("step", Json::number(self.step as u64)),
            ("time", Json::number(self.time.0)),
            ("clocks", Json::list(self.clocks.iter().map(Clock::json))),
            ("before", Json::list(self.before.iter().map(Says::json))),
            (
                "others",
                Json::list(self.others.iter().map(|other| Json::Object(other.fields()))),
            ),
        ]);
        Json::Object(fields)
    }
}
