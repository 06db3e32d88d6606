//! An accepted run in words: what each line remembers at its end, and which lines were never exercised.

use crate::account::Account;
use crate::json::Json;
use crate::lines;
use crate::why::Told;
use crate::words::Says;
use std::ops::Range;

/// What is told of a line.
struct Line {
    number: u64,
    text: String,
    /// The pairs after the last step, in the order of `config`.
    words: Vec<Says>,
    /// Whether a clock of the line ticked in some step.
    exercised: bool,
}

/// What is told of an accepted run.
pub struct Accepted {
    steps: usize,
    lines: Vec<Line>,
}

impl Accepted {
    pub fn of(account: &Account) -> Accepted {
        Accepted {
            steps: account.accepted(),
            lines: lines::with_records(&account.table)
                .into_iter()
                .map(|(number, places)| line(account, number, places))
                .collect(),
        }
    }
}

fn line(account: &Account, number: u64, places: Range<usize>) -> Line {
    let (table, words) = (&account.table, &account.report.configuration);
    let named = lines::clocks(account, places.clone())
        .into_iter()
        .filter(|clock| account.is_named(*clock));
    let clocks = named.fold(0u64, |set, clock| set | 1 << clock);
    Line {
        number,
        text: lines::text(account.input.table, number),
        words: places
            .map(|place| Says::of(table, &table.records[place], words[place]))
            .collect(),
        exercised: account
            .steps
            .iter()
            .any(|step| u64::from(step.ticks) & clocks != 0),
    }
}

impl Told for Accepted {
    fn lines(&self) -> Vec<String> {
        let mut told = vec![match self.steps {
            0 => "the recording has no step".to_string(),
            1 => "the step is accepted".to_string(),
            steps => format!("all {steps} steps are accepted"),
        }];
        for line in &self.lines {
            told.push(format!("line {}: {}", line.number, line.text));
            let words = line.words.iter();
            told.extend(words.map(Says::text));
        }
        let idle = self.lines.iter().filter(|line| !line.exercised);
        let idle = idle.map(|line| {
            let number = line.number;
            format!("line {number} was never exercised: none of its clocks ticked")
        });
        let before = told.len();
        told.extend(idle);
        if self.lines.is_empty() {
            told.push("the table has no constraint, and accepts every step".to_string());
        } else if told.len() == before {
            told.push("in every line some clock ticked".to_string());
        }
        told
    }

    fn json(&self) -> Json {
        let lines = self.lines.iter().map(|line| {
            Json::Object(vec![
                ("line", Json::number(line.number)),
                ("text", Json::text(&line.text)),
                ("words", Json::list(line.words.iter().map(Says::json))),
                ("exercised", Json::Bool(line.exercised)),
            ])
        });
        Json::Object(vec![("lines", Json::list(lines))])
    }
}
