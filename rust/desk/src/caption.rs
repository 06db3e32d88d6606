//! The sentences that stand with a picture of the steps: what is violated or refused, and which steps are
//! not shown.

use crate::account::Ending;
use crate::window::{Violation, Window};
use ccsl::Refusal;

impl Window<'_> {
    /// The sentences that stand with the picture, in lines of at most so many characters. `apart`
    /// says how steps are drawn that were not judged.
    pub fn caption(&self, width: usize, apart: &str) -> Vec<String> {
        let mut lines = match self.account.ending {
            Ending::Accepted => vec!["No step violates the table.".to_string()],
            Ending::Refused(refusal) => wrapped(&self.stopped(refusal), width),
            Ending::Violated { .. } => self.violated(width),
        };
        lines.extend(wrapped(&self.missing(), width));
        if self.steps.clone().any(|step| !self.judged(step)) {
            let expressions = self
                .rows
                .iter()
                .any(|row| !self.account.is_named(row.clock));
            let unknown = if expressions {
                ", and ? is not known"
            } else {
                ""
            };
            lines.extend(wrapped(&format!("{apart}{unknown}."), width));
        }
        lines
    }

    /// Where reading stopped.
    fn stopped(&self, refusal: Refusal) -> String {
        match self.total {
            0 => format!("{refusal}: reading stopped before the first step was closed."),
            total => format!("{refusal}: reading stopped behind step {total}."),
        }
    }

    /// The violated step and line, and what its words are.
    fn violated(&self, width: usize) -> Vec<String> {
        let Some(violated) = &self.violation else {
            return Vec::new();
        };
        let Violation { step, line, .. } = *violated;
        let (number, time) = (step + 1, self.time(step));
        let missing = match self.steps.contains(&step) {
            true => "",
            false => ", and is not shown",
        };
        let told = format!("Step {number}, at time {time}, violates line {line}{missing}:");
        let mut lines = wrapped(&told, width);
        lines.push(cut(&format!("    {}", violated.text.trim()), width));
        let labels = self.labels();
        if !labels.is_empty() && !self.steps.is_empty() {
            let labels = labels.join(" and ");
            let told = format!("{labels} what line {line} remembers before each step.");
            lines.extend(wrapped(&told, width));
        }
        lines
    }

    /// How many steps are not shown.
    fn missing(&self) -> String {
        let total = self.total;
        if total == 0 {
            return "There is no step to show.".to_string();
        }
        if self.steps.is_empty() {
            let asked = |word: &str, time: Option<u64>| {
                time.map_or(String::new(), |time| format!(" {word} {time}"))
            };
            let from = asked("from", self.options.from);
            let to = asked("up to", self.options.to);
            let (first, last) = (self.time(0), self.time(total - 1));
            return format!("No step has a time{from}{to}: the times are {first} to {last}.");
        }
        let (first, last) = (self.steps.start, self.steps.end);
        if last - first == total {
            return String::new();
        }
        format!(
            "Shown: steps {} to {last} of {total}. Not shown: {first} before them, {} behind.",
            first + 1,
            total - last
        )
    }
}

/// A text of at most so many characters, with three dots where its end is missing.
pub fn cut(text: &str, width: usize) -> String {
    if text.chars().count() <= width {
        return text.to_string();
    }
    let kept: String = text.chars().take(width.saturating_sub(3)).collect();
    kept + "..."
}

/// A sentence in lines of at most so many characters; a longer word has a line of its own.
fn wrapped(sentence: &str, width: usize) -> Vec<String> {
    let mut lines: Vec<String> = Vec::new();
    for word in sentence.split_whitespace() {
        match lines.last_mut() {
            Some(line) if line.len() + 1 + word.len() <= width => {
                line.push(' ');
                line.push_str(word);
            }
            _ => lines.push(word.to_string()),
        }
    }
    lines
}
