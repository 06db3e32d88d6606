//! The steps as a picture in plain text, clocks as rows and steps as columns, and the same for other
//! tools as JSON.

use crate::account::Account;
use crate::caption::cut;
use crate::json::Json;
use crate::report::{pair, Telling};
use crate::window::{Options, Row, Window};

/// Times of more digits are written downwards, a digit a line.
const DIGITS: usize = 4;
/// Names are never cut, and have at most so many characters.
const NAME: usize = 16;
/// So many steps stand behind the violated one where not all have room.
const BEHIND: usize = 2;
const APART: &str = "Behind | nothing was judged: a tick is x";

/// The command, with the steps that are asked for.
pub struct Show(pub Options);

impl Telling for Show {
    fn name(&self) -> &'static str {
        "show"
    }

    fn text(&self, account: &Account) -> String {
        picture(account, &self.0)
    }

    fn json(&self, account: &Account) -> Json {
        steps_json(&Window::around(account, &self.0))
    }
}

/// The picture with its sentences below. Where the width has no room for all steps, the last are shown,
/// and at least one.
fn picture(account: &Account, options: &Options) -> String {
    let mut window = Window::asked(account, options);
    let mut text = String::new();
    if !window.steps.is_empty() {
        let grid = Grid::fitted(&mut window);
        text.push_str(&grid.picture(&window));
        text.push('\n');
    }
    for line in window.caption(options.width, APART) {
        text.push_str(&line);
        text.push('\n');
    }
    text
}

/// The widths of the label column and of the columns of steps.
struct Grid {
    labels: usize,
    column: usize,
}

impl Grid {
    /// Narrows the window to the steps that have room.
    fn fitted(window: &mut Window) -> Grid {
        let width = window.options.width;
        let names = window.rows.iter().map(|row| label(row, width).len());
        let others = window.labels().iter().chain(&["time:"]).map(|l| l.len());
        let labels = names.chain(others).max().unwrap_or(0);
        let room = width.saturating_sub(labels + 3);
        let (mut count, mut column) = fitting(window, window.steps.end, room);
        if count < window.steps.len() {
            let end = window.end(BEHIND);
            (count, column) = fitting(window, end, room);
            window.steps = end - count..end;
        }
        Grid { labels, column }
    }

    /// The violated step's mark, the clocks, the words and the times.
    fn picture(&self, window: &Window) -> String {
        let mut text = String::new();
        if window.steps.clone().any(|step| window.is_violated(step)) {
            let mark = |step| if window.is_violated(step) { "v" } else { "" }.to_string();
            text.push_str(&self.line(window, ' ', "", mark));
        }
        for row in &window.rows {
            let mark = if row.of_the_line { '>' } else { ' ' };
            let label = label(row, window.options.width);
            let tick = |step| tick(window, step, row).to_string();
            text.push_str(&self.line(window, mark, &label, tick));
        }
        for (i, label) in window.labels().iter().enumerate() {
            let word = |step| {
                let words = window.words(step);
                words.map_or(String::new(), |words| words[i].to_string())
            };
            text.push_str(&self.line(window, ' ', label, word));
        }
        text + &self.times(window)
    }

    /// The times in one line, or the longer ones downwards, units lowest.
    fn times(&self, window: &Window) -> String {
        let digits = digits(window, window.steps.end);
        if digits <= DIGITS {
            return self.line(window, ' ', "time:", |step| window.time(step).to_string());
        }
        let digit = |step, i: usize| format!("{:>digits$}", window.time(step))[i..=i].to_string();
        (0..digits)
            .map(|i| {
                let label = if i == 0 { "time:" } else { "" };
                self.line(window, ' ', label, |step| digit(step, i))
            })
            .collect()
    }

    /// One line: a mark, a label and a cell for each step, with no blank at its end.
    fn line(
        &self,
        window: &Window,
        mark: char,
        label: &str,
        cell: impl Fn(usize) -> String,
    ) -> String {
        let mut line = format!("{mark} {label:<0$} ", self.labels);
        for step in window.steps.clone() {
            if window.stands_apart(step) {
                line.push_str(" |");
            }
            line.push_str(&format!(" {:>1$}", cell(step), self.column));
        }
        format!("{}\n", line.trim_end())
    }
}

/// A name as it is, and an expression cut to a third of the width.
fn label(row: &Row, width: usize) -> String {
    cut(&row.name, NAME.max(width / 3))
}

/// How many of the window's steps before an end have room, at least one, and the width of their
/// columns.
fn fitting(window: &Window, end: usize, room: usize) -> (usize, usize) {
    let bar = if window.judged(end - 1) { 0 } else { 2 };
    let mut column = match digits(window, end) {
        digits if digits <= DIGITS => digits,
        _ => 1,
    };
    let mut count = 0;
    for step in (window.steps.start..end).rev() {
        let words = window.words(step).into_iter().flatten();
        let widest = words.map(|word| word.to_string().len()).max();
        let wider = column.max(widest.unwrap_or(1));
        if count > 0 && (count + 1) * (wider + 1) + bar > room {
            break;
        }
        (count, column) = (count + 1, wider);
    }
    (count, column)
}

/// The digits of the last time before an end, which is the largest.
fn digits(window: &Window, end: usize) -> usize {
    window.time(end - 1).to_string().len()
}

fn tick(window: &Window, step: usize, row: &Row) -> char {
    match window.account.ticks(step, row.clock) {
        Some(true) if window.judged(step) => 'X',
        Some(true) => 'x',
        Some(false) => '.',
        None => '?',
    }
}

/// The clocks and the steps that are shown.
fn steps_json(window: &Window) -> Json {
    let clocks = window.rows.iter().map(|row| {
        Json::Object(vec![
            ("name", Json::text(&row.name)),
            ("of_the_line", Json::Bool(row.of_the_line)),
        ])
    });
    let text = window.violation.as_ref().map(|v| Json::text(v.text.trim()));
    let steps = window.steps.clone().map(|step| step_json(window, step));
    Json::Object(vec![
        ("text", text.unwrap_or(Json::Null)),
        ("in_all", Json::number(window.total as u64)),
        ("clocks", Json::list(clocks)),
        ("steps", Json::list(steps)),
    ])
}

fn step_json(window: &Window, step: usize) -> Json {
    let recorded = window.account.steps[step];
    let ticks = window
        .rows
        .iter()
        .filter(|row| window.account.ticks(step, row.clock) == Some(true));
    Json::Object(vec![
        ("number", Json::number(step as u64 + 1)),
        ("time", Json::number(recorded.time.0)),
        ("mark", Json::number(recorded.mark)),
        ("ticks", Json::list(ticks.map(|row| Json::text(&row.name)))),
        ("judged", Json::Bool(window.judged(step))),
        ("violated", Json::Bool(window.is_violated(step))),
        ("word", window.words(step).map_or(Json::Null, pair)),
    ])
}
