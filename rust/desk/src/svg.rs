//! The steps as a picture in SVG: black on white, marks told apart by their shape, and long recordings
//! in bands of fifty columns one below the other.

use crate::account::Account;
use crate::band::Band;
use crate::drawing::{Drawing, BOLD};
use crate::window::{Options, Window, FEW};

/// Lengths in pixels. A character of the font is a little narrower than `CHARACTER`.
pub(crate) const CHARACTER: usize = 9;
pub(crate) const MARGIN: usize = 16;
pub(crate) const ROW: usize = 22;
/// The numbers of the steps and the violated step's mark, above the clocks of a band.
pub(crate) const HEAD: usize = 32;
const GAP: usize = 24;
const LINE: usize = 20;
/// A column has at least the first width, and the second where there is room.
const COLUMN: (usize, usize) = (20, 32);
/// A picture with few columns is as wide as this, for its sentences.
const NARROWEST: usize = 640;

/// An expression is cut to so many characters; its title has the whole.
pub(crate) const LABEL: usize = 32;
/// Words and times with more characters are turned upright.
const LEVEL: usize = 2;

const APART: &str = "Where the lines are dotted nothing was judged: ticks are hollow";

/// The picture of the steps asked for; where no times are, of those around the violation.
pub fn svg(account: &Account, options: &Options) -> String {
    let window = Window::around(account, options);
    let sheet = Sheet::of(&window);
    let mut drawing = Drawing::default();
    let verdict = account.report.verdict.to_string();
    let mut y = MARGIN + LINE / 2;
    drawing.text((MARGIN, y), BOLD, &verdict, "");
    for line in window.caption((sheet.width - 2 * MARGIN) / CHARACTER, APART) {
        y += LINE;
        let indent = line.len() - line.trim_start().len();
        let x = MARGIN + indent * CHARACTER;
        drawing.text((x, y), "", line.trim_start(), "");
    }
    y += GAP;
    for start in window.steps.clone().step_by(FEW) {
        let steps = start..window.steps.end.min(start + FEW);
        let band = Band {
            sheet: &sheet,
            steps,
            top: y,
        };
        band.draw(&mut drawing);
        y += sheet.height + GAP;
    }
    drawing.picture(sheet.width, y, &verdict)
}

/// What the bands have in common.
pub(crate) struct Sheet<'a> {
    pub window: &'a Window<'a>,
    pub numbers: Vec<Numbers<'a>>,
    /// Where the columns begin, and how wide each is.
    pub left: usize,
    pub column: usize,
    pub width: usize,
    /// The height of a band.
    pub height: usize,
}

impl<'a> Sheet<'a> {
    fn of(window: &'a Window<'a>) -> Sheet<'a> {
        let numbers = numbers(window);
        let names = window.rows.iter().map(|row| row.name.len().min(LABEL));
        let others = numbers.iter().map(|row| row.label.len());
        let labels = names.chain(others).max().unwrap_or(0);
        let left = MARGIN + (labels + 3) * CHARACTER;
        let columns = window.steps.len().clamp(1, FEW);
        let room = NARROWEST.saturating_sub(left + MARGIN);
        let column = (room / columns).clamp(COLUMN.0, COLUMN.1);
        let below: usize = numbers.iter().map(Numbers::height).sum();
        Sheet {
            window,
            height: HEAD + window.rows.len() * ROW + below,
            numbers,
            left,
            column,
            width: NARROWEST.max(left + columns * column + MARGIN),
        }
    }
}

/// A row of numbers below the clocks.
pub(crate) struct Numbers<'a> {
    pub label: &'static str,
    pub of: Box<dyn Fn(usize) -> Option<String> + 'a>,
    longest: usize,
}

impl<'a> Numbers<'a> {
    fn of(
        window: &Window,
        label: &'static str,
        of: impl Fn(usize) -> Option<String> + 'a,
    ) -> Numbers<'a> {
        let lengths = window.steps.clone().filter_map(&of).map(|n| n.len());
        Numbers {
            label,
            longest: lengths.max().unwrap_or(0),
            of: Box::new(of),
        }
    }

    pub fn upright(&self) -> bool {
        self.longest > LEVEL
    }

    pub fn height(&self) -> usize {
        match self.upright() {
            true => self.longest * CHARACTER + ROW / 2,
            false => ROW,
        }
    }
}

/// The words of the violated constraint, and the times.
fn numbers<'a>(window: &'a Window) -> Vec<Numbers<'a>> {
    let mut rows = Vec::new();
    for (i, label) in window.labels().iter().enumerate() {
        let word = move |step| Some(window.words(step)?[i].to_string());
        rows.push(Numbers::of(window, label, word));
    }
    let time = |step| Some(window.time(step).to_string());
    rows.push(Numbers::of(window, "time:", time));
    rows
}
