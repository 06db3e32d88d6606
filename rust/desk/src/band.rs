//! A band of the picture in SVG: up to fifty steps beside one another, with the clocks, the words of the
//! violated constraint and the times as rows.

use crate::caption::cut;
use crate::drawing::{Drawing, BOLD};
use crate::svg::{Numbers, Sheet, CHARACTER, HEAD, LABEL, MARGIN, ROW};
use crate::window::Row;
use std::ops::Range;

/// Every fifth step has its number and a thin line down the clocks.
const GUIDE: usize = 5;
/// From the middle of a row or a column to the base of its letters.
const BASE: usize = 5;
const MIDDLE: &str = r#"text-anchor="middle""#;
/// One pixel of black, so that paper without grey has it too.
const THIN: &str = r#"stroke="black" stroke-width="1" shape-rendering="crispEdges""#;

pub(crate) struct Band<'a> {
    pub sheet: &'a Sheet<'a>,
    pub steps: Range<usize>,
    pub top: usize,
}

impl Band<'_> {
    pub fn draw(&self, drawing: &mut Drawing) {
        self.label(drawing, "step:", self.top + HEAD - ROW);
        for step in self.steps.clone() {
            self.column(drawing, step);
        }
        let mut y = self.top + HEAD;
        for row in &self.sheet.window.rows {
            self.clock(drawing, row, y + ROW / 2);
            y += ROW;
        }
        for row in &self.sheet.numbers {
            self.numbers(drawing, row, y);
            y += row.height();
        }
    }

    /// The label of a row that is no clock's, around a height.
    fn label(&self, drawing: &mut Drawing, label: &str, y: usize) {
        drawing.text((MARGIN + 2 * CHARACTER, y + BASE), "", label, "");
    }

    /// Where a step's column begins.
    fn left(&self, step: usize) -> usize {
        self.sheet.left + (step - self.steps.start) * self.sheet.column
    }

    fn middle(&self, step: usize) -> usize {
        self.left(step) + self.sheet.column / 2
    }

    /// What stands behind the marks of a step: its number, a thin line, the violated step's frame.
    fn column(&self, drawing: &mut Drawing, step: usize) {
        let (x, top, number) = (self.middle(step), self.top + HEAD, step + 1);
        let guided = number % GUIDE == 0;
        if guided || step == self.steps.start && (number + 1) % GUIDE != 0 {
            let place = (x, top - ROW + BASE);
            drawing.text(place, MIDDLE, &number.to_string(), "");
        }
        if self.sheet.window.is_violated(step) {
            self.frame(drawing, step);
        } else if guided {
            let bottom = top + self.sheet.window.rows.len() * ROW;
            let looks = r##"stroke="#888" stroke-width="0.5""##;
            drawing.line((x, top), (x, bottom), looks);
        }
    }

    /// A thick frame around the violated step, and a mark above it.
    fn frame(&self, drawing: &mut Drawing, step: usize) {
        let window = self.sheet.window;
        let violated = window.violation.as_ref();
        let line = violated.map_or(0, |violated| violated.line);
        let (number, time) = (step + 1, window.time(step));
        let title = format!("line {line} is violated in step {number}, time {time}");
        let (left, width) = (self.left(step), self.sheet.column);
        let (top, height) = (self.top + HEAD, self.sheet.height - HEAD);
        let place = format!(r#"x="{left}" y="{top}" width="{width}" height="{height}""#);
        let looks = r#"class="violated" fill="white" stroke="black" stroke-width="3""#;
        drawing.element("rect", &format!("{place} {looks}"), "", &title);
        let (x, tip, above) = (self.middle(step), top - 2, top - 12);
        let corners = format!("{},{above} {},{above} {x},{tip}", x - 9, x + 9);
        let looks = format!(r#"points="{corners}" fill="black""#);
        drawing.element("polygon", &looks, "", &title);
    }

    /// A clock: its name, bold and with a mark where it stands in the violated line, a line, dotted
    /// where nothing was judged, and its ticks.
    fn clock(&self, drawing: &mut Drawing, row: &Row, y: usize) {
        let place = (MARGIN + 2 * CHARACTER, y + BASE);
        let looks = if row.of_the_line { BOLD } else { "" };
        drawing.text(place, looks, &cut(&row.name, LABEL), &row.name);
        if row.of_the_line {
            drawing.text((MARGIN, y + BASE), BOLD, ">", "");
        }
        let window = self.sheet.window;
        let Range { start, end } = self.steps;
        let apart = window.account.words.len().clamp(start, end);
        drawing.line((self.left(start), y), (self.left(apart), y), THIN);
        if apart < end && window.account.is_named(row.clock) {
            let dotted = format!(r#"{THIN} stroke-dasharray="2 4""#);
            drawing.line((self.left(apart), y), (self.left(end), y), &dotted);
        }
        for step in self.steps.clone() {
            self.tick(drawing, row, step, y);
        }
    }

    /// A filled mark; a hollow one in a step that was not judged.
    fn tick(&self, drawing: &mut Drawing, row: &Row, step: usize, y: usize) {
        let window = self.sheet.window;
        let (x, number, time) = (self.middle(step), step + 1, window.time(step));
        let title = format!("{}, step {number}, time {time}", row.name);
        let circle = format!(r#"class="tick" cx="{x}" cy="{y}""#);
        match window.account.ticks(step, row.clock) {
            Some(false) => (),
            Some(true) if window.judged(step) => {
                let looks = format!(r#"{circle} r="6" fill="black""#);
                drawing.element("circle", &looks, "", &title);
            }
            Some(true) => {
                let hollow = r#"r="5" fill="white" stroke="black" stroke-width="2""#;
                let title = format!("{title}, not judged");
                drawing.element("circle", &format!("{circle} {hollow}"), "", &title);
            }
            None => {
                let looks = format!(r#"class="unknown" {MIDDLE}"#);
                let title = format!("{title}, not known");
                drawing.text((x, y + BASE), &looks, "?", &title);
            }
        }
    }

    fn numbers(&self, drawing: &mut Drawing, row: &Numbers, top: usize) {
        let y = top + ROW / 2;
        self.label(drawing, row.label, y);
        for step in self.steps.clone() {
            let Some(number) = (row.of)(step) else {
                continue;
            };
            let x = self.middle(step);
            if row.upright() {
                let (x, y) = (x + BASE, top + 8);
                let looks = format!(r#"text-anchor="end" transform="rotate(-90 {x} {y})""#);
                drawing.text((x, y), &looks, &number, "");
            } else {
                drawing.text((x, y + BASE), MIDDLE, &number, "");
            }
        }
    }
}
