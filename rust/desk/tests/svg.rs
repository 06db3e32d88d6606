//! The picture of the steps in SVG: well-formed, with the marks that the recording's text has.

mod common;
#[path = "common/xml.rs"]
mod xml;

use ccsl::{Refusal, Table, UnknownNames};
use common::{of_account, recording, LESSON};
use compare::random::Random;
use desk::account::{account, Input};
use desk::library::{Library, Proved};
use desk::report::{told, Form};
use desk::show::Show;
use desk::svg::svg;
use desk::window::Options;
use xml::{elements, Element};

const ALL: Options = Options {
    from: Some(0),
    to: None,
    width: 80,
};

fn drawn(table: &str, recording: &str, options: &Options) -> Vec<Element> {
    let picture = of_account(table.as_bytes(), recording.as_bytes(), |account| {
        svg(account, options)
    });
    elements(&picture).expect("well-formed")
}

fn count(elements: &[Element], name: &str, value: &str) -> usize {
    let has = |element: &&Element| element.attribute(name) == Some(value);
    elements.iter().filter(has).count()
}

/// The titles of ticks, which stand straight behind them.
fn titles(elements: &[Element]) -> Vec<&str> {
    let ticks = elements
        .windows(2)
        .filter(|pair| pair[0].attribute("class") == Some("tick"));
    ticks.map(|pair| pair[1].text.as_str()).collect()
}

#[test]
fn the_example_of_document_01() {
    let elements = drawn(LESSON.0, LESSON.1, &Options::default());
    let expected = [
        "req, step 1, time 0",
        "req, step 3, time 5",
        "req, step 5, time 9",
        "ack, step 3, time 5",
        "ack, step 4, time 8",
        "ack, step 5, time 9",
        "done, step 4, time 8",
    ];
    assert_eq!(titles(&elements), expected);
    assert_eq!(count(&elements, "class", "violated"), 1);
    let texts: Vec<&str> = elements
        .iter()
        .filter(|e| e.name == "text")
        .map(|e| e.text.as_str())
        .collect();
    for text in [
        "violated 1 9",
        "req strictly precedes ack",
        "req",
        "ack",
        "done",
        "word:",
        "time:",
        "9",
    ] {
        assert!(texts.contains(&text), "{text}");
    }
    let frame = "line 1 is violated in step 5, time 9";
    assert!(elements
        .iter()
        .any(|element| element.name == "title" && element.text == frame));
}

/// The table of long recordings: `off` never ticks, so that only the first line can be violated.
const LONG: &str = "go # stop\nlamp strictly precedes off\n";

/// Steps of which only the one at a place has both `go` and `stop`, their times three apart.
fn long(steps: usize, both: usize, seed: u64) -> String {
    let mut random = Random::of_pair(seed, 0);
    let mut body = String::new();
    for i in 0..steps {
        let ticks = match (i == both, random.below(4)) {
            (true, _) => "1go xstop",
            (_, 0) => "0go 1lamp",
            (_, 1) => "zstop",
            (_, 2) => "Xlamp",
            _ => "",
        };
        body.push_str(&format!("#{}\n{ticks}\n", i * 3));
    }
    recording("go stop lamp off", &body)
}

/// The ticks of each step, counted in the text of a recording.
fn ticks(recording: &str) -> Vec<usize> {
    let body = recording
        .split("$enddefinitions $end")
        .nth(1)
        .expect("a body");
    let steps = body.split('#').skip(1);
    steps
        .map(|step| step.split_whitespace().count() - 1)
        .collect()
}

#[test]
fn all_steps_have_the_marks_that_the_recording_has() {
    for (steps, both) in [(5, 3), (50, 41), (500, 460), (500, 0), (500, 1000)] {
        let recording = long(steps, both, steps as u64);
        let ticks = ticks(&recording);
        assert_eq!(ticks.len(), steps);
        let elements = drawn(LONG, &recording, &ALL);
        let judged = steps.min(both + 1);
        let filled: usize = ticks[..judged].iter().sum();
        let hollow: usize = ticks[judged..].iter().sum();
        let marks = titles(&elements);
        assert_eq!(marks.len(), filled + hollow);
        let not_judged = marks.iter().filter(|title| title.ends_with(", not judged"));
        assert_eq!(not_judged.count(), hollow);
        assert_eq!(
            count(&elements, "class", "violated"),
            usize::from(both < steps)
        );
        let labels = elements.iter().filter(|element| element.text == "time:");
        assert_eq!(labels.count(), steps.div_ceil(50));
    }
}

/// Without times 50 steps are drawn, five of them behind the violated one, or the last where none is.
#[test]
fn a_long_recording_is_drawn_around_the_violation() {
    for (both, shown) in [
        (460, 416..466),
        (498, 450..500),
        (2, 0..8),
        (1000, 450..500),
    ] {
        let recording = long(500, both, 7);
        let expected: usize = ticks(&recording)[shown].iter().sum();
        let elements = drawn(LONG, &recording, &Options::default());
        assert_eq!(titles(&elements).len(), expected);
    }
}

/// Of a window by times all steps are drawn: those at 30 to 60 are the steps from 11 to 21.
#[test]
fn a_window_by_times_is_drawn() {
    let recording = long(500, 460, 9);
    let options = Options {
        from: Some(29),
        to: Some(60),
        width: 80,
    };
    let elements = drawn(LONG, &recording, &options);
    let expected: usize = ticks(&recording)[10..21].iter().sum();
    assert_eq!(titles(&elements).len(), expected);
    assert_eq!(count(&elements, "class", "violated"), 0);
}

#[test]
fn what_is_not_known_is_told_from_ticks() {
    let recording = recording("a b c", "#0 1c #1 1a 1b #2");
    let elements = drawn(
        "(a lub b) strictly precedes c",
        &recording,
        &Options::default(),
    );
    assert_eq!(count(&elements, "class", "unknown"), 2);
    assert_eq!(titles(&elements).len(), 3);
}

/// The proved library, but with a name for the first clock that no table can have.
struct Renamed;

const NAME: &str = "<a&\"b'\\\u{1}\u{e9}>";

impl Library for Renamed {
    fn read_table(&self, table: &[u8]) -> Result<Table, Refusal> {
        let mut table = Proved.read_table(table)?;
        table.clocks[0].name = NAME.to_string();
        Ok(table)
    }
}

#[test]
fn names_are_escaped() {
    let input = Input {
        table: LESSON.0.as_bytes(),
        recording: LESSON.1.as_bytes(),
        unknown: UnknownNames::Refused,
    };
    let account = account(&Renamed, input).expect("an account");
    let elements = elements(&svg(&account, &ALL)).expect("well-formed");
    assert_eq!(titles(&elements)[0], "<a&\"b'\\??>, step 1, time 0");
    let json = told(&account, Form::Json, &Show(ALL));
    let name = "{\"name\":\"<a&\\\"b'\\\\\\u0001\u{e9}>\",\"of_the_line\":true}";
    assert!(json.contains(name), "{json}");
}

/// The `>` before a clock of the violated line is text too.
#[test]
fn nothing_is_run_or_fetched() {
    let (table, recording) = (LESSON.0.as_bytes(), LESSON.1.as_bytes());
    let picture = of_account(table, recording, |account| svg(account, &ALL));
    assert!(picture.contains(">&gt;</text>"));
    for unwanted in [
        "<script", "href", "url(", "style", "<image", "<!", "<?", "onclick",
    ] {
        assert!(!picture.contains(unwanted), "{unwanted}");
    }
    assert_eq!(
        picture.matches("://").count(),
        1,
        "the name of the language alone"
    );
}

/// Elements stay within the picture, whose size is given twice.
#[test]
fn the_size_is_that_of_what_is_drawn() {
    for steps in [1, 5, 50, 51, 500] {
        let elements = drawn(LONG, &long(steps, steps - 1, 3), &ALL);
        let number = |element: &Element, name: &str| {
            element
                .attribute(name)
                .and_then(|n| n.parse::<usize>().ok())
        };
        let (width, height) = (
            number(&elements[0], "width"),
            number(&elements[0], "height"),
        );
        let (width, height) = (width.expect("a width"), height.expect("a height"));
        let view = format!("0 0 {width} {height}");
        assert_eq!(elements[0].attribute("viewBox"), Some(view.as_str()));
        for element in &elements {
            for (name, most) in [
                ("x", width),
                ("cx", width),
                ("x2", width),
                ("y", height),
                ("cy", height),
                ("y2", height),
            ] {
                assert!(number(element, name).unwrap_or(0) <= most, "{element:?}");
            }
        }
    }
}
