//! The picture of the steps in plain text, and as JSON: pictures drawn by hand from documents 01 and 02.

mod common;

use common::{of_account, recording, LESSON};
use desk::report::{told, Form};
use desk::show::Show;
use desk::window::Options;

fn wide(width: usize) -> Options {
    Options {
        width,
        ..Options::default()
    }
}

fn times(from: Option<u64>, to: Option<u64>) -> Options {
    Options {
        from,
        to,
        ..Options::default()
    }
}

/// Holds what is shown to a picture, which begins in the line after its quote.
fn check(table: &str, recording: &str, options: &Options, picture: &str) {
    assert_eq!(shown(table, recording, options), picture[1..]);
}

/// The text shown, without the three lines and the empty one behind them, which are held to the run.
fn shown(table: &str, recording: &str, options: &Options) -> String {
    let (table, recording) = (table.as_bytes(), recording.as_bytes());
    let text = of_account(table, recording, |account| {
        told(account, Form::Text, &Show(*options))
    });
    let run = ccsl::run_with(table, recording, ccsl::UnknownNames::Ignored);
    let picture = text.strip_prefix(&format!("{run}\n"));
    picture.expect("the three lines come first").to_string()
}

#[test]
fn the_example_of_document_01() {
    let expected = r"
                 v
> req    X . X . X
> ack    . . X X X
  done   . . . X .
  word:  0 1 1 1 0
  time:  0 3 5 8 9

Step 5, at time 9, violates line 1:
    req strictly precedes ack
word: what line 1 remembers before each step.
";
    check(LESSON.0, LESSON.1, &Options::default(), expected);
}

/// The lub ticks with the b of step 2, which is all that lets c tick once.
#[test]
fn an_expression_has_a_row_and_steps_behind_the_violated_one_stand_apart() {
    let table = "b # d\n  (a lub b)strictly  precedes c ";
    let recording = recording("a b c d", "#0 1a #1 1b #2 1c #3 1c #40 1a 1b 1d #50");
    let expected = r"
                       v |
> b           .  X  .  . |  x  .
  d           .  .  .  . |  x  .
> a           X  .  .  . |  x  .
> c           .  .  X  X |  .  .
> (a lub b)   .  X  .  . |  ?  ?
  word:       0  0  1  0 |
  time:       0  1  2  3 | 40 50

Step 4, at time 3, violates line 2:
    (a lub b)strictly  precedes c
word: what line 2 remembers before each step.
Behind | nothing was judged: a tick is x, and ? is not known.
";
    check(table, &recording, &Options::default(), expected);
}

/// The first a plans the second b, the next a the first b behind it, where c is missing.
#[test]
fn a_delay_has_both_numbers_of_its_pair() {
    let table = "c clockDef a deferred b for 2 1";
    let recording = recording("a b c", "#0 1a #1 1b #2 1b 1c #3 1a #4 1b");
    let expected = r"
                    v
> c         . . X . .
> a         X . . X .
> b         . X X . X
  pending:  0 2 1 0 1
  used:     0 1 1 1 2
  time:     0 1 2 3 4

Step 5, at time 4, violates line 1:
    c clockDef a deferred b for 2 1
pending: and used: what line 1 remembers before each step.
";
    check(table, &recording, &Options::default(), expected);
}

#[test]
fn a_form_that_remembers_nothing_has_no_row_of_words() {
    let expected = r"
           v
> a      X X
> b      . X
  time:  7 9

Step 2, at time 9, violates line 1:
    a # b
";
    let recording = recording("a b", "#7 1a #9 1a 1b");
    check("a # b", &recording, &Options::default(), expected);
}

#[test]
fn an_accepted_recording_has_no_mark_and_no_words() {
    let expected = r"
  a        X   .   .
  b        .   X   .
  time:    0 100 250

No step violates the table.
";
    let recording = recording("a b", "#0 1a #100 1b #250");
    check("a precedes b", &recording, &Options::default(), expected);
}

/// The step at time 8 is open where the word `?` stands, and is not judged.
#[test]
fn a_refused_recording_shows_the_steps_that_were_accepted() {
    let recording = recording("a b", "#0 1a #5 1b #8 1a ?");
    let place = recording.find('?').expect("the word");
    let expected = format!(
        r"
  a      X .
  b      . X
  time:  0 5

refused 40 {place}: reading stopped behind step 2.
"
    );
    check("a precedes b", &recording, &Options::default(), &expected);
}

#[test]
fn where_there_is_no_step_words_say_so() {
    let none = "There is no step to show.\n";
    let at_once = "reading stopped before the first step was closed.\n";
    for (table, recording, expected) in [
        (
            "a precedes",
            LESSON.1.to_string(),
            format!("\nrefused 12 1: {at_once}{none}"),
        ),
        (
            "a # b",
            String::new(),
            format!("\nrefused 36 0: {at_once}{none}"),
        ),
        (
            "a # b",
            recording("a b", ""),
            format!("\nNo step violates the table.\n{none}"),
        ),
    ] {
        check(table, &recording, &Options::default(), &expected);
    }
}

#[test]
fn without_clocks_the_times_are_shown() {
    let expected = "\n  time:  1 2\n\nNo step violates the table.\n";
    let recording = recording("a", "#1 1a #2");
    check("\n\n", &recording, &Options::default(), expected);
}

/// Of 16 characters 8 stand before the columns, which have two each.
#[test]
fn a_narrow_terminal_shows_the_last_steps() {
    let expected = r"
               v
> req    . X . X
> ack    . X X X
  done   . . X .
  word:  1 1 1 0
  time:  3 5 8 9

Step 5, at time
9, violates line
1:
    req stric...
word: what line
1 remembers
before each
step.
Shown: steps 2
to 5 of 5. Not
shown: 1 before
them, 0 behind.
";
    check(LESSON.0, LESSON.1, &wide(16), expected);
}

/// The bar takes two characters, so that of 20 five columns are left.
#[test]
fn a_narrow_terminal_shows_two_steps_behind_the_violated_one() {
    let recording = recording("a b", "#0 #1 1a #2 #3 1b #4 1a 1b #5 #6 1b #7 1a #8");
    let expected = r"
             v |
> a      . . X | . .
> b      . X X | . x
  time:  2 3 4 | 5 6

Step 5, at time 4,
violates line 1:
    a # b
Shown: steps 3 to 7
of 9. Not shown: 2
before them, 2
behind.
Behind | nothing was
judged: a tick is x.
";
    check("a # b", &recording, &wide(20), expected);
}

#[test]
fn one_step_is_shown_in_no_width_at_all() {
    let text = shown(LESSON.0, LESSON.1, &wide(0));
    assert!(text.starts_with("         v\n> req    X\n> ack    X\n  done   .\n"));
}

#[test]
fn a_window_by_times() {
    let expected = r"
> req    . X .
> ack    . X X
  done   . . X
  word:  1 1 1
  time:  3 5 8

Step 5, at time 9, violates line 1, and is not shown:
    req strictly precedes ack
word: what line 1 remembers before each step.
Shown: steps 2 to 4 of 5. Not shown: 1 before them, 1 behind.
";
    for options in [times(Some(1), Some(8)), times(Some(3), Some(8))] {
        check(LESSON.0, LESSON.1, &options, expected);
    }
    let from = shown(LESSON.0, LESSON.1, &times(Some(8), None));
    assert!(from.contains("  time:  8 9\n"));
    let to = shown(LESSON.0, LESSON.1, &times(None, Some(5)));
    assert!(to.contains("  time:  0 3 5\n"));
}

#[test]
fn an_empty_window_is_told_in_words() {
    for (options, asked) in [
        (times(Some(10), Some(20)), "from 10 up to 20"),
        (times(Some(8), Some(3)), "from 8 up to 3"),
        (times(Some(u64::MAX), None), "from 18446744073709551615"),
        (times(Some(6), Some(7)), "from 6 up to 7"),
    ] {
        let expected = format!(
            r"
Step 5, at time 9, violates line 1, and is not shown:
    req strictly precedes ack
No step has a time {asked}: the times are 0 to 9.
"
        );
        check(LESSON.0, LESSON.1, &options, &expected);
    }
}

#[test]
fn times_of_more_than_four_digits_are_written_downwards() {
    let largest = recording("a b", "#7 1a #10020 1b #10300");
    let expected = r"
  a      X . .
  b      . X .
  time:    1 1
           0 0
           0 3
           2 0
         7 0 0

No step violates the table.
";
    check("a precedes b", &largest, &Options::default(), expected);
    let before = times(None, Some(10_000));
    assert!(shown("a precedes b", &largest, &before).contains("  time:  7\n"));
}

/// The word of a lub falls below 0, and its column is as wide as that.
#[test]
fn a_column_is_as_wide_as_its_words() {
    let recording = recording("a b c", "#0 1b #1 1b #2 1c");
    let expected = r"
                v
> c       .  .  X
> a       .  .  .
> b       X  X  .
  word:   0 -1 -2
  time:   0  1  2

Step 3, at time 2, violates line 1:
    c clockDef a lub b
word: what line 1 remembers before each step.
";
    check(
        "c clockDef a lub b",
        &recording,
        &Options::default(),
        expected,
    );
}

/// Expressions and the table's line are cut, and sentences go on in the next line.
#[test]
fn no_line_is_longer_than_the_width() {
    let long =
        "((((a lub b) upto c) sampled d) deferred e for 1 2 3 4 5 6 7 8) strictly precedes f";
    let body: String = (0..60).map(|i| format!("#{} 1a ", i * 997)).collect();
    let recording = recording("a b c d e f", &format!("{body} #70000 1f #80000 1b #90000"));
    for width in 24..100 {
        let text = shown(long, &recording, &wide(width));
        assert!(
            text.lines().all(|line| line.len() <= width),
            "{width}\n{text}"
        );
        assert!(text.contains("> (((a "));
    }
}

fn json(table: &str, recording: &str, options: &Options) -> String {
    let text = of_account(table.as_bytes(), recording.as_bytes(), |account| {
        told(account, Form::Json, &Show(*options))
    });
    text.trim_end().to_string()
}

#[test]
fn json_of_the_example_of_document_01() {
    let expected = [
        r#"{"verdict":"violated","line":1,"time":9,"steps":4,"config":[[0,0],[0,0]],"#,
        r#""show":{"text":"req strictly precedes ack","in_all":5,"#,
        r#""clocks":[{"name":"req","of_the_line":true},{"name":"ack","of_the_line":true},"#,
        r#"{"name":"done","of_the_line":false}],"#,
        r#""steps":[{"number":4,"time":8,"mark":MARK8,"ticks":["ack","done"],"#,
        r#""judged":true,"violated":false,"word":[1,0]},"#,
        r#"{"number":5,"time":9,"mark":MARK9,"ticks":["req","ack"],"#,
        r#""judged":true,"violated":true,"word":[0,0]}]}}"#,
    ];
    let mark = |mark: &str| LESSON.1.find(mark).expect("a mark").to_string();
    let expected = expected.concat();
    let expected = expected.replace("MARK8", &mark("#8"));
    let expected = expected.replace("MARK9", &mark("#9"));
    assert_eq!(json(LESSON.0, LESSON.1, &times(Some(6), None)), expected);
}

#[test]
fn json_of_other_verdicts_has_no_words() {
    let recording = recording("a b", "#4 1a 1b");
    let mark = recording.find("#4").expect("the mark");
    let step = format!(
        r#"{{"number":1,"time":4,"mark":{mark},"ticks":["a","b"],"judged":true,"violated":false,"word":null}}"#
    );
    let clocks = r#"{"name":"a","of_the_line":false},{"name":"b","of_the_line":false}"#;
    assert_eq!(
        json("a precedes b", &recording, &Options::default()),
        format!(
            r#"{{"verdict":"accepted","steps":1,"config":[[0,0]],"show":{{"text":null,"in_all":1,"clocks":[{clocks}],"steps":[{step}]}}}}"#
        )
    );
    assert_eq!(
        json("a precedes", &recording, &Options::default()),
        r#"{"verdict":"refused","number":12,"place":1,"steps":0,"config":[],"show":{"text":null,"in_all":0,"clocks":[],"steps":[]}}"#
    );
}

/// Behind the violated step an expression's ticks are not known, and it has no words.
#[test]
fn json_of_a_step_that_was_not_judged() {
    let recording = recording("a b c", "#0 1c #1 1a 1b");
    let text = json(
        "(a clockUnion b) strictly precedes c",
        &recording,
        &Options::default(),
    );
    assert!(text.contains(r#"{"name":"(a clockUnion b)","of_the_line":true}"#));
    assert!(text.contains(r#""ticks":["a","b"],"judged":false,"violated":false,"word":null}"#));
}

/// 120 steps, of which number 100 is violated: 50 are shown, five of them behind it.
#[test]
fn json_of_a_long_recording_has_the_steps_around_the_violation() {
    let body: String = (1..=120)
        .map(|i| format!("#{i} {}", if i == 100 { "1a 1b " } else { "1a " }))
        .collect();
    let recording = recording("a b", &body);
    let around = json("a # b", &recording, &Options::default());
    assert_eq!(around.matches("\"number\":").count(), 50);
    assert!(around.contains(r#""in_all":120,"#));
    assert!(around.contains(r#"[{"number":56,"#) && around.contains(r#"{"number":105,"#));
    let all = json("a # b", &recording, &times(Some(0), None));
    assert_eq!(all.matches("\"number\":").count(), 120);
}
