//! What `why` writes as JSON, from the same documents as its text.

mod common;

use ccsl::UnknownNames;
use common::{input, recording};
use desk::account::account;
use desk::library::Proved;
use desk::report::{answer, Form};
use desk::why::Why;

fn json(table: &str, recording: &str) -> String {
    let input = input(
        table.as_bytes(),
        recording.as_bytes(),
        UnknownNames::Refused,
    );
    answer(&account(&Proved, input), Form::Json, &Why).text
}

/// The pieces of an object one after the other, and the line end behind them.
fn joined(pieces: &[&str]) -> String {
    format!("{}\n", pieces.concat())
}

#[test]
fn a_violation() {
    let expected = [
        r#"{"verdict":"violated","line":1,"time":18446744073709551615,"steps":1,"#,
        r#""config":[[-1,0],[0,0],[2,0]],"#,
        r#""why":{"line":1,"text":" (a lub b) precedes c","#,
        r#""reason":"c ticked, no (a lub b) was waiting, and (a lub b) did not tick","#,
        r#""rule":"each tick of c needs a tick of (a lub b) of its own, earlier or in the same step","#,
        r#""step":2,"time":18446744073709551615,"clocks":["#,
        r#"{"clock":"a","implicit":false,"ticked":false,"last":null},"#,
        r#"{"clock":"b","implicit":false,"ticked":false,"last":{"step":1,"time":5}},"#,
        r#"{"clock":"c","implicit":false,"ticked":true,"last":null},"#,
        r#"{"clock":"(a lub b)","implicit":true,"ticked":false,"last":null}],"#,
        r#""before":[{"words":[-1,0],"says":"b is 1 ahead of a: (a lub b) ticks with a"},"#,
        r#"{"words":[0,0],"says":"c is level with (a lub b): no (a lub b) is waiting"}],"#,
        r#""others":[{"line":2,"text":"d clockDef c sampled b","#,
        r#""reason":"d ticked and was not due, since b did not tick with c"}]}}"#,
    ];
    let table = " (a lub b) precedes c\nd clockDef c sampled b";
    let recording = recording("a b c d", "#5 1b #18446744073709551615 1c 1d");
    assert_eq!(json(table, &recording), joined(&expected));
}

#[test]
fn an_accepted_run() {
    let expected = [
        r#"{"verdict":"accepted","steps":1,"config":[[0,0],[2,1]],"why":{"lines":["#,
        r#"{"line":1,"text":"d # e","#,
        r#""words":[{"words":[0,0],"says":"this line remembers nothing"}],"exercised":false},"#,
        r#"{"line":2,"text":"c clockDef a deferred b for 2","#,
        r#""words":[{"words":[2,1],"says":"c is due with the 2nd tick of b from here; the list is used up"}],"#,
        r#""exercised":true}]}}"#,
    ];
    let recording = recording("a b c d e", "#5 1a");
    let table = "d # e\nc clockDef a deferred b for 2";
    assert_eq!(json(table, &recording), joined(&expected));
}

#[test]
fn refused_tables() {
    let expected = [
        r#"{"verdict":"refused","number":15,"place":1,"steps":0,"config":[],"#,
        r#""why":{"limit":"the line names the same clock twice","#,
        r#""file":"table.ccsl","line":1,"column":5,"text":"a = a","marked":"a","#,
        r#""first":{"column":1},"details":["a stands first at column 1"]}}"#,
    ];
    assert_eq!(json("a = a", ""), joined(&expected));
    let expected = [
        r#"{"verdict":"refused","number":11,"place":1,"steps":0,"config":[],"#,
        r#""why":{"limit":"the line holds a byte that is neither a space nor a plain printed character","#,
        r#""file":"table.ccsl","line":1,"column":3,"text":"\"a\\x09\\\"","marked":"\\x09","#,
        r#""byte":9,"details":["the byte is 9"]}}"#,
    ];
    assert_eq!(json("\"a\t\\\"", ""), joined(&expected));
}

#[test]
fn refused_recordings() {
    let begin = r#"{"verdict":"refused","number":35,"place":22,"steps":0,"config":[[0,0]],"#;
    let expected = [
        begin,
        r#""why":{"limit":"the header ends, and a clock of the table has no variable","#,
        r#""file":"trace.vcd","line":2,"column":1,"text":"$enddefinitions $end","#,
        r#""marked":"$enddefinitions","undeclared":["b"],"details":["not declared: b"]}}"#,
    ];
    assert_eq!(json("a = b", &recording("a", "")), joined(&expected));
    let expected = [
        r#"{"verdict":"refused","number":38,"place":0,"steps":0,"config":[[0,0]],"#,
        r#""why":{"limit":"the variable has a name that is no clock of the table","#,
        r#""file":"trace.vcd","line":1,"column":1,"text":"$var event 1 a \"\\ $end","#,
        r#""marked":"$var","nearest":"a","#,
        r#""details":["\"\\ is no clock of the table; the nearest is a"]}}"#,
    ];
    assert_eq!(json("a = b", "$var event 1 a \"\\ $end"), joined(&expected));
}
