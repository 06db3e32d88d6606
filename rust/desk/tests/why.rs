//! What `why` says of violations, accepted runs and nested tables, written from documents 01 and 02.

mod common;

use common::{recording, told, why};
use desk::library::Proved;

/// A violation of a table of one line on the clocks a, b and c.
fn violated(table: &str, body: &str, expected: &str) {
    let clocks = if table.starts_with("c ") {
        "a b c"
    } else {
        "a b"
    };
    assert_eq!(
        told(&Proved, table, &recording(clocks, body)),
        (expected.to_string(), 1),
        "{table}: {body}"
    );
}

#[test]
fn coincidence() {
    let expected = "\
violated 1 4
steps 1
config 0 0

line 1: a = b
step 2, at time 4: a ticked, b did not tick
before it, words 0 0: this line remembers nothing
the rule: a and b tick together or not at all
so: a ticked and b did not
last ticked before: a in step 1 at time 0, b in step 1 at time 0
nothing else fails in this step
";
    violated("a = b", "#0 1a 1b #4 1a", expected);
}

#[test]
fn exclusion() {
    let expected = "\
violated 1 4
steps 1
config 0 0

line 1: a # b
step 2, at time 4: a ticked, b ticked
before it, words 0 0: this line remembers nothing
the rule: a and b never tick in the same step
so: a and b both ticked
last ticked before: a in step 1 at time 0, b never
nothing else fails in this step
";
    violated("a # b", "#0 1a #4 1b 1a", expected);
}

#[test]
fn subclock() {
    let expected = "\
violated 1 3
steps 2
config 0 0

line 1: a isSubClockOf b
step 3, at time 3: a ticked, b did not tick
before it, words 0 0: this line remembers nothing
the rule: a ticks only with b
so: a ticked and b did not
last ticked before: a in step 2 at time 2, b in step 2 at time 2
nothing else fails in this step
";
    violated("a isSubClockOf b", "#0 1b #2 1a 1b #3 1a", expected);
}

/// Document 01's example.
#[test]
fn strict_precedence() {
    let table = "req strictly precedes ack\ndone clockDef await 2 ack";
    let recording = "$var event 1 ! req $end $var event 1 \" ack $end $var event 1 % done $end \
        $enddefinitions $end #0 1! #3 #5 1\" 1! #8 1\" 1% #9 1! 1\"";
    let expected = "\
violated 1 9
steps 4
config 0 0 0 0

line 1: req strictly precedes ack
step 5, at time 9: req ticked, ack ticked
before it, words 0 0: ack is level with req: no req is waiting
the rule: each tick of ack needs an earlier tick of req of its own; one in the same step does not count
so: ack ticked, and no req was waiting; the req of this step does not count
last ticked before: req in step 3 at time 5, ack in step 4 at time 8
nothing else fails in this step
";
    assert_eq!(told(&Proved, table, recording), (expected.to_string(), 1));
}

#[test]
fn precedence() {
    let expected = "\
violated 1 7
steps 1
config 0 0

line 1: a precedes b
step 2, at time 7: a did not tick, b ticked
before it, words 0 0: b is level with a: no a is waiting
the rule: each tick of b needs a tick of a of its own, earlier or in the same step
so: b ticked, no a was waiting, and a did not tick
last ticked before: a in step 1 at time 0, b in step 1 at time 0
nothing else fails in this step
";
    violated("a precedes b", "#0 1a 1b #7 1b", expected);
}

#[test]
fn union() {
    let expected = "\
violated 1 2
steps 1
config 0 0

line 1: c clockDef a clockUnion b
step 2, at time 2: c did not tick, a did not tick, b ticked
before it, words 0 0: c remembers nothing
the rule: c ticks exactly when a or b ticks
so: c did not tick and was due, since b ticked
last ticked before: c in step 1 at time 1, a in step 1 at time 1, b never
nothing else fails in this step
";
    violated("c clockDef a clockUnion b", "#1 1a 1c #2 1b", expected);
}

#[test]
fn intersection() {
    let expected = "\
violated 1 2
steps 1
config 0 0

line 1: c clockDef a clockInter b
step 2, at time 2: c ticked, a ticked, b did not tick
before it, words 0 0: c remembers nothing
the rule: c ticks exactly when a and b both tick
so: c ticked and was not due, since b did not tick
last ticked before: c in step 1 at time 1, a in step 1 at time 1, b in step 1 at time 1
nothing else fails in this step
";
    violated(
        "c clockDef a clockInter b",
        "#1 1a 1b 1c #2 1a 1c",
        expected,
    );
}

#[test]
fn lub() {
    let expected = "\
violated 1 3
steps 2
config 2 0

line 1: c clockDef a lub b
step 3, at time 3: c ticked, a did not tick, b did not tick
before it, words 2 0: a is 2 ahead of b: c ticks with b
the rule: c ticks with a or b, whichever is behind; where they are level, when both tick
so: c ticked and was not due, since b, which was behind, did not tick
last ticked before: c never, a in step 2 at time 2, b never
nothing else fails in this step
";
    violated("c clockDef a lub b", "#1 1a #2 1a #3 1c", expected);
}

#[test]
fn glb() {
    let expected = "\
violated 1 2
steps 1
config 1 0

line 1: c clockDef a glb b
step 2, at time 2: c ticked, a did not tick, b ticked
before it, words 1 0: a is 1 ahead of b: c ticks with a
the rule: c ticks with a or b, whichever is ahead; where they are level, when either ticks
so: c ticked and was not due, since a, which was ahead, did not tick
last ticked before: c in step 1 at time 1, a in step 1 at time 1, b never
nothing else fails in this step
";
    violated("c clockDef a glb b", "#1 1a 1c #2 1b 1c", expected);
}

#[test]
fn awaiting() {
    let expected = "\
violated 1 3
steps 2
config 1 0

line 1: c clockDef await 3 a
step 3, at time 3: c did not tick, a ticked
before it, words 1 0: 1 more tick of a to come: c is due with it
the rule: c ticks once, with the 3rd tick of a
so: c did not tick and was due, since this was the 3rd tick of a
last ticked before: c never, a in step 2 at time 2
nothing else fails in this step
";
    violated("c clockDef await 3 a", "#1 1a #2 1a #3 1a", expected);
}

#[test]
fn strict_sampling() {
    let expected = "\
violated 1 5
steps 0
config 2 0

line 1: c clockDef a strictly sampled b
step 1, at time 5: c ticked, a ticked, b ticked
before it, words 2 0: c waits for a, and then for b
the rule: c ticks once, with the first tick of b after a has ticked; one in the same step does not count
so: c ticked and was not due, since a had not ticked before this step
last ticked before: c never, a never, b never
nothing else fails in this step
";
    violated("c clockDef a strictly sampled b", "#5 1a 1b 1c", expected);
}

#[test]
fn sampling() {
    let expected = "\
violated 1 6
steps 1
config 1 0

line 1: c clockDef a sampled b
step 2, at time 6: c did not tick, a did not tick, b ticked
before it, words 1 0: c waits for b: a has ticked
the rule: c ticks once, with the first tick of b after a has ticked; one in the same step counts
so: c did not tick and was due, since it waited for b, which ticked
last ticked before: c never, a in step 1 at time 5, b never
nothing else fails in this step
";
    violated("c clockDef a sampled b", "#5 1a #6 1b", expected);
}

#[test]
fn upto() {
    let expected = "\
violated 1 3
steps 2
config 0 0

line 1: c clockDef a upto b
step 3, at time 3: c ticked, a ticked, b did not tick
before it, words 0 0: c has ended: b has ticked
the rule: c ticks with a until b ticks; in the step in which b ticks it is already silent
so: c ticked and was not due, since b had ticked before
last ticked before: c in step 1 at time 1, a in step 1 at time 1, b in step 2 at time 2
nothing else fails in this step
";
    violated("c clockDef a upto b", "#1 1a 1c #2 1b #3 1a 1c", expected);
}

#[test]
fn delay() {
    let expected = "\
violated 1 10
steps 1
config 2 1

line 1: c clockDef a deferred b for 2 3
step 2, at time 10: c ticked, a did not tick, b ticked
before it, words 2 1: c is due with the 2nd tick of b from here; 1 of 2 numbers is used, the next number is 3
the rule: each tick of a takes the next number n of the list 2 3, and c ticks with the n-th tick of b after that step, and at no other; delays that end together make one tick, and once the list is used up a starts nothing more
so: c ticked and was not due, since no delay ended with this tick of b
last ticked before: c never, a in step 1 at time 0, b never
nothing else fails in this step
";
    violated(
        "c clockDef a deferred b for 2 3",
        "#0 1a #10 1b 1c",
        expected,
    );
}

/// Every other way in which a form fails, by its reason alone.
#[test]
fn reasons() {
    let due = |since: &str| format!("so: c did not tick and was due, since {since}");
    let early = |since: &str| format!("so: c ticked and was not due, since {since}");
    let cases = [
        ("a = b", "#0 1b", "so: b ticked and a did not".to_string()),
        ("c clockDef a clockUnion b", "#0 1a", due("a ticked")),
        (
            "c clockDef a clockUnion b",
            "#0 1a 1b",
            due("a and b ticked"),
        ),
        (
            "c clockDef a clockUnion b",
            "#0 1c",
            early("neither a nor b ticked"),
        ),
        (
            "c clockDef a clockInter b",
            "#0 1a 1b",
            due("a and b ticked"),
        ),
        (
            "c clockDef a clockInter b",
            "#0 1b 1c",
            early("a did not tick"),
        ),
        (
            "c clockDef a clockInter b",
            "#0 1c",
            early("neither a nor b ticked"),
        ),
        (
            "c clockDef a lub b",
            "#0 1a #1 1b",
            due("b, which was behind, ticked"),
        ),
        (
            "c clockDef a lub b",
            "#0 1b #1 1a 1b",
            due("a, which was behind, ticked"),
        ),
        (
            "c clockDef a lub b",
            "#0 1b #1 1b 1c",
            early("a, which was behind, did not tick"),
        ),
        (
            "c clockDef a lub b",
            "#0 1a 1b",
            due("a and b were level and both ticked"),
        ),
        (
            "c clockDef a lub b",
            "#0 1a 1c",
            early("a and b were level and did not both tick"),
        ),
        (
            "c clockDef a glb b",
            "#0 1a 1c #1 1a",
            due("a, which was ahead, ticked"),
        ),
        (
            "c clockDef a glb b",
            "#0 1b 1c #1 1b",
            due("b, which was ahead, ticked"),
        ),
        (
            "c clockDef a glb b",
            "#0 1b 1c #1 1a 1c",
            early("b, which was ahead, did not tick"),
        ),
        (
            "c clockDef a glb b",
            "#0 1a",
            due("a and b were level and a ticked"),
        ),
        (
            "c clockDef a glb b",
            "#0 1a 1b",
            due("a and b were level and both ticked"),
        ),
        (
            "c clockDef a glb b",
            "#0 1c",
            early("neither a nor b ticked"),
        ),
        ("c clockDef await 1 a", "#0 1c", early("a did not tick")),
        (
            "c clockDef await 1 a",
            "#0 1a 1c #1 1a 1c",
            early("it had had its turn already"),
        ),
        (
            "c clockDef await 2 a",
            "#0 1a 1c",
            early("2 more ticks of a were to come, and only one came"),
        ),
        (
            "c clockDef await 12 a",
            "#0 1c",
            early("12 more ticks of a were to come, and none came"),
        ),
        (
            "c clockDef a strictly sampled b",
            "#0 1a #1 1b",
            due("it waited for b, which ticked"),
        ),
        (
            "c clockDef a strictly sampled b",
            "#0 1a #1 1a 1c",
            early("it waited for b, which did not tick"),
        ),
        (
            "c clockDef a strictly sampled b",
            "#0 1a #1 1b 1c #2 1b 1c",
            early("it had had its turn already"),
        ),
        (
            "c clockDef a sampled b",
            "#0 1a 1b",
            due("a ticked for the first time and b with it"),
        ),
        (
            "c clockDef a sampled b",
            "#0 1a 1c",
            early("b did not tick with a"),
        ),
        (
            "c clockDef a sampled b",
            "#0 1b 1c",
            early("a had not ticked yet"),
        ),
        (
            "c clockDef a sampled b",
            "#0 1a #1 1c",
            early("it waited for b, which did not tick"),
        ),
        (
            "c clockDef a sampled b",
            "#0 1a 1b 1c #1 1c",
            early("it had had its turn already"),
        ),
        ("c clockDef a upto b", "#0 1a", due("a ticked before any b")),
        (
            "c clockDef a upto b",
            "#0 1a 1b 1c",
            early("b ticked in this step"),
        ),
        ("c clockDef a upto b", "#0 1c", early("a did not tick")),
        (
            "c clockDef a deferred b for 1",
            "#0 1a #1 1b",
            due("a delay ended with this tick of b"),
        ),
        (
            "c clockDef a deferred b for 1",
            "#0 1a #1 1c",
            early("b did not tick"),
        ),
        (
            "c clockDef a deferred b for 1",
            "#0 1a 1b 1c",
            early("no delay was running"),
        ),
    ];
    for (table, body, reason) in cases {
        let text = why(table, &recording("a b c", body));
        assert!(
            text.lines().any(|line| line == reason),
            "{table}: {body}\n{text}"
        );
    }
}

#[test]
fn every_line_that_fails_in_the_step_is_told() {
    let table = "a strictly precedes b\n\n  b # c\nc clockDef await 2 a\na = b\n";
    let expected = "\
violated 1 8
steps 1
config 0 0 0 0 2 0 0 0

line 1: a strictly precedes b
step 2, at time 8: a did not tick, b ticked
before it, words 0 0: b is level with a: no a is waiting
the rule: each tick of b needs an earlier tick of a of its own; one in the same step does not count
so: b ticked, and no a was waiting
last ticked before: a never, b never
line 3 fails too:   b # c
so: b and c both ticked
line 4 fails too: c clockDef await 2 a
so: c ticked and was not due, since 2 more ticks of a were to come, and none came
line 5 fails too: a = b
so: b ticked and a did not
";
    assert_eq!(
        why(table, &recording("a b c", "#3 #8 1b 1c #9 1a")),
        expected
    );
}

#[test]
fn an_expression_is_told_by_its_text() {
    let table = "c clockDef await 2((a clockUnion b)upto d)";
    let expected = "\
violated 1 6
steps 2
config 0 0 1 0 1 0

line 1: c clockDef await 2((a clockUnion b)upto d)
step 3, at time 6: c ticked, a did not tick, b ticked, d ticked
worked out: (a clockUnion b) ticked, ((a clockUnion b) upto d) did not tick
before it, words 0 0: (a clockUnion b) remembers nothing
before it, words 1 0: ((a clockUnion b) upto d) runs with (a clockUnion b): d has not ticked
before it, words 1 0: 1 more tick of ((a clockUnion b) upto d) to come: c is due with it
the rule: c ticks once, with the 2nd tick of ((a clockUnion b) upto d)
so: c ticked and was not due, since ((a clockUnion b) upto d) did not tick
last ticked before: c never, a in step 1 at time 0, b in step 1 at time 0, d never, (a clockUnion b) in step 1 at time 0, ((a clockUnion b) upto d) in step 1 at time 0
nothing else fails in this step
";
    assert_eq!(
        why(table, &recording("a b c d", "#0 1a 1b #3 #6 1b 1c 1d")),
        expected
    );
}

/// The second tick of the slower of both is still to come when c ticks again.
#[test]
fn an_expression_that_did_not_tick() {
    let expected = "\
violated 1 30
steps 2
config 1 0 0 0

line 1: (a lub b) precedes c
step 3, at time 30: a ticked, b did not tick, c ticked
worked out: (a lub b) did not tick
before it, words 1 0: a is 1 ahead of b: (a lub b) ticks with b
before it, words 0 0: c is level with (a lub b): no (a lub b) is waiting
the rule: each tick of c needs a tick of (a lub b) of its own, earlier or in the same step
so: c ticked, no (a lub b) was waiting, and (a lub b) did not tick
last ticked before: a in step 2 at time 20, b in step 1 at time 10, c in step 1 at time 10, (a lub b) in step 1 at time 10
nothing else fails in this step
";
    let recording = recording("a b c", "#10 1a 1b 1c #20 1a #30 1a 1c");
    assert_eq!(why("(a lub b) precedes c", &recording), expected);
}

#[test]
fn an_accepted_run() {
    let table = "a strictly precedes b\n\nc clockDef await 3 a\n(d lub e) = f\n";
    let expected = "\
accepted
steps 4
config 1 0 1 0 0 0 0 0

all 4 steps are accepted
line 1: a strictly precedes b
words 1 0: a is 1 ahead of b: 1 tick of a is waiting
line 3: c clockDef await 3 a
words 1 0: 1 more tick of a to come: c is due with it
line 4: (d lub e) = f
words 0 0: d and e are level: (d lub e) ticks when both do
words 0 0: this line remembers nothing
line 4 was never exercised: none of its clocks ticked
";
    let recording = recording("a b c d e f", "#0 1a #2 1a #3 #5 1b");
    assert_eq!(told(&Proved, table, &recording), (expected.to_string(), 0));
}

#[test]
fn accepted_runs_with_little_in_them() {
    let none = "accepted\nsteps 0\nconfig 0 0\n\nthe recording has no step\n\
        line 1: a = b\nwords 0 0: this line remembers nothing\n\
        line 1 was never exercised: none of its clocks ticked\n";
    assert_eq!(why("a = b", &recording("a b", "")), none);
    let one = "accepted\nsteps 1\nconfig 0 0\n\nthe step is accepted\n\
        line 1: a = b\nwords 0 0: this line remembers nothing\nin every line some clock ticked\n";
    assert_eq!(why("a = b", &recording("a b", "#1 1a 1b")), one);
    let blank = "accepted\nsteps 2\nconfig\n\nall 2 steps are accepted\n\
        the table has no constraint, and accepts every step\n";
    assert_eq!(why(" \n", &recording("a b", "#1 1a 1b #2")), blank);
}
