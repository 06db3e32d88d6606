//! The words of each form in words, written from documents 01 and 02.

use ccsl::{read_table, Pair};
use desk::words::meaning;

/// What a pair of a line's own constraint says.
fn says(line: &str, pair: Pair) -> String {
    let table = read_table(line.as_bytes()).unwrap();
    meaning(&table, table.records.last().unwrap(), pair)
}

#[test]
fn forms_without_a_word() {
    for line in ["a = b", "a # b", "a isSubClockOf b"] {
        assert_eq!(says(line, [0, 0]), "this line remembers nothing");
    }
    for line in ["c clockDef a clockUnion b", "c clockDef a clockInter b"] {
        assert_eq!(says(line, [0, 0]), "c remembers nothing");
    }
}

#[test]
fn precedences() {
    for line in ["req strictly precedes ack", "req precedes ack"] {
        assert_eq!(
            says(line, [0, 0]),
            "ack is level with req: no req is waiting"
        );
        assert_eq!(
            says(line, [1, 0]),
            "req is 1 ahead of ack: 1 tick of req is waiting"
        );
        assert_eq!(
            says(line, [2, 0]),
            "req is 2 ahead of ack: 2 ticks of req are waiting"
        );
    }
    let nested = "(a lub b) precedes (c upto d)";
    let level = "(c upto d) is level with (a lub b): no (a lub b) is waiting";
    assert_eq!(says(nested, [0, 0]), level);
}

#[test]
fn lub_and_glb() {
    let (lub, glb) = ("c clockDef a lub b", "c clockDef a glb b");
    assert_eq!(says(lub, [0, 0]), "a and b are level: c ticks when both do");
    assert_eq!(says(lub, [3, 0]), "a is 3 ahead of b: c ticks with b");
    assert_eq!(says(lub, [-1, 0]), "b is 1 ahead of a: c ticks with a");
    assert_eq!(
        says(glb, [0, 0]),
        "a and b are level: c ticks when either does"
    );
    assert_eq!(says(glb, [3, 0]), "a is 3 ahead of b: c ticks with a");
    assert_eq!(says(glb, [-1, 0]), "b is 1 ahead of a: c ticks with b");
}

#[test]
fn awaits() {
    let says = |word| says("done clockDef await 1000 ack", [word, 0]);
    assert_eq!(says(0), "done has had its turn");
    assert_eq!(says(1), "1 more tick of ack to come: done is due with it");
    for (word, nth) in [
        (2, "2nd"),
        (3, "3rd"),
        (11, "11th"),
        (21, "21st"),
        (112, "112th"),
    ] {
        let expected =
            format!("{word} more ticks of ack to come: done is due with the {nth} of them");
        assert_eq!(says(word), expected);
    }
}

#[test]
fn samplings() {
    for (line, waits) in [
        (
            "c clockDef a strictly sampled b",
            "c waits for a, and then for b",
        ),
        (
            "c clockDef a sampled b",
            "c waits for a, and for b with it or after it",
        ),
    ] {
        assert_eq!(says(line, [2, 0]), waits);
        assert_eq!(says(line, [1, 0]), "c waits for b: a has ticked");
        assert_eq!(says(line, [0, 0]), "c has had its turn");
    }
}

#[test]
fn runs_up_to() {
    let says = |word| says("c clockDef a upto b", [word, 0]);
    assert_eq!(says(1), "c runs with a: b has not ticked");
    assert_eq!(says(0), "c has ended: b has ticked");
}

#[test]
fn delays() {
    let says = |pair| says("c clockDef a deferred b for 3 1 4", pair);
    assert_eq!(
        says([0, 0]),
        "no c is due; no number is used, the next number is 3"
    );
    assert_eq!(
        says([0b100, 1]),
        "c is due with the 3rd tick of b from here; 1 of 3 numbers is used, the next number is 1"
    );
    assert_eq!(
        says([0b101, 2]),
        "c is due with the 1st and the 3rd tick of b from here; 2 of 3 numbers are used, the next number is 4"
    );
    assert_eq!(
        says([0b1011, 3]),
        "c is due with the 1st, the 2nd and the 4th tick of b from here; the list is used up"
    );
    assert_eq!(
        says([1 << 31, 3]),
        "c is due with the 32nd tick of b from here; the list is used up"
    );
}
