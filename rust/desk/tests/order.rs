//! What `order` prints of small tables, written from documents 01 and 02, and of the lessons that
//! have a file `order`.

use std::fs;
use std::path::{Path, PathBuf};

/// What is printed, and the status.
fn order(table: &str) -> (String, u8) {
    let answer = desk::order(table.as_bytes());
    (answer.text, answer.status)
}

fn listed(lines: &str) -> (String, u8) {
    (lines.to_string(), 0)
}

fn refused(lines: &str) -> (String, u8) {
    (lines.to_string(), 2)
}

#[test]
fn definitions_come_after_those_of_their_operands() {
    assert_eq!(
        order("d clockDef c upto stop\nc clockDef a lub b\ne clockDef a glb b\n"),
        listed("2 2 c clockDef a lub b\n1 1 d clockDef c upto stop\n3 3 e clockDef a glb b\n")
    );
}

#[test]
fn records_and_lines_are_counted_apart() {
    assert_eq!(
        order("\na precedes b\n\nc clockDef a lub b"),
        listed("2 4 c clockDef a lub b\n")
    );
}

#[test]
fn a_line_is_shown_as_it_is_written() {
    assert_eq!(
        order("  c  clockDef  a lub b   \n   "),
        listed("1 1   c  clockDef  a lub b   \n")
    );
}

#[test]
fn an_expression_in_parentheses_is_shown_by_its_whole_line() {
    let (relation, definition) = ("(x upto a)precedes b", "x clockDef await 2(d lub(e glb f))");
    assert_eq!(
        order(&format!("{relation}\n{definition}\n")),
        listed(&format!(
            "3 2 {definition}\n4 2 {definition}\n5 2 {definition}\n1 1 {relation}\n"
        ))
    );
}

#[test]
fn a_delay_is_shown_with_its_list() {
    let (delay, nested) = (
        "c clockDef a deferred b for 2 3",
        "a clockDef (d deferred e for 32 1) upto f",
    );
    assert_eq!(
        order(&format!("{delay}\n{nested}\nb clockDef d lub e\n")),
        listed(&format!(
            "2 2 {nested}\n3 2 {nested}\n4 3 b clockDef d lub e\n1 1 {delay}\n"
        ))
    );
    assert_eq!(
        order("c clockDef a deferred b for 1\nb clockDef c deferred a for 1\n"),
        refused("refused 21 1\n1 1 c clockDef a deferred b for 1\n")
    );
    assert_eq!(
        order("\nc clockDef a deferred b for 2 33\n"),
        refused("refused 22 2\n")
    );
}

#[test]
fn a_circle_is_refused_with_its_lowest_record_below() {
    assert_eq!(
        order("c clockDef b upto d\nd # e\nb clockDef a lub e\na clockDef b glb d\n"),
        refused("refused 21 3\n3 3 b clockDef a lub e\n")
    );
    assert_eq!(
        order("a clockDef (b upto s) lub t\nb clockDef a glb u"),
        refused("refused 21 1\n1 1 a clockDef (b upto s) lub t\n")
    );
}

#[test]
fn of_a_refused_table_the_refusal_is_printed_alone() {
    assert_eq!(order("a = b\n\na = a\n"), refused("refused 15 3\n"));
    assert_eq!(order("a = b\r\n"), refused("refused 11 1\n"));
    assert_eq!(order(&" ".repeat(4097)), refused("refused 10 0\n"));
    assert_eq!(desk::order(b"c clockDef a lub \xff").text, "refused 11 1\n");
}

#[test]
fn a_table_without_a_definition_prints_nothing() {
    for table in ["", "\n \n", "a precedes b\n"] {
        assert_eq!(order(table), listed(""), "{table:?}");
    }
}

#[test]
fn the_lessons_print_what_their_file_has() {
    let examples = Path::new(env!("CARGO_MANIFEST_DIR")).join("../../examples");
    let entries = fs::read_dir(&examples).unwrap_or_else(|e| panic!("{}: {e}", examples.display()));
    let mut lessons: Vec<PathBuf> = entries
        .map(|entry| entry.unwrap().path())
        .filter(|path| path.join("order").is_file())
        .collect();
    lessons.sort();
    assert!(lessons.len() >= 2, "{} lessons", lessons.len());
    for lesson in lessons {
        let read = |name: &str| fs::read_to_string(lesson.join(name)).unwrap();
        let printed = read("order");
        let status = if printed.starts_with("refused") { 2 } else { 0 };
        assert_eq!(
            order(&read("table.ccsl")),
            (printed, status),
            "{}",
            lesson.display()
        );
    }
}
