//! Each lesson in `examples/` prints what its file `printed` has, with unknown names ignored as the
//! program ignores them, and where it has a file `strict`, prints that with unknown names refused.

use ccsl::UnknownNames;
use std::fs;
use std::path::{Path, PathBuf};

fn examples() -> PathBuf {
    Path::new(env!("CARGO_MANIFEST_DIR")).join("../../examples")
}

/// The folders in a folder that hold a table and a recording.
fn lessons(folder: &Path) -> Vec<PathBuf> {
    let entries = fs::read_dir(folder).unwrap_or_else(|e| panic!("{}: {e}", folder.display()));
    let mut found: Vec<PathBuf> = entries
        .map(|entry| entry.unwrap().path())
        .filter(|path| path.join("table.ccsl").is_file() && path.join("trace.vcd").is_file())
        .collect();
    found.sort();
    found
}

/// What is wrong with a lesson, if anything is: where it does not print what one of its files has.
fn fault(lesson: &Path, file: &str, unknown: UnknownNames) -> Option<String> {
    let read = |name: &str| {
        fs::read(lesson.join(name)).unwrap_or_else(|e| panic!("{}: {name}: {e}", lesson.display()))
    };
    let printed = ccsl::run_with(&read("table.ccsl"), &read("trace.vcd"), unknown).to_string();
    let expected = String::from_utf8_lossy(&read(file)).into_owned();
    (printed != expected).then(|| {
        format!(
            "{}: printed\n{printed}where the file {file} has\n{expected}",
            lesson.display()
        )
    })
}

fn all_print_what_they_should(lessons: &[PathBuf]) {
    let mut faults = Vec::new();
    for lesson in lessons {
        faults.extend(fault(lesson, "printed", UnknownNames::Ignored));
        if lesson.join("strict").exists() {
            faults.extend(fault(lesson, "strict", UnknownNames::Refused));
        }
    }
    assert!(faults.is_empty(), "{}", faults.join("\n"));
}

#[test]
fn every_lesson_prints_what_its_file_has() {
    let lessons = lessons(&examples());
    assert!(lessons.len() >= 10, "{} lessons", lessons.len());
    all_print_what_they_should(&lessons);
}

#[test]
fn every_refusal_prints_what_its_file_has() {
    all_print_what_they_should(&lessons(&examples().join("refusals")));
}
