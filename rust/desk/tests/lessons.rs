//! Each lesson has what `why` says of it, word for word, and refers to the command.

mod common;

use common::{examples, of_account, Example};
use desk::report::Telling;
use desk::why::Why;

/// The block of a lesson that stands indented below the line which names the command.
fn quoted(example: &Example) -> Option<String> {
    let name = example.folder.file_name()?.to_str()?;
    let says = format!("`./ccsl why examples/{name}` says, below the three lines:\n\n");
    let lesson = example.has("lesson.md");
    let block = lesson.split_once(&says)?.1.lines();
    let lines = block.map_while(|line| line.strip_prefix("    "));
    Some(lines.map(|line| format!("{line}\n")).collect())
}

#[test]
fn each_lesson_says_what_why_says() {
    let mut faults = Vec::new();
    let lessons = examples().into_iter().filter(|example| {
        let above = example.folder.parent().expect("a folder above");
        !above.ends_with("refusals")
    });
    for lesson in lessons {
        let said = of_account(&lesson.table, &lesson.recording, |account| {
            Why.text(account)
        });
        let quoted = quoted(&lesson);
        if quoted.as_ref() != Some(&said) {
            faults.push(format!(
                "{}: it says\n{said}where the lesson has\n{}",
                lesson.folder.display(),
                quoted.unwrap_or_default()
            ));
        }
    }
    assert!(faults.is_empty(), "{}", faults.join("\n"));
}
