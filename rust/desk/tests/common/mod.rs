//! What the tests of the desk share: recordings in short form, the examples, and what is printed of a
//! run.

#![allow(dead_code)]

use ccsl::UnknownNames;
use desk::account::{account, Account, Input};
use desk::library::{Library, Proved};
use desk::report::{answer, Form};
use desk::why::Why;
use std::fs;
use std::path::{Path, PathBuf};

/// Document 01's example.
pub const LESSON: (&str, &str) = (
    "req strictly precedes ack\ndone clockDef await 2 ack\n",
    "$var event 1 ! req $end $var event 1 \" ack $end $var event 1 % done $end $enddefinitions $end \
     #0 1! #3 #5 1\" 1! #8 1\" 1% #9 1! 1\"",
);

/// A recording whose variables, parted by spaces, are each their own id, with this body.
pub fn recording(names: &str, body: &str) -> String {
    let declared = |name: &str| format!("$var event 1 {name} {name} $end\n");
    let header: String = names.split(' ').map(declared).collect();
    format!("{header}$enddefinitions $end\n{body}\n")
}

pub fn input<'a>(table: &'a [u8], recording: &'a [u8], unknown: UnknownNames) -> Input<'a> {
    Input {
        table,
        recording,
        unknown,
    }
}

/// What an answer makes of the account of a run, variables that the table lacks being ignored.
pub fn of_account<T>(table: &[u8], recording: &[u8], answer: impl Fn(&Account) -> T) -> T {
    match account(&Proved, input(table, recording, UnknownNames::Ignored)) {
        Ok(account) => answer(&account),
        Err(differs) => panic!("{differs:?}"),
    }
}

/// What `why` prints in words, and the status.
pub fn told(library: &dyn Library, table: &str, recording: &str) -> (String, u8) {
    let input = input(
        table.as_bytes(),
        recording.as_bytes(),
        UnknownNames::Ignored,
    );
    let answer = answer(&account(library, input), Form::Text, &Why);
    (answer.text, answer.status)
}

/// What the proved library leads to in words, variables that the table lacks being ignored.
pub fn why(table: &str, recording: &str) -> String {
    told(&Proved, table, recording).0
}

/// The same, and they are refused.
pub fn why_strict(table: &str, recording: &str) -> String {
    let input = input(
        table.as_bytes(),
        recording.as_bytes(),
        UnknownNames::Refused,
    );
    answer(&account(&Proved, input), Form::Text, &Why).text
}

/// A folder of `examples/`, with its table and its recording.
pub struct Example {
    pub folder: PathBuf,
    pub table: Vec<u8>,
    pub recording: Vec<u8>,
}

impl Example {
    /// What one of its files has.
    pub fn has(&self, name: &str) -> String {
        let file = self.folder.join(name);
        fs::read_to_string(&file).unwrap_or_else(|e| panic!("{}: {e}", file.display()))
    }
}

/// The folders of `examples/` that have a table, those of `examples/refusals/` too.
pub fn examples() -> Vec<Example> {
    let examples = Path::new(env!("CARGO_MANIFEST_DIR")).join("../../examples");
    let mut folders = Vec::new();
    for above in [examples.clone(), examples.join("refusals")] {
        let entries = fs::read_dir(&above).unwrap_or_else(|e| panic!("{}: {e}", above.display()));
        let paths = entries.map(|entry| entry.unwrap().path());
        folders.extend(paths.filter(|path| path.join("table.ccsl").is_file()));
    }
    assert!(folders.len() > 50);
    folders.sort();
    let example = |folder: PathBuf| Example {
        table: fs::read(folder.join("table.ccsl")).unwrap(),
        recording: fs::read(folder.join("trace.vcd")).unwrap(),
        folder,
    };
    folders.into_iter().map(example).collect()
}
