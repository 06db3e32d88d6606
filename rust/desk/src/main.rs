//! The desk. `desk order FOLDER` prints the definitions of FOLDER/table.ccsl in working order. `desk why
//! FOLDER` says why FOLDER/trace.vcd is accepted, violated or refused, and `desk show FOLDER` shows its
//! steps. `./ccsl` builds and runs it.

mod asked_for;
mod files;

use asked_for::{Command, Run};
use desk::account::{account, Input};
use desk::library::Proved;
use desk::report;
use desk::svg::svg;
use desk::Answer;
use std::env;
use std::ffi::OsString;
use std::fs;
use std::io::{self, Write};
use std::path::Path;
use std::process::ExitCode;

/// The status where there is nothing to answer for, as `./ccsl` has it.
const FAILED: u8 = 3;

fn main() -> ExitCode {
    let words: Vec<OsString> = env::args_os().skip(1).collect();
    match asked_for::command(&words, env::var("COLUMNS").ok()) {
        Some(Command::Order(folder)) => order(folder),
        Some(Command::Run(asked)) => run(&asked),
        None => {
            eprintln!("{}", asked_for::USAGE);
            ExitCode::from(FAILED)
        }
    }
}

fn order(folder: &Path) -> ExitCode {
    let file = folder.join("table.ccsl");
    let name = file.display();
    let table = match fs::read(&file) {
        Ok(table) => table,
        Err(cause) => return failed("ccsl order", &format!("{name}: {cause}")),
    };
    let answer = desk::order(&table);
    if answer.text.is_empty() {
        eprintln!("ccsl order: {name} has no definition");
    }
    printed("ccsl order", &answer)
}

/// What `why` and `show` print; of `show` the picture in a file too, where the account agrees.
fn run(asked: &Run) -> ExitCode {
    let (folder, command) = (asked.folder, asked.name());
    if let Err(cause) = files::is_folder(folder) {
        return failed("ccsl", &cause);
    }
    let (table, recording) = (
        files::read(folder, "table.ccsl"),
        files::read(folder, "trace.vcd"),
    );
    let input = Input {
        table: &table,
        recording: &recording,
        unknown: asked.unknown,
    };
    if ccsl::read_table(&table).is_ok_and(|table| table.records.is_empty()) {
        let file = folder.join("table.ccsl");
        eprintln!(
            "ccsl: {} has no constraint, and accepts every step",
            file.display()
        );
    }
    let found = account(&Proved, input);
    if let (Some(file), Ok(account)) = (asked.svg, &found) {
        if let Err(cause) = fs::write(file, svg(account, &asked.window)) {
            return failed(&command, &format!("{}: {cause}", file.display()));
        }
    }
    let answer = report::answer(&found, asked.form, &*asked.telling());
    printed(&command, &answer)
}

/// Prints an answer and ends with its status.
fn printed(command: &str, answer: &Answer) -> ExitCode {
    let mut out = io::stdout().lock();
    match out
        .write_all(answer.text.as_bytes())
        .and_then(|()| out.flush())
    {
        Ok(()) => ExitCode::from(answer.status),
        Err(cause) => failed(command, &format!("standard output: {cause}")),
    }
}

fn failed(command: &str, cause: &str) -> ExitCode {
    eprintln!("{command}: {cause}");
    ExitCode::from(FAILED)
}
