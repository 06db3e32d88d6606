//! events FILE: prints the recording of a simulator without what the checker has no place for, and
//! says on standard error what was taken out. `./ccsl events FILE` builds and runs it.

use std::env;
use std::fs;
use std::io::{self, Write};
use std::process::ExitCode;

/// The status where there is no recording to print, as `./ccsl` has it.
const FAILED: u8 = 3;

fn main() -> ExitCode {
    let mut words = env::args_os().skip(1);
    let (Some(file), None) = (words.next(), words.next()) else {
        eprintln!("usage: ./ccsl events FILE   (a recording that a simulator wrote)");
        return ExitCode::from(FAILED);
    };
    let name = file.to_string_lossy();
    let recording = match fs::read(&file) {
        Ok(recording) => recording,
        Err(cause) => return failed(&format!("{name}: {cause}")),
    };
    let filtered = events::events(&recording);
    for line in &filtered.said {
        eprintln!("ccsl events: {line}");
    }
    let mut out = io::stdout().lock();
    match out
        .write_all(&filtered.recording)
        .and_then(|()| out.flush())
    {
        Ok(()) => ExitCode::SUCCESS,
        Err(cause) => failed(&format!("standard output: {cause}")),
    }
}

fn failed(cause: &str) -> ExitCode {
    eprintln!("ccsl events: {cause}");
    ExitCode::from(FAILED)
}
