//! What is asked for on the command line.

use ccsl::UnknownNames;
use desk::report::{Form, Telling};
use desk::show::Show;
use desk::why::Why;
use desk::window::Options;
use std::ffi::OsString;
use std::path::Path;

pub const USAGE: &str = "\
usage: ./ccsl order FOLDER                     a folder with table.ccsl
       ./ccsl why [--json] [--strict] FOLDER   a folder with table.ccsl and trace.vcd
       ./ccsl show [--json] [--strict] [--from TIME] [--to TIME] [--width N] [--svg FILE] FOLDER";

pub enum Command<'a> {
    Order(&'a Path),
    Run(Run<'a>),
}

/// A run that is told more of.
pub struct Run<'a> {
    /// Whether its steps are shown, or it is said why it ended so.
    shows: bool,
    pub folder: &'a Path,
    pub form: Form,
    pub unknown: UnknownNames,
    pub window: Options,
    /// The file for the picture.
    pub svg: Option<&'a Path>,
}

impl Run<'_> {
    pub fn telling(&self) -> Box<dyn Telling> {
        match self.shows {
            true => Box::new(Show(self.window)),
            false => Box::new(Why),
        }
    }

    /// The command as a user names it.
    pub fn name(&self) -> String {
        format!("ccsl {}", self.telling().name())
    }
}

/// The command of some words, or none. `columns` is how many characters a line of the terminal has, as
/// its shell says it.
pub fn command(words: &[OsString], columns: Option<String>) -> Option<Command<'_>> {
    let (name, rest) = words.split_first()?;
    match (name.to_str()?, rest) {
        ("order", [folder]) => Some(Command::Order(Path::new(folder))),
        ("why", _) => run(false, rest, None).map(Command::Run),
        ("show", _) => run(true, rest, columns).map(Command::Run),
        _ => None,
    }
}

/// One folder, with options before and behind it.
fn run(shows: bool, words: &[OsString], columns: Option<String>) -> Option<Run<'_>> {
    let mut run = Run {
        shows,
        folder: Path::new(""),
        form: Form::Text,
        unknown: UnknownNames::Ignored,
        window: Options::default(),
        svg: None,
    };
    if let Some(columns @ 1..) = columns.and_then(|columns| columns.parse().ok()) {
        run.window.width = columns;
    }
    let mut named = false;
    let mut words = words.iter();
    while let Some(word) = words.next() {
        let mut number = || words.next()?.to_str()?.parse::<u64>().ok();
        match word.to_str() {
            Some("--json") => run.form = Form::Json,
            Some("--strict") => run.unknown = UnknownNames::Refused,
            Some("--from") if shows => run.window.from = Some(number()?),
            Some("--to") if shows => run.window.to = Some(number()?),
            Some("--width") if shows => run.window.width = number()? as usize,
            Some("--svg") if shows => run.svg = Some(Path::new(words.next()?)),
            _ if named => return None,
            _ => {
                named = true;
                run.folder = Path::new(word);
            }
        }
    }
    named.then_some(run)
}
