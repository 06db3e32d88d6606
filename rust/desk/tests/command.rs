//! `desk why` as a command: options, statuses, and what is said on standard error.

use std::fs;
use std::path::{Path, PathBuf};
use std::process::{Command, Output};

const TABLE: &str = "a strictly precedes b\n";
const RECORDING: &str = "$var event 1 a a $end $var event 1 b b $end $var event 1 u u $end\n\
    $enddefinitions $end #2 1a #5 1b 1u #7 1b\n";

/// A folder of this name with a table and a recording in it.
fn folder(name: &str) -> PathBuf {
    let folder = Path::new(env!("CARGO_TARGET_TMPDIR")).join(name);
    let _ = fs::remove_dir_all(&folder);
    fs::create_dir_all(&folder).unwrap();
    fs::write(folder.join("table.ccsl"), TABLE).unwrap();
    fs::write(folder.join("trace.vcd"), RECORDING).unwrap();
    folder
}

fn desk(words: &[&str]) -> Output {
    let program = env!("CARGO_BIN_EXE_desk");
    Command::new(program).args(words).output().unwrap()
}

/// What is printed, what is said on standard error, and the status.
fn told(words: &[&str]) -> (String, String, i32) {
    let Output {
        status,
        stdout,
        stderr,
    } = desk(words);
    let text = |bytes| String::from_utf8(bytes).unwrap();
    (text(stdout), text(stderr), status.code().unwrap())
}

#[test]
fn options_stand_before_or_behind_the_folder() {
    let folder = folder("options");
    let folder = folder.to_str().unwrap();
    let (text, said, status) = told(&["why", folder]);
    assert!(
        text.starts_with("violated 1 7\nsteps 2\nconfig 0 0\n\nline 1: a strictly precedes b\n")
    );
    assert_eq!((said.as_str(), status), ("", 1));
    let (strict, said, status) = told(&["why", "--strict", folder]);
    assert!(
        strict.starts_with("refused 38 44\nsteps 0\nconfig 0 0\n\n38: "),
        "{strict}"
    );
    assert_eq!((said.as_str(), status), ("", 2));
    assert_eq!(told(&["why", folder, "--strict"]).0, strict);
    let json = told(&["why", "--json", folder]);
    assert!(
        json.0
            .starts_with("{\"verdict\":\"violated\",\"line\":1,\"time\":7,"),
        "{}",
        json.0
    );
    assert_eq!(json.2, 1);
    assert_eq!(told(&["why", folder, "--json"]), json);
    let both = told(&["why", "--json", folder, "--strict"]);
    assert!(
        both.0
            .starts_with("{\"verdict\":\"refused\",\"number\":38,"),
        "{}",
        both.0
    );
}

#[test]
fn wrong_calls() {
    let folder = folder("calls");
    let file = folder.join("table.ccsl");
    let (folder, file) = (folder.to_str().unwrap(), file.to_str().unwrap());
    for words in [
        &["why"][..],
        &["why", "--json"],
        &["why", folder, folder],
        &["what", folder],
        &[],
    ] {
        let (text, said, status) = told(words);
        assert_eq!((text.as_str(), status), ("", 3), "{words:?}");
        assert!(said.starts_with("usage: "), "{words:?}: {said}");
    }
    let expected = |said: String| (String::new(), said, 3);
    let not_a_folder = expected(format!("ccsl: not a folder: {file}\n"));
    assert_eq!(told(&["why", file]), not_a_folder);
    let none = format!("{folder}/none");
    assert_eq!(
        told(&["why", &none]),
        expected(format!("ccsl: no such folder: {none}\n"))
    );
}

#[test]
fn files_that_count_as_empty() {
    let empty = "refused 36 0\nsteps 0\nconfig 0 0\n\n\
        36: the recording ends before the header does\nthe recording is empty\n";
    let missing = folder("missing");
    fs::remove_file(missing.join("trace.vcd")).unwrap();
    let name = missing.to_str().unwrap();
    let said = format!("ccsl: {name}/trace.vcd can't be opened, and counts as empty\n");
    assert_eq!(told(&["why", name]), (empty.to_string(), said, 2));

    fs::create_dir(missing.join("trace.vcd")).unwrap();
    let said = format!("ccsl: {name}/trace.vcd: reading failed, and it counts as empty\n");
    assert_eq!(told(&["why", name]), (empty.to_string(), said, 2));

    let blank = folder("blank");
    fs::remove_file(blank.join("table.ccsl")).unwrap();
    let name = blank.to_str().unwrap();
    let said = format!(
        "ccsl: {name}/table.ccsl can't be opened, and counts as empty\n\
        ccsl: {name}/table.ccsl has no constraint, and accepts every step\n"
    );
    let accepts = "accepted\nsteps 3\nconfig\n\nall 3 steps are accepted\n\
        the table has no constraint, and accepts every step\n";
    assert_eq!(told(&["why", name]), (accepts.to_string(), said, 0));
}

#[test]
fn a_file_larger_than_is_read() {
    let folder = folder("large");
    fs::write(folder.join("trace.vcd"), vec![b' '; (1 << 24) + 1]).unwrap();
    let (text, said, status) = told(&["why", folder.to_str().unwrap()]);
    let expected = "refused 30 0\nsteps 0\nconfig 0 0\n\n\
        30: the recording has more than 65,536 bytes\n\
        trace.vcd has at least 16777216 bytes; the limit is 65536\n";
    assert_eq!((text.as_str(), said.as_str(), status), (expected, "", 2));
}
