//! Recordings that Icarus Verilog 11 wrote from the models beside them (`iverilog -o model MODEL.v`,
//! `./model`). What each leaves was written by hand from its model: a file `.left` has it, a file
//! `.said` the lines on standard error.

use std::fs;
use std::path::{Path, PathBuf};

fn recordings() -> PathBuf {
    Path::new(env!("CARGO_MANIFEST_DIR")).join("recordings")
}

fn examples() -> PathBuf {
    Path::new(env!("CARGO_MANIFEST_DIR")).join("../../examples")
}

fn read(path: &Path) -> String {
    fs::read_to_string(path).unwrap_or_else(|e| panic!("{}: {e}", path.display()))
}

fn leaves(recording: &Path, left: &Path) {
    let filtered = events::events(read(recording).as_bytes());
    let printed = String::from_utf8(filtered.recording).unwrap();
    assert_eq!(printed, read(left), "{}", recording.display());
    let again = events::events(printed.as_bytes());
    assert_eq!(String::from_utf8(again.recording).unwrap(), printed);
    assert_eq!(again.said, ["took nothing out"]);
}

#[test]
fn each_recording_leaves_its_ticks() {
    for name in ["beside", "off"] {
        let of = |end: &str| recordings().join(format!("{name}.{end}"));
        leaves(&of("vcd"), &of("left"));
        let said = events::events(read(&of("vcd")).as_bytes()).said;
        assert_eq!(said.join("\n") + "\n", read(&of("said")), "{name}");
    }
}

#[test]
fn the_lessons_are_what_is_left_of_the_simulator() {
    for lesson in ["from-the-simulator", "simulator-first-tick"] {
        let folder = examples().join(lesson);
        leaves(&folder.join("simulator.vcd"), &folder.join("trace.vcd"));
    }
}
