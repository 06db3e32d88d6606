//! The files of a folder, as the program that prints three lines takes them.

use desk::limits::READ_AT_MOST;
use std::fs::File;
use std::io::Read;
use std::path::Path;

/// Whether a folder is one, or what it is instead.
pub fn is_folder(folder: &Path) -> Result<(), String> {
    let what = match (folder.is_dir(), folder.exists()) {
        (true, _) => return Ok(()),
        (_, true) => "not a folder",
        _ => "no such folder",
    };
    Err(format!("{what}: {}", folder.display()))
}

/// A file of a folder. One that can't be opened or read counts as empty, and a warning says so.
pub fn read(folder: &Path, name: &str) -> Vec<u8> {
    let file = folder.join(name);
    let empty = |cause: &str| {
        eprintln!("ccsl: {}{cause} counts as empty", file.display());
        Vec::new()
    };
    let Ok(open) = File::open(&file) else {
        return empty(" can't be opened, and");
    };
    let mut bytes = Vec::new();
    match open.take(READ_AT_MOST as u64).read_to_end(&mut bytes) {
        Ok(_) => bytes,
        Err(_) => empty(": reading failed, and it"),
    }
}
