//! Links the proved static library, which `rt lib` writes into `out` in the folder of the crate
//! `monitor_c`.

use std::env;
use std::path::Path;

fn main() {
    let folder = Path::new(&env::var("CARGO_MANIFEST_DIR").expect("cargo sets it"))
        .join("../../crates/monitor_c/out");
    let archive = folder.join("libmonitor_c.a");
    println!("cargo::rerun-if-changed={}", archive.display());
    if !archive.is_file() {
        let missing = archive.display();
        println!("cargo::error={missing} is not there: run `rt lib` in crates/monitor_c first");
        return;
    }
    println!("cargo::rustc-link-search=native={}", folder.display());
    println!("cargo::rustc-link-lib=static=monitor_c");
}
