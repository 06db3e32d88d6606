//! bench: times of the proved library and of the separately written monitor on the same inputs, as
//! a table.
//!
//! `bench one WORKLOAD SIZE library|rust|nothing TIMES` prepares an input and asks so often, for
//! the count of instructions (see the script `instructions`).

mod workloads;

use std::process::ExitCode;
use std::time::{Duration, Instant};
use workloads::{input, sizes, Input, ABOUT, WORKLOADS};

/// Measurements of which the median is taken.
const SAMPLES: usize = 31;
/// The least time of one measurement; short calls are repeated until it has passed.
const SAMPLE: Duration = Duration::from_micros(200);

fn main() -> ExitCode {
    let arguments: Vec<String> = std::env::args().skip(1).collect();
    let words: Vec<&str> = arguments.iter().map(String::as_str).collect();
    match words[..] {
        [] => table(),
        ["one", workload, size, who, times] => return many(workload, size, who, times),
        _ => return usage(),
    }
    ExitCode::SUCCESS
}

fn usage() -> ExitCode {
    eprintln!("usage: bench\n       bench one WORKLOAD SIZE library|rust|nothing TIMES");
    ExitCode::from(2)
}

/// Prepares an input, asks so often, and fails where an answer is not the expected one.
fn many(workload: &str, size: &str, who: &str, times: &str) -> ExitCode {
    let (Ok(size), Ok(times)) = (size.parse(), times.parse()) else {
        return usage();
    };
    let call = match who {
        "library" => Input::library,
        "rust" => Input::rust,
        "nothing" => Input::nothing,
        _ => return usage(),
    };
    let Some(mut input) = input(workload, size) else {
        return usage();
    };
    sample(&mut input, call, times);
    ExitCode::SUCCESS
}

/// Prints the table of times.
fn table() {
    println!("{ABOUT}\n");
    println!("| Workload | Size | Library | Rust | Library / Rust |");
    println!("|---|--:|--:|--:|--:|");
    for workload in WORKLOADS {
        for size in sizes(workload) {
            let mut input = input(workload, size).expect("the size is one of this workload");
            let (library, rust) = medians(&mut input);
            let ratio = library / rust;
            let (library, rust) = (shown(library), shown(rust));
            println!("| {workload} | {size} | {library} | {rust} | {ratio:.2} |");
        }
    }
}

/// The median times of one call of the library and of the other monitor, in nanoseconds; the two
/// take turns.
fn medians(input: &mut Input) -> (f64, f64) {
    let monitors: [fn(&mut Input) -> bool; 2] = [Input::library, Input::rust];
    let calls = monitors.map(|call| calls(input, call));
    let mut times = [Vec::new(), Vec::new()];
    for _ in 0..SAMPLES {
        for (place, call) in monitors.iter().enumerate() {
            times[place].push(sample(input, *call, calls[place]));
        }
    }
    let median = |place: usize| {
        let mut times = times[place].clone();
        times.sort();
        times[SAMPLES / 2].as_nanos() as f64 / f64::from(calls[place])
    };
    (median(0), median(1))
}

/// How many calls take long enough to be measured.
fn calls(input: &mut Input, call: fn(&mut Input) -> bool) -> u32 {
    let mut calls = 1;
    while sample(input, call, calls) < SAMPLE {
        calls *= 2;
    }
    calls
}

/// The time of so many calls.
fn sample(input: &mut Input, call: fn(&mut Input) -> bool, calls: u32) -> Duration {
    let start = Instant::now();
    for _ in 0..calls {
        assert!(call(input), "the answer is the expected one");
    }
    start.elapsed()
}

/// A time with three figures and its unit.
fn shown(nanoseconds: f64) -> String {
    let (number, unit) = match nanoseconds {
        n if n < 1e3 => (n, "ns"),
        n if n < 1e6 => (n / 1e3, "µs"),
        n => (n / 1e6, "ms"),
    };
    match number {
        n if n < 10.0 => format!("{n:.2} {unit}"),
        n if n < 100.0 => format!("{n:.1} {unit}"),
        n => format!("{n:.0} {unit}"),
    }
}
