//! compare [PAIRS] [SEED]: asks the proved library and the separately written monitor the same
//! random questions.
//!
//! Without a seed it takes one from the clock. It fails at the first pair on which the two differ,
//! and where a refusal number of documents 01 and 02 never came up.

use compare::monitors::{library, second};
use compare::tally::Tally;
use std::process::ExitCode;
use std::time::{Duration, Instant, SystemTime, UNIX_EPOCH};

const PAIRS: u64 = 1_000_000;

fn main() -> ExitCode {
    let mut arguments = std::env::args()
        .skip(1)
        .map(|word| word.replace('_', "").parse::<u64>());
    let (pairs, seed) = match (
        arguments.next().unwrap_or(Ok(PAIRS)),
        arguments.next().unwrap_or_else(|| Ok(seed_of_the_clock())),
        arguments.next(),
    ) {
        (Ok(pairs), Ok(seed), None) => (pairs, seed),
        _ => {
            eprintln!("usage: compare [PAIRS] [SEED]");
            return ExitCode::from(2);
        }
    };
    println!("{pairs} pairs, seed {seed}");
    let start = Instant::now();
    let tally = match compare::compare(
        seed,
        0..pairs,
        &library,
        &second,
        &mut progress(start, pairs),
    ) {
        Ok(tally) => tally,
        Err(mismatch) => {
            println!("first: the library; second: the separately written monitor\n{mismatch}");
            return ExitCode::FAILURE;
        }
    };
    let seconds = start.elapsed().as_secs_f64();
    println!("{tally}all {pairs} pairs agree, in {seconds:.1} s");
    let never = tally.never_met();
    if !never.is_empty() {
        println!("never met: {never:?}");
        return ExitCode::FAILURE;
    }
    ExitCode::SUCCESS
}

fn seed_of_the_clock() -> u64 {
    SystemTime::now()
        .duration_since(UNIX_EPOCH)
        .map_or(0, |time| time.as_secs())
}

/// Prints every ten seconds how far it has come.
fn progress(start: Instant, pairs: u64) -> impl FnMut(&Tally) {
    let mut last = start;
    move |tally| {
        if last.elapsed() < Duration::from_secs(10) {
            return;
        }
        last = Instant::now();
        let done = tally.pairs();
        eprintln!(
            "{done} of {pairs} pairs, {:.0} a second",
            done as f64 / start.elapsed().as_secs_f64()
        );
    }
}
