//! Every answer of the desk on the random runs of the comparison, whole, at the limits and damaged, and
//! on the examples: the three lines and the status are the run's, no account differs from it, and what is
//! written as JSON or as a picture is well-formed.

mod common;
#[path = "common/json.rs"]
mod json;
#[path = "common/xml.rs"]
mod xml;

use ccsl::{Report, UnknownNames, Verdict};
use common::{examples, input};
use compare::case::Case;
use compare::generate::{self, damage::damage};
use compare::random::Random;
use desk::account::{account, Input};
use desk::library::Proved;
use desk::report::{answer, Form, Telling};
use desk::show::Show;
use desk::svg::svg;
use desk::why::Why;
use desk::window::Options;
use json::is_json;
use xml::elements;

const SEED: u64 = 20_261_118;
const PAIRS: u64 = 12_000;

fn status(report: &Report) -> usize {
    match report.verdict {
        Verdict::Accepted => 0,
        Verdict::Violated { .. } => 1,
        Verdict::Refused(_) => 2,
    }
}

/// Any window, mostly all of a recording.
fn options(random: &mut Random) -> Options {
    let mut time = || random.once_in(3).then(|| random.below(300) as u64);
    let (from, to) = (time(), time());
    Options {
        from,
        to,
        width: random.below(160),
    }
}

/// Holds every answer about a run to the run.
fn hold(input: Input, run: &Report, options: Options, what: &str) {
    let found = account(&Proved, input);
    for telling in [&Why as &dyn Telling, &Show(options)] {
        let text = answer(&found, Form::Text, telling);
        let told = &text.text;
        assert!(told.starts_with(&format!("{run}\n")), "{what}: {told}");
        assert_eq!(usize::from(text.status), status(run), "{what}: {told}");
        let json = answer(&found, Form::Json, telling);
        assert_eq!(json.status, text.status, "{what}");
        let word = run.verdict.to_string();
        let word = word.split(' ').next().unwrap_or("");
        let opens = format!("{{\"verdict\":\"{word}\",");
        assert!(json.text.starts_with(&opens), "{what}: {}", json.text);
        assert!(is_json(json.text.trim_end()), "{what}: {}", json.text);
    }
    let account = found.unwrap_or_else(|differs| panic!("{what}: {differs:?}"));
    let picture = elements(&svg(&account, &options)).unwrap_or_else(|e| panic!("{what}: {e}"));
    assert_eq!(picture[1].text, run.verdict.to_string(), "{what}");
}

#[test]
fn every_answer_has_the_run_s_verdict() {
    let mut counts = [0; 3];
    for pair in 0..PAIRS {
        let mut random = Random::of_pair(SEED, pair);
        let Case::Run {
            table,
            recording,
            unknown,
        } = generate::any(&mut random).1
        else {
            continue;
        };
        let run = ccsl::run_with(&table, &recording, unknown);
        let options = options(&mut random);
        let what = format!("seed {SEED}, pair {pair}");
        hold(input(&table, &recording, unknown), &run, options, &what);
        counts[status(&run)] += 1;
    }
    assert!(counts.iter().all(|count| *count > 500), "{counts:?}");
}

/// The three lines are those of the file `printed`, and where unknown names are refused those of the file
/// `strict`, if there is one.
#[test]
fn every_example() {
    for example in examples() {
        let printed = example.has("printed");
        let strict = match example.folder.join("strict").is_file() {
            true => example.has("strict"),
            false => printed.clone(),
        };
        let what = example.folder.display().to_string();
        let (table, recording) = (&example.table, &example.recording);
        for (unknown, lines) in [
            (UnknownNames::Ignored, printed),
            (UnknownNames::Refused, strict),
        ] {
            let run = ccsl::run_with(table, recording, unknown);
            assert_eq!(run.to_string(), lines, "{what}");
            let options = Options::default();
            hold(input(table, recording, unknown), &run, options, &what);
        }
    }
}

#[test]
fn damaged_examples() {
    for (i, example) in examples().into_iter().enumerate() {
        for pair in 0..20 {
            let mut random = Random::of_pair(SEED + i as u64, pair);
            let (mut table, mut recording) = (example.table.clone(), example.recording.clone());
            if random.once_in(4) {
                damage(&mut random, &mut table);
            }
            damage(&mut random, &mut recording);
            let unknown = random.pick(&[UnknownNames::Ignored, UnknownNames::Refused]);
            let run = ccsl::run_with(&table, &recording, unknown);
            let options = options(&mut random);
            let what = format!("{} damaged, pair {pair}", example.folder.display());
            hold(input(&table, &recording, unknown), &run, options, &what);
        }
    }
}
