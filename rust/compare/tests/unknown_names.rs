//! The random runs have names that the table lacks, and names that it has, in every way that matters.

mod common;

use ccsl::UnknownNames;
use common::{count, Seen};
use compare::case::{Answer, Case};
use compare::generate::{self, Group};
use compare::monitors::second;
use compare::random::Random;
use second_opinion::{read_table, Refusal, Report, Verdict};

/// A run, and the second monitor's reports with both choices.
struct Ran {
    /// The names of the table's clocks; none of a refused table.
    names: Option<Vec<String>>,
    nested: bool,
    recording: Vec<u8>,
    unknown: UnknownNames,
    refused: Report,
    ignored: Report,
}

/// A random question of a group, if it is a run.
fn ran(group: Group, pair: u64) -> Option<Ran> {
    let case = generate::of(&mut Random::of_pair(19, pair), group);
    let Case::Run {
        table,
        recording,
        unknown,
    } = case
    else {
        return None;
    };
    let report = |unknown| {
        let (table, recording) = (table.clone(), recording.clone());
        match second(&Case::Run {
            table,
            recording,
            unknown,
        }) {
            Answer::Run(report) => report,
            answer => panic!("{answer:?}"),
        }
    };
    Some(Ran {
        names: read_table(&table).ok().map(|table| table.names),
        nested: table.contains(&b'('),
        unknown,
        refused: report(UnknownNames::Refused),
        ignored: report(UnknownNames::Ignored),
        recording,
    })
}

fn refusal(report: &Report) -> Option<Refusal> {
    match report.verdict {
        Verdict::Refused(refusal) => Some(refusal),
        _ => None,
    }
}

fn words(text: &[u8]) -> Vec<&[u8]> {
    let words = text.split(u8::is_ascii_whitespace);
    words.filter(|word| !word.is_empty()).collect()
}

impl Ran {
    /// The number with which the run is refused where unknown names are.
    fn number(&self) -> Option<u64> {
        refusal(&self.refused).map(|refusal| refusal.number)
    }

    fn is_known(&self, name: &[u8]) -> bool {
        let mut names = self.names.iter().flatten();
        names.any(|known| known.as_bytes() == name)
    }

    /// The names of all variables.
    fn variables(&self) -> Vec<&[u8]> {
        let is_variable = |six: &&[&[u8]]| six[0] == b"$var" && six[5] == b"$end";
        let words = words(&self.recording);
        words
            .windows(6)
            .filter(is_variable)
            .map(|six| six[4])
            .collect()
    }

    fn has_unknown(&self) -> bool {
        let variables = self.variables();
        variables.iter().any(|name| !self.is_known(name))
    }

    /// The name in the variable at which the run is refused, the last one where it is cut off.
    fn name(&self) -> Option<&[u8]> {
        let Refusal { number, place } = refusal(&self.refused)?;
        if number == 36 {
            let words = words(&self.recording);
            let last = words.len().checked_sub(5)?;
            return (words[last] == b"$var").then(|| words[last + 4]);
        }
        words(&self.recording[place as usize..]).get(4).copied()
    }
}

/// Of a run with unknown names refused: what 38 comes before, and what comes before it.
fn count_refusals(seen: &mut Seen, ran: &Ran) {
    let is_38 = ran.number() == Some(38);
    let ignored = refusal(&ran.ignored).map(|refusal| refusal.number);
    count(seen, "38 alone", is_38 && ignored.is_none());
    for number in [32, 33, 34, 35, 36, 37, 40, 41, 42, 43, 44] {
        let words = format!("38 before {number}");
        count(seen, &words, is_38 && ignored == Some(number));
    }
    for number in [33, 34, 36] {
        let unknown = |name| !ran.is_known(name);
        let is_there = ran.number() == Some(number) && ran.name().is_some_and(unknown);
        count(seen, &format!("{number} of an unknown name"), is_there);
    }
    let has_unknown = ran.has_unknown();
    count(
        seen,
        "31 and an unknown name",
        ran.number() == Some(31) && has_unknown,
    );
    count(
        seen,
        "a refused table and an unknown name",
        ran.names.is_none() && has_unknown,
    );
}

/// Of a run with unknown names refused: which names are known, and which are not.
fn count_names(seen: &mut Seen, ran: &Ran) {
    let Some(names) = &ran.names else { return };
    let (Report { verdict, steps, .. }, is_38) = (&ran.refused, ran.number() == Some(38));
    let accepted = *verdict == Verdict::Accepted && *steps > 0;
    let violated = matches!(verdict, Verdict::Violated { .. });
    let some = !names.is_empty();
    count(seen, "known names, accepted", some && accepted);
    count(seen, "known names, violated", some && violated);
    count(seen, "known names in parentheses", ran.nested && accepted);
    count(seen, "no names, 38", !some && is_38);
    count(seen, "no names, no variables", !some && accepted);
    let Some(name) = ran.name().filter(|_| is_38) else {
        return;
    };
    let near = |is_near: fn(&[u8], &[u8]) -> bool| {
        let mut names = names.iter();
        names.any(|known| is_near(known.as_bytes(), name))
    };
    count(
        seen,
        "38, letter case",
        near(|known, name| known.eq_ignore_ascii_case(name)),
    );
    count(
        seen,
        "38, a name goes on",
        near(|known, name| known.starts_with(name)),
    );
    count(
        seen,
        "38, goes on behind a name",
        near(|known, name| name.starts_with(known)),
    );
}

#[test]
fn runs_with_unknown_names_refused_come_up_in_every_way() {
    let mut seen = Seen::new();
    for (group, pairs) in [
        (Group::RecordingLimits, 40_000),
        (Group::ShortRun, 4000),
        (Group::DamagedTable, 4000),
        (Group::DamagedRecording, 4000),
    ] {
        let runs = (0..pairs).filter_map(|pair| ran(group, pair));
        for ran in runs.filter(|ran| ran.unknown == UnknownNames::Refused) {
            count_refusals(&mut seen, &ran);
            count_names(&mut seen, &ran);
        }
    }
    assert!(seen.values().all(|times| *times >= 5), "{seen:#?}");
}

#[test]
fn runs_with_unknown_names_ignored_come_to_their_steps() {
    for (group, pairs, steps, least) in [
        (Group::ShortRun, 1500, 1, 200),
        (Group::MediumRun, 300, 50, 30),
        (Group::LongRun, 30, 2000, 2),
    ] {
        let runs = (0..pairs).filter_map(|pair| ran(group, pair));
        let found = runs
            .filter(|ran| ran.unknown == UnknownNames::Ignored && ran.number() == Some(38))
            .filter(|ran| ran.ignored.steps >= steps)
            .count();
        assert!(found >= least, "{group:?}: {found} runs");
    }
}
