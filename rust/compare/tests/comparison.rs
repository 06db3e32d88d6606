//! The proved library and the separately written monitor give the same answers, on a few thousand
//! questions of fixed seeds.

use ccsl::UnknownNames;
use compare::case::{Answer, Case};
use compare::generate::{self, Group, GROUPS};
use compare::monitors::{library, second};
use compare::random::Random;
use compare::tally::Tally;
use compare::{compare, compare_group};

/// So many questions of a group agree.
fn agree(seed: u64, pairs: u64, group: Group) -> Tally {
    compare_group(seed, 0..pairs, group, &library, &second)
        .unwrap_or_else(|mismatch| panic!("{mismatch}"))
}

#[test]
fn mixed_questions_agree_and_meet_every_refusal_number() {
    let tally = compare(1, 0..6000, &library, &second, &mut |_| {})
        .unwrap_or_else(|mismatch| panic!("{mismatch}"));
    assert_eq!(tally.pairs(), 6000);
    assert_eq!(tally.never_met(), [], "refusal numbers that never came up");
    let answers = [
        "run accepted",
        "run violated",
        "run refused",
        "recording read",
        "recording refused",
        "table read",
        "table refused",
        "records started",
        "start refused",
        "step accepted",
        "step violated",
        "step refused",
        "places the same",
        "places different",
        "places refused",
        "order listed",
        "order refused",
    ];
    for words in answers {
        assert!(
            tally.answers(words) >= 50,
            "{words}: {}",
            tally.answers(words)
        );
    }
    assert_eq!(tally.answers("both broke off"), 0);
    let nested = tally.nested();
    let counts = [
        nested.tables,
        nested.runs,
        nested.steps_of_runs,
        nested.steps,
    ];
    assert!(counts.iter().all(|count| *count >= 50), "{nested:?}");
    let delayed = tally.delayed();
    let counts = [
        delayed.tables,
        delayed.runs,
        delayed.steps_of_runs,
        delayed.longest,
        delayed.pending,
        delayed.over,
        delayed.steps,
        delayed.places,
    ];
    assert!(counts.iter().all(|count| *count >= 50), "{delayed:?}");
    let choices = tally.choices();
    assert!(
        choices.refused_with_steps >= 150 && choices.ignored_with_steps >= 500,
        "{choices:?}"
    );
}

#[test]
fn tables_agree() {
    for (seed, group, nested, delayed) in [
        (2, Group::Table, 150, 400),
        (3, Group::TableLimits, 20, 50),
        (4, Group::DamagedTable, 5, 20),
    ] {
        let tally = agree(seed, 1500, group);
        assert!(tally.nested().tables >= nested, "{tally}");
        assert!(tally.delayed().tables >= delayed, "{tally}");
        assert!(
            tally.refusals(22) >= 90 || group != Group::TableLimits,
            "{tally}"
        );
    }
}

#[test]
fn short_runs_agree() {
    let tally = agree(5, 1500, Group::ShortRun);
    assert!(
        tally.answers("run accepted") >= 400 && tally.answers("run violated") >= 400,
        "{tally}"
    );
    let nested = tally.nested();
    assert!(nested.runs >= 200 && nested.steps_of_runs >= 800, "{tally}");
    let delayed = tally.delayed();
    assert!(delayed.pending >= 100 && delayed.over >= 50, "{tally}");
}

#[test]
fn long_runs_agree() {
    agree(6, 200, Group::MediumRun);
    let tally = agree(34, 12, Group::LongRun);
    assert!(tally.longest() > 2000, "{tally}");
    let delayed = tally.delayed();
    assert!(delayed.longest > 2000 && delayed.over > 0, "{tally}");
}

#[test]
fn recordings_at_the_limits_agree() {
    let tally = agree(8, 2000, Group::RecordingLimits);
    assert!(
        tally.refusals(37) >= 20 && tally.refusals(38) >= 300,
        "{tally}"
    );
    agree(9, 12, Group::RecordingLength);
}

/// The answers of the library to a run, with unknown names refused and with unknown names ignored.
fn both_choices(case: &Case) -> Option<[Answer; 2]> {
    let mut case = case.clone();
    let mut answer = |choice| match &mut case {
        Case::Run { unknown, .. } => {
            *unknown = choice;
            Some(library(&case))
        }
        _ => None,
    };
    Some([
        answer(UnknownNames::Refused)?,
        answer(UnknownNames::Ignored)?,
    ])
}

#[test]
fn the_choice_matters_only_where_the_library_answers_38() {
    let (mut same, mut other) = (0, 0);
    for pair in 0..12_000 {
        let (_, case) = generate::any(&mut Random::of_pair(18, pair));
        let Some([refused, ignored]) = both_choices(&case) else {
            continue;
        };
        let number = |answer: &Answer| answer.refusal().map(|refusal| refusal.number);
        assert_ne!(number(&refused), Some(37), "{case}");
        assert_ne!(number(&ignored), Some(38), "{case}");
        if number(&refused) == Some(38) {
            other += 1;
        } else {
            assert_eq!(refused, ignored, "{case}");
            same += 1;
        }
    }
    assert!(
        same >= 3000 && other >= 1000,
        "{same} the same, {other} others"
    );
}

#[test]
fn damaged_recordings_agree() {
    agree(10, 1500, Group::DamagedRecording);
}

#[test]
fn start_words_agree() {
    let starts = agree(14, 3000, Group::Start);
    assert!(
        starts.answers("records started") >= 500 && starts.answers("start refused") >= 500,
        "{starts}"
    );
}

#[test]
fn steps_and_places_agree() {
    let steps = agree(11, 3000, Group::Step);
    assert!(
        steps.answers("step accepted") >= 500 && steps.answers("step violated") >= 300,
        "{steps}"
    );
    assert!(steps.nested().steps >= 300, "{steps}");
    assert!(steps.delayed().steps >= 500, "{steps}");
    let places = agree(12, 3000, Group::SamePlace);
    assert!(
        places.answers("places the same") >= 300 && places.answers("places different") >= 300,
        "{places}"
    );
}

#[test]
fn places_agree_with_a_search_of_all_continuations() {
    let places = agree(13, 1200, Group::SamePlaceBySearch);
    assert!(
        places.answers("places the same") >= 200 && places.answers("places different") >= 200,
        "{places}"
    );
    assert!(places.delayed().places >= 300, "{places}");
}

#[test]
fn working_orders_agree() {
    let orders = agree(15, 3000, Group::Order);
    assert!(
        orders.answers("order listed") >= 800 && orders.moved() >= 500,
        "{orders}"
    );
    assert!(
        orders.refusals(21) >= 800 && orders.refusals(59) >= 300,
        "{orders}"
    );
}

#[test]
fn the_order_of_every_question_on_records_is_asked() {
    for group in [
        Group::Start,
        Group::Step,
        Group::SamePlace,
        Group::SamePlaceBySearch,
        Group::Table,
    ] {
        let tally = agree(16, 500, group);
        let orders = tally.answers("order listed") + tally.answers("order refused");
        assert_eq!((tally.pairs(), orders), (500, 500), "{tally}");
        assert!(tally.moved() >= 5 && tally.refusals(21) >= 20, "{tally}");
    }
}

#[test]
fn the_reading_of_every_run_is_asked() {
    for (group, pairs) in [
        (Group::ShortRun, 500),
        (Group::MediumRun, 50),
        (Group::RecordingLimits, 500),
        (Group::DamagedRecording, 500),
    ] {
        let tally = agree(17, pairs, group);
        let readings = tally.answers("recording read") + tally.answers("recording refused");
        assert_eq!((tally.pairs(), readings), (pairs, pairs), "{tally}");
        let [of_runs, of_readings] = tally.steps();
        assert!(of_readings > of_runs, "{tally}");
    }
}

#[test]
fn every_group_has_a_weight() {
    assert!(GROUPS.iter().all(|(weight, _)| *weight > 0));
}
