//! Deliberately wrong delays are found, in single steps, in runs, in tables that are read and in the
//! same-place question, and what is reported is small.

use ccsl::Clocks;
use compare::case::{Answer, Case};
use compare::generate::tables::lists_in;
use compare::generate::Group;
use compare::monitors::{defines, library, second, Monitor};
use compare::{compare_group, Mismatch};
use second_opinion::{
    judge, read_table, start_word, Configuration, Kind, Pair, Reading, Record, RecordedStep,
    Refusal, Report, SamePlace, StepAnswer, Table, Verdict,
};
use std::ops::Range;

/// A delay in a step: whether its operands tick, its pair, and its list.
struct Delay<'a> {
    a: bool,
    b: bool,
    pending: i64,
    used: i64,
    list: &'a [u8],
}

impl Delay<'_> {
    fn of(record: &Record, [pending, used]: Pair, set: u32) -> Delay<'_> {
        Delay {
            a: ticks(set, record.first),
            b: ticks(set, record.second),
            pending,
            used,
            list: &record.delays.numbers[..record.delays.length as usize],
        }
    }

    /// The number that a tick of a takes.
    fn number(&self) -> Option<u8> {
        let number = self.list.get(self.used as usize).copied();
        number.filter(|_| self.a)
    }

    /// What a tick of a plans.
    fn planned(&self) -> i64 {
        self.number().map_or(0, |number| 1 << (number - 1))
    }

    /// A pending word after the ticks of b.
    fn shifted(&self, pending: i64) -> i64 {
        pending >> u32::from(self.b)
    }

    /// The numbers used after the ticks of a.
    fn used_after(&self) -> i64 {
        self.used + i64::from(self.number().is_some())
    }
}

fn ticks(set: u32, clock: u64) -> bool {
    set >> clock & 1 == 1
}

/// A rule for delays: when c ticks, and the pair after.
struct Rule {
    due: fn(&Delay) -> bool,
    after: fn(&Delay) -> Pair,
}

const RIGHT: Rule = Rule {
    due: |delay| delay.b && delay.pending & 1 == 1,
    after: |delay| {
        let pending = delay.shifted(delay.pending) | delay.planned();
        [pending, delay.used_after()]
    },
};

/// A tick of b shifts also what is planned beside it.
const SHIFT_AFTER_PLANNING: Rule = Rule {
    after: |delay| {
        let pending = delay.shifted(delay.pending | delay.planned());
        [pending, delay.used_after()]
    },
    ..RIGHT
};

/// A tick of b beside a counts, so that the number 1 makes c tick at once.
const BESIDE_COUNTS: Rule = Rule {
    due: |delay| delay.b && (delay.pending & 1 == 1 || delay.number() == Some(1)),
    ..SHIFT_AFTER_PLANNING
};

/// With the list used up, it is used from its beginning.
const LIST_GOES_ROUND: Rule = Rule {
    after: |delay| match delay.number() {
        None if delay.a => {
            let pending = delay.shifted(delay.pending) | 1 << (delay.list[0] - 1);
            [pending, delay.used]
        }
        _ => (RIGHT.after)(delay),
    },
    ..RIGHT
};

/// With the list used up, a tick of a still counts as a number used.
const USED_GOES_ON: Rule = Rule {
    after: |delay| {
        let [pending, _] = (RIGHT.after)(delay);
        [pending, delay.used + i64::from(delay.a)]
    },
    ..RIGHT
};

/// The bit of the second next tick of b is taken for that of the next.
const DUE_ON_BIT_1: Rule = Rule {
    due: |delay| delay.b && delay.pending & 2 == 2,
    ..RIGHT
};

/// c does not wait for b.
const DUE_WITHOUT_B: Rule = Rule {
    due: |delay| delay.pending & 1 == 1,
    ..RIGHT
};

/// A planned tick takes the place of those that are pending.
const PLAN_REPLACES: Rule = Rule {
    after: |delay| match delay.number() {
        Some(_) => [delay.planned(), delay.used_after()],
        None => (RIGHT.after)(delay),
    },
    ..RIGHT
};

/// Two delays that fall on one tick of b are added.
const PLANS_ADD_UP: Rule = Rule {
    after: |delay| {
        let pending = delay.shifted(delay.pending) + delay.planned();
        [pending, delay.used_after()]
    },
    ..RIGHT
};

/// A number of 32 is lost.
const NO_BIT_31: Rule = Rule {
    after: |delay| {
        let [pending, used] = (RIGHT.after)(delay);
        [pending & !(1 << 31), used]
    },
    ..RIGHT
};

const WRONG: [Rule; 9] = [
    SHIFT_AFTER_PLANNING,
    BESIDE_COUNTS,
    LIST_GOES_ROUND,
    USED_GOES_ON,
    DUE_ON_BIT_1,
    DUE_WITHOUT_B,
    PLAN_REPLACES,
    PLANS_ADD_UP,
    NO_BIT_31,
];

impl Rule {
    /// One record, judged by the rule if it is a delay.
    fn judge(&self, record: &Record, pair: Pair, set: u32) -> (bool, Pair) {
        if record.kind != Kind::Deferred {
            return judge(record, pair, set);
        }
        let delay = Delay::of(record, pair, set);
        if ticks(set, record.defined) == (self.due)(&delay) {
            (true, (self.after)(&delay))
        } else {
            (false, pair)
        }
    }

    /// The pairs after a step, or the place of the first record that fails.
    fn step(
        &self,
        records: &[Record],
        named: u64,
        words: &Configuration,
        mut set: u32,
    ) -> Result<Configuration, usize> {
        for (record, pair) in records.iter().zip(words) {
            let with = set | 1u32.checked_shl(record.defined as u32).unwrap_or(0);
            let implicit = defines(record.kind) && record.defined >= named;
            if implicit && self.judge(record, *pair, with).0 {
                set = with;
            }
        }
        let mut after = *words;
        for (place, record) in records.iter().enumerate() {
            let (holds, pair) = self.judge(record, words[place], set);
            if !holds {
                return Err(place);
            }
            after[place] = pair;
        }
        Ok(after)
    }

    /// A whole run of a recording with these steps.
    fn run(&self, table: &Table, steps: &[RecordedStep]) -> Report {
        let mut configuration = [[0, 0]; second_opinion::WORDS];
        for (pair, record) in configuration.iter_mut().zip(&table.records) {
            *pair = start_word(record);
        }
        let mut report = Report {
            verdict: Verdict::Accepted,
            steps: 0,
            constraints: table.records.len(),
            configuration,
        };
        for RecordedStep { time, ticks, .. } in steps {
            match self.step(&table.records, table.named, &report.configuration, *ticks) {
                Ok(after) => report.configuration = after,
                Err(place) => {
                    let line = table.records[place].line;
                    report.verdict = Verdict::Violated { line, time: *time };
                    break;
                }
            }
            report.steps += 1;
        }
        report
    }

    /// A monitor by the rule: of steps and runs that are not refused.
    fn monitor(&self, case: &Case) -> Answer {
        let answer = second(case);
        if answer.refusal().is_some() {
            return answer;
        }
        match case {
            Case::Step {
                records,
                clocks: Clocks { named, .. },
                words,
                ticks,
            } => match self.step(records, u64::from(*named), words, *ticks) {
                Ok(after) => Answer::Step(StepAnswer::Accepted, after),
                Err(place) => Answer::Step(StepAnswer::Violated(place as u64 + 1), *words),
            },
            Case::Run { table, .. } => {
                let table = read_table(table).expect("a table that is not refused");
                match case.reading().as_ref().map(second) {
                    Some(Answer::Reading(reading)) => Answer::Run(self.run(&table, &reading.steps)),
                    other => panic!("{other:?}"),
                }
            }
            _ => answer,
        }
    }
}

/// What is found when a wrong monitor is compared with another, by questions of a group.
#[track_caller]
fn found_by(group: Group, one: Monitor, wrong: Monitor) -> Mismatch {
    match compare_group(22, 0..8000, group, one, wrong) {
        Err(mismatch) => *mismatch,
        Ok(tally) => panic!("the wrong monitor was not found: {tally}"),
    }
}

#[track_caller]
fn found(group: Group, wrong: Monitor) -> Mismatch {
    found_by(group, &library, wrong)
}

/// The one delay of some records.
#[track_caller]
fn delay_of<'a>(mismatch: &Mismatch, records: &'a [Record]) -> &'a Record {
    let delays = records.iter().filter(|r| r.kind == Kind::Deferred);
    let delays: Vec<&Record> = delays.collect();
    assert_eq!(delays.len(), 1, "{mismatch}");
    delays[0]
}

#[test]
fn delays_by_the_rule_of_the_request_agree() {
    for (group, pairs) in [(Group::Step, 3000), (Group::ShortRun, 1000)] {
        let right = |case: &Case| RIGHT.monitor(case);
        compare_group(23, 0..pairs, group, &library, &right)
            .unwrap_or_else(|mismatch| panic!("{mismatch}"));
    }
}

#[test]
fn every_wrong_rule_is_found_by_a_step_of_one_record() {
    for rule in WRONG {
        let mismatch = found(Group::Step, &|case| rule.monitor(case));
        let Case::Step { records, words, .. } = &mismatch.case else {
            panic!("{mismatch}")
        };
        assert_eq!(records.len(), 1, "{mismatch}");
        let delays = delay_of(&mismatch, records).delays;
        assert_eq!(delays.length, 1, "{mismatch}");
        assert!(delays.numbers[1..].iter().all(|number| *number == 0));
        assert!(words[0][0].count_ones() <= 2, "{mismatch}");
        assert!(words[1..].iter().all(|pair| *pair == [0, 0]), "{mismatch}");
    }
}

#[test]
fn every_wrong_rule_is_found_by_a_run_of_one_line() {
    for rule in WRONG {
        let mismatch = found(Group::ShortRun, &|case| rule.monitor(case));
        let Case::Run {
            table, recording, ..
        } = &mismatch.case
        else {
            panic!("{mismatch}")
        };
        let records = read_table(table).expect("a table").records;
        let delays = delay_of(&mismatch, &records).delays;
        assert!(records.len() <= 2, "{mismatch}");
        assert!(delays.length <= 3, "{mismatch}");
        assert!(recording.len() < 150, "{mismatch}");
    }
}

/// A monitor that reads another table, or runs by it, of the same length.
fn with_lists(case: &Case, change: fn(&mut [u8], &[Range<usize>])) -> Answer {
    let mut case = case.clone();
    if let Case::Read { text } | Case::Run { table: text, .. } | Case::Reading { table: text, .. } =
        &mut case
    {
        for list in lists_in(text) {
            change(text, &list);
        }
    }
    second(&case)
}

/// A monitor that takes 33 for 32.
fn thirty_three_passes(case: &Case) -> Answer {
    with_lists(case, |text, list| {
        for number in list
            .iter()
            .filter(|n| value(&text[(*n).clone()]) == 33)
            .collect::<Vec<_>>()
        {
            text[number.end - 1] = b'2';
        }
    })
}

/// A monitor that forgets a ninth number.
fn ninth_passes(case: &Case) -> Answer {
    with_lists(case, |text, list| {
        if let [_, _, _, _, _, _, _, _, ninth] = list {
            text[ninth.clone()].fill(b' ');
        }
    })
}

/// The value of a run of digits; that of very many may be another one that no list can have.
fn value(digits: &[u8]) -> u64 {
    digits.iter().fold(0, |value: u64, digit| {
        value
            .saturating_mul(10)
            .saturating_add(u64::from(digit - b'0'))
    })
}

/// Whether a list of a text is out of range.
fn is_out_of_range(text: &[u8], list: &[Range<usize>]) -> bool {
    let mut values = list.iter().map(|number| value(&text[number.clone()]));
    !(1..=8).contains(&list.len()) || values.any(|value| !(1..=32).contains(&value))
}

/// The text of a table that is read or run.
fn text_of(case: &Case) -> &[u8] {
    match case {
        Case::Read { text } | Case::Run { table: text, .. } | Case::Reading { table: text, .. } => {
            text
        }
        _ => panic!("{case}"),
    }
}

/// The same answer with another number of refusal.
fn renumbered(answer: Answer, number: u64) -> Answer {
    match answer {
        Answer::Read(Err(refusal)) => Answer::Read(Err(Refusal { number, ..refusal })),
        Answer::Run(report) => {
            let place = match report.verdict {
                Verdict::Refused(refusal) => refusal.place,
                _ => 0,
            };
            let verdict = Verdict::Refused(Refusal { number, place });
            Answer::Run(Report { verdict, ..report })
        }
        Answer::Reading(reading) => {
            let refusal = reading.refusal.map(|refusal| Refusal { number, ..refusal });
            Answer::Reading(Reading { refusal, ..reading })
        }
        answer => answer,
    }
}

/// A monitor that asks 22 before 14.
fn list_before_await(case: &Case) -> Answer {
    let answer = second(case);
    let Some(Refusal { number: 14, place }) = answer.refusal() else {
        return answer;
    };
    let mut lines = text_of(case).split(|byte| *byte == b'\n');
    let line = lines.nth(place as usize - 1).unwrap_or_default();
    if lists_in(line)
        .iter()
        .any(|list| is_out_of_range(line, list))
    {
        return renumbered(answer, 22);
    }
    answer
}

/// A monitor that asks 22 behind 15, of lists that have a number.
fn list_behind_15(case: &Case) -> Answer {
    let answer = second(case);
    let mended = with_lists(case, |text, list| {
        for (place, number) in list.iter().enumerate() {
            text[number.clone()].fill(b' ');
            if place == 0 {
                text[number.start] = b'1';
            }
        }
    });
    match (answer.refusal(), mended.refusal()) {
        (Some(Refusal { number: 22, place }), Some(other))
            if (other.number, other.place) == (15, place) =>
        {
            mended
        }
        _ => answer,
    }
}

#[test]
fn a_number_of_33_is_found_with_its_list_alone() {
    let mismatch = found(Group::TableLimits, &thirty_three_passes);
    let text = text_of(&mismatch.case);
    let lists = lists_in(text);
    assert_eq!((lists.len(), lists[0].len()), (1, 1), "{mismatch}");
    assert_eq!(&text[lists[0][0].clone()], b"33", "{mismatch}");
}

#[test]
fn a_ninth_number_is_found_with_its_list_alone() {
    let mismatch = found(Group::TableLimits, &ninth_passes);
    let text = text_of(&mismatch.case);
    let lists = lists_in(text);
    assert_eq!((lists.len(), lists[0].len()), (1, 9), "{mismatch}");
    assert!(
        lists[0].iter().all(|number| number.len() == 1),
        "{mismatch}"
    );
}

#[test]
fn another_place_of_22_in_the_order_is_found_with_one_line() {
    for (wrong, number) in [
        (list_before_await as fn(&Case) -> Answer, 14),
        (list_behind_15, 22),
    ] {
        let mismatch = found(Group::TableLimits, &wrong);
        let text = text_of(&mismatch.case);
        let refusal = mismatch.one.refusal();
        assert_eq!(refusal, Some(Refusal { number, place: 1 }), "{mismatch}");
        assert!(!text.contains(&b'\n') && text.len() < 70, "{mismatch}");
    }
}

/// A monitor that does not print the numbers used.
fn prints_one_word(case: &Case) -> Answer {
    let mut answer = second(case);
    if let Answer::Run(report) = &mut answer {
        report.configuration.iter_mut().for_each(|pair| pair[1] = 0);
    }
    answer
}

/// A monitor that does not ask 60 of second words.
fn any_second_word(case: &Case) -> Answer {
    let answer = second(case);
    if answer.refusal().is_none_or(|refusal| refusal.number != 60) {
        return answer;
    }
    let mut case = case.clone();
    let zeros = |words: &mut Configuration| words.iter_mut().for_each(|pair| pair[1] = 0);
    match &mut case {
        Case::Step { words, .. } => zeros(words),
        Case::Place { first, second, .. } | Case::Search { first, second, .. } => {
            zeros(first);
            zeros(second);
        }
        _ => {}
    }
    second(&case)
}

#[test]
fn second_words_that_are_not_printed_are_found_with_one_tick() {
    let mismatch = found(Group::ShortRun, &prints_one_word);
    let Case::Run { table, .. } = &mismatch.case else {
        panic!("{mismatch}")
    };
    let records = read_table(table).expect("a table").records;
    delay_of(&mismatch, &records);
    let Answer::Run(report) = &mismatch.one else {
        panic!("{mismatch}")
    };
    assert_eq!(report.steps, 1, "{mismatch}");
}

#[test]
fn second_words_out_of_range_are_found_with_one_pair() {
    for group in [Group::Step, Group::SamePlace] {
        let mismatch = found(group, &any_second_word);
        let (records, _) = mismatch.case.on_records().expect("a question on records");
        assert!(records.len() <= 1, "{mismatch}");
        let refusal = mismatch.one.refusal();
        assert!(
            refusal.is_some_and(|refusal| refusal.number == 60),
            "{mismatch}"
        );
    }
}

/// A monitor for which two configurations stand at the same place where they are equal once both are
/// changed.
fn places_by(case: &Case, change: fn(&mut Pair)) -> Answer {
    let (answer, mut case) = (second(case), case.clone());
    match &mut case {
        Case::Place { first, second, .. } | Case::Search { first, second, .. }
            if answer.refusal().is_none() =>
        {
            first.iter_mut().chain(second.iter_mut()).for_each(change);
            Answer::Place(match first == second {
                true => SamePlace::Same,
                false => SamePlace::Different,
            })
        }
        _ => answer,
    }
}

/// A monitor that does not compare the numbers used.
fn used_not_compared(case: &Case) -> Answer {
    places_by(case, |pair| pair[1] = 0)
}

/// A monitor that does not compare the highest bit of the pending ticks.
fn bit_31_not_compared(case: &Case) -> Answer {
    places_by(case, |pair| pair[0] &= !(1 << 31))
}

/// The record, and its pairs, of a question about two configurations of one.
#[track_caller]
fn one_place(mismatch: &Mismatch) -> (&Record, Pair, Pair) {
    let (Case::Place {
        records,
        first,
        second,
        ..
    }
    | Case::Search {
        records,
        first,
        second,
        ..
    }) = &mismatch.case
    else {
        panic!("{mismatch}")
    };
    assert_eq!(records.len(), 1, "{mismatch}");
    (delay_of(mismatch, records), first[0], second[0])
}

#[test]
fn numbers_used_that_are_not_compared_are_found_with_one_delay() {
    for group in [Group::SamePlace, Group::SamePlaceBySearch] {
        let mismatch = found(group, &used_not_compared);
        let (record, one, other) = one_place(&mismatch);
        assert_eq!(record.delays.length, 1, "{mismatch}");
        assert_eq!((one[0], other[0]), (0, 0), "{mismatch}");
        assert_eq!(one[1] + other[1], 1, "{mismatch}");
    }
}

/// Both monitors have the same wrong rule, and only the search of the second does without it.
#[track_caller]
fn found_by_search(wrong: fn(&Case) -> Answer) -> Mismatch {
    found_by(Group::SamePlaceBySearch, &wrong, &|case| match case {
        Case::Search { .. } => second(case),
        _ => wrong(case),
    })
}

#[test]
fn a_wrong_rule_for_places_that_both_share_is_found_by_search() {
    let mismatch = found_by_search(used_not_compared);
    let (_, one, other) = one_place(&mismatch);
    assert!(one[0] == other[0] && one[1] != other[1], "{mismatch}");
    let mismatch = found_by_search(bit_31_not_compared);
    let (_, one, other) = one_place(&mismatch);
    assert_eq!(one[0] ^ other[0], 1 << 31, "{mismatch}");
}
