//! M-101 on random nested tables, held against the same tables unfolded by
//! recursion here, with every implicit clock named and recorded.

mod common;

use common::*;
use second_opinion::*;

const RIGHT_SIDES: [&str; 8] = [
    "clockUnion",
    "clockInter",
    "lub",
    "glb",
    "strictly sampled",
    "sampled",
    "upto",
    "deferred",
];

/// What stands behind the operands of a delay.
const LISTS: [&str; 4] = [" for 1", " for 2 1", " for 1 1 02", " for 3 1 4 1 5 9 2 6"];

const RELATIONS: [&str; 5] = ["=", "#", "isSubClockOf", "strictly precedes", "precedes"];

/// The named clocks of every random table.
const NAMES: [&str; 6] = ["a", "b", "c", "d", "e", "f"];

/// A table in two texts: nested, and with a line for each implicit clock.
#[derive(Default)]
struct Texts {
    nested: String,
    flat: String,
    implicit: usize,
}

/// Names that a line has not used yet.
struct Line<'n> {
    numbers: &'n mut Numbers,
    left: Vec<&'static str>,
}

impl Line<'_> {
    fn name(&mut self) -> &'static str {
        let index = self.numbers.below(self.left.len() as u64) as usize;
        self.left.swap_remove(index)
    }

    /// An operand, nested and flat, its implicit clocks' lines going to `texts`.
    /// `spare` names must be left for the operands to its right.
    fn operand(&mut self, texts: &mut Texts, spare: usize, depth: u64) -> (String, String) {
        if depth == 0 || self.numbers.below(2) == 0 {
            let name = self.name();
            return (name.to_owned(), name.to_owned());
        }
        let (nested, flat) = self.right_side(texts, spare, depth - 1);
        let implicit = format!("i{}", texts.implicit);
        texts.implicit += 1;
        texts.flat += &format!("{implicit} clockDef {flat}\n");
        let blank = self.numbers.pick(&["", " "]);
        (format!("({blank}{nested}{blank})"), implicit)
    }

    fn right_side(&mut self, texts: &mut Texts, spare: usize, depth: u64) -> (String, String) {
        if self.left.len() < spare + 2 || self.numbers.below(4) == 0 {
            let number = 1 + self.numbers.below(3);
            let (nested, flat) = self.operand(texts, spare, depth);
            return (
                format!("await {number} {nested}"),
                format!("await {number} {flat}"),
            );
        }
        let sign = self.numbers.pick(&RIGHT_SIDES);
        let (nested, flat) = self.two(texts, spare, depth, sign);
        let list = match sign {
            "deferred" => self.numbers.pick(&LISTS),
            _ => "",
        };
        (format!("{nested}{list}"), format!("{flat}{list}"))
    }

    fn two(&mut self, texts: &mut Texts, spare: usize, depth: u64, sign: &str) -> (String, String) {
        let (left, flat_left) = self.operand(texts, spare + 1, depth);
        let (right, flat_right) = self.operand(texts, spare, depth);
        (
            format!("{left} {sign} {right}"),
            format!("{flat_left} {sign} {flat_right}"),
        )
    }
}

/// One to three lines over the six names, each name defined at most once.
fn random_texts(numbers: &mut Numbers) -> Texts {
    let mut texts = Texts::default();
    let mut defined = NAMES.to_vec();
    for _ in 0..1 + numbers.below(3) {
        let mut line = Line {
            numbers,
            left: NAMES.to_vec(),
        };
        let (nested, flat) = if line.numbers.below(2) == 0 {
            let sign = line.numbers.pick(&RELATIONS);
            line.two(&mut texts, 0, 3, sign)
        } else {
            let index = line.numbers.below(defined.len() as u64) as usize;
            let name = defined.swap_remove(index);
            line.left.retain(|&other| other != name);
            let (nested, flat) = line.right_side(&mut texts, 0, 3);
            (
                format!("{name} clockDef {nested}"),
                format!("{name} clockDef {flat}"),
            )
        };
        texts.nested += &format!("{nested}\n");
        texts.flat += &format!("{flat}\n");
    }
    texts
}

/// A tick set of one table as one of another, by the clocks' names.
fn by_name(ticks: u32, from: &[String], to: &[String]) -> u32 {
    let in_step = |name: &String| {
        let clock = from.iter().position(|other| other == name);
        clock.is_some_and(|clock| ticks & 1 << clock != 0)
    };
    (0..)
        .zip(to)
        .filter(|&(_, name)| in_step(name))
        .fold(0, |set, (clock, _)| set | 1 << clock)
}

#[test]
fn a_nested_table_is_its_unfolded_one() {
    let mut numbers = Numbers(101);
    let mut implicit = 0;
    for _ in 0..2000 {
        let texts = random_texts(&mut numbers);
        let (nested, flat) = (table(&texts.nested), table(&texts.flat));
        let context = format!("{}\n{}", texts.nested, texts.flat);
        assert_eq!(nested.clocks as usize, flat.names.len(), "{context}");
        assert_eq!(nested.named as usize, nested.names.len(), "{context}");
        assert_eq!(nested.records.len(), flat.records.len(), "{context}");
        // Clock by clock: named ones by their names, implicit ones in order.
        let name = |clock: u64| match nested.names.get(clock as usize) {
            Some(name) => name.clone(),
            None => format!("i{}", clock - nested.named),
        };
        for (one, other) in nested.records.iter().zip(&flat.records) {
            let unfolded = |clock: u64| flat.names[clock as usize].clone();
            assert_eq!(one.kind, other.kind, "{context}");
            assert_eq!(one.number, other.number, "{context}");
            assert_eq!(one.delays, other.delays, "{context}");
            assert_eq!(name(one.first), unfolded(other.first), "{context}");
            if one.kind != Kind::Await {
                assert_eq!(name(one.second), unfolded(other.second), "{context}");
            }
            let relation = RELATION_KINDS.contains(&one.kind);
            if !relation {
                assert_eq!(name(one.defined), unfolded(other.defined), "{context}");
            }
        }
        implicit = implicit.max(texts.implicit);
    }
    assert!(implicit >= 8, "some tables must nest much: {implicit}");
}

const RELATION_KINDS: [Kind; 5] = [
    Kind::Coincides,
    Kind::Excludes,
    Kind::SubClock,
    Kind::StrictlyPrecedes,
    Kind::Precedes,
];

/// Of all sets of implicit clocks beside the named ticks exactly one makes all
/// implicit definitions hold in the unfolded table, and the nested step does
/// what the unfolded one does with it.
#[test]
fn a_nested_step_is_the_unfolded_step_with_the_one_set_of_implicit_ticks() {
    let mut numbers = Numbers(102);
    let (mut moved, mut failed) = (0, 0);
    for _ in 0..300 {
        let texts = random_texts(&mut numbers);
        if texts.implicit > 6 {
            continue;
        }
        let (nested, flat) = (table(&texts.nested), table(&texts.flat));
        let clocks = flat.clocks;
        let definitions: Vec<usize> = (0..nested.records.len())
            .filter(|&index| !RELATION_KINDS.contains(&nested.records[index].kind))
            .filter(|&index| nested.records[index].defined >= nested.named)
            .collect();
        assert_eq!(definitions.len(), texts.implicit);
        let names: Vec<String> = (0..texts.implicit).map(|i| format!("i{i}")).collect();
        let mut configuration = start_words(&nested.records, nested.named, nested.clocks)
            .expect("a table's records pass 59");
        for _ in 0..12 {
            let ticks = numbers.below(1 << nested.named) as u32;
            let recorded = by_name(ticks, &nested.names, &flat.names);
            let fitting: Vec<u32> = (0..1 << texts.implicit)
                .map(|set| recorded | by_name(set, &names, &flat.names))
                .filter(|&set| {
                    definitions
                        .iter()
                        .all(|&index| judge(&flat.records[index], configuration[index], set).0)
                })
                .collect();
            let context = format!("{}{configuration:?} {ticks}", texts.nested);
            assert_eq!(fitting.len(), 1, "{context}");
            let mut expected = configuration;
            let unfolded = step(&flat.records, clocks, clocks, &mut expected, fitting[0]);
            let answer = step(
                &nested.records,
                nested.named,
                nested.clocks,
                &mut configuration,
                ticks,
            );
            assert_eq!((answer, configuration), (unfolded, expected), "{context}");
            match answer {
                StepAnswer::Accepted => moved += 1,
                StepAnswer::Violated(record) => {
                    let record = record as usize - 1;
                    assert!(!definitions.contains(&record), "{context}");
                    failed += 1;
                }
                StepAnswer::Refused(refusal) => panic!("{refusal:?} {context}"),
            }
        }
    }
    assert!(moved > 500 && failed > 500, "{moved} {failed}");
}

/// A run does what its single steps do.
#[test]
fn a_nested_run_does_what_its_single_steps_do() {
    let mut numbers = Numbers(103);
    let header: String = NAMES
        .iter()
        .map(|name| format!("$var event 1 {name} {name} $end "))
        .collect();
    let mut most = 0;
    for _ in 0..500 {
        let texts = random_texts(&mut numbers);
        let table = table(&texts.nested);
        let mut recording = format!("{header}$enddefinitions $end");
        let mut configuration =
            start_words(&table.records, table.named, table.clocks).expect("start words");
        let mut expected = (Verdict::Accepted, 0, configuration);
        for time in 1..9u64 {
            let ticks = (numbers.below(64) & numbers.below(64)) as u32;
            recording += &format!(" #{time}");
            for (clock, name) in table.names.iter().enumerate() {
                if ticks & 1 << clock != 0 {
                    recording += &format!(" {}{name}", numbers.pick(&VALUES));
                }
            }
            if expected.0 != Verdict::Accepted {
                continue;
            }
            let ticks = ticks & ((1 << table.named) - 1);
            let answer = step(
                &table.records,
                table.named,
                table.clocks,
                &mut configuration,
                ticks,
            );
            match answer {
                StepAnswer::Accepted => expected = (Verdict::Accepted, time, configuration),
                StepAnswer::Violated(record) => {
                    let line = table.records[record as usize - 1].line;
                    expected.0 = Verdict::Violated { line, time };
                }
                StepAnswer::Refused(refusal) => panic!("{refusal:?}"),
            }
        }
        let report = run_ignoring(texts.nested.as_bytes(), recording.as_bytes());
        assert_eq!(
            (report.verdict, report.steps, report.configuration),
            expected,
            "{}",
            texts.nested
        );
        most = most.max(report.steps);
    }
    assert_eq!(most, 8, "some runs must be accepted");
}

/// Random words between random parentheses: nothing panics, and 19 and 20 are
/// what counting says.
#[test]
fn random_parentheses_are_19_and_20_as_counting_says() {
    let mut numbers = Numbers(104);
    let pieces = [
        "(",
        ")",
        "((((",
        "))",
        "(a lub b)",
        "a",
        " ",
        "=",
        "await 2",
    ];
    let mut seen = [0; 3];
    for _ in 0..5000 {
        let line: String = (0..1 + numbers.below(40))
            .map(|_| numbers.pick(&pieces))
            .collect();
        let (mut open, mut most, mut alone) = (0, 0, false);
        for byte in line.bytes() {
            match byte {
                b'(' => open += 1,
                b')' if open == 0 => alone = true,
                b')' => open -= 1,
                _ => {}
            }
            most = most.max(open);
        }
        let expected = match (most > 16, alone || open > 0) {
            (true, _) => Some(19),
            (false, true) => Some(20),
            (false, false) => None,
        };
        let number = read_table(line.as_bytes())
            .err()
            .map(|refusal| refusal.number);
        match expected {
            Some(19) => seen[0] += 1,
            Some(_) => seen[1] += 1,
            None => seen[2] += 1,
        }
        match expected {
            Some(expected) => assert_eq!(number, Some(expected), "{line}"),
            None => assert!(!matches!(number, Some(19 | 20)), "{line}"),
        }
    }
    assert!(seen.into_iter().all(|count| count > 50), "{seen:?}");
}
