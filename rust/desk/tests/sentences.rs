//! The reasons hold: each form from each of its words, with each tick set that fails, as the library
//! says. What the sentence says of ticks is so.

use ccsl::{read_table, start_words, step, StepAnswer};
use desk::sentences::reason;

/// A line of each form, and words from which it is asked.
const FORMS: [(&str, &[[i64; 2]]); 14] = [
    ("a = b", &[[0, 0]]),
    ("a # b", &[[0, 0]]),
    ("a isSubClockOf b", &[[0, 0]]),
    ("a strictly precedes b", &[[0, 0], [1, 0]]),
    ("a precedes b", &[[0, 0], [1, 0]]),
    ("c clockDef a clockUnion b", &[[0, 0]]),
    ("c clockDef a clockInter b", &[[0, 0]]),
    ("c clockDef a lub b", &[[-2, 0], [0, 0], [1, 0]]),
    ("c clockDef a glb b", &[[-2, 0], [0, 0], [1, 0]]),
    ("c clockDef await 3 a", &[[0, 0], [1, 0], [2, 0], [3, 0]]),
    ("c clockDef a strictly sampled b", &[[0, 0], [1, 0], [2, 0]]),
    ("c clockDef a sampled b", &[[0, 0], [1, 0], [2, 0]]),
    ("c clockDef a upto b", &[[0, 0], [1, 0]]),
    (
        "c clockDef a deferred b for 2 3",
        &[[0, 0], [1, 1], [2, 1], [3, 2], [0, 2]],
    ),
];

/// What a sentence says of a clock's tick, in each of the ways in which it is said.
fn said(sentence: &str, clock: &str) -> Vec<bool> {
    let holds = |pattern: &str| sentence.contains(&pattern.replace('?', clock));
    let ticked = [
        "? ticked",
        "?, which was ahead, ticked",
        "?, which was behind, ticked",
        "waited for ?, which ticked",
    ];
    let silent = [
        "? did not tick",
        "?, which was ahead, did not tick",
        "?, which was behind, did not tick",
        "waited for ?, which did not tick",
        "ticked and ? did not",
    ];
    let mut said = Vec::new();
    if clock != "c" && sentence.contains("neither a nor b ticked") {
        return vec![false];
    }
    if clock != "c" && sentence.contains("both ticked") {
        said.push(true);
    }
    said.extend(ticked.iter().filter(|pattern| holds(pattern)).map(|_| true));
    said.extend(
        silent
            .iter()
            .filter(|pattern| holds(pattern))
            .map(|_| false),
    );
    said
}

#[test]
fn what_a_reason_says_of_ticks_is_so() {
    let mut failed = 0;
    for (line, pairs) in FORMS {
        let table = read_table(line.as_bytes()).unwrap();
        let (record, counts) = (&table.records[0], table.counts());
        for (pair, ticks) in pairs
            .iter()
            .flat_map(|pair| (0..8u32).map(move |ticks| (pair, ticks)))
        {
            let mut words = start_words(&table.records, counts).unwrap();
            words[0] = *pair;
            if step(&table.records, counts, &mut words, ticks) != StepAnswer::Violated(1) {
                continue;
            }
            failed += 1;
            let ticked = |clock: u64| ticks >> clock & 1 == 1;
            let sentence = reason(&table, record, *pair, ticked);
            assert!(!sentence.is_empty(), "{line}");
            let clocks = table.clocks.iter().enumerate();
            let said: Vec<(bool, bool)> = clocks
                .flat_map(|(i, clock)| {
                    let said = said(&sentence, &clock.name).into_iter();
                    said.map(move |said| (said, ticked(i as u64)))
                })
                .collect();
            assert!(!said.is_empty(), "{line}, {pair:?}, {ticks:b}: {sentence}");
            let so = said.iter().all(|(said, is)| said == is);
            assert!(so, "{line}, {pair:?}, {ticks:b}: {sentence}");
        }
    }
    assert!(failed > 80, "{failed}");
}
