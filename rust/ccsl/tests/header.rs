//! `include/ccsl_monitor.h` is held to the library: each of its constants to what the calls answer
//! and to this crate's constant, each prototype to this crate's declaration and to the Rattle source.
//! What is in one of them and not in the others is told too.

use ccsl::{raw, UnknownNames, KINDS};
use std::collections::BTreeMap;
use std::fs;
use std::path::{Path, PathBuf};

/// More than any list of a call needs, and a number of whole records.
const LONG: usize = 840;

/// The constants of the kinds, each with a line of its form; dots stand for more numbers.
const FORMS: [(&str, &str); 14] = [
    ("CCSL_COINCIDES", "a = b"),
    ("CCSL_EXCLUDES", "a # b"),
    ("CCSL_SUB_CLOCK", "a isSubClockOf b"),
    ("CCSL_STRICTLY_PRECEDES", "a strictly precedes b"),
    ("CCSL_PRECEDES", "a precedes b"),
    ("CCSL_UNION", "c clockDef a clockUnion b"),
    ("CCSL_INTER", "c clockDef a clockInter b"),
    ("CCSL_LUB", "c clockDef a lub b"),
    ("CCSL_GLB", "c clockDef a glb b"),
    ("CCSL_AWAIT", "c clockDef await 5 a"),
    ("CCSL_STRICTLY_SAMPLED", "c clockDef a strictly sampled b"),
    ("CCSL_SAMPLED", "c clockDef a sampled b"),
    ("CCSL_UPTO", "c clockDef a upto b"),
    ("CCSL_DEFERRED", "c clockDef a deferred b for 5 ..."),
];

const TABLE: &[u8] = b"a precedes b";
const RECORDING: &[u8] = b"$var event 1 ! a $end $var event 1 % b $end $enddefinitions $end";

/// A record of `a precedes b`.
fn precedes() -> [u64; 8] {
    let kind = KINDS.iter().position(|k| *k == ccsl::Kind::Precedes);
    [kind.unwrap() as u64, 0, 0, 1, 0, 1, 0, 0]
}

/// A call with lists of these lengths: its status and its answer.
type Called = (u32, Vec<u64>);

/// A run of a recording all of whose names the table has.
fn run(recording: &[u8], answer: usize, words: usize) -> Called {
    run_with(recording, raw::UNKNOWN_REFUSED, answer, words)
}

fn run_with(recording: &[u8], unknown: u32, answer: usize, words: usize) -> Called {
    let (mut answer, mut words) = (vec![0; answer], vec![0; words]);
    let status = raw::run(TABLE, recording, unknown, &mut answer, &mut words);
    (status, answer)
}

fn read(text: &[u8], answer: usize, records: usize, names: usize) -> (Called, Vec<u64>) {
    let (mut answer, mut records) = (vec![0; answer], vec![u64::MAX; records]);
    let mut names = vec![0; names];
    let status = raw::read_table(text, &mut answer, &mut records, &mut names);
    ((status, answer), records)
}

fn start(records: &[u64], answer: usize, words: usize) -> Called {
    let (mut answer, mut words) = (vec![0; answer], vec![0; words]);
    let status = raw::start_words(records, 2, 2, &mut words, &mut answer);
    (status, answer)
}

fn step(records: &[u64], ticks: u32, answer: usize, words: usize) -> Called {
    let (mut answer, mut words) = (vec![0; answer], vec![0; words]);
    let status = raw::step(records, 2, 2, &mut words, ticks, &mut answer);
    (status, answer)
}

fn place(records: &[u64], answer: usize, first: &[i64], second: &[i64]) -> Called {
    let mut answer = vec![0; answer];
    let status = raw::same_place(records, 2, 2, first, second, &mut answer);
    (status, answer)
}

fn order(records: &[u64], answer: usize, order: usize) -> Called {
    let (mut answer, mut order) = (vec![0; answer], vec![0; order]);
    let status = raw::definition_order(records, 2, 2, &mut answer, &mut order);
    (status, answer)
}

/// The reading of a recording with lists of these lengths for its steps.
fn recorded(recording: &[u8], unknown: u32, answer: usize, steps: [usize; 3]) -> Called {
    let mut answer = vec![0; answer];
    let [mut times, mut marks] = [steps[0], steps[1]].map(|length| vec![0; length]);
    let mut ticks = vec![0; steps[2]];
    let status = raw::read_recording(
        TABLE,
        recording,
        unknown,
        &mut answer,
        &mut times,
        &mut marks,
        &mut ticks,
    );
    (status, answer)
}

/// The same with lists that are long enough.
fn reading(recording: &[u8], unknown: u32, answer: usize) -> Called {
    recorded(recording, unknown, answer, [LONG; 3])
}

/// What the library's answers say of each constant, some of them in several ways.
fn measured() -> Vec<(&'static str, u64)> {
    let mut all = statuses();
    all.extend(outcomes());
    all.extend(sizes());
    all.extend(kinds());
    all.extend(choices());
    all.push(("CCSL_LAYOUT", u64::from(raw::layout())));
    all
}

fn statuses() -> Vec<(&'static str, u64)> {
    let (one, zeros) = (precedes(), vec![0; LONG]);
    let unknown = [KINDS.len() as u64, 0, 0, 1, 0, 1, 0, 0];
    let status = |called: Called| u64::from(called.0);
    vec![
        ("CCSL_DONE", status(run(RECORDING, LONG, LONG))),
        ("CCSL_DONE", status(read(TABLE, LONG, LONG, LONG).0)),
        ("CCSL_DONE", status(start(&one, LONG, LONG))),
        ("CCSL_DONE", status(step(&one, 1, LONG, LONG))),
        ("CCSL_DONE", status(place(&one, LONG, &zeros, &zeros))),
        ("CCSL_DONE", status(order(&one, LONG, LONG))),
        ("CCSL_DONE", status(reading(RECORDING, 0, LONG))),
        ("CCSL_ANSWER_SHORT", status(run(RECORDING, 0, LONG))),
        ("CCSL_ANSWER_SHORT", status(read(TABLE, 0, LONG, LONG).0)),
        ("CCSL_ANSWER_SHORT", status(start(&one, 0, LONG))),
        ("CCSL_ANSWER_SHORT", status(step(&one, 1, 0, LONG))),
        ("CCSL_ANSWER_SHORT", status(place(&one, 0, &zeros, &zeros))),
        ("CCSL_ANSWER_SHORT", status(order(&one, 0, LONG))),
        ("CCSL_ANSWER_SHORT", status(reading(RECORDING, 0, 0))),
        ("CCSL_WORDS_SHORT", status(run(RECORDING, LONG, 0))),
        ("CCSL_WORDS_SHORT", status(start(&one, LONG, 0))),
        ("CCSL_WORDS_SHORT", status(step(&one, 1, LONG, 0))),
        ("CCSL_WORDS_SHORT", status(place(&one, LONG, &[], &zeros))),
        ("CCSL_WORDS_SHORT", status(place(&one, LONG, &zeros, &[]))),
        ("CCSL_RECORDS_SHORT", status(read(TABLE, LONG, 0, LONG).0)),
        ("CCSL_NAMES_SHORT", status(read(TABLE, LONG, LONG, 0).0)),
        ("CCSL_RECORDS_RAGGED", status(start(&one[..1], LONG, LONG))),
        (
            "CCSL_RECORDS_RAGGED",
            status(step(&one[..1], 1, LONG, LONG)),
        ),
        (
            "CCSL_RECORDS_RAGGED",
            status(place(&one[..1], LONG, &zeros, &zeros)),
        ),
        ("CCSL_RECORDS_RAGGED", status(order(&one[..1], LONG, LONG))),
        ("CCSL_KIND_UNKNOWN", status(start(&unknown, LONG, LONG))),
        ("CCSL_KIND_UNKNOWN", status(step(&unknown, 1, LONG, LONG))),
        (
            "CCSL_KIND_UNKNOWN",
            status(place(&unknown, LONG, &zeros, &zeros)),
        ),
        ("CCSL_KIND_UNKNOWN", status(order(&unknown, LONG, LONG))),
        ("CCSL_ORDER_SHORT", status(order(&one, LONG, 0))),
        (
            "CCSL_CHOICE_INVALID",
            status(run_with(RECORDING, 2, LONG, LONG)),
        ),
        (
            "CCSL_CHOICE_INVALID",
            status(run_with(b"", u32::MAX, LONG, LONG)),
        ),
        ("CCSL_CHOICE_INVALID", status(reading(RECORDING, 2, LONG))),
        (
            "CCSL_STEPS_SHORT",
            status(recorded(RECORDING, 0, LONG, [0, LONG, LONG])),
        ),
        (
            "CCSL_STEPS_SHORT",
            status(recorded(RECORDING, 0, LONG, [LONG, 0, LONG])),
        ),
        (
            "CCSL_STEPS_SHORT",
            status(recorded(RECORDING, 0, LONG, [LONG, LONG, 0])),
        ),
    ]
}

fn outcomes() -> Vec<(&'static str, u64)> {
    let (one, twice) = (precedes(), [5, 0, 1, 1, 0, 1, 0, 0]);
    let [zero, ahead, below] = [0, 1, -1].map(|word| {
        let mut words = vec![0; LONG];
        words[0] = word;
        words
    });
    let late = [RECORDING, b" #7 1%"].concat();
    let first = |called: Called| called.1[0];
    vec![
        ("CCSL_ACCEPTED", first(run(RECORDING, LONG, LONG))),
        ("CCSL_ACCEPTED", first(read(TABLE, LONG, LONG, LONG).0)),
        ("CCSL_ACCEPTED", first(start(&one, LONG, LONG))),
        ("CCSL_ACCEPTED", first(step(&one, 0b01, LONG, LONG))),
        ("CCSL_ACCEPTED", first(place(&one, LONG, &zero, &zero))),
        ("CCSL_ACCEPTED", first(order(&one, LONG, LONG))),
        ("CCSL_ACCEPTED", first(reading(&late, 0, LONG))),
        ("CCSL_VIOLATED", first(run(&late, LONG, LONG))),
        ("CCSL_VIOLATED", first(step(&one, 0b10, LONG, LONG))),
        ("CCSL_VIOLATED", first(place(&one, LONG, &zero, &ahead))),
        ("CCSL_REFUSED", first(run(b"", LONG, LONG))),
        ("CCSL_REFUSED", first(read(b"a", LONG, LONG, LONG).0)),
        ("CCSL_REFUSED", first(start(&twice, LONG, LONG))),
        ("CCSL_REFUSED", first(step(&one, 0b100, LONG, LONG))),
        ("CCSL_REFUSED", first(place(&one, LONG, &zero, &below))),
        ("CCSL_REFUSED", first(order(&twice, LONG, LONG))),
        ("CCSL_REFUSED", first(reading(b"", 0, LONG))),
    ]
}

/// The least length of a list with which a call is done.
fn least(call: impl Fn(usize) -> Called) -> usize {
    let done = |length: &usize| call(*length).0 == call(LONG).0;
    (1..LONG).find(done).expect("a list of this length will do")
}

fn sizes() -> Vec<(&'static str, u64)> {
    let (one, zeros) = (precedes(), vec![0; LONG]);
    let record = least(|n| step(&vec![0; n], 0, LONG, LONG));
    let records = least(|n| read(TABLE, LONG, n, LONG).0);
    let names = least(|n| read(TABLE, LONG, LONG, n).0);
    assert_eq!((records % record, names % 2), (0, 0));
    let sizes = [
        ("CCSL_WORDS", least(|n| run(RECORDING, LONG, n))),
        ("CCSL_WORDS", least(|n| start(&one, LONG, n))),
        ("CCSL_WORDS", least(|n| step(&one, 1, LONG, n))),
        (
            "CCSL_WORDS",
            least(|n| place(&one, LONG, &zeros[..n], &zeros)),
        ),
        (
            "CCSL_WORDS",
            least(|n| place(&one, LONG, &zeros, &zeros[..n])),
        ),
        ("CCSL_RECORD", record),
        ("CCSL_RECORDS", records / record),
        ("CCSL_CLOCKS", names / 2),
        ("CCSL_CLOCKS", least(|n| order(&one, LONG, n))),
        ("CCSL_RUN_ANSWER", least(|n| run(RECORDING, n, LONG))),
        ("CCSL_READ_ANSWER", least(|n| read(TABLE, n, LONG, LONG).0)),
        ("CCSL_START_ANSWER", least(|n| start(&one, n, LONG))),
        ("CCSL_STEP_ANSWER", least(|n| step(&one, 1, n, LONG))),
        (
            "CCSL_PLACE_ANSWER",
            least(|n| place(&one, n, &zeros, &zeros)),
        ),
        ("CCSL_ORDER_ANSWER", least(|n| order(&one, n, LONG))),
        ("CCSL_STEPS_ANSWER", least(|n| reading(RECORDING, 0, n))),
    ];
    sizes.map(|(name, size)| (name, size as u64)).to_vec()
}

/// The kind of each form is the first number of the record that the reader makes of a line.
fn kinds() -> Vec<(&'static str, u64)> {
    let record = |line: &str| {
        let line = line.replace("...", "6 7");
        read(line.as_bytes(), LONG, LONG, LONG).1[0]
    };
    let mut kinds = vec![("CCSL_EMPTY", record(""))];
    kinds.extend(FORMS.map(|(name, line)| (name, record(line))));
    kinds
}

/// The choices with which a variable that the table lacks is refused with 38, and those with which
/// the run is accepted.
fn choices() -> Vec<(&'static str, u64)> {
    let recording = [b"$var event 1 & other $end ", RECORDING].concat();
    let called = |choice| run_with(&recording, choice, LONG, LONG);
    let mut choices = Vec::new();
    for choice in (0..=300).filter(|choice| called(*choice).0 == raw::DONE) {
        let name = match called(choice).1[..3] {
            [2, 38, 0] => "CCSL_UNKNOWN_REFUSED",
            [0, 0, 0] => "CCSL_UNKNOWN_IGNORED",
            _ => "neither choice",
        };
        choices.push((name, u64::from(choice)));
    }
    choices
}

/// This crate's constants under the header's names: those of `raw`, as its source has them, the kinds
/// and the choices, named as the variants are.
fn of_this_crate() -> Vec<(String, u64)> {
    let constant = |line: &str| {
        let (name, rest) = line.strip_prefix("pub const ")?.split_once(':')?;
        let value = rest.split_once('=')?.1.trim().trim_end_matches(';');
        Some((format!("CCSL_{name}"), value.parse().ok()?))
    };
    let kind = |kind: ccsl::Kind| (format!("CCSL{}", upper(&format!("{kind:?}"))), kind as u64);
    let choice = |choice: UnknownNames| {
        let name = upper(&format!("{choice:?}"));
        (format!("CCSL_UNKNOWN{name}"), choice as u64)
    };
    let choices = [UnknownNames::Refused, UnknownNames::Ignored];
    let of_raw = source("rust/ccsl/src/raw.rs");
    let of_raw = of_raw.lines().filter_map(constant);
    of_raw
        .chain(KINDS.map(kind))
        .chain(choices.map(choice))
        .collect()
}

/// `SubClock` is `_SUB_CLOCK`.
fn upper(camel: &str) -> String {
    let letter = |c: char| match c.is_uppercase() {
        true => format!("_{c}"),
        false => c.to_ascii_uppercase().to_string(),
    };
    camel.chars().map(letter).collect()
}

/// A call: its name, the types and names of its parameters, and what it returns, in Rust's types.
#[derive(Clone, Debug, PartialEq, Eq, PartialOrd, Ord)]
struct Call {
    name: String,
    parameters: Vec<(String, String)>,
    returns: String,
}

/// The text without C's comments.
fn without_comments(text: &str) -> String {
    let mut pieces = text.split("/*");
    let first = pieces.next().unwrap_or("").to_string();
    pieces.fold(first, |kept, piece| {
        kept + " " + piece.split_once("*/").map_or("", |(_, rest)| rest)
    })
}

/// The constants of the header, in its order.
fn constants(header: &str) -> Vec<(String, u64)> {
    let mut found = Vec::new();
    for body in without_comments(header).split("enum {").skip(1) {
        let body = body.split('}').next().unwrap_or("");
        for item in body.split(',').filter(|item| !item.trim().is_empty()) {
            let (name, value) = item.split_once('=').unwrap_or((item, ""));
            let value = value.trim().parse();
            let value = value.unwrap_or_else(|_| panic!("no number: {}", item.trim()));
            found.push((name.trim().to_string(), value));
        }
    }
    found
}

/// The comment that stands behind a constant.
fn comment<'a>(header: &'a str, name: &str) -> &'a str {
    let is_its = |line: &&str| line.trim().split(' ').next() == Some(name);
    let line = header.lines().find(is_its).unwrap_or("");
    let comment = line.split_once("/*").map_or("", |(_, comment)| comment);
    comment.trim().trim_end_matches("*/").trim()
}

/// A type of C in Rust's words.
fn rust_type(c: &str) -> String {
    let (constant, rest) = match c.trim().strip_prefix("const ") {
        Some(rest) => (true, rest),
        None => (false, c.trim()),
    };
    let (base, pointer) = match rest.strip_suffix('*') {
        Some(base) => (base.trim(), true),
        None => (rest, false),
    };
    let base = match base {
        "uint8_t" => "u8",
        "uint32_t" => "u32",
        "uint64_t" => "u64",
        "int64_t" => "i64",
        "size_t" => "usize",
        other => other,
    };
    match (pointer, constant) {
        (true, true) => format!("*const {base}"),
        (true, false) => format!("*mut {base}"),
        (false, _) => base.to_string(),
    }
}

/// The prototypes of the header.
fn prototypes(header: &str) -> Vec<Call> {
    let text = without_comments(header);
    let code: Vec<&str> = text.lines().filter(|line| !line.starts_with('#')).collect();
    let mut calls: Vec<Call> = code
        .join(" ")
        .split([';', '{', '}'])
        .filter_map(|piece| piece.trim().strip_suffix(')')?.split_once('('))
        .map(|(head, list)| {
            let (returns, name) = type_and_name(head);
            let parameters = list.split(',').filter(|item| item.trim() != "void");
            Call {
                name,
                parameters: parameters.map(type_and_name).collect(),
                returns,
            }
        })
        .collect();
    calls.sort();
    calls
}

/// `const uint8_t *table` is its type, in Rust's words, and its name.
fn type_and_name(c: &str) -> (String, String) {
    let words = c.split_whitespace().collect::<Vec<_>>().join(" ");
    let start = words.rfind([' ', '*']).map_or(0, |at| at + 1);
    (rust_type(&words[..start]), words[start..].to_string())
}

/// What follows each `mark` of a Rust or Rattle source: a name, parameters, a type.
fn declarations(source: &str, mark: &str, parameter: fn(&str, &str) -> Parameters) -> Vec<Call> {
    let mut calls: Vec<Call> = source
        .split(mark)
        .skip(1)
        .map(|piece| {
            let (name, rest) = piece.split_once('(').expect("parameters");
            let (list, rest) = rest.split_once(')').expect("the end of the parameters");
            let returns = rest.trim().strip_prefix("->").expect("a returned type");
            let one = |item: &str| {
                let (name, of) = item.split_once(':')?;
                Some(parameter(name.trim(), of.trim()))
            };
            Call {
                name: name.to_string(),
                parameters: list.split(',').filter_map(one).flatten().collect(),
                returns: returns
                    .trim()
                    .chars()
                    .take_while(|c| c.is_alphanumeric())
                    .collect(),
            }
        })
        .collect();
    calls.sort();
    calls
}

type Parameters = Vec<(String, String)>;

/// A parameter of this crate's declarations.
fn as_declared(name: &str, of: &str) -> Parameters {
    vec![(of.to_string(), name.to_string())]
}

/// A parameter of the Rattle source: a slice is a pointer and a length.
fn as_in_rattle(name: &str, of: &str) -> Parameters {
    let (pointer, element) = match (of.strip_prefix("&mut ["), of.strip_prefix("&[")) {
        (Some(element), _) => ("*mut", element),
        (None, Some(element)) => ("*const", element),
        (None, None) => return as_declared(name, of),
    };
    vec![
        (
            format!("{pointer} {}", element.trim_end_matches(']')),
            name.to_string(),
        ),
        ("usize".to_string(), format!("{name}_len")),
    ]
}

fn of_this_crate_declared() -> Vec<Call> {
    let raw = source("rust/ccsl/src/raw.rs");
    let (_, block) = raw.split_once("extern \"C\" {").expect("the declarations");
    let (block, _) = block.split_once("\n}").expect("the end of the module");
    declarations(block, "pub fn ", as_declared)
}

fn of_the_rattle_source() -> Vec<Call> {
    let folder = repository().join("crates/monitor_c/src");
    let files = fs::read_dir(&folder).unwrap_or_else(|e| panic!("{}: {e}", folder.display()));
    let text: String = files
        .map(|file| fs::read_to_string(file.unwrap().path()).unwrap())
        .collect();
    declarations(&text, "pub extern \"C\" fn ", as_in_rattle)
}

fn repository() -> PathBuf {
    Path::new(env!("CARGO_MANIFEST_DIR")).join("../..")
}

fn source(name: &str) -> String {
    let path = repository().join(name);
    fs::read_to_string(&path).unwrap_or_else(|e| panic!("{}: {e}", path.display()))
}

fn header() -> String {
    source("include/ccsl_monitor.h")
}

/// All that a header says and the library, this crate or the source does not, and the other way
/// round.
fn faults(header: &str) -> Vec<String> {
    let mut faults = Vec::new();
    let constants = constants(header);
    let known: BTreeMap<&str, u64> = constants.iter().map(|(n, v)| (n.as_str(), *v)).collect();
    let measured = measured();
    for (name, value) in &measured {
        if known.get(name) != Some(value) {
            faults.push(format!("{name}: the library says {value}"));
        }
    }
    let own = of_this_crate();
    for (name, value) in &own {
        if known.get(name.as_str()) != Some(value) {
            faults.push(format!("{name}: rust/ccsl says {value}"));
        }
    }
    for (name, _) in &constants {
        if own.iter().all(|(known, _)| known != name)
            || measured.iter().all(|(known, _)| known != name)
        {
            faults.push(format!("{name} is held to nothing"));
        }
    }
    for (name, line) in FORMS {
        if comment(header, name) != line.replace('5', "n") {
            faults.push(format!("{name}: its comment is not its form"));
        }
    }
    let prototypes = prototypes(header);
    if prototypes != of_this_crate_declared() {
        faults.push("the prototypes are not those of rust/ccsl".to_string());
    }
    if prototypes != of_the_rattle_source() {
        faults.push("the prototypes are not those of crates/monitor_c".to_string());
    }
    faults
}

/// The header with one text in it changed.
fn changed(header: &str, old: &str, new: &str) -> String {
    assert_eq!(header.matches(old).count(), 1, "{old}");
    header.replace(old, new)
}

#[test]
fn the_header_says_what_the_library_does() {
    assert_eq!(faults(&header()), [""; 0]);
}

#[test]
fn the_header_is_read() {
    let header = header();
    let constants = constants(&header);
    for (name, value) in [
        ("CCSL_RECORDS_RAGGED", 5),
        ("CCSL_ORDER_SHORT", 7),
        ("CCSL_CHOICE_INVALID", 8),
        ("CCSL_STEPS_SHORT", 9),
        ("CCSL_UNKNOWN_REFUSED", 0),
        ("CCSL_UNKNOWN_IGNORED", 1),
        ("CCSL_REFUSED", 2),
        ("CCSL_CLOCKS", 32),
        ("CCSL_WORDS", 128),
        ("CCSL_RECORD", 8),
        ("CCSL_LAYOUT", 2),
        ("CCSL_UPTO", 13),
        ("CCSL_DEFERRED", 14),
    ] {
        assert!(constants.contains(&(name.to_string(), value)), "{name}");
    }
    let calls = prototypes(&header);
    let named = |name: &str| calls.iter().find(|call| call.name == name).unwrap();
    let layout = named("ccsl_layout");
    assert_eq!(
        (layout.parameters.len(), layout.returns.as_str()),
        (0, "u32")
    );
    let step = named("ccsl_step");
    let pair = |of: &str, name: &str| (of.to_string(), name.to_string());
    assert_eq!(step.returns, "u32");
    assert_eq!(
        step.parameters,
        [
            pair("*const u64", "records"),
            pair("usize", "records_len"),
            pair("u32", "named"),
            pair("u32", "clocks"),
            pair("*mut i64", "words"),
            pair("usize", "words_len"),
            pair("u32", "ticks"),
            pair("*mut u64", "answer"),
            pair("usize", "answer_len"),
        ]
    );
}

#[test]
fn eight_wrong_headers_are_told() {
    let right = header();
    let exchanged = |one: &str, other: &str| {
        let (first, second) = (format!("CCSL_{one} = "), format!("CCSL_{other} = "));
        let text = changed(&right, &first, "CCSL_?");
        let text = changed(&text, &second, &first);
        changed(&text, "CCSL_?", &second)
    };
    let wrong = [
        exchanged("LUB", "GLB"),
        exchanged("UPTO", "DEFERRED"),
        exchanged("RECORDS_SHORT", "NAMES_SHORT"),
        exchanged("ACCEPTED", "VIOLATED"),
        exchanged("UNKNOWN_REFUSED", "UNKNOWN_IGNORED"),
        changed(&right, "CCSL_RECORD = 8", "CCSL_RECORD = 6"),
        changed(&right, "CCSL_WORDS = 128", "CCSL_WORDS = 64"),
        changed(&right, "CCSL_LAYOUT = 2", "CCSL_LAYOUT = 1"),
    ];
    for header in wrong {
        assert!(!faults(&header).is_empty());
    }
}

#[test]
fn every_other_number_of_a_constant_is_told() {
    let right = header();
    for (name, value) in constants(&right) {
        let old = format!(" {name} = {value}");
        for other in [value + 1, value.wrapping_sub(1) & 0xFFFF] {
            let wrong = changed(&right, &old, &format!(" {name} = {other}"));
            let faults = faults(&wrong);
            assert!(
                faults
                    .iter()
                    .any(|f| f.starts_with(&format!("{name}: the library"))),
                "{faults:?}"
            );
            assert!(
                faults
                    .iter()
                    .any(|f| f.starts_with(&format!("{name}: rust"))),
                "{faults:?}"
            );
        }
    }
}

#[test]
fn other_prototypes_are_told() {
    let right = header();
    let wrong = [
        (
            "\n                  const uint8_t *recording",
            "\n                  uint8_t *recording",
        ),
        ("const int64_t *first", "const uint64_t *first"),
        ("ccsl_layout(void)", "ccsl_layout(uint32_t layout)"),
        ("uint32_t ccsl_layout(", "uint64_t ccsl_layout("),
        ("uint32_t ccsl_layout(void);\n", ""),
        ("                   uint32_t ticks,\n", ""),
        ("\n                  uint32_t unknown,", ""),
        (
            "\n                  uint32_t unknown,",
            "\n                  uint8_t unknown,",
        ),
        (
            "\n                   uint32_t named, uint32_t clocks,",
            "\n                   uint32_t clocks, uint32_t named,",
        ),
        (
            "ccsl_start_words(const uint64_t",
            "ccsl_start_words(uint64_t",
        ),
        (
            "uint64_t *names, size_t names_len",
            "size_t names_len, uint64_t *names",
        ),
        ("uint32_t ccsl_step(", "uint64_t ccsl_step("),
        ("ccsl_same_place(const", "ccsl_place(const"),
        (
            "uint64_t *order, size_t order_len",
            "uint32_t *order, size_t order_len",
        ),
        (
            "uint32_t *ticks, size_t ticks_len",
            "uint64_t *ticks, size_t ticks_len",
        ),
        (
            "uint64_t *marks, size_t marks_len,",
            "uint64_t *times, size_t times_len,",
        ),
    ];
    for (old, new) in wrong {
        assert_eq!(
            faults(&changed(&right, old, new)),
            [
                "the prototypes are not those of rust/ccsl",
                "the prototypes are not those of crates/monitor_c"
            ]
        );
    }
}

#[test]
fn what_is_held_to_nothing_is_told() {
    let right = header();
    let more = changed(
        &right,
        "CCSL_DEFERRED = 14 ",
        "CCSL_DEFERRED = 14, CCSL_OTHER = 15 ",
    );
    assert_eq!(faults(&more), ["CCSL_OTHER is held to nothing"]);
    let other = changed(
        &right,
        "/* c clockDef a glb b */",
        "/* c clockDef a lub b, or so */",
    );
    assert_eq!(faults(&other), ["CCSL_GLB: its comment is not its form"]);
}
