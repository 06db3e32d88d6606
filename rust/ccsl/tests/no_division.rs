//! The reader of time marks and the decimal reader divide nowhere (M-104): not in their source, nor in
//! that of what they call, nor in the built library. Copies of the sources with a division, and object
//! code with one, show that each test can fail.

use std::collections::{BTreeMap, BTreeSet};
use std::fs;
use std::io::Write;
use std::path::{Path, PathBuf};
use std::process::{Command, Stdio};

/// The readers: a crate, and a function of it.
const READERS: [(&str, &str); 2] = [("recording", "read_mark"), ("text", "read_decimal")];

/// What the readers are, with all that they call. The function that parts words, `text::next_word`, is
/// called beside them and not by them.
const WITH_THEIR_CALLS: [&str; 9] = [
    "limit::at",
    "recording::read_mark",
    "recording::timed",
    "text::contains",
    "text::of",
    "text::passes",
    "text::read_decimal",
    "text::run_end",
    "text::too_large",
];

/// The methods of the standard library that are called. No function of the readers' crates has one of
/// these names, as a test asks.
const BUILT_IN: [&str; 6] = [
    ".enumerate",
    ".iter",
    ".len",
    ".max",
    ".min",
    ".split_first",
];

/// A source file of a crate, comments left out.
struct File {
    krate: String,
    text: String,
}

/// A function: its crate, its name, whether it is a method, and its text from the opening brace of its
/// body on.
struct Function<'a> {
    krate: &'a str,
    name: &'a str,
    is_method: bool,
    body: &'a str,
}

fn repository() -> PathBuf {
    Path::new(env!("CARGO_MANIFEST_DIR")).join("../..")
}

/// The sources of all crates.
fn sources() -> Vec<File> {
    let mut files = Vec::new();
    for folder in fs::read_dir(repository().join("crates")).expect("the crates") {
        let folder = folder.expect("a crate");
        let krate = folder.file_name().into_string().expect("a plain name");
        for file in fs::read_dir(folder.path().join("src")).expect("its sources") {
            let text = fs::read_to_string(file.expect("a file").path()).expect("its text");
            files.push(File {
                krate: krate.clone(),
                text: without_comments(&text),
            });
        }
    }
    files
}

fn without_comments(text: &str) -> String {
    let code = |line: &str| line.split("//").next().unwrap_or("").to_string() + "\n";
    text.lines().map(code).collect()
}

/// The functions of a file, methods among them. The layout, which the gate checks, begins each in the
/// first column, or behind four spaces in an `impl`, and ends it with a brace in the same column.
fn functions(file: &File) -> Vec<Function<'_>> {
    let text = file.text.as_str();
    let starts = text.match_indices("fn ").filter_map(|(at, mark)| {
        let line = text[..at].rfind('\n').map_or(0, |end| end + 1);
        let before = text[line..at].trim_start();
        let column = at - line - before.len();
        let begins = ["", "pub "].contains(&before) || before.ends_with("extern \"C\" ");
        begins.then_some((at + mark.len(), column))
    });
    starts
        .map(|(at, column)| {
            let rest = &text[at..];
            let end = format!("\n{}}}", " ".repeat(column));
            let rest = &rest[..rest.find(&end).unwrap_or(rest.len())];
            let (name, _) = rest.split_once(['(', '<']).expect("parameters");
            let (_, parameters) = rest.split_once('(').expect("parameters");
            let first = parameters.trim_start_matches(['&', '\n', ' ']);
            let first = first.trim_start_matches("mut ");
            let body = rest.find("{\n").map_or("", |brace| &rest[brace..]);
            Function {
                krate: &file.krate,
                name,
                is_method: first.starts_with("self"),
                body,
            }
        })
        .collect()
}

/// The paths that are called in a body, a method with the dot before it.
fn calls(body: &str) -> BTreeSet<&str> {
    let in_path = |c: char| c.is_ascii_alphanumeric() || c == '_' || c == ':' || c == '.';
    let before = |(at, _)| {
        let start = body[..at].rfind(|c| !in_path(c)).map_or(0, |end| end + 1);
        let path = &body[start..at];
        path.rfind('.').map_or(path, |dot| &path[dot..])
    };
    let called = body.match_indices('(').map(before);
    called.filter(|path| !path.is_empty()).collect()
}

/// The crates that each crate uses, itself among them.
fn uses() -> BTreeMap<String, BTreeSet<String>> {
    let list = fs::read_to_string(repository().join("crates.txt")).expect("the list of crates");
    let line = |line: &str| {
        let (krate, others) = line.split_once(':')?;
        let krate = krate.split(' ').next()?.to_string();
        let all = others.split_whitespace().map(str::to_string);
        let all = all.chain([krate.clone()]).collect();
        Some((krate, all))
    };
    list.lines()
        .filter(|text| !text.starts_with('#'))
        .filter_map(line)
        .collect()
}

/// The crates whose functions a path may mean in a crate, and the name that they have there. Another
/// crate's function may have its crate's name before its own; a method may be of any type that the crate
/// sees.
fn meant<'a>(
    all: &[Function<'a>],
    uses: &'a BTreeMap<String, BTreeSet<String>>,
    krate: &'a str,
    path: &'a str,
) -> Vec<(&'a str, &'a str)> {
    let name = path.rsplit([':', '.']).next().unwrap_or(path);
    let is_method = path.starts_with('.');
    let is_it = |f: &Function| f.name == name && f.is_method == is_method;
    let has = |krate: &str| all.iter().any(|f| f.krate == krate && is_it(f));
    if let Some((first, _)) = path.split_once("::") {
        if uses.contains_key(first) {
            return if has(first) {
                vec![(first, name)]
            } else {
                vec![]
            };
        }
    }
    if !is_method && has(krate) {
        return vec![(krate, name)];
    }
    let seen = uses[krate].iter().map(String::as_str);
    seen.filter(|other| has(other))
        .map(|other| (other, name))
        .collect()
}

/// What the readers are, with all that they call; or what divides among it, or can't be found.
fn readers(files: &[File]) -> Result<Vec<String>, Vec<String>> {
    let uses = uses();
    let all: Vec<Function> = files.iter().flat_map(functions).collect();
    let mut open: Vec<(&str, &str)> = READERS.to_vec();
    let (mut seen, mut wrong) = (BTreeSet::new(), Vec::new());
    while let Some((krate, name)) = open.pop() {
        let called = format!("{krate}::{name}");
        if !seen.insert(called.clone()) {
            continue;
        }
        let is_it = |f: &&Function| f.krate == krate && f.name == name && !f.body.is_empty();
        let found: Vec<&Function> = all.iter().filter(is_it).collect();
        if found.is_empty() {
            wrong.push(format!("{called} is not found"));
        }
        for function in found {
            if function.body.contains(['/', '%']) {
                wrong.push(format!("{called} divides"));
            }
            for path in calls(function.body) {
                let name = path.rsplit([':', '.']).next().unwrap_or(path);
                if BUILT_IN.contains(&path) || name.starts_with(|c: char| c.is_ascii_uppercase()) {
                    continue;
                }
                let meant = meant(&all, &uses, function.krate, path);
                if meant.is_empty() {
                    wrong.push(format!("{krate}::{path} is not found"));
                }
                open.extend(meant);
            }
        }
    }
    match wrong.is_empty() {
        true => Ok(seen.into_iter().collect()),
        false => Err(wrong),
    }
}

/// A copy of the sources with one place of a crate changed.
fn changed(krate: &str, old: &str, new: &str) -> Vec<File> {
    let mut files = sources();
    let times = |file: &File| match file.krate == krate {
        true => file.text.matches(old).count(),
        false => 0,
    };
    let counts: Vec<usize> = files.iter().map(times).collect();
    assert_eq!(counts.iter().sum::<usize>(), 1, "{krate}: {old}");
    let place = counts.iter().position(|count| *count == 1).expect("there");
    files[place].text = without_comments(&files[place].text.replace(old, new));
    files
}

#[test]
fn the_source_of_the_readers_divides_nowhere() {
    assert_eq!(
        readers(&sources()),
        Ok(WITH_THEIR_CALLS.map(str::to_string).to_vec())
    );
}

#[test]
fn no_function_of_the_readers_crates_has_the_name_of_a_built_in_one() {
    let files = sources();
    let named = |f: &Function| READERS.iter().any(|(krate, _)| *krate == f.krate);
    let names = files.iter().flat_map(functions).filter(named);
    for function in names {
        let method = format!(".{}", function.name);
        assert!(!BUILT_IN.contains(&method.as_str()), "{method}");
    }
}

#[test]
fn a_division_in_a_copy_of_the_source_is_found() {
    let cases = [
        (
            "text",
            "if 1844674407370955161 <= n",
            "if 18446744073709551615 / 10 <= n",
            "text::read_decimal divides",
        ),
        (
            "text",
            "n = n * 10 + d;",
            "n = n * 10 + d % 10;",
            "text::read_decimal divides",
        ),
        (
            "text",
            "n = n * 10 + d;",
            "n = n * 10 + d;\n        n /= 1;",
            "text::read_decimal divides",
        ),
        (
            "text",
            "        self.contains(byte) == inside",
            "        self.contains(byte / 1) == inside",
            "text::passes divides",
        ),
        (
            "recording",
            "word.of(recording).split_first()",
            "word.of(&recording[1 / 2..]).split_first()",
            "recording::read_mark divides",
        ),
        (
            "recording",
            "time: Time(time),",
            "time: Time(time % 10),",
            "recording::timed divides",
        ),
        (
            "recording",
            "match read_decimal(digits) {",
            "match TickSet::EMPTY.contains(0) {",
            "constraint::contains divides",
        ),
        (
            "text",
            "n = n * 10 + d;",
            "n = half(n) * 10 + d;",
            "text::half is not found",
        ),
        (
            "text",
            "n = n * 10 + d;",
            "n = n.div_euclid(1) * 10 + d;",
            "text::.div_euclid is not found",
        ),
    ];
    for (krate, old, new, told) in cases {
        assert_eq!(
            readers(&changed(krate, old, new)),
            Err(vec![told.to_string()]),
            "{new}"
        );
    }
}

#[test]
fn a_reader_under_another_name_is_not_passed_over() {
    let renamed = changed("recording", "pub fn read_mark(", "pub fn mark(");
    assert_eq!(
        readers(&renamed),
        Err(vec!["recording::read_mark is not found".to_string()])
    );
    let renamed = changed("text", "pub fn read_decimal(", "pub fn digits(");
    assert_eq!(
        readers(&renamed),
        Err(vec![
            "text::read_decimal is not found".to_string(),
            "recording::read_decimal is not found".to_string(),
        ])
    );
    assert_eq!(readers(&[]).expect_err("no source").len(), READERS.len());
}

#[test]
fn comments_and_the_function_that_parts_words_do_not_count() {
    let comment = changed("text", "n = n * 10 + d;", "n = n * 10 + d; // not d / 10");
    assert!(readers(&comment).is_ok());
    let parting = changed("text", "end: start + 1,", "end: start + 2 / 2,");
    assert!(readers(&parting).is_ok());
}

/// The functions of an object file or archive, and those among them that have a `div` or an `idiv`.
fn disassembled(file: &Path) -> (BTreeSet<String>, BTreeSet<String>) {
    let mut objdump = Command::new("objdump");
    let output = objdump
        .args(["-d", "--no-show-raw-insn"])
        .arg(file)
        .output();
    let output = output.expect("objdump, which comes with cc");
    assert!(output.status.success(), "{output:?}");
    let (mut all, mut dividing) = (BTreeSet::new(), BTreeSet::new());
    let mut function = String::new();
    for line in String::from_utf8_lossy(&output.stdout).lines() {
        if let Some((_, name)) = line
            .strip_suffix(">:")
            .and_then(|line| line.split_once(" <"))
        {
            function = name.to_string();
            all.insert(function.clone());
        } else if let Some((_, instruction)) = line.split_once(":\t") {
            if instruction.starts_with("div") || instruction.starts_with("idiv") {
                dividing.insert(function.clone());
            }
        }
    }
    (all, dividing)
}

/// The compiler puts the readers into `ccsl_run` and others, where they can't be told apart: so none of
/// the library's functions may divide. It makes a division by a fixed number a multiplication, which
/// only the source shows.
#[test]
fn the_built_library_has_no_division() {
    let (all, dividing) = disassembled(&repository().join("crates/monitor_c/out/libmonitor_c.a"));
    assert!(all.contains("ccsl_run"), "{all:?}");
    assert_eq!(dividing, BTreeSet::new());
}

#[test]
fn a_division_in_object_code_is_found() {
    let object = Path::new(env!("CARGO_TARGET_TMPDIR")).join("division.o");
    let source = "unsigned long times(unsigned long a, unsigned long b) { return a * b; }
        unsigned long over(unsigned long a, unsigned long b) { return a / b; }
        long rest(long a, long b) { return a % b; }";
    let mut cc = Command::new("cc");
    let cc = cc.args(["-O2", "-c", "-x", "c", "-", "-o"]).arg(&object);
    let mut cc = cc.stdin(Stdio::piped()).spawn().expect("cc");
    let mut input = cc.stdin.take().expect("its input");
    input.write_all(source.as_bytes()).expect("the source");
    drop(input);
    assert!(cc.wait().expect("cc").success());
    let names = |names: &[&str]| names.iter().map(|name| name.to_string()).collect();
    let expected = (names(&["over", "rest", "times"]), names(&["over", "rest"]));
    assert_eq!(disassembled(&object), expected);
}
