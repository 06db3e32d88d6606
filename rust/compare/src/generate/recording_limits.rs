//! Recordings at both sides of the limits 30 to 44; 38 is one where unknown names are refused.

use super::recordings::{any_id, change, command, value, variable, word, Recording};
use super::tables::Word;
use crate::random::Random;
use second_opinion::Table;

/// A fault, or something that is just no fault, put into the words of a recording.
type Spoil = fn(&mut Random, &Table, &mut Recording);

const SPOILS: [(usize, Spoil); 16] = [
    (4, strange_command),
    (3, strange_end),
    (6, variable_shape),
    (5, declared_again),
    (8, unknown_name),
    (3, undeclared_clock),
    (2, many_variables),
    (4, cut_off),
    (6, strange_word),
    (8, spoilt_mark),
    (8, strange_time),
    (3, early_change),
    (5, undeclared_id),
    (5, second_tick),
    (1, open_comment),
    (1, no_mark),
];

/// Spoils a recording in one to three ways.
pub fn spoil(random: &mut Random, table: &Table, recording: &mut Recording) {
    for _ in 0..random.pick_by_weight(&[(6, 1), (2, 2), (1, 3)]) {
        random.pick_by_weight(&SPOILS)(random, table, recording);
    }
}

/// 32: a word that opens no command.
fn strange_command(random: &mut Random, _: &Table, recording: &mut Recording) {
    let words = "$end $dumpvars #0 1! $Var var $enddefinition $enddefinitions$end $dateX $ x $var$";
    let place = random.below(recording.header.len());
    let strange = word(random.pick_word(words));
    recording.header.insert(place, vec![strange]);
}

/// 32 or 36: another word behind `$enddefinitions`, or none.
fn strange_end(random: &mut Random, _: &Table, recording: &mut Recording) {
    let Some(last) = recording.header.last_mut() else {
        return;
    };
    match random.below(4) {
        0 => last.truncate(1),
        1 => last.insert(last.len().min(1), word("#0")),
        2 => *last = command("$enddefinitions $End"),
        _ => {
            last.truncate(1);
            recording.body.clear();
        }
    }
}

/// The places of the declarations in the header.
fn declarations(recording: &Recording) -> Vec<usize> {
    (0..recording.header.len())
        .filter(|place| {
            recording.header[*place]
                .first()
                .is_some_and(|word| word == b"$var")
        })
        .collect()
}

/// 33 and its other side: one of the six words is another, or there is one more or less.
fn variable_shape(random: &mut Random, _: &Table, recording: &mut Recording) {
    let places = declarations(recording);
    if places.is_empty() {
        return recording
            .header
            .insert(0, command("$var event 1 abcd other $end"));
    }
    let declaration = &mut recording.header[random.pick(&places)];
    let (place, words) = random.pick(&[
        (1, "wire Event event1 $end 1"),
        (2, "2 01 10 1! event"),
        (3, "abcd abcde $end $enddefinitions ~~~~ !!!!!"),
        (4, "$end other $enddefinitions"),
        (5, "end $End $var [3:0] $end$"),
    ]);
    let text = random.pick_word(words);
    match random.below(8) {
        0 => drop(declaration.remove(place.min(declaration.len() - 1))),
        1 => declaration.insert(place.min(declaration.len()), word(text)),
        _ => declaration.resize_with(6, || word("$end")),
    }
    if declaration.len() == 6 {
        declaration[place] = word(text);
    }
}

/// 34 and its other side: an id again, a clock of the table again, an ignored name again.
fn declared_again(random: &mut Random, table: &Table, recording: &mut Recording) {
    let old_id = if recording.ids.is_empty() {
        word("!")
    } else {
        random.pick(&recording.ids)
    };
    let new_id = any_id(random, 4);
    let known = if table.names.is_empty() {
        word("x")
    } else {
        random.pick(&table.names).into_bytes()
    };
    let more = match random.below(4) {
        0 => vec![variable(&old_id, b"ignored")],
        1 => vec![variable(&new_id, &known)],
        2 => vec![variable(&old_id, &known)],
        _ => vec![
            variable(&new_id, b"ignored"),
            variable(&any_id(random, 4), b"ignored"),
        ],
    };
    for declaration in more {
        let place = random.below(recording.header.len());
        recording.header.insert(place, declaration);
    }
}

/// 38, alone or beside other limits of the header: a name that the table lacks, mostly one that is
/// nearly a clock's.
fn unknown_name(random: &mut Random, table: &Table, recording: &mut Recording) {
    let name = misspelt(random, table);
    let mut new = variable(&any_id(random, 4), &name);
    let places = declarations(recording);
    let place = random.below(recording.header.len());
    match random.below(6) {
        // 35 behind it, if it was the name of a clock.
        0 | 1 if !places.is_empty() => {
            recording.header[random.pick(&places)] = new;
            return;
        }
        // 34 before it, if it stands behind the variable with this id.
        2 if !recording.ids.is_empty() => new[3] = random.pick(&recording.ids),
        // 33 before it.
        3 => new[random.pick(&[1, 2, 5])] = word("wire"),
        // 36 before it.
        4 => {
            new.truncate(5);
            recording.header.truncate(place);
            recording.body.clear();
        }
        _ => {}
    }
    recording.header.insert(place, new);
}

/// The name of a clock with a letter of the other case, with a byte more or less, or with two bytes
/// exchanged; or another name.
fn misspelt(random: &mut Random, table: &Table) -> Word {
    if table.names.is_empty() || random.once_in(4) {
        return word(
            random.pick_word("other x lub await for deferred $end #0 a_name_of_over_16_bytes"),
        );
    }
    let mut name = random.pick(&table.names).into_bytes();
    let place = random.below(name.len());
    match random.below(4) {
        0 => name[place] ^= 0x20 * u8::from(name[place].is_ascii_alphabetic()),
        1 => name.insert(random.below(name.len() + 1), b'a'),
        2 if name.len() > 1 => drop(name.remove(place)),
        _ => name.swap(0, place),
    }
    name
}

/// 35, or no fault where the variable is ignored: a declaration is taken out.
fn undeclared_clock(random: &mut Random, _: &Table, recording: &mut Recording) {
    let places = declarations(recording);
    if !places.is_empty() {
        recording.header.remove(random.pick(&places));
    }
}

/// 37 and its other side: 127 to 130 variables.
fn many_variables(random: &mut Random, table: &Table, recording: &mut Recording) {
    let wanted = random.within(127..=130);
    let there = declarations(recording).len();
    let ends = random.once_in(2);
    for number in there..wanted {
        let id = format!("v{number}");
        let place = if ends {
            recording.header.len().saturating_sub(1)
        } else {
            0
        };
        recording
            .header
            .insert(place, variable(id.as_bytes(), b"more"));
    }
    if random.once_in(3) {
        declared_again(random, table, recording);
    }
}

/// 36: the words end in the header.
fn cut_off(random: &mut Random, _: &Table, recording: &mut Recording) {
    let kept = random.below(recording.header.len() + 1);
    recording.header.truncate(kept);
    if let Some(last) = recording.header.last_mut() {
        last.truncate(random.below(last.len() + 1));
    }
    recording.body.clear();
    if random.once_in(4) {
        let ends = ["$var", "$comment", "$date a b", "$var wire", "$var a b c d"];
        recording.body.push(word(random.pick(&ends)));
    }
}

/// 40: a word that is no mark and no change, or one that looks like none.
fn strange_word(random: &mut Random, _: &Table, recording: &mut Recording) {
    let words =
        "1 0 x X z Z # #1x #-1 #+1 #x ## ##5 2! b! bx! B! r! R! u! y! Y! -! /! [! {! b1010 r1.5 \
        $dumpvars $end $comment ! 11 xx ZZ #1.5 #1#";
    let strange = word(random.pick_word(words));
    insert(random, recording, strange);
}

/// Puts a word at any place of the body.
fn insert(random: &mut Random, recording: &mut Recording, word: Word) {
    let place = random.below(recording.body.len() + 1);
    recording.body.insert(place, word);
}

/// 40 at a byte of a mark, also before 41: one or two bytes that are no digits among its own, or no
/// digit at all.
fn spoilt_mark(random: &mut Random, _: &Table, recording: &mut Recording) {
    let mut mark = any_mark(random);
    if random.once_in(4) {
        mark.truncate(1);
    } else {
        for _ in 0..random.within(1..=2) {
            let any = random.within(1..=mark.len());
            let place = random.pick(&[1, any, any, mark.len()]);
            mark.insert(place, random.pick(b"#x/:-+.!"));
        }
    }
    if random.once_in(3) {
        recording.body.push(mark);
    } else {
        insert(random, recording, mark);
    }
}

/// A mark with one of the times below, often behind zeros.
fn any_mark(random: &mut Random) -> Word {
    let zeros = "0".repeat(random.pick(&[0, 0, 0, 1, 3, 21]));
    word(&format!("#{zeros}{}", random.pick_word(TIMES)))
}

/// Times about 2^64, its tenth and its multiples, and small ones.
const TIMES: &str = "0 00 1 1844674407370955161 1844674407370955162 18446744073709551609 \
    18446744073709551610 18446744073709551614 18446744073709551615 18446744073709551616 \
    18446744073709551617 18446744073709551619 18446744073709551620 18446744073709551625 \
    20000000000000000000 28446744073709551615 99999999999999999999 100000000000000000000 \
    184467440737095516150 018446744073709551615 0018446744073709551616 36893488147419103232 \
    340282366920938463463374607431768211456 100000000000000000000000000000000000000000000000000";

/// 41 and its other side: times that are too great or do not rise, and such as do.
fn strange_time(random: &mut Random, _: &Table, recording: &mut Recording) {
    let marks: Vec<usize> = (0..recording.body.len())
        .filter(|place| recording.body[*place].starts_with(b"#"))
        .collect();
    let mark = any_mark(random);
    match random.below(4) {
        0 if !marks.is_empty() => recording.body[random.pick(&marks)] = mark,
        1 if marks.len() > 1 => {
            let one = random.within(1..=marks.len() - 1);
            let mut earlier = recording.body[marks[random.below(one)]].clone();
            if random.once_in(2) {
                earlier.splice(1..1, b"00".iter().copied());
            }
            recording.body[marks[one]] = earlier;
        }
        2 => recording.body.push(mark),
        _ => insert(random, recording, mark),
    }
}

/// 42: a change before any mark.
fn early_change(random: &mut Random, _: &Table, recording: &mut Recording) {
    let early = any_change(random, recording);
    recording.body.insert(0, early);
}

/// A change of some variable, mostly a declared one.
fn any_change(random: &mut Random, recording: &Recording) -> Word {
    let value = value(random);
    if recording.ids.is_empty() || random.once_in(4) {
        return change(value, &any_id(random, 4));
    }
    change(value, &random.pick(&recording.ids))
}

/// 43: a change of an id that is not declared, or is too long to be.
fn undeclared_id(random: &mut Random, _: &Table, recording: &mut Recording) {
    let mut id = any_id(random, 4);
    if let (true, Some(known)) = (random.once_in(2), recording.ids.first()) {
        id = known.clone();
        match random.below(4) {
            0 => id.resize(random.within(4..=6), b'!'),
            1 => id.push(b'!'),
            2 => id.insert(0, value(random)),
            _ => id.resize(random.within(5..=300), b'~'),
        }
    }
    let value = value(random);
    insert(random, recording, change(value, &id));
}

/// 44 and its other side: a tick again, with any value, in the same step or behind the next mark;
/// or a tick of an ignored variable.
fn second_tick(random: &mut Random, _: &Table, recording: &mut Recording) {
    let ticks: Vec<usize> = (0..recording.body.len())
        .filter(|place| !recording.body[*place].starts_with(b"#"))
        .collect();
    if ticks.is_empty() {
        let more = any_change(random, recording);
        let again = change(value(random), &more[1..]);
        recording.body.extend([word("#77"), more, again]);
        return;
    }
    let place = random.pick(&ticks);
    let again = change(value(random), &recording.body[place][1..]);
    let behind = recording.body.len() - place;
    let to = place + random.within(1..=behind.min(3));
    recording.body.insert(to, again);
}

/// 32 or 36: a command that nothing closes before the next does.
fn open_comment(random: &mut Random, _: &Table, recording: &mut Recording) {
    let open = ["$comment", "$comment a", "$date #0", "$version $End"];
    let place = random.below(recording.header.len());
    recording.header.insert(place, command(random.pick(&open)));
}

/// No fault: the body is empty, or has no mark.
fn no_mark(random: &mut Random, _: &Table, recording: &mut Recording) {
    recording.body.retain(|word| !word.starts_with(b"#"));
    if random.once_in(2) {
        recording.body.clear();
    }
}

/// 31 and its other side: one byte put in.
pub fn strange_byte(random: &mut Random, text: &mut Vec<u8>) {
    super::table_limits::strange_byte(random, text);
}

/// 30 and its other side: 65,535 to 65,538 bytes, by spaces, marks or something else.
pub fn length(random: &mut Random, text: &mut Vec<u8>) {
    let wanted = random.within(65_535..=65_538);
    if text.len() >= wanted {
        return text.truncate(wanted);
    }
    let missing = wanted - text.len();
    match random.below(4) {
        0 => drop(text.splice(0..0, vec![b' '; missing])),
        1 => text.extend(vec![b'\n'; missing]),
        2 => text.extend((0..missing).map(|at| if at % 3 == 0 { b' ' } else { b'0' })),
        _ => {
            let marks = (0..).flat_map(|time| format!("\n#{}", 2_000_000 + time).into_bytes());
            text.extend(marks.take(missing));
        }
    }
}
