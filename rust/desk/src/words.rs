//! The words of a configuration in words: what a constraint remembers, by the names of its clocks.

use crate::json::Json;
use crate::{names, report};
use ccsl::{Kind, Pair, Record, Table};

/// The pair of a constraint, and what it says.
pub struct Says {
    pub pair: Pair,
    pub says: String,
}

impl Says {
    pub fn of(table: &Table, record: &Record, pair: Pair) -> Says {
        let says = meaning(table, record, pair);
        Says { pair, says }
    }

    pub fn text(&self) -> String {
        let [first, second] = self.pair;
        format!("words {first} {second}: {}", self.says)
    }

    pub fn json(&self) -> Json {
        let says = Json::text(&self.says);
        Json::Object(vec![("words", report::pair(self.pair)), ("says", says)])
    }
}

/// The clocks of a constraint as text: its operands a and b, and the clock c that it defines. What its
/// form lacks means nothing.
pub struct Named {
    pub a: String,
    pub b: String,
    pub c: String,
}

impl Named {
    pub fn of(table: &Table, record: &Record) -> Named {
        let clock = |number| names::clock(table, number);
        Named {
            a: clock(record.first),
            b: clock(record.second),
            c: clock(record.defined),
        }
    }
}

/// What the pair of a constraint says.
pub fn meaning(table: &Table, record: &Record, pair: Pair) -> String {
    let named = Named::of(table, record);
    let Named { a, b, c } = &named;
    match (record.kind, pair[0]) {
        (Kind::Empty | Kind::Coincides | Kind::Excludes | Kind::SubClock, _) => {
            "this line remembers nothing".to_string()
        }
        (Kind::Union | Kind::Inter, _) => format!("{c} remembers nothing"),
        (Kind::StrictlyPrecedes | Kind::Precedes, word) => waiting(&named, word),
        (Kind::Lub | Kind::Glb, word) => ahead(&named, record.kind, word),
        (Kind::Await, word) => to_come(&named, word),
        (Kind::StrictlySampled, 2) => format!("{c} waits for {a}, and then for {b}"),
        (Kind::Sampled, 2) => format!("{c} waits for {a}, and for {b} with it or after it"),
        (Kind::StrictlySampled | Kind::Sampled, 1) => format!("{c} waits for {b}: {a} has ticked"),
        (Kind::StrictlySampled | Kind::Sampled, _) => had_its_turn(c),
        (Kind::Upto, 1) => format!("{c} runs with {a}: {b} has not ticked"),
        (Kind::Upto, _) => format!("{c} has ended: {b} has ticked"),
        (Kind::Deferred, pending) => format!("{}; {}", due(&named, pending), used(record, pair[1])),
    }
}

/// The word of a precedence.
fn waiting(Named { a, b, .. }: &Named, word: i64) -> String {
    match word {
        0 => format!("{b} is level with {a}: no {a} is waiting"),
        1 => format!("{a} is 1 ahead of {b}: 1 tick of {a} is waiting"),
        n => format!("{a} is {n} ahead of {b}: {n} ticks of {a} are waiting"),
    }
}

/// The word of a lub or glb: which operand is ahead, and with which the clock ticks next.
fn ahead(Named { a, b, c }: &Named, kind: Kind, word: i64) -> String {
    let lub = kind == Kind::Lub;
    if word == 0 {
        let when = if lub { "both do" } else { "either does" };
        return format!("{a} and {b} are level: {c} ticks when {when}");
    }
    let (first, second) = if word > 0 { (a, b) } else { (b, a) };
    let with = if lub { second } else { first };
    let by = word.unsigned_abs();
    format!("{first} is {by} ahead of {second}: {c} ticks with {with}")
}

/// The word of an await.
fn to_come(Named { a, c, .. }: &Named, word: i64) -> String {
    match word {
        0 => had_its_turn(c),
        1 => format!("1 more tick of {a} to come: {c} is due with it"),
        n => format!(
            "{n} more ticks of {a} to come: {c} is due with the {} of them",
            ordinal(n)
        ),
    }
}

fn had_its_turn(c: &str) -> String {
    format!("{c} has had its turn")
}

/// The pending ticks of a delay: bit k - 1 for the k-th next tick of b.
fn due(Named { b, c, .. }: &Named, pending: i64) -> String {
    let ticks = (1..=32).filter(|k| pending >> (k - 1) & 1 == 1);
    let ticks: Vec<String> = ticks.map(|k| format!("the {}", ordinal(k))).collect();
    match pending {
        0 => format!("no {c} is due"),
        1 => format!("{c} is due with the next tick of {b}"),
        _ => format!("{c} is due with {} tick of {b} from here", and(&ticks)),
    }
}

/// How far the list of a delay is used.
fn used(record: &Record, used: i64) -> String {
    let list = names::delays(record);
    match (used, list.get(used.max(0) as usize)) {
        (_, None) => "the list is used up".to_string(),
        (0, Some(next)) => format!("no number is used, the next number is {next}"),
        (1, Some(next)) => format!(
            "1 of {} numbers is used, the next number is {next}",
            list.len()
        ),
        (n, Some(next)) => format!(
            "{n} of {} numbers are used, the next number is {next}",
            list.len()
        ),
    }
}

/// 1st, 2nd, 3rd, 4th and so on.
pub fn ordinal(n: i64) -> String {
    let ending = match (n % 100, n % 10) {
        (11..=13, _) => "th",
        (_, 1) => "st",
        (_, 2) => "nd",
        (_, 3) => "rd",
        _ => "th",
    };
    format!("{n}{ending}")
}

/// Several things in a row: `x`, `x and y`, `x, y and z`.
pub fn and(things: &[String]) -> String {
    match things {
        [] => String::new(),
        [one] => one.clone(),
        [before @ .., last] => format!("{} and {last}", before.join(", ")),
    }
}
