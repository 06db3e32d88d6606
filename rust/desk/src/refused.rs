//! A refusal in words: the limit that is broken, the place with the word marked, and what else the
//! library knows of it.

use crate::account::Account;
use crate::asked::LONGEST;
use crate::json::Json;
use crate::place::{marked, Marked, WINDOW};
use crate::why::Told;
use crate::{faulty, limits, lines, recording_refused, table_refused};
use ccsl::Refusal;

/// A sentence, and what it says as a field of an object.
pub struct Detail {
    pub says: String,
    pub field: (&'static str, Json),
}

impl Detail {
    pub fn of(says: String, name: &'static str, value: Json) -> Detail {
        let field = (name, value);
        Detail { says, field }
    }
}

/// Which file a refusal speaks of.
#[derive(Clone, Copy, PartialEq, Eq)]
enum File {
    Table,
    Recording,
}

/// What is told of a refusal.
pub struct Refused {
    number: u64,
    place: Option<(File, Marked)>,
    details: Vec<Detail>,
}

impl Refused {
    pub fn of(account: &Account, refusal: Refusal) -> Refused {
        let Refusal { number, place } = refusal;
        let recording = account.input.recording;
        let (place, details) = match number {
            10 => (None, vec![size("table.ccsl", account.input.table, 4096)]),
            30 => (None, vec![size("trace.vcd", recording, LONGEST)]),
            11..=20 | 22 => (
                of_table(account.input.table, number, place),
                table_refused::details(account, number, place),
            ),
            31..=44 | 51 => {
                let place = (place as usize).min(recording.len());
                let part = recording_refused::part(recording, number, place);
                let shown = part.map(|part| (File::Recording, marked(recording, part, WINDOW)));
                (shown, recording_refused::details(account, number, place))
            }
            _ => (None, Vec::new()),
        };
        Refused {
            number,
            place,
            details,
        }
    }
}

/// How long a file is, and how long it may be.
fn size(name: &str, text: &[u8], limit: usize) -> Detail {
    let size = text.len();
    let has = match size {
        limits::READ_AT_MOST.. => "has at least",
        _ => "has",
    };
    let says = format!("{name} {has} {size} bytes; the limit is {limit}");
    Detail::of(says, "bytes", Json::number(size as u64))
}

fn of_table(table: &[u8], number: u64, place: u64) -> Option<(File, Marked)> {
    let line = lines::range(table, place)?;
    let part = faulty::part(number, &table[line.clone()]);
    let part = line.start + part.start..line.start + part.end;
    Some((File::Table, marked(table, part, usize::MAX)))
}

impl Told for Refused {
    fn lines(&self) -> Vec<String> {
        let mut lines = vec![format!(
            "{}: {}",
            self.number,
            limits::in_words(self.number)
        )];
        if let Some((file, marked)) = &self.place {
            let Marked { line, column, .. } = marked;
            let before = match file {
                File::Table => format!("line {line}: "),
                File::Recording => {
                    lines.push(format!("line {line}, column {column} of trace.vcd:"));
                    String::new()
                }
            };
            lines.push(format!("{before}{}", marked.text));
            lines.push(marked.below(before.len()));
        }
        lines.extend(self.details.iter().map(|detail| detail.says.clone()));
        lines
    }

    fn json(&self) -> Json {
        let mut fields = vec![("limit", Json::text(limits::in_words(self.number)))];
        if let Some((file, marked)) = &self.place {
            let file = match file {
                File::Table => "table.ccsl",
                File::Recording => "trace.vcd",
            };
            fields.extend([
                ("file", Json::text(file)),
                ("line", Json::number(marked.line as u64)),
                ("column", Json::number(marked.column as u64)),
                ("text", Json::text(&marked.text)),
                ("marked", Json::text(marked.part())),
            ]);
        }
        fields.extend(self.details.iter().map(|detail| detail.field.clone()));
        let says = self.details.iter().map(|detail| Json::text(&detail.says));
        fields.push(("details", Json::list(says)));
        Json::Object(fields)
    }
}
