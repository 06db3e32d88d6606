//! Places in a file: words, lines and columns, and a line that is shown with a part of it marked.

use std::ops::Range;

/// How many characters of a line or a word of a recording are shown.
pub const WINDOW: usize = 72;

/// A line of a file with a part of it marked, as it is shown.
pub struct Marked {
    /// The line and the column of the part's first byte, from 1.
    pub line: usize,
    pub column: usize,
    /// Bytes that are no plain characters stand as `\x09`; `...` stands where the line is cut.
    pub text: String,
    /// Which characters of the text are marked.
    pub mark: Range<usize>,
}

/// The line and the column of an offset, both from 1. A line ends at byte 10.
pub fn position(text: &[u8], offset: usize) -> (usize, usize) {
    let before = &text[..offset.min(text.len())];
    let line = before.split(|byte| *byte == b'\n').count();
    let begin = before.iter().rposition(|byte| *byte == b'\n');
    (line, before.len() - begin.map_or(0, |begin| begin + 1) + 1)
}

/// Marks a part of a text in its line, of which this many characters are shown at most. Parting bytes
/// at the line's end are left away, unless they are meant.
pub fn marked(text: &[u8], part: Range<usize>, most: usize) -> Marked {
    let start = part.start.min(text.len());
    let (line, column) = position(text, start);
    let begin = start + 1 - column;
    let full = end_of_line(text, begin);
    let kept = text[begin..full]
        .iter()
        .rposition(|byte| !is_parting(*byte));
    let end = kept
        .map_or(begin, |last| begin + last + 1)
        .max(part.end.min(full));
    let middle = start.min(end);
    let Range {
        start: from,
        end: to,
    } = window(text, begin..end, middle, most);
    let cut = |is_cut| if is_cut { "..." } else { "" };
    let before = format!("{}{}", cut(from > begin), shown(&text[from..middle]));
    let marked = width(&text[middle..part.end.clamp(middle, to)]).max(1);
    Marked {
        line,
        column,
        text: format!("{before}{}{}", shown(&text[middle..to]), cut(to < end)),
        mark: before.len()..before.len() + marked,
    }
}

/// The part of a line that is shown: a third of it stands before the middle, or more where less
/// follows.
fn window(text: &[u8], line: Range<usize>, middle: usize, most: usize) -> Range<usize> {
    let before = || text[line.start..middle].iter().rev();
    let third = fitting(before(), most / 3);
    let rest = most - width(&text[middle - third..middle]);
    let end = middle + fitting(text[middle..line.end].iter(), rest);
    let start = middle - fitting(before(), most - width(&text[middle..end]));
    start..end
}

impl Marked {
    /// The line that stands below the text, which has this many characters before it.
    pub fn below(&self, before: usize) -> String {
        let spaces = " ".repeat(before + self.mark.start);
        format!("{spaces}{}", "^".repeat(self.mark.len()))
    }

    /// What is marked.
    pub fn part(&self) -> &str {
        self.text.get(self.mark.clone()).unwrap_or("")
    }
}

/// Bytes as they are shown.
pub fn shown(bytes: &[u8]) -> String {
    bytes.iter().map(|byte| shown_byte(*byte)).collect()
}

/// A word as it is shown: of a long one the beginning.
pub fn brief(word: &[u8]) -> String {
    match fitting(word.iter(), WINDOW) {
        count if count < word.len() => format!("{}...", shown(&word[..count])),
        _ => shown(word),
    }
}

fn shown_byte(byte: u8) -> String {
    match byte {
        32..=126 => char::from(byte).to_string(),
        _ => format!("\\x{byte:02x}"),
    }
}

fn end_of_line(text: &[u8], from: usize) -> usize {
    let length = text[from..].iter().position(|byte| *byte == b'\n');
    length.map_or(text.len(), |length| from + length)
}

fn width(bytes: &[u8]) -> usize {
    bytes.iter().map(|byte| shown_byte(*byte).len()).sum()
}

/// How many of these bytes can be shown in so many characters.
fn fitting<'a>(bytes: impl Iterator<Item = &'a u8>, most: usize) -> usize {
    let widths = bytes.map(|byte| shown_byte(*byte).len());
    let sums = widths.scan(0, |sum, width| {
        *sum += width;
        Some(*sum)
    });
    sums.take_while(|sum| *sum <= most).count()
}

/// The bytes that part the words of a recording.
pub fn is_parting(byte: u8) -> bool {
    matches!(byte, 9 | 10 | 13 | 32)
}

/// The words of a recording from an offset on.
pub fn words(text: &[u8], from: usize) -> impl Iterator<Item = Range<usize>> + '_ {
    let mut at = from.min(text.len());
    std::iter::from_fn(move || {
        let start = at + text[at..].iter().position(|byte| !is_parting(*byte))?;
        let word = start..end_of_word(text, start);
        at = word.end;
        Some(word)
    })
}

/// The word of a recording that holds an offset, or that ends there where none does.
pub fn word_at(text: &[u8], offset: usize) -> Range<usize> {
    let offset = offset.min(text.len());
    let parted = text[..offset].iter().rposition(|byte| is_parting(*byte));
    parted.map_or(0, |last| last + 1)..end_of_word(text, offset)
}

fn end_of_word(text: &[u8], from: usize) -> usize {
    let length = text[from..].iter().position(|byte| is_parting(*byte));
    length.map_or(text.len(), |length| from + length)
}
