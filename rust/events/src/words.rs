//! The words of a recording, parted by the bytes 9, 10, 13 and 32.

/// The words from some place on. A copy looks ahead.
#[derive(Clone, Copy)]
pub struct Words<'a> {
    /// Opens with a word, or is empty.
    rest: &'a [u8],
}

impl<'a> Words<'a> {
    /// The parting bytes in front, and the words.
    pub fn new(recording: &'a [u8]) -> (&'a [u8], Words<'a>) {
        let (blank, rest) = recording.split_at(ends(recording, |byte| !parts(byte)));
        (blank, Words { rest })
    }

    pub fn is_empty(self) -> bool {
        self.rest.is_empty()
    }

    /// The bytes from here up to another place that lies behind.
    pub fn up_to(self, behind: Words) -> &'a [u8] {
        &self.rest[..self.rest.len() - behind.rest.len()]
    }
}

impl<'a> Iterator for Words<'a> {
    type Item = &'a [u8];

    fn next(&mut self) -> Option<&'a [u8]> {
        let (word, rest) = self.rest.split_at(ends(self.rest, parts));
        self.rest = &rest[ends(rest, |byte| !parts(byte))..];
        (!word.is_empty()).then_some(word)
    }
}

fn parts(byte: u8) -> bool {
    matches!(byte, 9 | 10 | 13 | 32)
}

/// Where the first such byte stands, or the end.
fn ends(bytes: &[u8], is: impl Fn(u8) -> bool) -> usize {
    bytes.iter().position(|b| is(*b)).unwrap_or(bytes.len())
}
