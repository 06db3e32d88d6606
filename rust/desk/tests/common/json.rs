//! A checker of JSON: whether a text is one value.

/// Whether a text is one JSON value.
pub fn is_json(text: &str) -> bool {
    value(text.as_bytes()).is_some_and(<[u8]>::is_empty)
}

/// What stands behind the value with which a text opens.
fn value(text: &[u8]) -> Option<&[u8]> {
    match text.first()? {
        b'{' => members(&text[1..], b'}', |text| {
            value(string(text)?.strip_prefix(b":")?)
        }),
        b'[' => members(&text[1..], b']', value),
        b'"' => string(text),
        b'-' | b'0'..=b'9' => {
            let digits = text.strip_prefix(b"-").unwrap_or(text);
            let count = digits
                .iter()
                .take_while(|byte| byte.is_ascii_digit())
                .count();
            let plain = count == 1 || (count > 1 && digits[0] != b'0');
            plain.then(|| &digits[count..])
        }
        _ => ["null", "true", "false"]
            .iter()
            .find_map(|word| text.strip_prefix(word.as_bytes())),
    }
}

/// What stands behind members with commas between them and this end.
fn members(text: &[u8], end: u8, member: impl Fn(&[u8]) -> Option<&[u8]>) -> Option<&[u8]> {
    if text.first()? == &end {
        return Some(&text[1..]);
    }
    let mut rest = member(text)?;
    while rest.first()? == &b',' {
        rest = member(&rest[1..])?;
    }
    (rest.first()? == &end).then(|| &rest[1..])
}

/// What stands behind the string with which a text opens: plain characters and escapes.
fn string(text: &[u8]) -> Option<&[u8]> {
    let mut rest = text.strip_prefix(b"\"")?;
    loop {
        rest = match rest {
            [b'"', rest @ ..] => return Some(rest),
            [b'\\', b'"' | b'\\' | b'n', rest @ ..] => rest,
            [b'\\', b'u', a, b, c, d, rest @ ..]
                if [a, b, c, d].iter().all(|byte| byte.is_ascii_hexdigit()) =>
            {
                rest
            }
            [32..=126, rest @ ..] => rest,
            _ => return None,
        };
    }
}
