//! A small reader of XML, which says what is wrong with a text that is not well-formed.

#![allow(dead_code)]

/// An element: its name, its attributes, and the text straight in it.
#[derive(Debug)]
pub struct Element {
    pub name: String,
    pub attributes: Vec<(String, String)>,
    pub text: String,
}

impl Element {
    pub fn attribute(&self, name: &str) -> Option<&str> {
        let found = self.attributes.iter().find(|(key, _)| key == name);
        found.map(|(_, value)| value.as_str())
    }
}

/// The elements of a text in the order in which they begin. One element holds all others.
pub fn elements(text: &str) -> Result<Vec<Element>, String> {
    let mut all: Vec<Element> = Vec::new();
    let mut open: Vec<usize> = Vec::new();
    let mut rest = text.trim_end();
    while let Some(tag) = rest.find('<') {
        let words = unescaped(&rest[..tag])?;
        match open.last() {
            Some(&inner) => all[inner].text.push_str(&words),
            None if words.is_empty() && all.is_empty() => (),
            None => return Err(format!("outside of the element: {rest}")),
        }
        let end = tag_end(&rest[tag..]).ok_or("a tag without end")?;
        let inside = &rest[tag + 1..tag + end];
        rest = &rest[tag + end + 1..];
        if let Some(name) = inside.strip_prefix('/') {
            let inner = open.pop().ok_or("closed twice")?;
            if all[inner].name != name {
                return Err(format!("{} is closed as {name}", all[inner].name));
            }
            continue;
        }
        let bare = inside.strip_suffix('/');
        all.push(element(bare.unwrap_or(inside))?);
        if bare.is_none() {
            open.push(all.len() - 1);
        }
    }
    match open.is_empty() && rest.is_empty() && !all.is_empty() {
        true => Ok(all),
        false => Err(format!("not closed, or no element: {rest}")),
    }
}

/// Where a tag ends: at the first `>` that stands in no quotes.
fn tag_end(tag: &str) -> Option<usize> {
    let mut quoted = false;
    tag.char_indices().find_map(|(i, c)| {
        quoted ^= c == '"';
        (c == '>' && !quoted).then_some(i)
    })
}

fn element(inside: &str) -> Result<Element, String> {
    let (name, mut rest) = inside.split_once(' ').unwrap_or((inside, ""));
    let mut attributes: Vec<(String, String)> = Vec::new();
    while !rest.is_empty() {
        let (key, behind) = rest.split_once("=\"").ok_or(format!("no quote: {rest}"))?;
        let (value, behind) = behind.split_once('"').ok_or(format!("no end: {rest}"))?;
        if !is_name(key) || attributes.iter().any(|(known, _)| known == key) {
            return Err(format!("the attribute {key} of {name}"));
        }
        attributes.push((key.to_string(), unescaped(value)?));
        rest = match behind.strip_prefix(' ') {
            Some(next) if !next.is_empty() => next,
            None if behind.is_empty() => "",
            _ => return Err(format!("behind an attribute: {behind:?}")),
        };
    }
    match is_name(name) {
        true => Ok(Element {
            name: name.to_string(),
            attributes,
            text: String::new(),
        }),
        false => Err(format!("the name {name:?}")),
    }
}

fn is_name(name: &str) -> bool {
    let letter = |c: char| c.is_ascii_alphanumeric() || c == '-' || c == ':';
    name.starts_with(|c: char| c.is_ascii_alphabetic()) && name.chars().all(letter)
}

/// A text with its entities put in: the five of XML are known.
fn unescaped(text: &str) -> Result<String, String> {
    let plain = |c: char| c == '\n' || (' '..='~').contains(&c);
    if !text.chars().all(|c| plain(c) && c != '<' && c != '>') {
        return Err(format!("a character of {text:?}"));
    }
    let mut parts = text.split('&');
    let mut known = parts.next().unwrap_or("").to_string();
    for part in parts {
        let (entity, behind) = part.split_once(';').ok_or(format!("&{part}"))?;
        known.push(match entity {
            "amp" => '&',
            "lt" => '<',
            "gt" => '>',
            "quot" => '"',
            "apos" => '\'',
            _ => return Err(format!("the entity {entity}")),
        });
        known.push_str(behind);
    }
    Ok(known)
}

#[test]
fn what_is_not_well_formed_is_told() {
    for good in ["<a/>", "<a b=\"1\" c=\"&lt;\">&amp;<d></d>\n</a>\n"] {
        assert!(elements(good).is_ok(), "{good}");
    }
    for bad in [
        "",
        "a",
        "<a>",
        "</a>",
        "<a></b>",
        "<a><b></a></b>",
        "<a/><a/>",
        "<a/>b",
        "<a b=1/>",
        "<a b=\"1/>",
        "<a b=\"1\"c=\"2\"/>",
        "<a b=\"1\" b=\"2\"/>",
        "<a>&</a>",
        "<a>&b;</a>",
        "<a b=\"<\"/>",
        "<a>\u{1}</a>",
        "<1/>",
        "<a b=\"1\" />",
    ] {
        assert!(elements(bad).is_err(), "{bad}");
    }
}
