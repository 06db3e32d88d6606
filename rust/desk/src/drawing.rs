//! The elements of an SVG picture: text and shapes, each with its looks as attributes and with a title
//! that a browser shows while the pointer rests on it.

/// The looks of text that stands out.
pub const BOLD: &str = r#"font-weight="bold""#;

/// The elements drawn so far.
#[derive(Default)]
pub struct Drawing {
    elements: String,
}

impl Drawing {
    /// One element: its name, its attributes, the text in it and its title, each empty where it has
    /// none.
    pub fn element(&mut self, name: &str, looks: &str, words: &str, title: &str) {
        let words = escaped(words);
        let title = match escaped(title) {
            none if none.is_empty() => none,
            title => format!("<title>{title}</title>"),
        };
        let looks = format!("{name} {looks}");
        let element = format!("<{}>{title}{words}</{name}>\n", looks.trim());
        self.elements.push_str(&element);
    }

    pub fn text(&mut self, (x, y): (usize, usize), looks: &str, words: &str, title: &str) {
        self.element("text", &format!(r#"x="{x}" y="{y}" {looks}"#), words, title);
    }

    pub fn line(&mut self, (x1, y1): (usize, usize), (x2, y2): (usize, usize), looks: &str) {
        let ends = format!(r#"x1="{x1}" y1="{y1}" x2="{x2}" y2="{y2}" {looks}"#);
        self.element("line", &ends, "", "");
    }

    /// The whole picture, on white, with a title of its own.
    pub fn picture(self, width: usize, height: usize, title: &str) -> String {
        let size = format!(r#"width="{width}" height="{height}""#);
        let mut paper = Drawing::default();
        paper.element("title", "", title, "");
        paper.element("rect", &format!(r#"{size} fill="white""#), "", "");
        format!(
            "<svg xmlns=\"http://www.w3.org/2000/svg\" {size} viewBox=\"0 0 {width} {height}\" \
             font-family=\"monospace\" font-size=\"14\">\n{}{}</svg>\n",
            paper.elements, self.elements
        )
    }
}

/// A text as XML has it. A character that is no plain one becomes a question mark.
fn escaped(text: &str) -> String {
    let mut safe = String::new();
    for c in text.chars() {
        match c {
            '&' => safe.push_str("&amp;"),
            '<' => safe.push_str("&lt;"),
            '>' => safe.push_str("&gt;"),
            '"' => safe.push_str("&quot;"),
            '\'' => safe.push_str("&apos;"),
            ' '..='~' => safe.push(c),
            _ => safe.push('?'),
        }
    }
    safe
}
