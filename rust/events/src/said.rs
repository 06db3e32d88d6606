//! What there is to say of a recording: what was taken out of it, and what it cannot tell.

/// At most so many names or times are listed in a line.
const LISTED: usize = 8;

/// What was met so far.
#[derive(Default)]
pub struct Said {
    /// Each with its type and size.
    variables: Vec<String>,
    changes: usize,
    blocks: Vec<Block>,
    comments: Vec<String>,
    /// Commands that were left, each with its time.
    open: Vec<String>,
    /// The last mark's.
    time: Option<String>,
    /// Whether an event ticked in this step, and in an earlier one.
    ticked: bool,
    ticked_before: bool,
}

/// A block of values that were dumped.
struct Block {
    command: String,
    time: String,
    /// An event is in it, and none ticked in an earlier step.
    hides_first_ticks: bool,
}

impl Said {
    /// A variable was taken out.
    pub fn variable(&mut self, kind: &[u8], size: &[u8], name: &[u8]) {
        let [kind, size, name] = [kind, size, name].map(text);
        self.variables.push(format!("{name} ({kind} {size})"));
    }

    /// A change was taken out.
    pub fn change(&mut self) {
        self.changes += 1;
    }

    /// A step begins.
    pub fn mark(&mut self, time: &[u8]) {
        self.time = Some(text(time));
        self.ticked_before |= self.ticked;
        self.ticked = false;
    }

    /// An event ticks.
    pub fn tick(&mut self) {
        self.ticked = true;
    }

    /// A block was taken out, with an event in it or without.
    pub fn block(&mut self, command: &[u8], events: bool) {
        self.blocks.push(Block {
            command: text(command),
            time: self.now(),
            hides_first_ticks: events && !self.ticked_before,
        });
    }

    /// A comment was taken out.
    pub fn comment(&mut self, comment: &[u8]) {
        let words: Vec<String> = text(comment)
            .split_whitespace()
            .map(str::to_string)
            .collect();
        self.comments.push(words.join(" "));
    }

    /// A command has no `$end` of its own, and was left.
    pub fn open(&mut self, command: &[u8]) {
        self.open
            .push(format!("{} at {}", text(command), self.now()));
    }

    fn now(&self) -> String {
        let time = self.time.as_deref();
        time.unwrap_or("the start").to_string()
    }

    /// All of it, one line each; `whole` where the header has an end.
    pub fn lines(&self, whole: bool) -> Vec<String> {
        let mut lines = self.taken_out();
        if lines.is_empty() {
            lines.push("took nothing out".to_string());
        }
        let open = self.open.iter();
        lines.extend(open.map(|command| format!("left {command}, which has no $end of its own")));
        if !whole {
            lines.push("the header has no end: this is no whole recording".to_string());
        }
        lines.extend(self.hidden_ticks());
        lines.extend(self.gaps());
        lines
    }

    fn taken_out(&self) -> Vec<String> {
        let mut lines = Vec::new();
        if !self.variables.is_empty() {
            lines.push(format!(
                "took out what is no event 1: {}, {}: {}",
                count(self.variables.len(), "variable"),
                count(self.changes, "change"),
                listed(&self.variables)
            ));
        }
        let mut commands: Vec<&str> = self.blocks.iter().map(|b| b.command.as_str()).collect();
        commands.sort();
        commands.dedup();
        for command in commands {
            let times = self.times(|block| block.command == command);
            lines.push(format!("took out {command} at {}", listed(&times)));
        }
        let comments = self.comments.iter();
        lines.extend(comments.map(|comment| format!("took out $comment {comment}")));
        lines
    }

    /// The times of some blocks, each once.
    fn times(&self, which: impl Fn(&Block) -> bool) -> Vec<String> {
        let blocks = self.blocks.iter().filter(|block| which(block));
        let mut times: Vec<String> = blocks.map(|block| block.time.clone()).collect();
        times.dedup();
        times
    }

    fn hidden_ticks(&self) -> Option<String> {
        let times = self.times(|block| block.hides_first_ticks);
        (!times.is_empty()).then(|| {
            let times = listed(&times);
            format!(
                "warning: what ticked at {times} is not to be had from this file, but for ticks that are left there: \
                 a simulator dumps every event, ticked or not. In the model let the first tick come later than the dump"
            )
        })
    }

    /// The stretches from a `$dumpoff` to the next `$dumpon`.
    fn gaps(&self) -> Vec<String> {
        let gap = |from: &str, to: &str| {
            format!("warning: nothing was recorded from $dumpoff at {from} to {to}")
        };
        let mut off: Option<&str> = None;
        let mut lines = Vec::new();
        for block in &self.blocks {
            match (block.command.as_str(), off) {
                ("$dumpoff", None) => off = Some(&block.time),
                ("$dumpon", Some(from)) => {
                    lines.push(gap(from, &format!("$dumpon at {}", block.time)));
                    off = None;
                }
                _ => (),
            }
        }
        lines.extend(off.map(|from| gap(from, "the end")));
        lines
    }
}

fn text(bytes: &[u8]) -> String {
    String::from_utf8_lossy(bytes).into_owned()
}

fn count(number: usize, what: &str) -> String {
    match number {
        1 => format!("1 {what}"),
        _ => format!("{number} {what}s"),
    }
}

/// The first of the items, and how many more there are.
fn listed(items: &[String]) -> String {
    let first = items[..items.len().min(LISTED)].join(", ");
    match items.len().saturating_sub(LISTED) {
        0 => first,
        more => format!("{first} and {more} more"),
    }
}
