//! What a run said, for every command that tells more of it: its three lines as fields of an object, its
//! exit status, and what is told where the account differs from it.

use crate::account::{Account, Differs, Found};
use crate::json::Json;
use crate::Answer;
use ccsl::{Pair, Report, Verdict};

/// The status where the account comes to another answer than the run.
const DIFFERS: u8 = 4;

/// How an answer is written.
#[derive(Clone, Copy, Debug, PartialEq, Eq)]
pub enum Form {
    Text,
    Json,
}

/// A command that tells more of a run than its three lines, behind which its text stands.
pub trait Telling {
    /// The command's name, under which an object has what it tells.
    fn name(&self) -> &'static str;
    /// What stands behind the three lines and an empty one.
    fn text(&self, account: &Account) -> String;
    fn json(&self, account: &Account) -> Json;
}

/// What is printed of a run, and the exit status.
pub fn answer(found: &Found, form: Form, telling: &dyn Telling) -> Answer {
    match found {
        Ok(account) => Answer {
            text: told(account, form, telling),
            status: status(&account.report),
        },
        Err(found) => Answer {
            text: differs(found, form, telling),
            status: DIFFERS,
        },
    }
}

/// What is printed of an account.
pub fn told(account: &Account, form: Form, telling: &dyn Telling) -> String {
    match form {
        Form::Text => format!("{}\n{}", account.report, telling.text(account)),
        Form::Json => {
            let mut object = fields(&account.report);
            object.push((telling.name(), telling.json(account)));
            format!("{}\n", Json::Object(object))
        }
    }
}

/// What is printed of a run with which the single steps do not agree: the run, nothing told of it, and
/// what the single steps come to.
fn differs(found: &Differs, form: Form, telling: &dyn Telling) -> String {
    match form {
        Form::Text => format!(
            "{}\nthe account of single steps comes to another answer, so that nothing is told of this run:\n{}",
            found.run, found.account
        ),
        Form::Json => {
            let mut object = fields(&found.run);
            object.push((telling.name(), Json::Null));
            object.push(("differs", Json::Object(fields(&found.account))));
            format!("{}\n", Json::Object(object))
        }
    }
}

/// The exit status of a verdict, as `./ccsl` has it.
fn status(report: &Report) -> u8 {
    match report.verdict {
        Verdict::Accepted => 0,
        Verdict::Violated { .. } => 1,
        Verdict::Refused(_) => 2,
    }
}

/// What the three lines say, as fields of an object.
fn fields(report: &Report) -> Vec<(&'static str, Json)> {
    let mut fields = match report.verdict {
        Verdict::Accepted => vec![("verdict", Json::text("accepted"))],
        Verdict::Violated { line, time } => vec![
            ("verdict", Json::text("violated")),
            ("line", Json::number(line)),
            ("time", Json::number(time.0)),
        ],
        Verdict::Refused(refusal) => vec![
            ("verdict", Json::text("refused")),
            ("number", Json::number(refusal.number)),
            ("place", Json::number(refusal.place)),
        ],
    };
    let pairs = report.configuration.iter().take(report.constraints);
    fields.push(("steps", Json::number(report.steps.0)));
    fields.push(("config", Json::list(pairs.map(|&words| pair(words)))));
    fields
}

/// The two words of a constraint.
pub fn pair(words: Pair) -> Json {
    Json::list(words.map(Json::number))
}
