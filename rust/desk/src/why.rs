//! `why`: why a run ended as it did, in words and as JSON.

use crate::accepted::Accepted;
use crate::account::{Account, Ending};
use crate::json::Json;
use crate::refused::Refused;
use crate::report::Telling;
use crate::violated::Violated;

/// What is told of one ending, as lines and as JSON.
pub(crate) trait Told {
    fn lines(&self) -> Vec<String>;
    fn json(&self) -> Json;
}

/// The command.
pub struct Why;

impl Telling for Why {
    fn name(&self) -> &'static str {
        "why"
    }

    fn text(&self, account: &Account) -> String {
        told(account).lines().join("\n") + "\n"
    }

    fn json(&self, account: &Account) -> Json {
        told(account).json()
    }
}

fn told<'a>(account: &'a Account) -> Box<dyn Told + 'a> {
    match account.ending {
        Ending::Accepted => Box::new(Accepted::of(account)),
        Ending::Violated { step, record } => Box::new(Violated::of(account, step, record)),
        Ending::Refused(refusal) => Box::new(Refused::of(account, refusal)),
    }
}
