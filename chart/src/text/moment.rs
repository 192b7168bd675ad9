//! The moments of a replay: the lines of its text, and the openings that its script tells between them.

use crate::text::line::What;
use crate::text::watch::Watch;
use std::fmt;

/// How many tasks there are at most.
pub const TASKS: usize = 256;

/// What a script tells of a call that is opened.
#[derive(Clone, Copy)]
pub struct Opening<'a> {
    /// The call, as the script spells it.
    pub text: &'a str,
    /// What it waits for.
    pub watch: Option<Watch>,
    /// It waits until its entry's flag is set, for the condition of the head where its entry stands.
    pub flagged: bool,
    /// It takes one of a completion.
    pub takes: bool,
}

/// What a moment tells.
#[derive(Clone, Copy)]
pub enum Act {
    /// A call is opened, which makes no line.
    Opens,
    /// A line of the text.
    Does(What),
}

/// A moment: who acts, and how.
#[derive(Clone, Copy)]
pub struct Moment<'a> {
    /// The number of its line in the text; an opening has none.
    pub number: Option<u32>,
    pub task: u8,
    pub act: Act,
    /// The call that is opened or refused, where a script tells it.
    pub call: Option<Opening<'a>>,
}

impl<'a> Moment<'a> {
    /// The call's text, where a script tells it.
    pub fn call_text(&self) -> &'a str {
        self.call.map_or("", |call| call.text)
    }
}

/// What stands in the column of texts.
impl fmt::Display for Moment<'_> {
    fn fmt(&self, f: &mut fmt::Formatter<'_>) -> fmt::Result {
        match self.act {
            Act::Does(what) => write!(f, "{what}"),
            Act::Opens => {
                let call = self.call_text();
                write!(f, "call {call}")
            }
        }
    }
}

/// The task that a line means beside the one that acts.
fn target_of(what: &What) -> Option<u8> {
    match *what {
        What::Unqueue { who }
        | What::Wake { who, .. }
        | What::Signal { who, .. }
        | What::Woken { who }
        | What::Handed { who }
        | What::TryFor { who, .. } => Some(who),
        _ => None,
    }
}

/// The task that a moment means beside the one that acts.
pub fn target(moment: &Moment) -> Option<u8> {
    match &moment.act {
        Act::Opens => None,
        Act::Does(what) => target_of(what),
    }
}
