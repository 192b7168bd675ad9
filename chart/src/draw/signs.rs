//! What stands in a row: the sign on the actor's bar, and the label beside it.

use crate::draw::marks::{Arrow, Mark};
use crate::follow::task::Deed;
use crate::text::line::{Answer, Slept, What};

/// The count of a completion that never runs out.
const ALL_DONE: u64 = u32::MAX as u64;

/// The class of a label.
#[derive(Clone, Copy)]
pub enum Tone {
    Plain,
    Strong,
    Amber,
    Lock,
    Bad,
    Soft,
}

impl Tone {
    pub fn class(self) -> &'static str {
        match self {
            Tone::Plain => "s ink h",
            Tone::Strong => "s ink b h",
            Tone::Amber => "s at b h",
            Tone::Lock => "s lockt lock b h",
            Tone::Bad => "s sigt b h",
            Tone::Soft => "s mut h",
        }
    }
}

/// What a line shows in its actor's lane.
pub struct Sign {
    pub mark: Option<Mark>,
    pub arrow: Option<Arrow>,
    pub label: String,
    pub tone: Tone,
}

/// A value in few letters: `all` for the end of a count, and the first and last digits of a long one.
pub fn brief(value: u64) -> String {
    if value == ALL_DONE {
        return String::from("all");
    }
    let text = value.to_string();
    if value <= 999_999 {
        return text;
    }
    let first = text.get(..3).unwrap_or("");
    let last = text.get(text.len().saturating_sub(2)..).unwrap_or("");
    format!("{first}…{last}")
}

/// A sign of a mark and a label.
fn marked(mark: Mark, label: &str) -> Sign {
    Sign {
        mark: Some(mark),
        arrow: None,
        label: String::from(label),
        tone: Tone::Plain,
    }
}

/// A label without a mark.
fn labelled(label: &str, tone: Tone) -> Sign {
    Sign {
        mark: None,
        arrow: None,
        label: String::from(label),
        tone,
    }
}

/// An arrow, which has no label.
fn arrowed(arrow: Arrow) -> Sign {
    Sign {
        mark: None,
        arrow: Some(arrow),
        label: String::new(),
        tone: Tone::Plain,
    }
}

/// The mark of a yes or a no.
fn yes_mark(yes: bool) -> Mark {
    if yes {
        Mark::Yes
    } else {
        Mark::No
    }
}

/// The mark of a look at a word.
fn look_mark(passed: Option<bool>) -> Mark {
    match passed {
        None => Mark::Unknown,
        Some(true) => Mark::NeedNot,
        Some(false) => Mark::MustWait,
    }
}

/// The sign of a line that tries to take a bit, for a task of this number or for its own.
fn try_sign(what: &What) -> Sign {
    let (found, label) = match *what {
        What::Try {
            word,
            bit,
            found: true,
        } => (true, format!("not b{word}.{bit}")),
        What::Try {
            word,
            bit,
            found: false,
        } => (false, format!("got b{word}.{bit}")),
        What::TryFor {
            found: true, who, ..
        } => (true, format!("not for t{who}")),
        What::TryFor {
            found: false, who, ..
        } => (false, format!("got for t{who}")),
        _ => return queue_sign(what),
    };
    let mark = if found { Mark::MustWait } else { Mark::Store };
    marked(mark, &label)
}

/// The sign of a line about a condition word.
fn word_sign(what: &What, deed: &Deed) -> Sign {
    let store = if deed.owes { Mark::Owing } else { Mark::Store };
    let tone = if deed.owes { Tone::Amber } else { Tone::Plain };
    let (mark, label, tone) = match *what {
        What::Load { word, value } => {
            let value = brief(value);
            let label = format!("{word}: {value}");
            (look_mark(deed.passed), label, Tone::Plain)
        }
        What::Set { word, value } => {
            let value = brief(value);
            (store, format!("{word} = {value}"), tone)
        }
        What::Take { found, .. } => {
            let found = brief(found);
            (Mark::Store, format!("took {found}"), Tone::Plain)
        }
        What::Clear { word, bit } => (store, format!("b{word}.{bit} free"), tone),
        _ => return try_sign(what),
    };
    Sign {
        mark: Some(mark),
        arrow: None,
        label,
        tone,
    }
}

/// The sign of a line about a head.
fn queue_sign(what: &What) -> Sign {
    match *what {
        What::Lock { head } => {
            let label = format!("h{head}");
            labelled(&label, Tone::Lock)
        }
        What::Unlock { spent: true, .. } => labelled("spent", Tone::Lock),
        What::Unlock { spent: false, .. } => labelled("", Tone::Lock),
        What::Busy { .. } => labelled("busy", Tone::Lock),
        What::Queue { form, .. } => marked(Mark::Put, form.name()),
        What::Mark { .. } => marked(Mark::Bookmark, "mark"),
        What::Unmark { .. } => marked(Mark::Off, "unmark"),
        What::Queued { there } => marked(yes_mark(there), if there { "queued" } else { "off" }),
        What::Active { there, .. } => {
            marked(yes_mark(there), if there { "waiters" } else { "nobody" })
        }
        What::Flag { there } => marked(yes_mark(there), if there { "flag" } else { "no flag" }),
        _ => state_sign(what),
    }
}

/// The sign of a line about the own state and signals, or of the end of a call.
fn state_sign(what: &What) -> Sign {
    match *what {
        What::State(state) => marked(Mark::Tick, state.name()),
        What::Sleep(Slept::Asleep) => labelled("sleeps", Tone::Plain),
        What::Sleep(Slept::Stayed) => marked(Mark::Tick, "stays up"),
        What::Sleep(Slept::Signalled) => marked(Mark::Tick, "signalled"),
        What::Look { pending: true } => marked(Mark::Signal, "signal"),
        What::Look { pending: false } => marked(Mark::NoSignal, "none"),
        What::Accept(taken) => marked(Mark::Tick, taken.name()),
        What::Unflag => marked(Mark::Tick, "unflag"),
        What::NoCall => labelled("nocall", Tone::Soft),
        What::AsleepStill => labelled("asleep", Tone::Soft),
        What::Refused { .. } => {
            let mut sign = marked(Mark::Cross, "refused");
            sign.tone = Tone::Bad;
            sign
        }
        What::Ended(answer) => answer_sign(answer),
        _ => labelled("", Tone::Plain),
    }
}

/// The label of an answer.
fn answer_sign(answer: Answer) -> Sign {
    match answer {
        Answer::Value(value) => {
            let value = brief(value);
            let label = format!("= {value}");
            labelled(&label, Tone::Strong)
        }
        Answer::Minus(value) => {
            let value = brief(value);
            let label = format!("= -{value}");
            labelled(&label, Tone::Bad)
        }
        Answer::Walk { woken, .. } => {
            let label = format!("woke {woken}");
            labelled(&label, Tone::Strong)
        }
    }
}

/// The sign of a line by `who`.
pub fn sign_of(who: u8, what: &What, deed: &Deed) -> Sign {
    match *what {
        What::Wake { woke, .. } => arrowed(Arrow::Wake { woke }),
        What::Signal { fatal, .. } => arrowed(Arrow::Signal { fatal }),
        What::Woken { .. } | What::Handed { .. } => arrowed(Arrow::Flag),
        What::Unqueue { who: target } if target == who => marked(Mark::Off, "off"),
        What::Unqueue { who: target } => {
            let label = format!("off t{target}");
            marked(Mark::Off, &label)
        }
        _ => word_sign(what, deed),
    }
}
