//! The lines of a replay's text as values, and how each is spelled.

use std::fmt;

/// Which condition words there are, by the letter of their names.
#[derive(Clone, Copy, PartialEq, Eq, PartialOrd, Ord)]
pub enum Kind {
    Plain,
    Done,
    Bits,
    Variable,
}

/// A condition word, as `c0`, `d0`, `b0` or `v0`.
#[derive(Clone, Copy, PartialEq, Eq, PartialOrd, Ord)]
pub struct Word {
    pub kind: Kind,
    pub number: u8,
}

/// The state that a task stores before it sleeps.
#[derive(Clone, Copy, PartialEq, Eq)]
pub enum State {
    Running,
    Interruptible,
    Uninterruptible,
    Killable,
}

/// How a sleep went.
#[derive(Clone, Copy, PartialEq, Eq)]
pub enum Slept {
    Asleep,
    Stayed,
    Signalled,
}

/// Where an entry is queued.
#[derive(Clone, Copy, PartialEq, Eq)]
pub enum Form {
    Front,
    Tail,
    Priority,
}

/// Which signal is pending, or was taken.
#[derive(Clone, Copy, PartialEq, Eq)]
pub enum Pending {
    Nothing,
    Plain,
    Fatal,
}

/// Why a walk ended.
#[derive(Clone, Copy, PartialEq, Eq)]
pub enum Stop {
    End,
    Spent,
    Stopped,
}

/// What a call answers: a number, or what its walk did.
#[derive(Clone, Copy, PartialEq, Eq)]
pub enum Answer {
    Value(u64),
    Minus(u64),
    Walk {
        woken: u32,
        selected: u32,
        holds: u32,
        stop: Stop,
    },
}

/// What a line says after its task.
#[derive(Clone, Copy, PartialEq, Eq)]
pub enum What {
    Load {
        word: Word,
        value: u64,
    },
    Set {
        word: Word,
        value: u64,
    },
    Take {
        number: u8,
        found: u64,
    },
    /// A test-and-set that found the bit so.
    Try {
        word: u8,
        bit: u8,
        found: bool,
    },
    /// A test-and-set that a walk makes for another task.
    TryFor {
        word: u8,
        bit: u8,
        found: bool,
        who: u8,
    },
    Clear {
        word: u8,
        bit: u8,
    },
    /// A walk tells a task that the bit is now its own.
    Handed {
        who: u8,
    },
    Lock {
        head: u16,
    },
    Unlock {
        head: u16,
        spent: bool,
    },
    Queue {
        head: u16,
        form: Form,
    },
    Unqueue {
        who: u8,
    },
    Mark {
        head: u16,
    },
    Unmark {
        head: u16,
    },
    Queued {
        there: bool,
    },
    Active {
        head: u16,
        there: bool,
    },
    State(State),
    Sleep(Slept),
    Wake {
        who: u8,
        woke: bool,
    },
    Signal {
        who: u8,
        fatal: bool,
    },
    Accept(Pending),
    Look {
        pending: bool,
    },
    Woken {
        who: u8,
    },
    Flag {
        there: bool,
    },
    Unflag,
    Ended(Answer),
    Refused {
        reason: u8,
    },
    NoCall,
    AsleepStill,
    Busy {
        head: u16,
    },
}

/// A line of a task.
#[derive(Clone, Copy)]
pub struct Line {
    pub task: u8,
    pub what: What,
}

impl Kind {
    /// The letter of a word's name.
    pub fn letter(self) -> &'static str {
        match self {
            Kind::Plain => "c",
            Kind::Done => "d",
            Kind::Bits => "b",
            Kind::Variable => "v",
        }
    }
}

impl State {
    pub fn name(self) -> &'static str {
        match self {
            State::Running => "run",
            State::Interruptible => "int",
            State::Uninterruptible => "unint",
            State::Killable => "kill",
        }
    }
}

impl Slept {
    pub fn name(self) -> &'static str {
        match self {
            Slept::Asleep => "asleep",
            Slept::Stayed => "stay",
            Slept::Signalled => "signal",
        }
    }
}

impl Form {
    pub fn name(self) -> &'static str {
        match self {
            Form::Front => "front",
            Form::Tail => "tail",
            Form::Priority => "prio",
        }
    }
}

impl Pending {
    pub fn name(self) -> &'static str {
        match self {
            Pending::Nothing => "none",
            Pending::Plain => "plain",
            Pending::Fatal => "fatal",
        }
    }
}

impl Stop {
    pub fn name(self) -> &'static str {
        match self {
            Stop::End => "end",
            Stop::Spent => "spent",
            Stop::Stopped => "stopped",
        }
    }
}

/// The word for a `bool` in a text.
pub fn yes_or_no(answer: bool) -> &'static str {
    if answer {
        "yes"
    } else {
        "no"
    }
}

/// The digit of a bit.
fn digit(bit: bool) -> &'static str {
    if bit {
        "1"
    } else {
        "0"
    }
}

/// What stands after `unlock hH`.
fn spent_text(spent: bool) -> &'static str {
    if spent {
        " spent"
    } else {
        ""
    }
}

/// The word for a signal.
fn signal_name(fatal: bool) -> &'static str {
    if fatal {
        "fatal"
    } else {
        "plain"
    }
}

impl fmt::Display for Word {
    fn fmt(&self, f: &mut fmt::Formatter<'_>) -> fmt::Result {
        let letter = self.kind.letter();
        let number = self.number;
        write!(f, "{letter}{number}")
    }
}

impl fmt::Display for Answer {
    fn fmt(&self, f: &mut fmt::Formatter<'_>) -> fmt::Result {
        match *self {
            Answer::Value(value) => write!(f, "{value}"),
            Answer::Minus(value) => write!(f, "-{value}"),
            Answer::Walk {
                woken,
                selected,
                holds,
                stop,
            } => write!(
                f,
                "woken {woken} selected {selected} holds {holds} {}",
                stop.name()
            ),
        }
    }
}

impl fmt::Display for What {
    fn fmt(&self, f: &mut fmt::Formatter<'_>) -> fmt::Result {
        match *self {
            What::Load { word, value } => write!(f, "load {word} {value}"),
            What::Set { word, value } => write!(f, "set {word} {value}"),
            What::Take { number, found } => write!(f, "take c{number} {found}"),
            What::Try { word, bit, found } => write!(f, "tas b{word}.{bit} {}", digit(found)),
            What::TryFor {
                word,
                bit,
                found,
                who,
            } => {
                write!(f, "tas b{word}.{bit} {} t{who}", digit(found))
            }
            What::Clear { word, bit } => write!(f, "clear b{word}.{bit}"),
            What::Handed { who } => write!(f, "handed t{who}"),
            What::Lock { head } => write!(f, "lock h{head}"),
            What::Unlock { head, spent } => write!(f, "unlock h{head}{}", spent_text(spent)),
            What::Queue { head, form } => write!(f, "queue h{head} {}", form.name()),
            What::Unqueue { who } => write!(f, "unqueue t{who}"),
            What::Mark { head } => write!(f, "mark h{head}"),
            What::Unmark { head } => write!(f, "unmark h{head}"),
            What::Queued { there } => write!(f, "queued {}", yes_or_no(there)),
            What::Active { head, there } => write!(f, "active h{head} {}", yes_or_no(there)),
            What::State(state) => write!(f, "state {}", state.name()),
            What::Sleep(slept) => write!(f, "sleep {}", slept.name()),
            What::Wake { who, woke } => write!(f, "wake t{who} {}", yes_or_no(woke)),
            What::Signal { who, fatal } => write!(f, "signal t{who} {}", signal_name(fatal)),
            What::Accept(taken) => write!(f, "accept {}", taken.name()),
            What::Look { pending } => write!(f, "look {}", yes_or_no(pending)),
            What::Woken { who } => write!(f, "woken t{who}"),
            What::Flag { there } => write!(f, "flag {}", yes_or_no(there)),
            What::Unflag => write!(f, "unflag"),
            What::Ended(answer) => write!(f, "= {answer}"),
            What::Refused { reason } => write!(f, "refused {reason}"),
            What::NoCall => write!(f, "nocall"),
            What::AsleepStill => write!(f, "asleep"),
            What::Busy { head } => write!(f, "busy h{head}"),
        }
    }
}

impl fmt::Display for Line {
    fn fmt(&self, f: &mut fmt::Formatter<'_>) -> fmt::Result {
        let task = self.task;
        let what = self.what;
        write!(f, "t{task} {what}")
    }
}
