//! Why a call was refused, or ended otherwise than it should.

use std::fmt;

/// Why a call was refused, or ended otherwise than it should. After all but [`Error::Signal`], [`Error::TimedOut`],
/// [`Error::Full`] and [`Error::Memory`] nothing has changed. Each call lists those that it may give;
/// [`Error::TimedOut`] is of each wait with a limit, [`Error::Starved`] and [`Error::Other`] are of each call.
#[derive(Clone, Copy, Debug, PartialEq, Eq)]
pub enum Error {
    /// A number is out of its range.
    Invalid,
    /// The task keeps the bit or page itself for which it would wait.
    Held,
    /// The task does not keep the bit or page that it would give back, or to whose tally it would add.
    NotHeld,
    /// The task keeps a bit or a page, and would be given up.
    Keeps,
    /// A signal ended the wait, which has taken nothing.
    Signal,
    /// The limit of a wait came first, and it was left: it has taken nothing.
    TimedOut,
    /// No place is left in the queue, as after 2^37 waits at it, and the wait is over.
    Full,
    /// No number is spare for a further task: 255 of the Domain are in use.
    NoNumber,
    /// There is no memory; the number of a further task may be used up.
    Memory,
    /// The task is of another Domain than the lock.
    Foreign,
    /// The wait is over, and was polled once more.
    Over,
    /// A wake of the task came to no end, as none does, and the task makes no more calls.
    Starved,
    /// A code that this crate does not know.
    Other(i32),
}

/// The codes of the archive, of which each says one thing.
const CODES: [(i32, Error); 10] = [
    (-1, Error::NotHeld),
    (-2, Error::Over),
    (-4, Error::Signal),
    (-11, Error::NoNumber),
    (-12, Error::Memory),
    (-22, Error::Invalid),
    (-28, Error::Full),
    (-35, Error::Held),
    (-125, Error::TimedOut),
    (-131, Error::Starved),
];

impl Error {
    /// What a negative answer says.
    pub(crate) fn of(code: i32) -> Error {
        let known = CODES.iter().find(|(known, _)| *known == code);
        known.map_or(Error::Other(code), |(_, error)| *error)
    }
}

impl fmt::Display for Error {
    fn fmt(&self, out: &mut fmt::Formatter<'_>) -> fmt::Result {
        match self {
            Error::Invalid => out.write_str("a number is out of its range"),
            Error::Held => out.write_str("the task keeps the bit itself for which it would wait"),
            Error::NotHeld => out.write_str("the task does not keep the bit"),
            Error::Keeps => out.write_str("the task keeps a bit or a page"),
            Error::Signal => out.write_str("a signal ended the wait"),
            Error::TimedOut => out.write_str("the limit of the wait came first"),
            Error::Full => out.write_str("no place is left in the queue"),
            Error::NoNumber => out.write_str("no number is spare for a further task"),
            Error::Memory => out.write_str("out of memory"),
            Error::Foreign => out.write_str("the task is of another Domain than the lock"),
            Error::Over => out.write_str("the wait is over"),
            Error::Starved => out.write_str("a wake of the task was starved"),
            Error::Other(code) => write!(out, "code {code}"),
        }
    }
}

impl std::error::Error for Error {}
