//! Lines by their text.

use crate::text::line::{Answer, Form, Kind, Line, Pending, Slept, State, Stop, What, Word};

/// A number of a line, if the word is one of 64 bits.
fn number(text: &str) -> Option<u64> {
    text.parse::<u64>().ok()
}

/// A count of a walk, if the word is a number of 32 bits.
fn count(text: &str) -> Option<u32> {
    text.parse::<u32>().ok()
}

/// A number of eight bits.
fn byte(text: &str) -> Option<u8> {
    text.parse::<u8>().ok()
}

/// A number of 16 bits.
fn short(text: &str) -> Option<u16> {
    text.parse::<u16>().ok()
}

/// What stands after a letter, if the text begins with it.
fn after(letter: char, text: &str) -> Option<&str> {
    text.strip_prefix(letter)
}

/// The number after a letter, if it has eight bits.
fn lettered(letter: char, text: &str) -> Option<u8> {
    byte(after(letter, text)?)
}

/// A task, as `t1`.
pub fn task(text: &str) -> Option<u8> {
    lettered('t', text)
}

/// A head, as `h256`.
pub fn head(text: &str) -> Option<u16> {
    short(after('h', text)?)
}

/// A condition word, as `c0`.
pub fn word(text: &str) -> Option<Word> {
    let (kind, number) = if let Some(number) = lettered('c', text) {
        (Kind::Plain, number)
    } else if let Some(number) = lettered('d', text) {
        (Kind::Done, number)
    } else if let Some(number) = lettered('b', text) {
        (Kind::Bits, number)
    } else {
        (Kind::Variable, lettered('v', text)?)
    };
    Some(Word { kind, number })
}

/// The parts before and after the first dot.
fn at_dot(text: &str) -> Option<(&str, &str)> {
    text.split_once('.')
}

/// A bit of a bit word, as `b0.0`.
pub fn bit(text: &str) -> Option<(u8, u8)> {
    let (word, bit) = at_dot(after('b', text)?)?;
    Some((byte(word)?, byte(bit)?))
}

fn yes(text: &str) -> Option<bool> {
    match text {
        "yes" => Some(true),
        "no" => Some(false),
        _ => None,
    }
}

fn found(text: &str) -> Option<bool> {
    match text {
        "1" => Some(true),
        "0" => Some(false),
        _ => None,
    }
}

fn fatal(text: &str) -> Option<bool> {
    match text {
        "fatal" => Some(true),
        "plain" => Some(false),
        _ => None,
    }
}

/// The name of a state.
pub fn state(text: &str) -> Option<State> {
    match text {
        "run" => Some(State::Running),
        "int" => Some(State::Interruptible),
        "unint" => Some(State::Uninterruptible),
        "kill" => Some(State::Killable),
        _ => None,
    }
}

fn slept(text: &str) -> Option<Slept> {
    match text {
        "asleep" => Some(Slept::Asleep),
        "stay" => Some(Slept::Stayed),
        "signal" => Some(Slept::Signalled),
        _ => None,
    }
}

fn form(text: &str) -> Option<Form> {
    match text {
        "front" => Some(Form::Front),
        "tail" => Some(Form::Tail),
        "prio" => Some(Form::Priority),
        _ => None,
    }
}

/// The name of a pending signal.
pub fn pending(text: &str) -> Option<Pending> {
    match text {
        "none" => Some(Pending::Nothing),
        "plain" => Some(Pending::Plain),
        "fatal" => Some(Pending::Fatal),
        _ => None,
    }
}

fn stop(text: &str) -> Option<Stop> {
    match text {
        "end" => Some(Stop::End),
        "spent" => Some(Stop::Spent),
        "stopped" => Some(Stop::Stopped),
        _ => None,
    }
}

/// An answer of one word.
fn answered(text: &str) -> Option<Answer> {
    match after('-', text) {
        Some(digits) => Some(Answer::Minus(number(digits)?)),
        None => Some(Answer::Value(number(text)?)),
    }
}

/// The answer of a walk, by its counts and why it ended.
fn walked(woken: &str, selected: &str, holds: &str, end: &str) -> Option<Answer> {
    Some(Answer::Walk {
        woken: count(woken)?,
        selected: count(selected)?,
        holds: count(holds)?,
        stop: stop(end)?,
    })
}

/// What a line of one word says.
fn one(name: &str) -> Option<What> {
    match name {
        "unflag" => Some(What::Unflag),
        "nocall" => Some(What::NoCall),
        "asleep" => Some(What::AsleepStill),
        _ => None,
    }
}

/// What a line of two words says, where the second is a head or a task.
fn two_placed(name: &str, first: &str) -> Option<What> {
    match name {
        "lock" => Some(What::Lock { head: head(first)? }),
        "unlock" => Some(What::Unlock {
            head: head(first)?,
            spent: false,
        }),
        "mark" => Some(What::Mark { head: head(first)? }),
        "unmark" => Some(What::Unmark { head: head(first)? }),
        "busy" => Some(What::Busy { head: head(first)? }),
        "unqueue" => Some(What::Unqueue { who: task(first)? }),
        "woken" => Some(What::Woken { who: task(first)? }),
        "handed" => Some(What::Handed { who: task(first)? }),
        _ => None,
    }
}

/// What a line of two words says.
fn two(name: &str, first: &str) -> Option<What> {
    match name {
        "queued" => Some(What::Queued { there: yes(first)? }),
        "look" => Some(What::Look {
            pending: yes(first)?,
        }),
        "flag" => Some(What::Flag { there: yes(first)? }),
        "state" => Some(What::State(state(first)?)),
        "sleep" => Some(What::Sleep(slept(first)?)),
        "accept" => Some(What::Accept(pending(first)?)),
        "=" => Some(What::Ended(answered(first)?)),
        "refused" => Some(What::Refused {
            reason: byte(first)?,
        }),
        "clear" => {
            let (word, bit) = bit(first)?;
            Some(What::Clear { word, bit })
        }
        _ => two_placed(name, first),
    }
}

/// What a line of three words says, that means another task or the end of a count.
fn three_placed(name: &str, first: &str, second: &str) -> Option<What> {
    match name {
        "unlock" => Some(What::Unlock {
            head: head(first)?,
            spent: true,
        }),
        "wake" => Some(What::Wake {
            who: task(first)?,
            woke: yes(second)?,
        }),
        "signal" => Some(What::Signal {
            who: task(first)?,
            fatal: fatal(second)?,
        }),
        _ => None,
    }
}

/// What a line of three words says.
fn three(name: &str, first: &str, second: &str) -> Option<What> {
    match name {
        "load" => Some(What::Load {
            word: word(first)?,
            value: number(second)?,
        }),
        "set" => Some(What::Set {
            word: word(first)?,
            value: number(second)?,
        }),
        "take" => Some(What::Take {
            number: lettered('c', first)?,
            found: number(second)?,
        }),
        "tas" => {
            let (word, bit) = bit(first)?;
            let found = found(second)?;
            Some(What::Try { word, bit, found })
        }
        "queue" => Some(What::Queue {
            head: head(first)?,
            form: form(second)?,
        }),
        "active" => Some(What::Active {
            head: head(first)?,
            there: yes(second)?,
        }),
        _ => three_placed(name, first, second),
    }
}

/// What a line of four words says: only a test-and-set for another task has so many.
fn four(first: &str, second: &str, third: &str) -> Option<What> {
    let (word, bit) = bit(first)?;
    let found = found(second)?;
    let who = task(third)?;
    Some(What::TryFor {
        word,
        bit,
        found,
        who,
    })
}

/// What words after a task seem to say.
fn seems(words: &[&str]) -> Option<What> {
    match words {
        [name] => one(name),
        [name, first] => two(name, first),
        [name, first, second] => three(name, first, second),
        [_, first, second, third] => four(first, second, third),
        [_, _, woken, _, selected, _, holds, end] => {
            Some(What::Ended(walked(woken, selected, holds, end)?))
        }
        _ => None,
    }
}

/// The line that words seem to be.
fn line_of(words: &[&str]) -> Option<Line> {
    let (first, rest) = words.split_first()?;
    let task = task(first)?;
    let what = seems(rest)?;
    Some(Line { task, what })
}

/// The line that a text seems to be, by the words between its spaces. No line has more than nine.
fn seeming(text: &str) -> Option<Line> {
    let mut words = [""; 9];
    let mut count = 0;
    for word in text.split(' ') {
        *words.get_mut(count)? = word;
        count += 1;
    }
    line_of(words.get(..count)?)
}

/// Reads a line of a task, without its line feed. What is read is spelled just so: a text that only seems to be a line,
/// as one with a zero before a number, is none. And whatever is spelled so, with its numbers in the ranges of their
/// fields, is read.
pub fn read_line(text: &str) -> Option<Line> {
    let line = seeming(text)?;
    (line.to_string() == text).then_some(line)
}
