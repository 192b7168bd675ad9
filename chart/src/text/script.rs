//! The moments of a replay: the lines of a text, with the openings of its script between them.

use crate::fault::Fault;
use crate::room::push;
use crate::text::line::{Line, Slept, What};
use crate::text::moment::{Act, Moment, Opening, TASKS};
use crate::text::reader::{bit, word};
use crate::text::watch::Watch;
use std::collections::TryReserveError;

/// The moments of a text without its script.
///
/// # Errors
///
/// There is no memory.
pub fn plain_moments(lines: &[Line]) -> Result<Vec<Moment<'static>>, TryReserveError> {
    let mut moments = Vec::new();
    moments.try_reserve_exact(lines.len())?;
    let mut number = 1u32;
    for line in lines {
        push(&mut moments, told(line, number))?;
        number = number.saturating_add(1);
    }
    Ok(moments)
}

/// A line as a moment.
fn told(line: &Line, number: u32) -> Moment<'static> {
    Moment {
        number: Some(number),
        task: line.task,
        act: Act::Does(line.what),
        call: None,
    }
}

/// What a call waits for, by its first words.
fn watch_of(name: &str, place: Option<&str>, old: Option<&str>) -> Option<Watch> {
    match name {
        "wait" | "swait" | "waitfor" => {
            let word = word(place?)?;
            Some(Watch::whole(word.kind, word.number))
        }
        "waitbit" | "lockbit" => {
            let (word, bit) = bit(place?)?;
            Some(Watch::of_bit(word, Some(bit)))
        }
        "lockpage" => Some(Watch::of_bit(word(place?)?.number, Some(0))),
        "waitvar" => {
            let word = word(place?)?;
            Some(Watch::of_variable(word.number, old?.parse::<u64>().ok()?))
        }
        _ => None,
    }
}

/// The call that words open.
fn opening(text: &str) -> Opening<'_> {
    let mut words = text.split(' ');
    let [first, second, third] = [(); 3].map(|()| words.next());
    let first = first.unwrap_or("");
    Opening {
        text,
        watch: watch_of(first, second, third),
        flagged: first == "woken",
        takes: first == "waitfor" || first == "trywait",
    }
}

/// Which lines are told so far, and which tasks have a call open.
struct Telling<'a> {
    moments: Vec<Moment<'a>>,
    next: usize,
    open: Vec<bool>,
}

impl<'a> Telling<'a> {
    fn is_open(&self, task: u8) -> bool {
        self.open.get(usize::from(task)).copied().unwrap_or(false)
    }

    fn set_open(&mut self, task: u8, open: bool) {
        if let Some(place) = self.open.get_mut(usize::from(task)) {
            *place = open;
        }
    }

    /// The next line, if it is one of a task.
    fn next_of(&self, lines: &[Line], task: u8) -> Option<Line> {
        let line = lines.get(self.next)?;
        if line.task == task {
            Some(*line)
        } else {
            None
        }
    }

    /// Tells the next line.
    fn tell(&mut self, line: &Line, call: Option<Opening<'a>>) -> Result<(), TryReserveError> {
        self.next = self.next.saturating_add(1);
        let number = u32::try_from(self.next).unwrap_or(u32::MAX);
        let moment = Moment {
            call,
            ..told(line, number)
        };
        push(&mut self.moments, moment)
    }

    /// A line `call T TEXT` of the script.
    fn call(&mut self, lines: &[Line], task: u8, text: &'a str) -> Result<(), TryReserveError> {
        let call = opening(text);
        if let Some(line) = self.next_of(lines, task) {
            if let What::Refused { reason } = line.what {
                if self.is_open(task) || reason != 2 {
                    return self.tell(&line, Some(call));
                }
            }
        }
        self.set_open(task, true);
        let moment = Moment {
            number: None,
            task,
            act: Act::Opens,
            call: Some(call),
        };
        push(&mut self.moments, moment)
    }

    /// A line `step T N` of the script.
    fn step(&mut self, lines: &[Line], task: u8, count: u32) -> Result<(), TryReserveError> {
        for _ in 0..count {
            let Some(line) = self.next_of(lines, task) else {
                break;
            };
            self.tell(&line, None)?;
            match line.what {
                What::NoCall | What::AsleepStill | What::Busy { .. } => break,
                _ => {}
            }
            if let Some(end) = self.next_of(lines, task) {
                if let What::Ended(_) = end.what {
                    self.tell(&end, None)?;
                    self.set_open(task, false);
                    break;
                }
            }
            if let What::Sleep(Slept::Asleep) = line.what {
                break;
            }
        }
        Ok(())
    }

    /// A line of the script. Answers whether it is one.
    fn line(&mut self, lines: &[Line], text: &'a str) -> Result<bool, TryReserveError> {
        let Some((first, rest)) = text.split_once(' ') else {
            return Ok(false);
        };
        let Some((task, more)) = rest.split_once(' ') else {
            return Ok(false);
        };
        let Ok(task) = task.parse::<u8>() else {
            return Ok(false);
        };
        if first == "call" {
            self.call(lines, task, more)?;
            return Ok(true);
        }
        let Ok(count) = more.parse::<u32>() else {
            return Ok(false);
        };
        if first == "step" {
            self.step(lines, task, count)?;
        }
        Ok(first == "step")
    }
}

/// The moments of a text with the openings that its script tells. Fails where a line of the script is none, and where
/// the script's steps end before the text does.
pub fn told_moments<'a>(lines: &[Line], script: &'a str) -> Result<Vec<Moment<'a>>, Fault> {
    let mut telling = Telling {
        moments: Vec::new(),
        next: 0,
        open: vec![false; TASKS],
    };
    let mut number = 1u32;
    for text in script.split('\n') {
        let is_header = number == 1 && (text == "waitq 1" || text == "waitq 2");
        let is_line = is_header || text.is_empty() || telling.line(lines, text)?;
        if !is_line || (number == 1 && !is_header) {
            return Err(Fault::Script {
                line: number,
                why: "it is no line of a script",
            });
        }
        number = number.saturating_add(1);
    }
    if telling.next < lines.len() {
        return Err(Fault::Script {
            line: number,
            why: "its steps end before the text does, so the text is not of this script",
        });
    }
    Ok(telling.moments)
}
