//! Tokens of five kinds, of which a Domain has one each: one waiter at a time has it.

// Each test takes a part of it.
#![allow(dead_code)]

use std::time::Duration;
use sugwelan::{Bit, Completion, Error, Page, Task};

pub const BIT: Bit = Bit::new(3, 4);
pub const PAGE: Page = Page::new(5);
pub const PERMIT: Completion = Completion::new(6);
pub const PLAIN: u8 = 7;
pub const SIMPLE: u8 = 50;

/// Where a token is.
#[derive(Clone, Copy, Debug, PartialEq, Eq)]
pub enum Kind {
    Bit,
    Page,
    Permit,
    Exclusive,
    Simple,
}

pub const KINDS: [Kind; 5] = [Kind::Bit, Kind::Page, Kind::Permit, Kind::Exclusive, Kind::Simple];

/// How a task sleeps.
#[derive(Clone, Copy, Debug, PartialEq, Eq)]
pub enum Sleep {
    Uninterruptible,
    Interruptible,
    Killable,
}

pub const SLEEPS: [Sleep; 3] = [Sleep::Uninterruptible, Sleep::Interruptible, Sleep::Killable];

/// Makes something of a wait for a token, in a state: in a simple queue none is killable.
macro_rules! of_wait {
    ($kind:expr, $task:expr, $sleep:expr, $wait:ident => $made:expr) => {{
        use sugwelan::{Interruptible, Killable, Uninterruptible};
        use $crate::tokens::{Kind, Sleep, SIMPLE};
        match ($kind, $sleep) {
            (Kind::Simple, Sleep::Uninterruptible) => {
                let $wait = $task.swait_event(SIMPLE, Uninterruptible);
                $made
            }
            (Kind::Simple, _) => {
                let $wait = $task.swait_event(SIMPLE, Interruptible);
                $made
            }
            (_, Sleep::Uninterruptible) => $crate::tokens::of_wait!(@ $kind, $task, Uninterruptible, $wait => $made),
            (_, Sleep::Interruptible) => $crate::tokens::of_wait!(@ $kind, $task, Interruptible, $wait => $made),
            (_, Sleep::Killable) => $crate::tokens::of_wait!(@ $kind, $task, Killable, $wait => $made),
        }
    }};
    (@ $kind:expr, $task:expr, $state:ident, $wait:ident => $made:expr) => {{
        use $crate::tokens::{BIT, PAGE, PERMIT, PLAIN};
        match $kind {
            Kind::Bit => {
                let $wait = $task.wait_on_bit_lock(BIT, $state);
                $made
            }
            Kind::Page => {
                let $wait = $task.lock_page(PAGE, $state);
                $made
            }
            Kind::Permit => {
                let $wait = PERMIT.wait($task, $state);
                $made
            }
            _ => {
                let $wait = $task.wait_event_exclusive(PLAIN, $state);
                $made
            }
        }
    }};
}
pub(crate) use of_wait;

/// Whether the token is the task's, whose wait is over.
fn has(kind: Kind, task: &mut Task) -> bool {
    match kind {
        Kind::Exclusive => task.take_condition(PLAIN).unwrap() != 0,
        Kind::Simple => task.take_condition(SIMPLE).unwrap() != 0,
        _ => true,
    }
}

/// Waits until it has the token.
pub async fn get(kind: Kind, task: &mut Task, sleep: Sleep) {
    loop {
        of_wait!(kind, task, sleep, wait => wait.await).unwrap();
        if has(kind, task) {
            return;
        }
    }
}

/// Parks until it has the token.
pub fn block(kind: Kind, task: &mut Task) {
    loop {
        of_wait!(kind, task, Sleep::Uninterruptible, wait => wait.block()).unwrap();
        if has(kind, task) {
            return;
        }
    }
}

/// Parks until it has the token, in each wait for so long at most: whether it has it.
pub fn get_within(kind: Kind, task: &mut Task, sleep: Sleep, limit: Duration) -> bool {
    loop {
        match of_wait!(kind, task, sleep, wait => wait.timeout(limit)) {
            Ok(()) if has(kind, task) => return true,
            Ok(()) => {}
            end => {
                assert_eq!(end, Err(Error::TimedOut));
                return false;
            }
        }
    }
}

/// Takes the token that a new Domain has.
pub fn take_first(kind: Kind, task: &mut Task) {
    match kind {
        Kind::Bit => assert_eq!(task.trylock_bit(BIT), Ok(true)),
        Kind::Page => assert_eq!(task.trylock_page(PAGE), Ok(true)),
        _ => {}
    }
}

/// Gives the token back.
pub fn put(kind: Kind, task: &mut Task) {
    match kind {
        Kind::Bit => drop(task.clear_and_wake_up_bit(BIT).unwrap()),
        Kind::Page => drop(task.unlock_page(PAGE).unwrap()),
        Kind::Permit => PERMIT.complete(task).unwrap(),
        Kind::Exclusive => drop(task.set_and_wake(PLAIN, 1, 1).unwrap()),
        Kind::Simple => drop(task.set_and_swake_one(SIMPLE, 1).unwrap()),
    }
}

/// Puts the token there that a new Domain does not have.
pub fn put_first(kind: Kind, task: &mut Task) {
    if !matches!(kind, Kind::Bit | Kind::Page) {
        put(kind, task);
    }
}

/// The token is there, and no second one: the task gets it and no more, and gives it back.
pub fn is_one(kind: Kind, task: &mut Task) {
    block(kind, task);
    match kind {
        Kind::Bit => assert_eq!(task.trylock_bit(BIT), Ok(false)),
        Kind::Page => assert_eq!(task.trylock_page(PAGE), Ok(false)),
        _ => assert!(!get_within(kind, task, Sleep::Uninterruptible, Duration::ZERO)),
    }
    put(kind, task);
}
