//! How a task sleeps in a wait, as types: which signals end it.

/// How a task sleeps in a wait: [`Uninterruptible`], [`Interruptible`] or [`Killable`].
pub trait State: Copy + Send + Sync + Unpin + sealed::Numbered {}

/// A state in which a task can wait in a simple queue.
#[diagnostic::on_unimplemented(message = "a wait in a simple queue is not `{Self}`")]
pub trait Simple: State {}

/// No signal ends the wait.
#[derive(Clone, Copy, Debug, Default, PartialEq, Eq)]
pub struct Uninterruptible;

/// Each signal ends the wait.
#[derive(Clone, Copy, Debug, Default, PartialEq, Eq)]
pub struct Interruptible;

/// A fatal signal ends the wait.
#[derive(Clone, Copy, Debug, Default, PartialEq, Eq)]
pub struct Killable;

/// A signal.
#[derive(Clone, Copy, Debug, PartialEq, Eq, PartialOrd, Ord)]
pub enum Signal {
    /// One that ends interruptible waits.
    Plain,
    /// One that ends interruptible waits and killable ones.
    Fatal,
}

impl State for Uninterruptible {}
impl State for Interruptible {}
impl State for Killable {}
impl Simple for Uninterruptible {}
impl Simple for Interruptible {}

pub(crate) mod sealed {
    use super::{Interruptible, Killable, Uninterruptible};

    /// The number of a state in the archive.
    pub trait Numbered {
        const NUMBER: u32;
    }

    impl Numbered for Uninterruptible {
        const NUMBER: u32 = 0;
    }

    impl Numbered for Interruptible {
        const NUMBER: u32 = 1;
    }

    impl Numbered for Killable {
        const NUMBER: u32 = 2;
    }
}
