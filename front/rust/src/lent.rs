//! A task under a guard: it makes all calls but those that give a bit or a page back.

use crate::states::{Simple, State};
use crate::{BitGuard, Error, Mode, MutexGuard, PageGuard, Task, Wait, Walked};

/// A task that a guard has lent for one call. No call here gives a bit or a page back; a further lock is taken by its
/// own type, as [`crate::BitLock::lock`], which takes a guard in place of the task.
pub struct Lent<'t>(pub(crate) &'t mut Task);

/// What lends a task for a call: a [`Task`] itself, and guards.
pub trait Lends: sealed::Lends {}

pub(crate) mod sealed {
    pub trait Lends {
        /// The task for one call.
        fn lent(&mut self) -> super::Lent<'_>;
    }
}

impl sealed::Lends for Task {
    fn lent(&mut self) -> Lent<'_> {
        Lent(self)
    }
}

impl sealed::Lends for BitGuard<'_> {
    fn lent(&mut self) -> Lent<'_> {
        self.lend()
    }
}

impl sealed::Lends for PageGuard<'_> {
    fn lent(&mut self) -> Lent<'_> {
        self.lend()
    }
}

impl<T: ?Sized> sealed::Lends for MutexGuard<'_, '_, T> {
    fn lent(&mut self) -> Lent<'_> {
        MutexGuard::lend(self)
    }
}

impl Lends for Task {}
impl Lends for BitGuard<'_> {}
impl Lends for PageGuard<'_> {}
impl<T: ?Sized> Lends for MutexGuard<'_, '_, T> {}

impl<'t> Lent<'t> {
    /// As [`Task::number`].
    pub fn number(self) -> u8 {
        self.0.number()
    }

    /// As [`Task::take_signal`].
    pub fn take_signal(self) -> Result<Option<crate::Signal>, Error> {
        self.0.take_signal()
    }

    /// As [`Task::pending_signal`].
    pub fn pending_signal(self) -> Option<crate::Signal> {
        self.0.pending_signal()
    }

    /// As [`Task::wait_event`].
    pub fn wait_event<S: State>(self, condition: u8, state: S) -> Wait<'t, (), S> {
        self.0.wait_event(condition, state)
    }

    /// As [`Task::wait_event_exclusive`].
    pub fn wait_event_exclusive<S: State>(self, condition: u8, state: S) -> Wait<'t, (), S> {
        self.0.wait_event_exclusive(condition, state)
    }

    /// As [`Task::swait_event`].
    pub fn swait_event<S: Simple>(self, condition: u8, state: S) -> Wait<'t, (), S> {
        self.0.swait_event(condition, state)
    }

    /// As [`Task::wake_up`].
    pub fn wake_up(self, condition: u8, mode: Mode, count: u32) -> Result<Walked, Error> {
        self.0.wake_up(condition, mode, count)
    }

    /// As [`Task::set_and_wake`].
    pub fn set_and_wake(self, condition: u8, value: u64, count: u32) -> Result<Walked, Error> {
        self.0.set_and_wake(condition, value, count)
    }

    /// As [`Task::take_condition`].
    pub fn take_condition(self, condition: u8) -> Result<u64, Error> {
        self.0.take_condition(condition)
    }

    /// As [`Task::set_and_swake_one`].
    pub fn set_and_swake_one(self, condition: u8, value: u64) -> Result<u32, Error> {
        self.0.set_and_swake_one(condition, value)
    }

    /// As [`Task::set_and_swake_all`].
    pub fn set_and_swake_all(self, condition: u8, value: u64) -> Result<u32, Error> {
        self.0.set_and_swake_all(condition, value)
    }

    /// As [`Task::swake_up_one`].
    pub fn swake_up_one(self, condition: u8) -> Result<u32, Error> {
        self.0.swake_up_one(condition)
    }

    /// As [`Task::swake_up_all`].
    pub fn swake_up_all(self, condition: u8) -> Result<u32, Error> {
        self.0.swake_up_all(condition)
    }

    /// As [`Task::wait_var_event`].
    pub fn wait_var_event<S: State>(self, variable: u8, old: u64, state: S) -> Wait<'t, u64, S> {
        self.0.wait_var_event(variable, old, state)
    }

    /// As [`Task::publish_var_and_wake`].
    pub fn publish_var_and_wake(self, variable: u8, value: u64) -> Result<Walked, Error> {
        self.0.publish_var_and_wake(variable, value)
    }
}
