//! Domains, and calls for who has no task at hand.

use crate::handle::Shared;
use crate::raw::{Call, Kind};
use crate::{Bit, BitLock, Completion, Error, Mode, Mutex, Page, PageLock, Signal, Task, Walked};
use std::fmt;
use std::sync::Arc;

/// A Domain: a world of conditions, variables, bits, pages and completions, with its tasks. A clone is the same Domain.
///
/// It makes wakes itself, for who has no task at hand or whose task waits: wakers, timers, `Drop`. It has a task of its
/// own for them under a lock, by which one such call is made at a time.
#[derive(Clone)]
pub struct Domain {
    pub(crate) shared: Arc<Shared>,
}

impl fmt::Debug for Domain {
    fn fmt(&self, out: &mut fmt::Formatter<'_>) -> fmt::Result {
        out.debug_struct("Domain").finish_non_exhaustive()
    }
}

impl PartialEq for Domain {
    /// Whether it is the same one.
    fn eq(&self, other: &Domain) -> bool {
        Arc::ptr_eq(&self.shared, &other.shared)
    }
}

impl Eq for Domain {}

// What belongs to it.
impl Domain {
    /// A new one. Errors: [`Error::Memory`].
    pub fn new() -> Result<Domain, Error> {
        Ok(Domain { shared: Shared::new()? })
    }

    /// A task: one that was given up, or else a further one. Errors: [`Error::NoNumber`] where 255 are in use,
    /// [`Error::Memory`].
    pub fn task(&self) -> Result<Task, Error> {
        Ok(Task::of(self.shared.take()?, self.shared.clone()))
    }

    /// The lock that is a bit, for tasks of this Domain.
    pub fn bit_lock(&self, bit: Bit) -> BitLock {
        BitLock::new(self.clone(), bit)
    }

    /// The lock that is a page, for tasks of this Domain.
    pub fn page_lock(&self, page: Page) -> PageLock {
        PageLock::new(self.clone(), page)
    }

    /// A value under the lock of a bit.
    pub fn mutex<T>(&self, bit: Bit, value: T) -> Mutex<T> {
        Mutex::new(self.bit_lock(bit).into(), value)
    }

    /// A value under the lock of a page, which is handed over in the order of its queue.
    pub fn fair_mutex<T>(&self, page: Page, value: T) -> Mutex<T> {
        Mutex::new(self.page_lock(page).into(), value)
    }
}

// Calls without a task. A waker that panics does not stop them: they panic once all others are roused.
impl Domain {
    /// As [`Task::raise_signal`].
    pub fn raise_signal(&self, number: u8, signal: Signal) -> Result<(), Error> {
        self.shared.raise(number, signal)
    }

    /// As [`Task::wake_up_process`].
    pub fn wake_up_process(&self, number: u8) -> Result<bool, Error> {
        self.shared.kick(number)
    }

    /// As [`Task::wake_up`]. Errors: [`Error::Invalid`].
    pub fn wake_up(&self, condition: u8, mode: Mode, count: u32) -> Result<Walked, Error> {
        let call = Call::new(Kind::WakeUp).at(condition).and(mode as u32).with(count);
        self.shared.by_home(call, Walked::of)
    }

    /// As [`Task::set_and_wake`]. Errors: [`Error::Invalid`].
    pub fn set_and_wake(&self, condition: u8, value: u64, count: u32) -> Result<Walked, Error> {
        let call = Call::new(Kind::SetAndWake).at(condition).with(count).value(value);
        self.shared.by_home(call, Walked::of)
    }

    /// As [`Task::set_and_swake_one`]. Errors: [`Error::Invalid`].
    pub fn set_and_swake_one(&self, condition: u8, value: u64) -> Result<u32, Error> {
        let call = Call::new(Kind::SetAndSwake).at(condition).value(value);
        self.shared.by_home(call, |told| told.selected)
    }

    /// As [`Task::set_and_swake_all`]. Errors: [`Error::Invalid`].
    pub fn set_and_swake_all(&self, condition: u8, value: u64) -> Result<u32, Error> {
        let call = Call::new(Kind::SetAndSwake).at(condition).and(1).value(value);
        self.shared.by_home(call, |told| told.selected)
    }

    /// As [`Task::swake_up_one`]. Errors: [`Error::Invalid`].
    pub fn swake_up_one(&self, condition: u8) -> Result<u32, Error> {
        let call = Call::new(Kind::SwakeUpOne).at(condition);
        self.shared.by_home(call, |told| told.selected)
    }

    /// As [`Task::swake_up_all`]. Errors: [`Error::Invalid`].
    pub fn swake_up_all(&self, condition: u8) -> Result<u32, Error> {
        let call = Call::new(Kind::SwakeUpAll).at(condition);
        self.shared.by_home(call, |told| told.selected)
    }

    /// As [`Task::publish_var_and_wake`]. Errors: [`Error::Invalid`].
    pub fn publish_var_and_wake(&self, variable: u8, value: u64) -> Result<Walked, Error> {
        let call = Call::new(Kind::PublishVarAndWake).at(variable).value(value);
        self.shared.by_home(call, Walked::of)
    }

    /// As [`Completion::complete`].
    pub fn complete(&self, completion: Completion) -> Result<(), Error> {
        self.shared.by_home(completion.call(Kind::Complete), |_| ())
    }

    /// As [`Completion::complete_all`].
    pub fn complete_all(&self, completion: Completion) -> Result<(), Error> {
        self.shared.by_home(completion.call(Kind::CompleteAll), |_| ())
    }
}
