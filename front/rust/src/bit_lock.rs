//! Bits, and locks that are one bit.

use crate::lent::{Lends, Lent};
use crate::raw::{Call, Kind, BITS, WORDS};
use crate::states::State;
use crate::{Domain, Error, Task};
use std::time::Duration;

/// One of the 64 bits of one of the 128 words of a Domain.
#[derive(Clone, Copy, Debug, PartialEq, Eq)]
pub struct Bit {
    word: u8,
    bit: u8,
}

impl Bit {
    /// Bit `bit`, below 64, of word `word`, below 128. A constant of other numbers does not compile; else it panics.
    ///
    /// ```compile_fail
    /// const LOCK: sugwelan::Bit = sugwelan::Bit::new(200, 99);
    /// # println!("{LOCK:?}");
    /// ```
    pub const fn new(word: u8, bit: u8) -> Bit {
        assert!(word < WORDS, "a Domain has words below 128");
        assert!(bit < BITS, "a word has bits below 64");
        Bit { word, bit }
    }

    pub(crate) fn call(self, kind: Kind) -> Call {
        Call::new(kind).at(self.word).and(self.bit.into())
    }
}

/// A lock that is one bit, for tasks of the Domain that gave it out. It guards nothing by itself: [`crate::Mutex`]
/// does.
#[derive(Clone, Debug, PartialEq, Eq)]
pub struct BitLock {
    domain: Domain,
    bit: Bit,
}

impl BitLock {
    pub(crate) fn new(domain: Domain, bit: Bit) -> BitLock {
        BitLock { domain, bit }
    }

    /// The task, where it is of the lock's Domain.
    fn own<'t>(&self, task: &'t mut impl Lends) -> Result<&'t mut Task, Error> {
        let task = task.lent().0;
        match task.is_of(&self.domain) {
            true => Ok(task),
            false => Err(Error::Foreign),
        }
    }

    fn guard<'t>(&self, task: &'t mut Task) -> BitGuard<'t> {
        BitGuard { bit: self.bit, task }
    }

    /// Parks the thread until the task has the lock. Errors: [`Error::Foreign`], [`Error::Held`], [`Error::Signal`],
    /// [`Error::Full`].
    pub fn lock<'t>(&self, task: &'t mut impl Lends, state: impl State) -> Result<BitGuard<'t>, Error> {
        let task = self.own(task)?;
        task.wait_on_bit_lock(self.bit, state).block()?;
        Ok(self.guard(task))
    }

    /// The same for so long at most. Errors: as before, and [`Error::TimedOut`].
    pub fn lock_timeout<'t>(
        &self,
        task: &'t mut impl Lends,
        state: impl State,
        limit: Duration,
    ) -> Result<BitGuard<'t>, Error> {
        let task = self.own(task)?;
        task.wait_on_bit_lock(self.bit, state).timeout(limit)?;
        Ok(self.guard(task))
    }

    /// As [`BitLock::lock`], for an executor. Errors: as there.
    pub async fn lock_later<'t>(&self, task: &'t mut impl Lends, state: impl State) -> Result<BitGuard<'t>, Error> {
        let task = self.own(task)?;
        task.wait_on_bit_lock(self.bit, state).await?;
        Ok(self.guard(task))
    }

    /// Takes the lock where nobody has it. Errors: [`Error::Foreign`].
    pub fn try_lock<'t>(&self, task: &'t mut impl Lends) -> Result<Option<BitGuard<'t>>, Error> {
        let task = self.own(task)?;
        let took = task.trylock_bit(self.bit)?;
        Ok(took.then(|| self.guard(task)))
    }
}

/// A lock that its task has, which is given back when this is dropped. Meanwhile the task makes its calls by
/// [`BitGuard::lend`], and none that would give the lock back:
///
/// ```compile_fail
/// # fn cheat(lock: &sugwelan::BitLock, task: &mut sugwelan::Task) -> Result<(), sugwelan::Error> {
/// let mut guard = lock.lock(task, sugwelan::Uninterruptible)?;
/// guard.lend().clear_and_wake_up_bit(sugwelan::Bit::new(0, 0))?;
/// # Ok(())
/// # }
/// ```
#[derive(Debug)]
#[must_use = "the lock is given back when this is dropped"]
pub struct BitGuard<'t> {
    bit: Bit,
    task: &'t mut Task,
}

impl BitGuard<'_> {
    /// The task, for one call.
    pub fn lend(&mut self) -> Lent<'_> {
        Lent(self.task)
    }
}

impl Drop for BitGuard<'_> {
    fn drop(&mut self) {
        // The task keeps the bit, since nothing else has had it meanwhile.
        let _ = self.task.clear_and_wake_up_bit(self.bit);
    }
}
