//! Pages: locks that are handed over to the first who waits.

use crate::lent::{Lends, Lent};
use crate::raw::{Call, Kind, PAGES};
use crate::states::State;
use crate::{Bit, Domain, Error, Task};
use std::time::Duration;

/// One of the 128 pages of a Domain. It is bit 0 of the word of its number.
#[derive(Clone, Copy, Debug, PartialEq, Eq)]
pub struct Page {
    number: u8,
}

impl Page {
    /// The one of a number below 128. A constant of another number does not compile; else it panics.
    ///
    /// ```compile_fail
    /// const PAGE: sugwelan::Page = sugwelan::Page::new(128);
    /// # println!("{PAGE:?}");
    /// ```
    pub const fn new(number: u8) -> Page {
        assert!(number < PAGES, "a Domain has pages below 128");
        Page { number }
    }

    pub(crate) fn call(self, kind: Kind) -> Call {
        Call::new(kind).at(self.number)
    }
}

impl From<Page> for Bit {
    fn from(page: Page) -> Bit {
        Bit::new(page.number, 0)
    }
}

/// The lock that is a page, for tasks of the Domain that gave it out: it is handed over in the order of its queue, and
/// has a tally.
#[derive(Clone, Debug, PartialEq, Eq)]
pub struct PageLock {
    domain: Domain,
    page: Page,
}

impl PageLock {
    pub(crate) fn new(domain: Domain, page: Page) -> PageLock {
        PageLock { domain, page }
    }

    /// The task, where it is of the lock's Domain.
    fn own<'t>(&self, task: &'t mut impl Lends) -> Result<&'t mut Task, Error> {
        let task = task.lent().0;
        match task.is_of(&self.domain) {
            true => Ok(task),
            false => Err(Error::Foreign),
        }
    }

    fn guard<'t>(&self, task: &'t mut Task) -> PageGuard<'t> {
        PageGuard { page: self.page, task }
    }

    /// Parks the thread until the task has the page. Errors: [`Error::Foreign`], [`Error::Held`], [`Error::Signal`],
    /// [`Error::Full`].
    pub fn lock<'t>(&self, task: &'t mut impl Lends, state: impl State) -> Result<PageGuard<'t>, Error> {
        let task = self.own(task)?;
        task.lock_page(self.page, state).block()?;
        Ok(self.guard(task))
    }

    /// The same for so long at most. Errors: as before, and [`Error::TimedOut`].
    pub fn lock_timeout<'t>(
        &self,
        task: &'t mut impl Lends,
        state: impl State,
        limit: Duration,
    ) -> Result<PageGuard<'t>, Error> {
        let task = self.own(task)?;
        task.lock_page(self.page, state).timeout(limit)?;
        Ok(self.guard(task))
    }

    /// As [`PageLock::lock`], for an executor. Errors: as there.
    pub async fn lock_later<'t>(&self, task: &'t mut impl Lends, state: impl State) -> Result<PageGuard<'t>, Error> {
        let task = self.own(task)?;
        task.lock_page(self.page, state).await?;
        Ok(self.guard(task))
    }

    /// Takes the page where nobody has it. Errors: [`Error::Foreign`].
    pub fn try_lock<'t>(&self, task: &'t mut impl Lends) -> Result<Option<PageGuard<'t>>, Error> {
        let task = self.own(task)?;
        let took = task.trylock_page(self.page)?;
        Ok(took.then(|| self.guard(task)))
    }
}

/// A page that its task has, as a [`crate::BitGuard`] is a bit.
#[derive(Debug)]
#[must_use = "the page is given back when this is dropped"]
pub struct PageGuard<'t> {
    page: Page,
    task: &'t mut Task,
}

impl PageGuard<'_> {
    /// Adds to the page's tally, and gives the tally before.
    pub fn add(&mut self, amount: u64) -> Result<u64, Error> {
        self.task.add_tally(self.page, amount)
    }

    /// The task, for one call.
    pub fn lend(&mut self) -> Lent<'_> {
        Lent(self.task)
    }
}

impl Drop for PageGuard<'_> {
    fn drop(&mut self) {
        // The task keeps the page, since nothing else has had it meanwhile.
        let _ = self.task.unlock_page(self.page);
    }
}
