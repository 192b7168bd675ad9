//! A value under a lock that is a bit or a page.

use crate::lent::{Lends, Lent};
use crate::states::State;
use crate::{BitGuard, BitLock, Error, PageGuard, PageLock};
use std::cell::UnsafeCell;
use std::fmt;
use std::ops::{Deref, DerefMut};
use std::time::Duration;

/// A bit or a page, as a lock.
#[derive(Clone, Debug)]
pub(crate) enum Lock {
    Bit(BitLock),
    Page(PageLock),
}

impl From<BitLock> for Lock {
    fn from(lock: BitLock) -> Lock {
        Lock::Bit(lock)
    }
}

impl From<PageLock> for Lock {
    fn from(lock: PageLock) -> Lock {
        Lock::Page(lock)
    }
}

/// The guard of either.
#[derive(Debug)]
enum Held<'t> {
    Bit(BitGuard<'t>),
    Page(PageGuard<'t>),
}

/// A value that is reached by who has the lock: a bit ([`crate::Domain::mutex`]), or a page
/// ([`crate::Domain::fair_mutex`]). Two values may have one lock; then a task has at most one of them at a time.
///
/// ```
/// use sugwelan::{Bit, Domain, Uninterruptible};
///
/// const COUNT: Bit = Bit::new(2, 17);
///
/// let domain = Domain::new()?;
/// let count = domain.mutex(COUNT, 0);
/// let (mut one, mut other) = (domain.task()?, domain.task()?);
/// std::thread::scope(|scope| {
///     scope.spawn(|| count.lock(&mut one, Uninterruptible).map(|mut count| *count += 1));
///     count.lock(&mut other, Uninterruptible).map(|mut count| *count += 1)
/// })?;
/// assert_eq!(count.into_inner(), 2);
/// # Ok::<(), sugwelan::Error>(())
/// ```
///
/// A panic under the guard gives the lock back, and leaves no mark.
pub struct Mutex<T: ?Sized> {
    lock: Lock,
    value: UnsafeCell<T>,
}

// SAFETY: the value is reached by one task at a time, since those that can have the lock are of its Domain, and is then
// at the thread that has the guard: so it is handed from thread to thread, and not shared.
unsafe impl<T: ?Sized + Send> Sync for Mutex<T> {}

impl<T: ?Sized> fmt::Debug for Mutex<T> {
    fn fmt(&self, out: &mut fmt::Formatter<'_>) -> fmt::Result {
        out.debug_struct("Mutex")
            .field("lock", &self.lock)
            .finish_non_exhaustive()
    }
}

impl<T> Mutex<T> {
    pub(crate) fn new(lock: Lock, value: T) -> Mutex<T> {
        Mutex {
            lock,
            value: UnsafeCell::new(value),
        }
    }

    /// The value, of who has the whole.
    pub fn into_inner(self) -> T {
        self.value.into_inner()
    }
}

impl<T: ?Sized> Mutex<T> {
    /// Parks the thread until the task has the lock. Errors: [`Error::Foreign`], [`Error::Held`], [`Error::Signal`],
    /// [`Error::Full`].
    pub fn lock<'m, 't>(&'m self, task: &'t mut impl Lends, state: impl State) -> Result<MutexGuard<'m, 't, T>, Error> {
        let held = match &self.lock {
            Lock::Bit(lock) => Held::Bit(lock.lock(task, state)?),
            Lock::Page(lock) => Held::Page(lock.lock(task, state)?),
        };
        Ok(MutexGuard { mutex: self, held })
    }

    /// The same for so long at most. Errors: as before, and [`Error::TimedOut`].
    pub fn lock_timeout<'m, 't>(
        &'m self,
        task: &'t mut impl Lends,
        state: impl State,
        limit: Duration,
    ) -> Result<MutexGuard<'m, 't, T>, Error> {
        let held = match &self.lock {
            Lock::Bit(lock) => Held::Bit(lock.lock_timeout(task, state, limit)?),
            Lock::Page(lock) => Held::Page(lock.lock_timeout(task, state, limit)?),
        };
        Ok(MutexGuard { mutex: self, held })
    }

    /// As [`Mutex::lock`], for an executor. Errors: as there.
    pub async fn lock_later<'m, 't>(
        &'m self,
        task: &'t mut impl Lends,
        state: impl State,
    ) -> Result<MutexGuard<'m, 't, T>, Error> {
        let held = match &self.lock {
            Lock::Bit(lock) => Held::Bit(lock.lock_later(task, state).await?),
            Lock::Page(lock) => Held::Page(lock.lock_later(task, state).await?),
        };
        Ok(MutexGuard { mutex: self, held })
    }

    /// Takes the lock where nobody has it. Errors: [`Error::Foreign`].
    pub fn try_lock<'m, 't>(&'m self, task: &'t mut impl Lends) -> Result<Option<MutexGuard<'m, 't, T>>, Error> {
        let held = match &self.lock {
            Lock::Bit(lock) => lock.try_lock(task)?.map(Held::Bit),
            Lock::Page(lock) => lock.try_lock(task)?.map(Held::Page),
        };
        Ok(held.map(|held| MutexGuard { mutex: self, held }))
    }

    /// The value, of who has the whole.
    pub fn get_mut(&mut self) -> &mut T {
        self.value.get_mut()
    }
}

/// The lock of a value, which its task has; it is given back when this is dropped.
#[must_use = "the lock is given back when this is dropped"]
pub struct MutexGuard<'m, 't, T: ?Sized> {
    mutex: &'m Mutex<T>,
    held: Held<'t>,
}

impl<T: ?Sized> MutexGuard<'_, '_, T> {
    /// The task, for one call.
    pub fn lend(guard: &mut Self) -> Lent<'_> {
        match &mut guard.held {
            Held::Bit(held) => held.lend(),
            Held::Page(held) => held.lend(),
        }
    }
}

impl<T: ?Sized> Deref for MutexGuard<'_, '_, T> {
    type Target = T;

    fn deref(&self) -> &T {
        // SAFETY: the task of the guard has the lock, and it can't be given back while the guard is there; so no other
        // guard of the value is.
        unsafe { &*self.mutex.value.get() }
    }
}

impl<T: ?Sized> DerefMut for MutexGuard<'_, '_, T> {
    fn deref_mut(&mut self) -> &mut T {
        // SAFETY: as in `deref`.
        unsafe { &mut *self.mutex.value.get() }
    }
}

impl<T: ?Sized + fmt::Debug> fmt::Debug for MutexGuard<'_, '_, T> {
    fn fmt(&self, out: &mut fmt::Formatter<'_>) -> fmt::Result {
        (**self).fmt(out)
    }
}
