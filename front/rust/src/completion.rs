//! Completions: counts of permits.

use crate::lent::Lends;
use crate::raw::{Call, Kind, COMPLETIONS};
use crate::states::State;
use crate::{Error, Wait};

/// One of the 64 completions of a Domain: a count of permits, 0 at first, with a queue of those who wait for one. It is
/// a number: each Domain has its own of that number. [`crate::Domain::complete`] gives a permit without a task.
#[derive(Clone, Copy, Debug, PartialEq, Eq)]
pub struct Completion {
    number: u8,
}

impl Completion {
    /// The one of a number below 64. A constant of another number does not compile; else it panics.
    ///
    /// ```compile_fail
    /// const DONE: sugwelan::Completion = sugwelan::Completion::new(64);
    /// # println!("{DONE:?}");
    /// ```
    pub const fn new(number: u8) -> Completion {
        assert!(number < COMPLETIONS, "a Domain has completions below 64");
        Completion { number }
    }

    pub(crate) fn call(self, kind: Kind) -> Call {
        Call::new(kind).at(self.number)
    }

    /// Waits until there is a permit, and takes it. Errors: [`Error::Signal`], [`Error::Full`].
    pub fn wait<'t, S: State>(&self, task: &'t mut impl Lends, _state: S) -> Wait<'t, (), S> {
        task.lent().0.wait_for_completion(self.call(Kind::WaitForCompletion))
    }

    /// Gives one permit more, and wakes the first who waits for one.
    pub fn complete(&self, task: &mut impl Lends) -> Result<(), Error> {
        task.lent().0.of_completion(self.call(Kind::Complete)).map(drop)
    }

    /// Gives permits without end, and wakes all.
    pub fn complete_all(&self, task: &mut impl Lends) -> Result<(), Error> {
        task.lent().0.of_completion(self.call(Kind::CompleteAll)).map(drop)
    }

    /// Takes all permits. No wait may be under way.
    pub fn reinit(&self, task: &mut impl Lends) -> Result<(), Error> {
        task.lent().0.of_completion(self.call(Kind::ReinitCompletion)).map(drop)
    }

    /// Takes a permit where there is one: whether there was.
    pub fn try_wait(&self, task: &mut impl Lends) -> Result<bool, Error> {
        task.lent().0.of_completion(self.call(Kind::TryWaitForCompletion))
    }

    /// Whether there is a permit.
    pub fn is_done(&self, task: &mut impl Lends) -> Result<bool, Error> {
        task.lent().0.of_completion(self.call(Kind::CompletionDone))
    }
}
