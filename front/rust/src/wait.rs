//! A call that may wait: it blocks its thread, or is a future.

use crate::bells::Sleeper;
use crate::raw::Call;
use crate::states::State;
use crate::{Error, Task};
use std::future::Future;
use std::marker::PhantomData;
use std::pin::Pin;
use std::task::{Context, Poll};
use std::thread;
use std::time::{Duration, Instant};

/// How far a wait has come.
#[derive(Clone, Copy, PartialEq, Eq)]
enum Stage {
    New,
    UnderWay,
    Over,
}

/// A call that may wait. It is begun by [`Wait::block`] or [`Wait::timeout`], or when it is polled first. One that is
/// dropped before it is over is left, in each state: its entry is taken off the queue, and what it got meanwhile is
/// handed on, so that nobody else loses a wake.
#[must_use = "a wait is begun by block, timeout or await"]
pub struct Wait<'t, T, S: State> {
    task: &'t mut Task,
    call: Call,
    give: fn(u64) -> T,
    stage: Stage,
    listens: bool,
    state: PhantomData<S>,
}

impl<'t, T, S: State> Wait<'t, T, S> {
    pub(crate) fn new(task: &'t mut Task, call: Call, give: fn(u64) -> T) -> Wait<'t, T, S> {
        Wait {
            task,
            call,
            give,
            stage: Stage::New,
            listens: false,
            state: PhantomData,
        }
    }

    /// Parks the thread until the call is over.
    ///
    /// Where it woke tasks whose wakers panic, it panics at its end, and has handed on what it got.
    pub fn block(mut self) -> Result<T, Error> {
        loop {
            if let Some(end) = self.go_on() {
                return end;
            }
            if self.task.listen(Sleeper::Thread(thread::current())) {
                thread::park();
            }
        }
    }

    /// Parks the thread until the call is over, and so long at most: then the wait is left. What it got meanwhile it
    /// has; else the error is [`Error::TimedOut`], and it keeps nothing and takes nothing from those who wait on. With
    /// a limit of 0 it looks whether it has to wait, and goes on at once. It ends later than its limit by what the
    /// thread waits for a processor and for the lock of the queue.
    ///
    /// ```
    /// use std::time::Duration;
    /// use sugwelan::{Domain, Error, Uninterruptible};
    ///
    /// let mut task = Domain::new()?.task()?;
    /// let limit = Duration::from_millis(1);
    /// assert_eq!(task.wait_event(0, Uninterruptible).timeout(limit), Err(Error::TimedOut));
    /// # Ok::<(), Error>(())
    /// ```
    ///
    /// Where it woke tasks whose wakers panic, it panics at its end, and has handed on what it got.
    pub fn timeout(mut self, limit: Duration) -> Result<T, Error> {
        let Some(until) = Instant::now().checked_add(limit) else {
            return self.block();
        };
        loop {
            if let Some(end) = self.go_on() {
                return end;
            }
            let left = until.saturating_duration_since(Instant::now());
            if left.is_zero() {
                return self.leave();
            }
            if self.task.listen(Sleeper::Thread(thread::current())) {
                thread::park_timeout(left);
            }
        }
    }

    /// Goes on until the call is over, or its task asleep: None.
    fn go_on(&mut self) -> Option<Result<T, Error>> {
        let end = match self.stage {
            Stage::New => self.task.begin_wait(self.call),
            Stage::UnderWay => self.task.go_on(),
            Stage::Over => Some(Err(Error::Over)),
        };
        self.stage = Stage::UnderWay;
        end.map(|end| self.end(end))
    }

    /// Leaves the call, which is under way.
    fn leave(&mut self) -> Result<T, Error> {
        self.task.forget();
        let end = self.task.leave_to_end();
        self.end(end)
    }

    /// The call is over.
    fn end(&mut self, end: Result<(), Error>) -> Result<T, Error> {
        self.stage = Stage::Over;
        let end = end.map(|()| (self.give)(self.task.value()));
        self.task.rethrow_at_end(&self.call, end.is_ok());
        end
    }
}

impl<T, S: State> Future for Wait<'_, T, S> {
    type Output = Result<T, Error>;

    /// Never waits for another future: it goes on until the task is asleep in its queue, or waits for the lock of one, and
    /// then others go on with it.
    fn poll(self: Pin<&mut Self>, context: &mut Context<'_>) -> Poll<Self::Output> {
        let wait = self.get_mut();
        loop {
            wait.task.set_blocks(false);
            let end = wait.go_on();
            wait.task.set_blocks(true);
            if let Some(end) = end {
                return Poll::Ready(end);
            }
            wait.task.rethrow();
            wait.listens = true;
            if wait.task.listen(Sleeper::Future(context.waker().clone())) {
                return Poll::Pending;
            }
        }
    }
}

impl<T, S: State> Drop for Wait<'_, T, S> {
    fn drop(&mut self) {
        if self.listens {
            self.task.forget();
        }
        if self.stage == Stage::UnderWay {
            self.task.leave();
            self.task.rethrow();
        }
    }
}
