//! Tasks, and their calls.

use crate::bells::{Panic, Sleeper};
use crate::handle::{rethrow, Handle, Shared};
use crate::raw::{Call, Kind, Told};
use crate::states::{Simple, State};
use crate::{Bit, Domain, Error, Page, Signal, Wait};
use std::fmt;
use std::mem::ManuallyDrop;
use std::sync::Arc;
use std::thread;

/// Whom a wake meets.
#[derive(Clone, Copy, Debug, PartialEq, Eq)]
#[repr(u32)]
pub enum Mode {
    /// Sleepers in each state.
    Normal = 0,
    /// Interruptible sleepers alone.
    Interruptible = 1,
}

/// Where a wake ended.
#[derive(Clone, Copy, Debug, PartialEq, Eq)]
pub enum End {
    /// Behind the last entry of the queue.
    Last,
    /// It had selected as many exclusive waiters as its count said.
    Spent,
    /// An entry stopped it: its bit was set again, or its page taken.
    Stopped,
}

/// What a wake did.
#[derive(Clone, Copy, Debug, PartialEq, Eq)]
pub struct Walked {
    /// How many tasks it woke.
    pub woken: u32,
    /// How many of them by exclusive entries.
    pub selected: u32,
    /// How often it held the queue. A wake for a variable, a bit or a page holds it only where somebody is queued; one
    /// for a condition holds it at least once.
    pub holds: u32,
    /// Where it ended.
    pub end: End,
}

impl Walked {
    pub(crate) fn of(told: &Told) -> Walked {
        let end = match told.end {
            1 => End::Spent,
            2 => End::Stopped,
            _ => End::Last,
        };
        Walked {
            woken: told.woken,
            selected: told.selected,
            holds: told.holds,
            end,
        }
    }
}

/// A task of a [`Domain`]. It may be sent to another thread; one thread at a time makes its calls, as `&mut self`
/// says. When it is dropped, it goes back to its Domain, for who wants a task next; one that keeps a bit or a page does
/// not, and stays with the memory of its Domain: [`Task::close`] says so.
pub struct Task {
    handle: ManuallyDrop<Handle>,
    shared: Arc<Shared>,
    /// How many bits and pages it keeps.
    kept: u32,
    /// The wait that is under way. It is left where its future is dropped, and where that was forgotten, with the next
    /// call.
    under_way: Option<Call>,
    /// What a waker panicked with during a call that was to come to its end first.
    panic: Option<Panic>,
    /// It makes no more calls.
    starved: bool,
}

impl fmt::Debug for Task {
    fn fmt(&self, out: &mut fmt::Formatter<'_>) -> fmt::Result {
        out.debug_struct("Task")
            .field("number", &self.number())
            .finish_non_exhaustive()
    }
}

impl Drop for Task {
    fn drop(&mut self) {
        self.leave();
        // SAFETY: the handle is used no more.
        let handle = unsafe { ManuallyDrop::take(&mut self.handle) };
        if self.is_clean() {
            self.shared.give(handle);
        }
        self.rethrow();
    }
}

// Making calls.
impl Task {
    pub(crate) fn of(handle: Handle, shared: Arc<Shared>) -> Task {
        Task {
            handle: ManuallyDrop::new(handle),
            shared,
            kept: 0,
            under_way: None,
            panic: None,
            starved: false,
        }
    }

    /// Whether another one may go on with the task.
    fn is_clean(&self) -> bool {
        self.kept == 0 && self.under_way.is_none() && !self.starved
    }

    /// Begins a call or goes on with one, until it is over, or the task asleep: None.
    fn drive(&mut self, call: Call) -> Option<Result<(), Error>> {
        let (shared, panic) = (&self.shared, &mut self.panic);
        shared.bells.ties.begin(&call);
        let end = self.handle.drive(&shared.gates, call, &mut |numbers| {
            let broken = shared.bells.ring_all(numbers);
            *panic = panic.take().or(broken);
        });
        self.starved |= end == Some(Err(Error::Starved));
        end
    }

    /// Makes a call to its end that puts nobody asleep. Its thread parks while it waits for the lock of a queue.
    fn drive_to_end(&mut self, call: Call) -> Result<(), Error> {
        let mut end = self.drive(call);
        loop {
            if let Some(end) = end {
                return end;
            }
            self.doze();
            end = self.drive(Call::new(Kind::Advance));
        }
    }

    /// Parks the thread until the task is roused.
    fn doze(&self) {
        if self.listen(Sleeper::Thread(thread::current())) {
            thread::park();
        }
    }

    /// Counts what a call has taken or given back that is over.
    fn count(&mut self, call: &Call) {
        self.shared.bells.ties.end(call, self.value());
        match call.kind {
            Kind::WaitOnBitLock | Kind::LockPage => self.kept += 1,
            Kind::TrylockBit | Kind::TrylockPage => self.kept += u32::from(self.value() != 0),
            Kind::ClearAndWakeUpBit | Kind::UnlockPage => self.kept -= 1,
            _ => {}
        }
    }

    /// A call that puts nobody asleep.
    fn at_once(&mut self, call: Call) -> Result<(), Error> {
        self.leave();
        let end = self.drive_to_end(call);
        if end.is_ok() {
            self.count(&call);
        }
        self.rethrow();
        end
    }

    /// One that gives a value.
    fn finds(&mut self, call: Call) -> Result<u64, Error> {
        self.at_once(call)?;
        Ok(self.value())
    }

    /// One that gives yes or no.
    fn tells(&mut self, call: Call) -> Result<bool, Error> {
        self.finds(call).map(|value| value != 0)
    }

    fn wakes(&mut self, call: Call) -> Result<Walked, Error> {
        self.at_once(call)?;
        Ok(Walked::of(self.handle.told()))
    }

    /// A wake of a simple queue.
    fn selects(&mut self, call: Call) -> Result<u32, Error> {
        self.at_once(call)?;
        Ok(self.handle.told().selected)
    }

    fn waits<S: State>(&mut self, call: Call) -> Wait<'_, (), S> {
        Wait::new(self, call, |_| ())
    }
}

// Waits, for `Wait`.
impl Task {
    /// Begins a wait, and goes on until it is over, or the task asleep: None.
    pub(crate) fn begin_wait(&mut self, call: Call) -> Option<Result<(), Error>> {
        self.leave();
        self.under_way = Some(call);
        self.advance(call)
    }

    /// Goes on with the wait that is under way.
    pub(crate) fn go_on(&mut self) -> Option<Result<(), Error>> {
        self.advance(Call::new(Kind::Advance))
    }

    fn advance(&mut self, call: Call) -> Option<Result<(), Error>> {
        let end = self.drive(call)?;
        match (self.under_way.take(), end) {
            (Some(wait), Ok(())) => self.count(&wait),
            (_, Err(Error::Signal)) => self.shared.bells.ties.signalled(self.number()),
            _ => {}
        }
        Some(end)
    }

    /// Leaves the wait that is under way, of which nobody will be told, and hands on what it got.
    pub(crate) fn leave(&mut self) {
        let Some(call) = self.under_way else { return };
        self.forget();
        if self.leave_to_end().is_ok() {
            self.hand_on(&call);
        }
    }

    /// Leaves the wait that is under way: what it got meanwhile it has, else [`Error::TimedOut`]. A task that sleeps
    /// makes no step, so the first task of the Domain wakes it. It may be asleep once more then, where others went on
    /// with it before it was left.
    pub(crate) fn leave_to_end(&mut self) -> Result<(), Error> {
        loop {
            if let Some(end) = self.advance(Call::new(Kind::Leave)) {
                return end;
            }
            if self.handle.is_at_gate() {
                self.doze();
            } else {
                self.shared.kick_to_leave(self.number())?;
            }
        }
    }

    /// Hands on what a wait got that nobody will be told of: a bit or a page is given back, a permit too, and a wake
    /// that selected the task goes to the next one.
    fn hand_on(&mut self, wait: &Call) {
        let call = match wait.kind {
            Kind::WaitOnBitLock => wait.of(Kind::ClearAndWakeUpBit),
            Kind::LockPage => Call {
                b: 0,
                ..wait.of(Kind::UnlockPage)
            },
            Kind::WaitForCompletion => Call {
                b: 0,
                ..wait.of(Kind::Complete)
            },
            Kind::SwaitEvent => Call {
                b: 0,
                ..wait.of(Kind::SwakeUpOne)
            },
            Kind::WaitEvent if wait.c != 0 => Call {
                b: 0,
                ..wait.of(Kind::WakeUp)
            }
            .with(1),
            _ => return,
        };
        if self.drive_to_end(call).is_ok() {
            self.count(&call);
        }
    }

    /// Whether the thread parks where the task waits, or a future is polled again.
    pub(crate) fn set_blocks(&mut self, blocks: bool) {
        self.handle.blocks = blocks;
    }

    /// The value that the last call gave.
    pub(crate) fn value(&self) -> u64 {
        self.handle.told().value
    }

    /// Leaves word whom to rouse once the task was woken: false where it was already.
    pub(crate) fn listen(&self, sleeper: Sleeper) -> bool {
        self.shared.bells.listen(self.number(), sleeper)
    }

    /// Takes the word back.
    pub(crate) fn forget(&self) {
        self.shared.bells.forget(self.number());
    }

    /// Goes on with a waker's panic, if there was one.
    pub(crate) fn rethrow(&mut self) {
        rethrow(self.panic.take());
    }

    /// The same at the end of a wait, of which nobody will be told what it got.
    pub(crate) fn rethrow_at_end(&mut self, call: &Call, got: bool) {
        if self.panic.is_some() && !thread::panicking() {
            if got {
                self.hand_on(call);
            }
            self.rethrow();
        }
        self.panic = None;
    }
}

// Tasks and signals.
impl Task {
    /// The number of the task in its Domain. Once the task was given up, another one gets it.
    pub fn number(&self) -> u8 {
        self.handle.number()
    }

    /// The Domain of the task.
    pub fn domain(&self) -> Domain {
        Domain {
            shared: self.shared.clone(),
        }
    }

    /// Whether both are of one Domain.
    pub(crate) fn is_of(&self, domain: &Domain) -> bool {
        Arc::ptr_eq(&self.shared, &domain.shared)
    }

    /// A further task of the same Domain, as [`Domain::task`] gives one.
    pub fn fork(&self) -> Result<Task, Error> {
        self.domain().task()
    }

    /// Gives the task up, as a drop does; or says why it can't be, and gives it back: [`Error::Keeps`] while it keeps a
    /// bit or a page.
    pub fn close(mut self) -> Result<(), (Task, Error)> {
        self.leave();
        if self.kept != 0 {
            return Err((self, Error::Keeps));
        }
        Ok(())
    }

    /// Raises a signal of a task, by its number, and wakes it where it sleeps in a state that the signal ends. A number
    /// that no task has is good, too.
    pub fn raise_signal(&self, number: u8, signal: Signal) -> Result<(), Error> {
        self.shared.raise(number, signal)
    }

    /// Wakes a task, by its number, with no signal: true where it slept or was about to. What it waits for it looks at
    /// again, and it sleeps again where that is not so. A number that no task has is good, too.
    pub fn wake_up_process(&self, number: u8) -> Result<bool, Error> {
        self.shared.kick(number)
    }

    /// Takes the signals of the task: which was the worst.
    pub fn take_signal(&mut self) -> Result<Option<Signal>, Error> {
        self.leave();
        let shared = self.shared.clone();
        let mut raised = shared.bells.raised(self.number());
        self.drive_to_end(Call::new(Kind::TakeSignal))?;
        shared.bells.ties.signalled(self.number());
        Ok(raised.take())
    }

    /// The worst signal of the task that it has not taken. A signal ends no call that need not sleep: who works on
    /// without sleeping looks here whether it is to stop.
    pub fn pending_signal(&self) -> Option<Signal> {
        *self.shared.bells.raised(self.number())
    }
}

// Conditions and variables.
impl Task {
    /// Waits until a condition below 48 is set: is not 0. Errors: [`Error::Invalid`], [`Error::Signal`],
    /// [`Error::Full`].
    pub fn wait_event<S: State>(&mut self, condition: u8, _state: S) -> Wait<'_, (), S> {
        self.waits(Call::new(Kind::WaitEvent).at(condition).and(S::NUMBER))
    }

    /// The same, as one of those of whom a wake with a count selects only so many. Errors: as before.
    pub fn wait_event_exclusive<S: State>(&mut self, condition: u8, _state: S) -> Wait<'_, (), S> {
        self.waits(Call::new(Kind::WaitEvent).at(condition).and(S::NUMBER).with(1))
    }

    /// Waits in the simple queue of a condition from 48 on and below 64, not killable. Errors: [`Error::Invalid`],
    /// [`Error::Signal`], [`Error::Full`].
    pub fn swait_event<S: Simple>(&mut self, condition: u8, _state: S) -> Wait<'_, (), S> {
        self.waits(Call::new(Kind::SwaitEvent).at(condition).and(S::NUMBER))
    }

    /// Wakes who waits for a condition below 48: all of them where the count is 0, else all that are not exclusive
    /// before the last of `count` exclusive ones. Errors: [`Error::Invalid`].
    pub fn wake_up(&mut self, condition: u8, mode: Mode, count: u32) -> Result<Walked, Error> {
        self.wakes(Call::new(Kind::WakeUp).at(condition).and(mode as u32).with(count))
    }

    /// Sets a condition below 48 to a value, and wakes as [`Task::wake_up`] does. Errors: [`Error::Invalid`].
    pub fn set_and_wake(&mut self, condition: u8, value: u64, count: u32) -> Result<Walked, Error> {
        self.wakes(Call::new(Kind::SetAndWake).at(condition).with(count).value(value))
    }

    /// Puts 0 in place of a condition's value, which it gives. Errors: [`Error::Invalid`].
    pub fn take_condition(&mut self, condition: u8) -> Result<u64, Error> {
        self.finds(Call::new(Kind::TakeCondition).at(condition))
    }

    /// Sets a condition from 48 on to a value, and wakes the first who waits in its simple queue: how many it took off
    /// the queue, as the three below. Errors: [`Error::Invalid`].
    pub fn set_and_swake_one(&mut self, condition: u8, value: u64) -> Result<u32, Error> {
        self.selects(Call::new(Kind::SetAndSwake).at(condition).value(value))
    }

    /// The same, and wakes all. Errors: [`Error::Invalid`].
    pub fn set_and_swake_all(&mut self, condition: u8, value: u64) -> Result<u32, Error> {
        self.selects(Call::new(Kind::SetAndSwake).at(condition).and(1).value(value))
    }

    /// Wakes the first who waits in a simple queue. Errors: [`Error::Invalid`].
    pub fn swake_up_one(&mut self, condition: u8) -> Result<u32, Error> {
        self.selects(Call::new(Kind::SwakeUpOne).at(condition))
    }

    /// Wakes all who wait in a simple queue. Errors: [`Error::Invalid`].
    pub fn swake_up_all(&mut self, condition: u8) -> Result<u32, Error> {
        self.selects(Call::new(Kind::SwakeUpAll).at(condition))
    }

    /// Waits until a variable differs from `old`, and gives the value that it found. Errors: [`Error::Invalid`],
    /// [`Error::Signal`], [`Error::Full`].
    pub fn wait_var_event<S: State>(&mut self, variable: u8, old: u64, _state: S) -> Wait<'_, u64, S> {
        let call = Call::new(Kind::WaitVarEvent).at(variable).and(S::NUMBER).value(old);
        Wait::new(self, call, |value| value)
    }

    /// Changes a variable from 16 on, and wakes who waits for it. Errors: [`Error::Invalid`].
    pub fn publish_var_and_wake(&mut self, variable: u8, value: u64) -> Result<Walked, Error> {
        self.wakes(Call::new(Kind::PublishVarAndWake).at(variable).value(value))
    }
}

// Bits and pages. Guards give them back when they are dropped: `BitLock`, `PageLock`, `Mutex`.
impl Task {
    /// Waits until a bit is clear, and does not take it. Errors: [`Error::Held`], [`Error::Signal`], [`Error::Full`].
    pub fn wait_on_bit<S: State>(&mut self, bit: Bit, _state: S) -> Wait<'_, (), S> {
        self.waits(bit.call(Kind::WaitOnBit).with(S::NUMBER))
    }

    /// Waits until it has taken a bit. Errors: [`Error::Held`], [`Error::Signal`], [`Error::Full`].
    pub fn wait_on_bit_lock<S: State>(&mut self, bit: Bit, _state: S) -> Wait<'_, (), S> {
        self.waits(bit.call(Kind::WaitOnBitLock).with(S::NUMBER))
    }

    /// Takes a bit where it is clear: whether it was.
    pub fn trylock_bit(&mut self, bit: Bit) -> Result<bool, Error> {
        self.tells(bit.call(Kind::TrylockBit))
    }

    /// Gives a bit back, and wakes who waits for it. Errors: [`Error::NotHeld`].
    pub fn clear_and_wake_up_bit(&mut self, bit: Bit) -> Result<Walked, Error> {
        self.wakes(bit.call(Kind::ClearAndWakeUpBit))
    }

    /// Waits until it has got a page. Errors: [`Error::Held`], [`Error::Signal`], [`Error::Full`].
    pub fn lock_page<S: State>(&mut self, page: Page, _state: S) -> Wait<'_, (), S> {
        self.waits(page.call(Kind::LockPage).and(S::NUMBER))
    }

    /// Takes a page that nobody keeps: whether it has got it.
    pub fn trylock_page(&mut self, page: Page) -> Result<bool, Error> {
        self.tells(page.call(Kind::TrylockPage))
    }

    /// Gives a page back, or over to the first who waits for it. Errors: [`Error::NotHeld`].
    pub fn unlock_page(&mut self, page: Page) -> Result<Walked, Error> {
        self.wakes(page.call(Kind::UnlockPage))
    }

    /// Adds to the tally of a page that the task keeps, and gives the tally before. Errors: [`Error::NotHeld`].
    pub fn add_tally(&mut self, page: Page, amount: u64) -> Result<u64, Error> {
        self.finds(page.call(Kind::AddTally).value(amount))
    }

    /// A call about a completion that gives yes or no.
    pub(crate) fn of_completion(&mut self, call: Call) -> Result<bool, Error> {
        self.tells(call)
    }

    pub(crate) fn wait_for_completion<S: State>(&mut self, call: Call) -> Wait<'_, (), S> {
        self.waits(call.and(S::NUMBER))
    }
}
