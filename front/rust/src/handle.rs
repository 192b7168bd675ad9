//! Tasks of the archive, and the Domain that they share.

use crate::bells::{lock, Bells, Panic, Sleeper};
use crate::gates::{Gates, Seat};
use crate::raw::{self, Call, Kind, Told};
use crate::{Error, Signal};
use std::ffi::c_void;
use std::panic::resume_unwind;
use std::ptr::{self, NonNull};
use std::sync::{Arc, Mutex};
use std::thread;

/// How often a handle looks whether its ticket of the lock of a queue is served before others go on with its call; and
/// how often whether they have before it is left to them. With `--cfg sugwelan_parks_at_once`, for tests, never.
const TRIES: u32 = if cfg!(sugwelan_parks_at_once) { 0 } else { 50 };
const WATCHES: u32 = if cfg!(sugwelan_parks_at_once) { 0 } else { 200 };

/// A task of the archive. When it is dropped it is given up there; one that keeps a bit stays, with its Domain.
pub struct Handle {
    seat: Arc<Seat>,
    /// The queue for whose lock its call waits: whoever passes that on goes on with it.
    gate: Option<u32>,
    /// Whether a thread parks where it waits; else a future is polled again.
    pub blocks: bool,
}

impl Drop for Handle {
    fn drop(&mut self) {
        // SAFETY: the handle was given out, and is used no more. Where it is refused, the block stays as it is: so it is
        // while a call waits at a gate.
        unsafe { raw::sugwelan_free(self.seat.at()) };
    }
}

impl Handle {
    /// A Domain's first one.
    fn first() -> Result<Handle, Error> {
        let mut at = ptr::null_mut();
        // SAFETY: the pointer is that of a place for a handle.
        match unsafe { raw::sugwelan_new(&mut at) } {
            0 => Handle::of(at),
            code => Err(Error::of(code)),
        }
    }

    /// A further one, which has no numbers to give out.
    fn fork(&mut self) -> Result<Handle, Error> {
        let mut at = ptr::null_mut();
        // SAFETY: the handle was given out, `&mut self` excludes other calls on it, and the pointer is that of a place.
        match unsafe { raw::sugwelan_fork(self.seat.at(), 0, &mut at) } {
            0 => Handle::of(at),
            code => Err(Error::of(code)),
        }
    }

    fn of(at: *mut c_void) -> Result<Handle, Error> {
        let at = NonNull::new(at).ok_or(Error::Memory)?;
        let first = Seat::new(at, 0);
        // SAFETY: the task was given out, and nobody else knows it yet.
        let number = unsafe {
            first.stretch(&Call::new(Kind::Number));
            first.told().value
        };
        let number = u8::try_from(number).map_err(|_| Error::Invalid)?;
        Ok(Handle {
            seat: Arc::new(Seat::new(at, number)),
            gate: None,
            blocks: true,
        })
    }

    pub fn number(&self) -> u8 {
        self.seat.number
    }

    /// Whether its call waits for the lock of a queue.
    pub fn is_at_gate(&self) -> bool {
        self.gate.is_some()
    }

    /// What the last stretch told, of a call that is over.
    pub fn told(&self) -> &Told {
        // SAFETY: a call that is over waits at no gate, and `&self` excludes stretches by the handle.
        unsafe { self.seat.told() }
    }

    /// One stretch of a call, where none waits at a gate.
    fn call(&mut self, call: &Call) -> i32 {
        // SAFETY: the handle was given out, `&mut self` excludes other calls on it, and it waits at no gate.
        unsafe { self.seat.stretch(call) }
    }

    /// One stretch of a call: those are roused whom it woke, and who waits for the lock that it gave back is served.
    fn stretch(&mut self, gates: &Gates, call: &Call, rouse: &mut dyn FnMut(&[u8])) -> i32 {
        let code = self.call(call);
        rouse(self.told().roused());
        gates.follow(self.told().passed, rouse);
        code
    }

    /// Begins a call or goes on with one, until it is over, or it waits: None. It waits asleep, or for the lock of a
    /// queue, which others pass on to it and take from it: whoever gives that lock back goes on with it, so nobody waits
    /// for who is not there. It goes on once its task was roused. After each stretch those are handed to `rouse` whom it
    /// woke. A wait that is left once goes on so to its end.
    pub fn drive(&mut self, gates: &Gates, call: Call, rouse: &mut dyn FnMut(&[u8])) -> Option<Result<(), Error>> {
        let back = self.take_back(gates, rouse);
        if call.kind != Kind::Advance {
            self.seat.set_leaves(call.kind == Kind::Leave);
        }
        let mut code = match back {
            Some(code) => code,
            None => self.stretch(gates, &call, rouse),
        };
        loop {
            code = match code {
                raw::DONE => return Some(Ok(())),
                raw::PARK => return None,
                raw::AGAIN => self.stretch(gates, &self.seat.next(), rouse),
                raw::LOCKED => self.pass_lock(gates, rouse)?,
                code => return Some(Err(Error::of(code))),
            };
        }
    }

    /// Takes the call back that waits at a gate: what the stretch answered that another has made. Who was put asleep by
    /// that may have been woken since, and goes on.
    fn take_back(&mut self, gates: &Gates, rouse: &mut dyn FnMut(&[u8])) -> Option<i32> {
        let head = self.gate.take()?;
        let (code, goes_on) = gates.take_back(head, &self.seat)?;
        if goes_on {
            gates.follow(head, rouse);
        }
        Some(if code == raw::PARK { raw::AGAIN } else { code })
    }

    /// Goes on with a call that waits for a lock: looks some times whether its ticket is served, and then leaves it to
    /// others, and watches some times whether they have gone on. None: it waits at its gate.
    fn pass_lock(&mut self, gates: &Gates, rouse: &mut dyn FnMut(&[u8])) -> Option<i32> {
        let (ticket, head) = (self.told().ticket, self.told().head);
        for _ in 0..TRIES {
            std::hint::spin_loop();
            let code = self.stretch(gates, &self.seat.next(), rouse);
            if code != raw::LOCKED || self.told().ticket != ticket {
                return Some(code);
            }
        }
        // SAFETY: the seat is this handle's, which uses it no more before it has taken it back.
        if let Some(code) = unsafe { gates.wait(&self.seat, self.blocks) } {
            rouse(self.told().roused());
            gates.follow(self.told().passed, rouse);
            return Some(code);
        }
        self.gate = Some(head);
        for _ in 0..WATCHES {
            if self.seat.is_over() {
                return self.take_back(gates, rouse);
            }
            std::hint::spin_loop();
        }
        None
    }
}

/// What the tasks of a Domain share beside the Domain itself.
pub struct Shared {
    pub bells: Bells,
    pub gates: Gates,
    /// The first task, by which further ones are made, signals raised, and calls made for who has no task at hand.
    home: Mutex<Handle>,
    /// Tasks that were given up clean, for who wants one next.
    spare: Mutex<Vec<Handle>>,
}

impl Shared {
    pub fn new() -> Result<Arc<Shared>, Error> {
        Ok(Arc::new(Shared {
            bells: Bells::new(),
            gates: Gates::new(),
            home: Mutex::new(Handle::first()?),
            spare: Mutex::default(),
        }))
    }

    /// A task that was given up, or else a further one. Signals that were raised of its number before are gone.
    pub fn take(&self) -> Result<Handle, Error> {
        let spare = lock(&self.spare).pop();
        let mut handle = match spare {
            Some(handle) => handle,
            None => lock(&self.home).fork()?,
        };
        let mut raised = self.bells.raised(handle.number());
        *raised = None;
        handle.call(&Call::new(Kind::TakeSignal));
        drop(raised);
        Ok(handle)
    }

    /// Makes a call that puts nobody asleep. Its thread parks while it waits for a lock.
    pub fn drive_to_end(&self, handle: &mut Handle, call: Call, rouse: &mut dyn FnMut(&[u8])) -> Result<(), Error> {
        let mut end = handle.drive(&self.gates, call, rouse);
        loop {
            if let Some(end) = end {
                return end;
            }
            if self.bells.listen(handle.number(), Sleeper::Thread(thread::current())) {
                thread::park();
            }
            end = handle.drive(&self.gates, Call::new(Kind::Advance), rouse);
        }
    }

    /// Takes a task back that keeps nothing and is in no call.
    pub fn give(&self, handle: Handle) {
        lock(&self.spare).push(handle);
    }

    /// Makes a call by the first task: what it told, by `give`. Those whom it woke are roused once no lock is kept any
    /// more, since a waker may make such a call itself.
    pub fn by_home<T>(&self, call: Call, give: impl FnOnce(&Told) -> T) -> Result<T, Error> {
        let mut roused = Vec::new();
        let answer = {
            self.bells.ties.begin(&call);
            let mut home = lock(&self.home);
            let end = self.drive_to_end(&mut home, call, &mut |numbers| roused.extend_from_slice(numbers));
            end.map(|()| give(home.told()))
        };
        rethrow(self.bells.ring_all(&roused));
        answer
    }

    /// Wakes a task by the first one: whether it slept or was about to.
    pub fn kick(&self, number: u8) -> Result<bool, Error> {
        self.by_home(Call::new(Kind::WakeUpProcess).at(number), |told| told.value != 0)
    }

    /// Raises a signal of a task, for its user.
    pub fn raise(&self, number: u8, signal: Signal) -> Result<(), Error> {
        let mut roused = Vec::new();
        let answer = {
            let mut raised = self.bells.raised(number);
            *raised = (*raised).max(Some(signal));
            let fatal = signal == Signal::Fatal;
            let call = Call::new(Kind::RaiseSignal).at(number).and(fatal.into());
            self.bells.ties.begin(&call);
            self.drive_to_end(&mut lock(&self.home), call, &mut |numbers| {
                roused.extend_from_slice(numbers)
            })
        };
        rethrow(self.bells.ring_all(&roused));
        answer
    }

    /// Wakes a task whose wait is left by the thread that calls: so nobody is to be roused.
    pub fn kick_to_leave(&self, number: u8) -> Result<(), Error> {
        let call = Call::new(Kind::WakeUpProcess).at(number);
        self.drive_to_end(&mut lock(&self.home), call, &mut |_| ())
    }
}

/// Goes on with a waker's panic, but where the thread is in one already.
pub fn rethrow(panic: Option<Panic>) {
    if let Some(panic) = panic {
        if !thread::panicking() {
            resume_unwind(panic);
        }
    }
}
