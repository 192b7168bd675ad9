//! A bell for each task of a Domain: who waits leaves word whom to rouse, and who wakes rings.

use crate::races::Ties;
use crate::raw::TASKS;
use crate::Signal;
use std::any::Any;
use std::panic::{catch_unwind, AssertUnwindSafe};
use std::sync::atomic::{AtomicBool, Ordering::SeqCst};
use std::sync::{Mutex, MutexGuard, PoisonError};
use std::task::Waker;
use std::thread::Thread;

/// What a waker panicked with.
pub type Panic = Box<dyn Any + Send>;

/// Locks, also where a thread has panicked in the lock: what is under it here is whole at any time.
pub fn lock<T>(mutex: &Mutex<T>) -> MutexGuard<'_, T> {
    mutex.lock().unwrap_or_else(PoisonError::into_inner)
}

/// Whom a bell rouses.
pub enum Sleeper {
    Thread(Thread),
    Future(Waker),
}

impl Sleeper {
    fn rouse(self) {
        match self {
            Sleeper::Thread(thread) => thread.unpark(),
            Sleeper::Future(waker) => waker.wake(),
        }
    }
}

/// On a cache line of its own, so that bells of several processors are not in each other's way.
#[derive(Default)]
#[repr(align(64))]
struct Bell {
    rung: AtomicBool,
    sleeper: Mutex<Option<Sleeper>>,
    /// The worst signal of the task that was raised and that it has not taken. It is locked while a signal of the task
    /// is raised or taken.
    raised: Mutex<Option<Signal>>,
}

impl Bell {
    /// Puts another sleeper in place of the one that it had.
    fn exchange(&self, sleeper: Option<Sleeper>) -> Option<Sleeper> {
        let mut place = lock(&self.sleeper);
        std::mem::replace(&mut place, sleeper)
    }

    fn ring(&self) {
        self.rung.store(true, SeqCst);
        if let Some(sleeper) = self.exchange(None) {
            sleeper.rouse();
        }
    }
}

/// The bells of a Domain, and what a checker of races is told.
pub struct Bells {
    of: Vec<Bell>,
    pub ties: Ties,
}

impl Bells {
    pub fn new() -> Bells {
        Bells {
            of: (0..TASKS).map(|_| Bell::default()).collect(),
            ties: Ties::new(),
        }
    }

    fn at(&self, number: u8) -> &Bell {
        &self.of[usize::from(number)]
    }

    /// Rings the bells of tasks: all of them, also where a waker panics. What the first one panicked with is given back.
    pub fn ring_all(&self, numbers: &[u8]) -> Option<Panic> {
        let mut panic = None;
        for number in numbers {
            let rung = catch_unwind(AssertUnwindSafe(|| self.at(*number).ring()));
            panic = panic.or(rung.err());
        }
        panic
    }

    /// Leaves word whom the next ring is to rouse: false where the bell was rung since the last such word, and the
    /// task is to go on at once.
    pub fn listen(&self, number: u8, sleeper: Sleeper) -> bool {
        let bell = self.at(number);
        drop(bell.exchange(Some(sleeper)));
        !bell.rung.swap(false, SeqCst)
    }

    /// Takes the word back.
    pub fn forget(&self, number: u8) {
        drop(self.at(number).exchange(None));
    }

    /// The signal of a task that was raised, under its lock.
    pub fn raised(&self, number: u8) -> MutexGuard<'_, Option<Signal>> {
        lock(&self.at(number).raised)
    }
}
