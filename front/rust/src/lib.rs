//! Wait queues, completions, locks by bits and pages: the calls of the Linux kernel, proved to lose no wakeup, for
//! threads and for futures. What is proved is the archive beneath; this crate, which parks and rouses, is tested.
//!
//! A [`Domain`] has 64 conditions, 128 variables, 128 words of 64 bits, 128 pages and 64 completions, all 0 at first,
//! and up to 255 [`Task`]s at a time. A thread or a future makes its calls by a task of its own. A call that may wait
//! is a [`Wait`]: [`Wait::block`] parks the thread until it is over, and `.await` lets an executor go on with other
//! work.
//!
//! ```
//! use sugwelan::{Domain, Uninterruptible};
//!
//! let domain = Domain::new()?;
//! let (mut waiter, mut setter) = (domain.task()?, domain.task()?);
//! std::thread::scope(|scope| {
//!     scope.spawn(move || waiter.wait_event(0, Uninterruptible).block());
//!     setter.set_and_wake(0, 7, 0)
//! })?;
//! # Ok::<(), sugwelan::Error>(())
//! ```
//!
//! The rule for wakers: change the condition, then wake. The rule for waiters: the end of a wait says that the
//! condition was set, and not that it still is; who takes it tests what it has got.
//!
//! # A future that is dropped in mid-wait
//!
//! It is left, in each state: its entry goes off the queue. Where it has got a bit, a page or a permit meanwhile, that
//! is given back, and where a wake had selected it, the next one is woken. So who gives a wait up, as `select!`, a
//! timeout or an abort do, takes nothing from anybody else, and the task makes further calls. No signal is raised for
//! that. The drop may wait for a queue's lock, and parks for nobody.
//!
//! A future that is forgotten ([`std::mem::forget`]) is left with the next call of its task, or with the task; until
//! then its entry stands in its queue, and may be selected.
//!
//! # A wait with a limit
//!
//! [`Wait::timeout`] parks the thread so long at most, and leaves the wait then. Time is of this crate alone: no law of
//! the archive speaks of it.
//!
//! # Wakers that panic
//!
//! All others are roused first, and the call that woke comes to its end; then it panics. A wait that panics so has
//! handed on what it got.
//!
//! # What is yours to keep
//!
//! Calls are not for signal handlers, and a Domain not for both sides of a `fork(2)`. A checker of races
//! (`-Zsanitizer=thread`) does not see what the archive orders: pass `--cfg sugwelan_checks_races` too, and build std
//! with it (`-Zbuild-std`).

mod bells;
mod bit_lock;
mod completion;
mod domain;
mod error;
mod gates;
mod handle;
mod lent;
mod mutex;
mod page;
mod races;
mod raw;
mod states;
mod task;
mod wait;

pub use bit_lock::{Bit, BitGuard, BitLock};
pub use completion::Completion;
pub use domain::Domain;
pub use error::Error;
pub use lent::{Lends, Lent};
pub use mutex::{Mutex, MutexGuard};
pub use page::{Page, PageGuard, PageLock};
pub use states::{Interruptible, Killable, Signal, Simple, State, Uninterruptible};
pub use task::{End, Mode, Task, Walked};
pub use wait::Wait;
