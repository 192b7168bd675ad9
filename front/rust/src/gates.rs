//! Calls that wait for the lock of a queue: whoever passes it on goes on with them, so that nobody waits for a thread
//! that does not run, or a future that nobody polls.

use crate::bells::lock;
use crate::raw::{self, Call, Kind, Told, HEADS};
use std::cell::UnsafeCell;
use std::ffi::c_void;
use std::ptr::NonNull;
use std::sync::atomic::{AtomicBool, AtomicI32, AtomicUsize, Ordering::SeqCst};
use std::sync::{Arc, Mutex};

/// With how many calls of others a thread goes on at most, before it hands that on to the last one's thread.
const MOST: u32 = if cfg!(sugwelan_parks_at_once) { 2 } else { 64 };

/// A task of the archive, with what its last stretch told. It is used by the handle that it belongs to; while it waits
/// at a gate, by who has that gate's lock.
pub struct Seat {
    at: NonNull<c_void>,
    pub number: u8,
    told: UnsafeCell<Told>,
    /// What the stretch answered that another thread has made, ...
    answer: AtomicI32,
    /// ... once this is so: it waits at no gate any more.
    over: AtomicBool,
    /// Whether the call is a wait that is left; ...
    leaves: AtomicBool,
    /// ... whether a thread is parked for it, or about to be; ...
    blocks: AtomicBool,
    /// ... and whether that is to go on with those behind it.
    goes_on: AtomicBool,
}

// SAFETY: a task may go to another thread between two calls: no thread is noted in what the pointer leads to, and what
// tasks of one Domain share there are atomic words and a count of tasks that is atomic too.
unsafe impl Send for Seat {}
// SAFETY: the functions that make calls or look at what was told are unsafe, and say who may.
unsafe impl Sync for Seat {}

impl Seat {
    pub fn new(at: NonNull<c_void>, number: u8) -> Seat {
        Seat {
            at,
            number,
            told: UnsafeCell::new(Told::new()),
            answer: AtomicI32::new(raw::DONE),
            over: AtomicBool::new(false),
            leaves: AtomicBool::new(false),
            blocks: AtomicBool::new(false),
            goes_on: AtomicBool::new(false),
        }
    }

    pub fn at(&self) -> *mut c_void {
        self.at.as_ptr()
    }

    /// Makes one stretch of a call.
    ///
    /// # Safety
    /// Nobody else uses the seat meanwhile, and its task was not freed.
    pub unsafe fn stretch(&self, call: &Call) -> i32 {
        let told = self.told.get();
        // SAFETY: as the caller keeps to.
        unsafe {
            (*told).clear();
            raw::sugwelan_call(self.at.as_ptr(), call, told)
        }
    }

    /// What the last stretch told.
    ///
    /// # Safety
    /// Nobody makes a stretch meanwhile.
    pub unsafe fn told(&self) -> &Told {
        // SAFETY: as the caller keeps to.
        unsafe { &*self.told.get() }
    }

    /// Whether the call is one that is left. It is said while the seat waits at no gate.
    pub fn set_leaves(&self, leaves: bool) {
        self.leaves.store(leaves, SeqCst);
    }

    /// The call that goes on with the one that is under way.
    pub fn next(&self) -> Call {
        Call::new(match self.leaves.load(SeqCst) {
            true => Kind::Leave,
            false => Kind::Advance,
        })
    }

    /// Whether another thread has gone on with it.
    pub fn is_over(&self) -> bool {
        self.over.load(SeqCst)
    }
}

/// One that waits, with its ticket.
struct Waiter {
    ticket: u64,
    seat: Arc<Seat>,
}

impl Waiter {
    /// One look whether the ticket is served: what the stretch answered where it went on by that.
    ///
    /// # Safety
    /// The waiter's gate is locked.
    unsafe fn look(&self) -> Option<i32> {
        // SAFETY: as the caller keeps to.
        let (code, ticket) = unsafe { (self.seat.stretch(&self.seat.next()), self.seat.told().ticket) };
        (code != raw::LOCKED || ticket != self.ticket).then_some(code)
    }
}

/// Those that wait for the lock of a queue, by their tickets.
#[derive(Default)]
#[repr(align(64))]
struct Gate {
    count: AtomicUsize,
    waiters: Mutex<Vec<Waiter>>,
}

impl Gate {
    fn put(&self, waiters: &mut Vec<Waiter>, waiter: Waiter) {
        let place = waiters.partition_point(|other| other.ticket < waiter.ticket);
        waiters.insert(place, waiter);
        self.count.store(waiters.len(), SeqCst);
    }

    fn take(&self, waiters: &mut Vec<Waiter>, seat: &Arc<Seat>) {
        waiters.retain(|waiter| !Arc::ptr_eq(&waiter.seat, seat));
        self.count.store(waiters.len(), SeqCst);
    }

    /// Goes on with the first call that waits for the lock: true where the lock was its and is passed on once more, and
    /// that is not handed on to its thread. A future can't be handed it: nobody may poll it.
    fn serve_first(&self, hands_on: bool, rouse: &mut dyn FnMut(&[u8])) -> bool {
        let mut waiters = lock(&self.waiters);
        // SAFETY: the gate is locked.
        let Some(code) = waiters.first().and_then(|first| unsafe { first.look() }) else {
            return false;
        };
        let Waiter { seat, .. } = waiters.remove(0);
        // SAFETY: as before.
        let told = unsafe { seat.told() };
        let (ticket, mut roused) = (told.ticket, told.roused().to_vec());
        let hands_on = hands_on && code != raw::LOCKED && seat.blocks.load(SeqCst);
        // Who sleeps and is left does not stay asleep: who leaves it has to see to that.
        let sleeps = code == raw::PARK && !seat.leaves.load(SeqCst);
        if hands_on || (code != raw::LOCKED && !sleeps) {
            roused.push(seat.number);
        }
        if code == raw::LOCKED {
            self.put(&mut waiters, Waiter { ticket, seat });
        } else {
            self.count.store(waiters.len(), SeqCst);
            seat.answer.store(code, SeqCst);
            seat.goes_on.store(hands_on, SeqCst);
            seat.over.store(true, SeqCst);
        }
        drop(waiters);
        rouse(&roused);
        !hands_on
    }
}

/// The gates of a Domain, one for each queue.
pub struct Gates(Vec<Gate>);

impl Gates {
    pub fn new() -> Gates {
        Gates((0..HEADS).map(|_| Gate::default()).collect())
    }

    /// Goes on with those that wait for a lock that was given back: `rouse` gets whom they woke, and those that are to go
    /// on themselves.
    pub fn follow(&self, passed: u32, rouse: &mut dyn FnMut(&[u8])) {
        if let Some(gate) = self.0.get(passed as usize) {
            let mut served = 1;
            while gate.count.load(SeqCst) != 0 && gate.serve_first(served >= MOST, rouse) {
                served += 1;
            }
        }
    }

    /// Lets a call wait for the lock of a queue. It is among those that wait before its last look, so whoever passes the
    /// lock on behind that look finds it there. Where that look has got the lock, it does not wait, and what its stretch
    /// answered is given. With `blocks` the thread parks for it.
    ///
    /// # Safety
    /// The seat is its caller's, whose it is no more while it waits.
    pub unsafe fn wait(&self, seat: &Arc<Seat>, blocks: bool) -> Option<i32> {
        // SAFETY: as the caller keeps to.
        let told = unsafe { seat.told() };
        let (head, ticket) = (told.head, told.ticket);
        let gate = &self.0[head as usize];
        let mut waiters = lock(&gate.waiters);
        let seat = seat.clone();
        seat.over.store(false, SeqCst);
        seat.blocks.store(blocks, SeqCst);
        gate.put(
            &mut waiters,
            Waiter {
                ticket,
                seat: seat.clone(),
            },
        );
        let own = Waiter { ticket, seat };
        // SAFETY: the gate is locked.
        let code = unsafe { own.look() };
        if code.is_some() {
            gate.take(&mut waiters, &own.seat);
        }
        code
    }

    /// Takes a seat back that waits at the gate of a queue: what the stretch answered that another thread has made, and
    /// whether this one is to go on with those behind it.
    pub fn take_back(&self, head: u32, seat: &Arc<Seat>) -> Option<(i32, bool)> {
        let gate = &self.0[head as usize];
        let mut waiters = lock(&gate.waiters);
        if seat.is_over() {
            return Some((seat.answer.load(SeqCst), seat.goes_on.load(SeqCst)));
        }
        gate.take(&mut waiters, seat);
        None
    }
}
