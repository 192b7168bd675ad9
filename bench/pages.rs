//! Locks that threads take in turn, in plain Rust: a std Mutex; parking_lot's Mutex, given back by its fair unlock, where
//! that crate is there; and a plain lock that hands itself on to the first of its queue. One, two or four threads each
//! take the lock ROUNDS times, add 1 to what it guards, and give it back. It writes `WHO NAME COUNT NANOSECONDS` for each
//! round, and `WHO NAME COUNT passed PASSED`: how often a thread had the lock only after another one that had come for
//! it later.
use std::collections::VecDeque;
use std::sync::atomic::{AtomicBool, Ordering::SeqCst};
use std::sync::Mutex;
use std::thread::{self, Thread};
use std::time::Instant;

/// How often each thread takes the lock in a round.
const ROUNDS: usize = 20_000;

/// How many rounds of each kind are made.
const REPEATS: usize = 10;

/// A lock that guards a count.
trait Lock: Sync {
    /// Takes the lock, adds 1 to the count, and gives the lock back: the count before.
    fn add(&self) -> u64;
}

struct ByMutex {
    count: Mutex<u64>,
}

impl Lock for ByMutex {
    fn add(&self) -> u64 {
        let mut count = self.count.lock().unwrap();
        let before = *count;
        *count += 1;
        before
    }
}

#[cfg(feature = "parking_lot")]
struct ByFairMutex {
    count: parking_lot::Mutex<u64>,
}

#[cfg(feature = "parking_lot")]
impl Lock for ByFairMutex {
    fn add(&self) -> u64 {
        let mut count = self.count.lock();
        let before = *count;
        *count += 1;
        parking_lot::MutexGuard::unlock_fair(count);
        before
    }
}

/// Who waits, first come first; and the count.
struct Queue {
    held: bool,
    count: u64,
    waiters: VecDeque<(Thread, *const AtomicBool)>,
}

// SAFETY: a pointer in the queue is that of a flag of a thread that waits until the flag is set.
unsafe impl Send for Queue {}

/// A lock whose holder hands it on to the first waiter, who holds it from then on, also while it is parked.
struct ByHandOff {
    queue: Mutex<Queue>,
}

impl ByHandOff {
    fn take(&self) {
        let mine = AtomicBool::new(false);
        {
            let mut queue = self.queue.lock().unwrap();
            if !queue.held {
                queue.held = true;
                return;
            }
            queue.waiters.push_back((thread::current(), &mine));
        }
        while !mine.load(SeqCst) {
            thread::park();
        }
    }

    fn give(&self) {
        let mut queue = self.queue.lock().unwrap();
        match queue.waiters.pop_front() {
            None => queue.held = false,
            Some((waiter, flag)) => {
                drop(queue);
                // SAFETY: its thread waits until this store, and the handle is a copy of its own.
                unsafe { (*flag).store(true, SeqCst) };
                waiter.unpark();
            }
        }
    }
}

impl Lock for ByHandOff {
    fn add(&self) -> u64 {
        self.take();
        let before = {
            let mut queue = self.queue.lock().unwrap();
            queue.count += 1;
            queue.count - 1
        };
        self.give();
        before
    }
}

/// How long `threads` threads take for their rounds.
fn time_round(lock: &dyn Lock, threads: usize) -> u128 {
    let start = Instant::now();
    thread::scope(|scope| {
        for _ in 0..threads {
            scope.spawn(|| {
                for _ in 0..ROUNDS {
                    lock.add();
                }
            });
        }
    });
    start.elapsed().as_nanos()
}

/// How often a thread that had come for the lock had it only after one that came later: by the moments at which each
/// thread came, in the order in which they had the lock.
fn passed_over(lock: &dyn Lock, threads: usize) -> usize {
    let start = Instant::now();
    let mut came: Vec<(u64, u128)> = thread::scope(|scope| {
        let all: Vec<_> = (0..threads)
            .map(|_| {
                scope.spawn(|| {
                    let mut came = Vec::with_capacity(ROUNDS);
                    for _ in 0..ROUNDS {
                        let at = start.elapsed().as_nanos();
                        came.push((lock.add(), at));
                    }
                    came
                })
            })
            .collect();
        all.into_iter().flat_map(|one| one.join().unwrap()).collect()
    });
    came.sort_unstable();
    let mut latest = 0;
    let mut passed = 0;
    for (_, at) in came {
        if at < latest {
            passed += 1;
        }
        latest = latest.max(at);
    }
    passed
}

fn report<L: Lock>(who: &str, make: impl Fn() -> L) {
    for threads in [1, 2, 4] {
        for _ in 0..REPEATS {
            let nanoseconds = time_round(&make(), threads);
            println!("{who} lock_{threads} {} {nanoseconds}", threads * ROUNDS);
        }
        let passed = passed_over(&make(), threads);
        println!("{who} lock_{threads} {} passed {passed}", threads * ROUNDS);
    }
}

fn main() {
    report("mutex", || ByMutex { count: Mutex::new(0) });
    #[cfg(feature = "parking_lot")]
    report("fair", || ByFairMutex { count: parking_lot::Mutex::new(0) });
    report("handoff", || ByHandOff {
        queue: Mutex::new(Queue { held: false, count: 0, waiters: VecDeque::new() }),
    });
}
