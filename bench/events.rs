//! The same round trips, wakes and single calls in plain Rust, by a std Mutex and Condvar, and by a raw futex; and
//! round trips by permits, one count under a Mutex with a Condvar, and one as a semaphore on a futex. Each of them
//! parks at once, or looks first as often as a task of a Domain. It writes `WHO NAME COUNT NANOSECONDS`. With the word
//! `trips` it makes round trips alone.
use std::hint::{black_box, spin_loop};
use std::sync::atomic::{AtomicU32, Ordering::SeqCst};
use std::sync::{Condvar, Mutex};
use std::thread;
use std::time::{Duration, Instant};

/// How often a waiter looks before it parks, where it looks first.
const TRIES: u32 = 400;

/// How long the waker leaves the waiters to go to sleep.
const PAUSE: Duration = Duration::from_millis(30);

/// What is set, and waited for by any number of threads.
trait Event: Sync + Default {
    /// Sets it, and wakes all who wait.
    fn set(&self);

    /// Waits until it is set.
    fn wait(&self);

    /// Waits until it is set, and takes it.
    fn receive(&self);
}

#[derive(Default)]
struct ByCondvar {
    set: Mutex<bool>,
    changed: Condvar,
}

impl Event for ByCondvar {
    fn set(&self) {
        *self.set.lock().unwrap() = true;
        self.changed.notify_all();
    }

    fn wait(&self) {
        let set = self.set.lock().unwrap();
        drop(self.changed.wait_while(set, |set| !*set).unwrap());
    }

    fn receive(&self) {
        let set = self.set.lock().unwrap();
        *self.changed.wait_while(set, |set| !*set).unwrap() = false;
    }
}

/// Looks at a word until it is 1: true where it was.
fn look(word: &AtomicU32) -> bool {
    for _ in 0..TRIES {
        if word.load(SeqCst) == 1 {
            return true;
        }
        spin_loop();
    }
    false
}

/// One whose waiters look at its word before they take the lock.
#[derive(Default)]
struct ByLookedCondvar {
    word: AtomicU32,
    lock: Mutex<()>,
    changed: Condvar,
}

impl Event for ByLookedCondvar {
    fn set(&self) {
        let held = self.lock.lock().unwrap();
        self.word.store(1, SeqCst);
        drop(held);
        self.changed.notify_all();
    }

    fn wait(&self) {
        if look(&self.word) {
            return;
        }
        let held = self.lock.lock().unwrap();
        drop(self.changed.wait_while(held, |_| self.word.load(SeqCst) == 0).unwrap());
    }

    fn receive(&self) {
        self.wait();
        self.word.store(0, SeqCst);
    }
}

unsafe extern "C" {
    fn syscall(number: i64, ...) -> i64;
}

const SYS_FUTEX: i64 = 202;
const FUTEX_WAIT_PRIVATE: i32 = 128;
const FUTEX_WAKE_PRIVATE: i32 = 129;

fn park(word: &AtomicU32, found: u32) {
    // SAFETY: the word lives as long as the call, and the kernel only reads it.
    unsafe { syscall(SYS_FUTEX, word.as_ptr(), FUTEX_WAIT_PRIVATE, found, 0usize) };
}

fn rouse(word: &AtomicU32, most: i32) {
    // SAFETY: as above.
    unsafe { syscall(SYS_FUTEX, word.as_ptr(), FUTEX_WAKE_PRIVATE, most) };
}

fn rouse_all(word: &AtomicU32) {
    rouse(word, i32::MAX);
}

fn rouse_one(word: &AtomicU32) {
    rouse(word, 1);
}

/// A word that is 1 where it is set, and 2 where it is not and a thread may park on it.
#[derive(Default)]
struct ByFutex {
    word: AtomicU32,
}

impl Event for ByFutex {
    fn set(&self) {
        if self.word.swap(1, SeqCst) == 2 {
            rouse_all(&self.word);
        }
    }

    fn wait(&self) {
        loop {
            let found = self.word.load(SeqCst);
            if found == 1 {
                return;
            }
            if found == 2 || self.word.compare_exchange(0, 2, SeqCst, SeqCst).is_ok() {
                park(&self.word, 2);
            }
        }
    }

    fn receive(&self) {
        self.wait();
        self.word.store(0, SeqCst);
    }
}

/// The same, whose waiters look first.
#[derive(Default)]
struct ByLookedFutex {
    futex: ByFutex,
}

impl Event for ByLookedFutex {
    fn set(&self) {
        self.futex.set();
    }

    fn wait(&self) {
        if !look(&self.futex.word) {
            self.futex.wait();
        }
    }

    fn receive(&self) {
        self.wait();
        self.futex.word.store(0, SeqCst);
    }
}

/// A count of permits, of which each waiter takes one: a wait for it leaves it as it is.
#[derive(Default)]
struct PermitsByCondvar {
    count: Mutex<u32>,
    changed: Condvar,
}

impl Event for PermitsByCondvar {
    fn set(&self) {
        *self.count.lock().unwrap() += 1;
        self.changed.notify_one();
    }

    fn wait(&self) {
        let count = self.count.lock().unwrap();
        drop(self.changed.wait_while(count, |count| *count == 0).unwrap());
    }

    fn receive(&self) {
        let count = self.count.lock().unwrap();
        *self.changed.wait_while(count, |count| *count == 0).unwrap() -= 1;
    }
}

/// The same as a semaphore: a word that counts the permits, and beside it how many may be parked on that word.
#[derive(Default)]
struct PermitsByFutex {
    count: AtomicU32,
    parked: AtomicU32,
}

impl Event for PermitsByFutex {
    fn set(&self) {
        self.count.fetch_add(1, SeqCst);
        if self.parked.load(SeqCst) > 0 {
            rouse_one(&self.count);
        }
    }

    fn wait(&self) {
        while self.count.load(SeqCst) == 0 {
            self.parked.fetch_add(1, SeqCst);
            park(&self.count, 0);
            self.parked.fetch_sub(1, SeqCst);
        }
    }

    fn receive(&self) {
        loop {
            self.wait();
            let found = self.count.load(SeqCst);
            if found > 0 && self.count.compare_exchange(found, found - 1, SeqCst, SeqCst).is_ok() {
                return;
            }
        }
    }
}

/// `n` round trips of two threads.
fn trips<E: Event>(who: &str, name: &str, n: u64) {
    let there = E::default();
    let back = E::default();
    let start = Instant::now();
    thread::scope(|scope| {
        scope.spawn(|| {
            for _ in 0..n {
                there.receive();
                back.set();
            }
        });
        for _ in 0..n {
            there.set();
            back.receive();
        }
    });
    println!("{who} {name} {n} {}", start.elapsed().as_nanos());
}

/// One wake of `count` threads that sleep: the call, and the time until the last of them has gone on.
fn wake<E: Event>(who: &str, count: usize) {
    let event = E::default();
    let (start, call, last) = thread::scope(|scope| {
        let waiters: Vec<_> = (0..count)
            .map(|_| {
                scope.spawn(|| {
                    event.wait();
                    Instant::now()
                })
            })
            .collect();
        thread::sleep(PAUSE);
        let start = Instant::now();
        event.set();
        let call = start.elapsed();
        let last = waiters.into_iter().map(|waiter| waiter.join().unwrap()).max().unwrap();
        (start, call, last)
    });
    println!("{who} wake_{count} 1 {}", call.as_nanos());
    println!("{who} last_{count} 1 {}", last.duration_since(start).as_nanos());
}

/// `n` sets that find nobody who waits, and then `n` waits for what is set.
fn alone<E: Event>(who: &str, n: u64) {
    let event = E::default();
    let start = Instant::now();
    for _ in 0..n {
        black_box(&event).set();
    }
    println!("{who} set {n} {}", start.elapsed().as_nanos());
    let start = Instant::now();
    for _ in 0..n {
        black_box(&event).wait();
    }
    println!("{who} wait {n} {}", start.elapsed().as_nanos());
}

fn main() {
    let only_trips = std::env::args().nth(1).is_some_and(|word| word == "trips");
    for _ in 0..10 {
        trips::<ByCondvar>("condvar", "trip_parked", 2_000);
        trips::<ByLookedCondvar>("condvar", "trip_looked", 2_000);
        trips::<ByFutex>("futex", "trip_parked", 2_000);
        trips::<ByLookedFutex>("futex", "trip_looked", 2_000);
        trips::<PermitsByCondvar>("condvar", "permit_parked", 2_000);
        trips::<PermitsByFutex>("futex", "permit_parked", 2_000);
        if only_trips {
            continue;
        }
        for count in [8, 64] {
            wake::<ByCondvar>("condvar", count);
            wake::<ByFutex>("futex", count);
        }
        alone::<ByCondvar>("condvar", 100_000);
        alone::<ByFutex>("futex", 100_000);
    }
}
