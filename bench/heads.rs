//! The same holds in plain Rust: a std Mutex locked and unlocked by one thread, by two and by four; and the steps of a
//! ticket lock that parks, on words of the same kind. It writes `NAME COUNT NANOSECONDS`.
use std::hint::{black_box, spin_loop};
use std::sync::Mutex;
use std::sync::atomic::{AtomicU64, Ordering::SeqCst};
use std::thread;
use std::time::Instant;

/// What both kinds of locks do.
trait Lock: Sync + Default {
    fn hold(&self);
}

impl Lock for Mutex<()> {
    fn hold(&self) {
        drop(black_box(self).lock().unwrap());
    }
}

/// How often a ticket is looked for before its thread parks.
const TRIES: u32 = 20;

#[derive(Default)]
struct TicketLock {
    next: AtomicU64,
    serving: AtomicU64,
    head: AtomicU64,
}

unsafe extern "C" {
    fn syscall(number: i64, ...) -> i64;
}

const SYS_FUTEX: i64 = 202;
const FUTEX_WAIT_PRIVATE: i32 = 128;
const FUTEX_WAKE_PRIVATE: i32 = 129;

impl TicketLock {
    /// Parks while the low half of `serving` is that of `found`.
    fn park(&self, found: u64) {
        let at = self.serving.as_ptr() as *const u32;
        // SAFETY: the word lives as long as the lock, and the kernel only reads it.
        unsafe { syscall(SYS_FUTEX, at, FUTEX_WAIT_PRIVATE, found as u32, 0usize) };
    }

    fn rouse_all(&self) {
        let at = self.serving.as_ptr() as *const u32;
        // SAFETY: as above.
        unsafe { syscall(SYS_FUTEX, at, FUTEX_WAKE_PRIVATE, i32::MAX) };
    }

    fn wait_for(&self, ticket: u64) {
        let mut looks = 0;
        loop {
            let found = self.serving.load(SeqCst);
            if found == ticket {
                return;
            }
            looks += 1;
            if looks < TRIES {
                spin_loop();
            } else {
                self.park(found);
            }
        }
    }
}

impl Lock for TicketLock {
    fn hold(&self) {
        let lock = black_box(self);
        let ticket = lock.next.fetch_add(1, SeqCst);
        lock.wait_for(ticket);
        lock.head.store(1, SeqCst);
        lock.head.store(0, SeqCst);
        let served = lock.serving.fetch_add(1, SeqCst) + 1;
        if lock.next.load(SeqCst) != served {
            lock.rouse_all();
        }
    }
}

fn holds<L: Lock>(lock: &L, n: u64) {
    for _ in 0..n {
        lock.hold();
    }
}

fn alone<L: Lock>(name: &str, n: u64) {
    let lock = L::default();
    let start = Instant::now();
    holds(&lock, n);
    println!("{name} {n} {}", start.elapsed().as_nanos());
}

fn share<L: Lock>(name: &str, threads: u64, n: u64) {
    let lock = L::default();
    let start = Instant::now();
    thread::scope(|scope| {
        for _ in 0..threads {
            scope.spawn(|| holds(&lock, n));
        }
    });
    println!("{name} {} {}", threads * n, start.elapsed().as_nanos());
}

fn main() {
    for _ in 0..40 {
        alone::<Mutex<()>>("lock", 100_000);
        share::<Mutex<()>>("two", 2, 20_000);
        share::<Mutex<()>>("four", 4, 20_000);
        alone::<TicketLock>("ticket", 100_000);
        share::<TicketLock>("ticket_two", 2, 20_000);
        share::<TicketLock>("ticket_four", 4, 20_000);
    }
}
