//! The same in plain Rust: a std Mutex locked and unlocked by one thread, by two and by four; a number that two threads
//! hand to and fro under a Mutex and a Condvar, whose threads park at once, without a deadline and with a far one; the
//! same number handed on by the steps that this library's calls make, without a timer and with the library's own; and a
//! wake of a futex on which nobody sleeps, by the system call. It writes `NAME COUNT NANOSECONDS`.
use std::hint::black_box;
use std::sync::atomic::AtomicU32;
use std::sync::{Condvar, Mutex};
use std::thread;
use std::time::{Duration, Instant};

mod hand_steps;

use hand_steps::time_steps;

unsafe extern "C" {
    fn syscall(number: i64, ...) -> i64;
}

const SYS_FUTEX: i64 = 202;
const FUTEX_WAKE_PRIVATE: i32 = 129;

/// A time after which no round still waits.
const FAR: Duration = Duration::from_secs(1 << 30);

fn holds(lock: &Mutex<()>, n: u64) {
    for _ in 0..n {
        drop(black_box(lock).lock().unwrap());
    }
}

/// `n` locks by each of so many threads.
fn share(name: &str, threads: u64, n: u64) {
    let lock = Mutex::new(());
    let start = Instant::now();
    thread::scope(|scope| {
        for _ in 0..threads {
            scope.spawn(|| holds(&lock, n));
        }
    });
    println!("{name} {} {}", threads * n, start.elapsed().as_nanos());
}

/// A number, and a condition variable that tells of each change of it.
#[derive(Default)]
struct Monitor {
    number: Mutex<u64>,
    changed: Condvar,
}

impl Monitor {
    /// Adds 1 to the number whenever its parity is the own one, until it is the last. TIMED: it waits with a deadline.
    fn play<const TIMED: bool>(&self, own: u64, last: u64) {
        let mut number = self.number.lock().unwrap();
        while *number < last {
            if *number % 2 == own {
                *number += 1;
                self.changed.notify_all();
            } else if TIMED {
                number = self.changed.wait_timeout(number, FAR).unwrap().0;
            } else {
                number = self.changed.wait(number).unwrap();
            }
        }
    }
}

/// A number that is handed on `n` times.
fn time_hand<const TIMED: bool>(n: u64) -> Duration {
    let monitor = Monitor::default();
    let start = Instant::now();
    thread::scope(|scope| {
        scope.spawn(|| monitor.play::<TIMED>(0, n));
        monitor.play::<TIMED>(1, n);
    });
    start.elapsed()
}

/// The same in each way.
fn hands(n: u64) {
    let ways = [
        ("hand", time_hand::<false> as fn(u64) -> Duration),
        ("steps", time_steps::<false>),
        ("hand_timed", time_hand::<true>),
        ("steps_timed", time_steps::<true>),
    ];
    for (name, time) in ways {
        println!("{name} {n} {}", time(n).as_nanos());
    }
}

/// `n` wakes that find nobody.
fn wakes(n: u64) {
    let word = AtomicU32::new(0);
    let start = Instant::now();
    for _ in 0..n {
        // SAFETY: the word lives as long as the call, which neither reads nor writes it.
        unsafe { syscall(SYS_FUTEX, word.as_ptr(), FUTEX_WAKE_PRIVATE, 1) };
    }
    println!("wake_none {n} {}", start.elapsed().as_nanos());
}

fn main() {
    for _ in 0..10 {
        let lock = Mutex::new(());
        let start = Instant::now();
        holds(&lock, 100_000);
        println!("lock 100000 {}", start.elapsed().as_nanos());
        share("two", 2, 20_000);
        share("four", 4, 20_000);
        hands(4_000);
        wakes(100_000);
    }
}
