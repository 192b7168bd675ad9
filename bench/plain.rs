//! The same steps in plain Rust: loads, a load and a compare-exchange, and round trips of two threads over a raw
//! futex, which park at once or after as many looks as a task of a Domain. It writes `NAME COUNT NANOSECONDS`.
use std::ffi::c_long;
use std::hint::{black_box, spin_loop};
use std::ptr::null;
use std::sync::atomic::{AtomicU64, Ordering::SeqCst};
use std::thread;
use std::time::Instant;

unsafe extern "C" {
    fn syscall(number: c_long, ...) -> c_long;
}

const FUTEX: c_long = 202;
const WAIT_PRIVATE: c_long = 128;
const WAKE_PRIVATE: c_long = 129;

/// How many round trips are made.
const TRIPS: u64 = 5_000;

/// A task of the plain program: the number of its word.
struct Task {
    number: u8,
}

fn load_own(words: &[AtomicU64], task: &mut Task) -> u64 {
    words[1 + task.number as usize].load(SeqCst)
}

fn report(name: &str, n: u64, start: Instant) {
    println!("{name} {n} {}", start.elapsed().as_nanos());
}

/// What a waker does that finds nobody about to sleep.
#[derive(Clone, Copy)]
enum Retry {
    Pause,
    Yield,
}

const RUNNABLE: u64 = 0x1_0000;
const UNINTERRUPTIBLE: u64 = 2;

/// Stores the state, goes to sleep unless it was woken meanwhile, and waits until the word is runnable: so many looks,
/// and then the thread parks between two looks.
fn doze(word: &AtomicU64, looks: u32) {
    word.fetch_or(UNINTERRUPTIBLE, SeqCst);
    loop {
        let found = word.load(SeqCst);
        if found == RUNNABLE {
            return;
        }
        if word.compare_exchange(found, found & !RUNNABLE, SeqCst, SeqCst).is_ok() {
            break;
        }
    }
    for _ in 0..looks {
        if word.load(SeqCst) & RUNNABLE != 0 {
            return;
        }
        spin_loop();
    }
    loop {
        let found = word.load(SeqCst);
        if found & RUNNABLE != 0 {
            return;
        }
        unsafe { syscall(FUTEX, word.as_ptr(), WAIT_PRIVATE, found as u32 as c_long, null::<u8>()) };
    }
}

/// Wakes the one whose word it is where its state is stored: true where it is.
fn wake(word: &AtomicU64) -> bool {
    loop {
        let found = word.load(SeqCst);
        let met = found & UNINTERRUPTIBLE != 0;
        let next = if met { RUNNABLE } else { found };
        if word.compare_exchange(found, next, SeqCst, SeqCst).is_ok() {
            if met && found & RUNNABLE == 0 {
                unsafe { syscall(FUTEX, word.as_ptr(), WAKE_PRIVATE, 1 as c_long) };
            }
            return met;
        }
    }
}

fn wake_up(word: &AtomicU64, retry: Retry) {
    while !wake(word) {
        match retry {
            Retry::Pause => spin_loop(),
            Retry::Yield => thread::yield_now(),
        }
    }
}

/// Two threads that wake each other in turn, by the steps of the tasks of a Domain.
fn round_trips(name: &str, words: &'static [AtomicU64], looks: u32, retry: Retry) {
    words[1].store(RUNNABLE, SeqCst);
    words[2].store(RUNNABLE, SeqCst);
    let start = Instant::now();
    let other = thread::spawn(move || {
        for _ in 0..TRIPS {
            doze(&words[2], looks);
            wake_up(&words[1], retry);
        }
    });
    for _ in 0..TRIPS {
        wake_up(&words[2], retry);
        doze(&words[1], looks);
    }
    other.join().unwrap();
    report(name, TRIPS, start);
}

/// Waits until the word has this value. The thread parks at once.
fn wait_for(word: &AtomicU64, wanted: u64) {
    loop {
        let found = word.load(SeqCst);
        if found == wanted {
            return;
        }
        unsafe { syscall(FUTEX, word.as_ptr(), WAIT_PRIVATE, found as u32 as c_long, null::<u8>()) };
    }
}

fn tell(word: &AtomicU64, value: u64) {
    word.store(value, SeqCst);
    unsafe { syscall(FUTEX, word.as_ptr(), WAKE_PRIVATE, 1 as c_long) };
}

/// Two threads that tell each other a number in turn: no waker has to find the other one about to sleep.
fn tellings(name: &str, words: &'static [AtomicU64]) {
    words[1].store(0, SeqCst);
    words[2].store(0, SeqCst);
    let start = Instant::now();
    let other = thread::spawn(move || {
        for k in 1..=TRIPS {
            wait_for(&words[2], k);
            tell(&words[1], k);
        }
    });
    for k in 1..=TRIPS {
        tell(&words[2], k);
        wait_for(&words[1], k);
    }
    other.join().unwrap();
    report(name, TRIPS, start);
}

fn main() {
    let words: Vec<AtomicU64> = (0..9873).map(|_| AtomicU64::new(0x1_0000)).collect();
    let words: &'static [AtomicU64] = black_box(Box::leak(words.into_boxed_slice()));
    let steps = 20_000_000u64;
    let start = Instant::now();
    let mut task = black_box(Task { number: 0 });
    let mut sum = 0;
    for _ in 0..steps {
        sum ^= load_own(words, &mut task);
    }
    black_box(sum);
    report("load", steps, start);

    let start = Instant::now();
    for _ in 0..steps {
        let found = words[1].load(SeqCst);
        black_box(words[1].compare_exchange(found, black_box(found), SeqCst, SeqCst).is_ok());
    }
    report("exchange", steps, start);

    round_trips("trip_parked", words, 0, Retry::Pause);
    round_trips("trip_yielding", words, 0, Retry::Yield);
    round_trips("trip_looked", words, 400, Retry::Pause);
    tellings("trip_told", words);
}
