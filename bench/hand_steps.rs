//! A number that two threads hand to and fro by the loads, stores and locked instructions which this library's calls
//! make for it (`cond_wait`, `cond_broadcast`, `mutex_lock` and `mutex_unlock` of crates/futex_table, in a Domain whose
//! tasks park at once): on words at the same positions, in the same order, all SeqCst, but written in plain Rust. It
//! tells what such calls cost in whatever language they are written. It proves nothing, and has no more than two tasks
//! need: no walk comes to a break, no signal is raised, and a list of members has room for two; the library makes none
//! for one sleeper.
use std::hint::spin_loop;
use std::ptr::null;
use std::sync::atomic::AtomicU64;
use std::sync::atomic::Ordering::SeqCst;
use std::thread;
use std::time::{Duration, Instant};

use crate::{FUTEX_WAKE_PRIVATE, SYS_FUTEX, syscall};

const FUTEX_WAIT_PRIVATE: i32 = 128;

/// The time that the library's runtime gives a thread that parks: the longest one that the kernel takes.
static LONGEST: [i64; 2] = [i64::MAX, 0];

// Where the words of each class stand (crates/wait_model/src/layout.rt).
const TASK_AT: usize = 1;
const ENTRY_AT: usize = 257;
const HEAD_AT: usize = 1_537;
const CONDITION_AT: usize = 1_921;
const MEMBER_AT: usize = 10_641;
const NEXT_AT: usize = 15_249;
const SERVING_AT: usize = 15_633;
const WORDS: usize = 16_017;
const MEMBER_WORDS: usize = 12;
const FIRST_PLAIN_HEAD: usize = 256;

// A task's word.
const STATES: u64 = 0xffff;
const NORMAL: u64 = 3;
const UNINTERRUPTIBLE: u64 = 2;
const RUNNABLE: u64 = 0x1_0000;

// An entry's word: that of an exclusive one which whoever wakes its task takes off, but for its key and its place.
const KEY: u64 = 0x2000_0000_0000;
const QUEUED: u64 = (1 << 63) + 0x500_0000_0000;
const PLACES: u64 = 0x100_0000_0000;
const FIRST_PLACE: u64 = PLACES / 4 * 3;

/// How often a thread looks at a ticket before it parks.
const LOOKS: u32 = 50;

/// The mutex, and the condition variable.
const LOCK: usize = 6;
const COND: usize = 7;

/// Up to two numbers.
#[derive(Default)]
struct Two {
    all: [u64; 2],
    count: usize,
}

impl Two {
    fn put(&mut self, one: u64) {
        self.all[self.count] = one;
        self.count += 1;
    }
}

/// The words of a Domain. TIMED: threads park for the longest time, as the library's do, and not for ever.
struct Words<const TIMED: bool> {
    all: Box<[AtomicU64]>,
}

impl<const TIMED: bool> Words<TIMED> {
    /// Those of a Domain with two tasks, of which nobody holds the mutex.
    fn new() -> Self {
        let all: Box<[AtomicU64]> = (0..WORDS).map(|_| AtomicU64::new(0)).collect();
        all[TASK_AT].store(RUNNABLE, SeqCst);
        all[TASK_AT + 1].store(RUNNABLE, SeqCst);
        all[CONDITION_AT + LOCK].store(1, SeqCst);
        Words { all }
    }

    fn load(&self, at: usize) -> u64 {
        self.all[at].load(SeqCst)
    }

    fn store(&self, at: usize, value: u64) {
        self.all[at].store(value, SeqCst);
    }

    /// Parks the thread while the low half of a word is what was found.
    fn park(&self, at: usize, found: u64) {
        let time = if TIMED { LONGEST.as_ptr() } else { null() };
        // SAFETY: the word and the time live as long as the call, which reads both, the word as its low half.
        unsafe { syscall(SYS_FUTEX, self.all[at].as_ptr(), FUTEX_WAIT_PRIVATE, found as u32, time) };
    }

    fn unpark(&self, at: usize, most: i32) {
        // SAFETY: the word lives as long as the call, which neither reads nor writes it.
        unsafe { syscall(SYS_FUTEX, self.all[at].as_ptr(), FUTEX_WAKE_PRIVATE, most) };
    }

    /// Takes the lock of a head in the order of tickets.
    fn lock_head(&self, head: usize) {
        let ticket = self.all[NEXT_AT + head].fetch_add(1, SeqCst);
        let mut looks = 0;
        loop {
            let served = self.load(SERVING_AT + head);
            if served == ticket {
                break;
            }
            if looks < LOOKS {
                spin_loop();
                looks += 1;
            } else {
                self.park(SERVING_AT + head, served);
            }
        }
        self.all[HEAD_AT + head].fetch_add(1, SeqCst);
    }

    /// Gives it back, serves the next ticket, and wakes the threads that park for that. `spent`: the head's word counts
    /// one more walk that used up its count.
    fn unlock_head(&self, head: usize, spent: bool) {
        if spent {
            let found = self.load(HEAD_AT + head);
            self.store(HEAD_AT + head, 4 * (found / 4 + 1));
        } else {
            self.all[HEAD_AT + head].fetch_sub(1, SeqCst);
        }
        self.all[SERVING_AT + head].fetch_add(1, SeqCst);
        let drawn = self.load(NEXT_AT + head);
        if self.load(SERVING_AT + head) != drawn {
            self.unpark(SERVING_AT + head, i32::MAX);
        }
    }

    /// Whether a head has members, by all of its member words.
    fn has_members(&self, head: usize) -> bool {
        let mut found = false;
        for i in 0..MEMBER_WORDS {
            if self.load(MEMBER_AT + MEMBER_WORDS * head + i) != 0 {
                found = true;
            }
        }
        found
    }

    /// Looks at each member of a head: its index, and its place.
    fn each_member(&self, head: usize, mut look: impl FnMut(usize, u64)) {
        for i in 0..MEMBER_WORDS {
            let mut word = self.load(MEMBER_AT + MEMBER_WORDS * head + i);
            while word != 0 {
                let index = 64 * i + word.trailing_zeros() as usize;
                look(index, self.load(ENTRY_AT + index) % PLACES);
                word &= word - 1;
            }
        }
    }

    fn member(&self, head: usize, index: usize) -> &AtomicU64 {
        &self.all[MEMBER_AT + MEMBER_WORDS * head + index / 64]
    }

    /// Wakes a task: whether its state met the mask, and whether its thread may be parked.
    fn wake_task(&self, who: usize) -> (bool, bool) {
        loop {
            let found = self.load(TASK_AT + who);
            let met = found & NORMAL != 0;
            let next = if met { found & !STATES | RUNNABLE } else { found };
            if self.all[TASK_AT + who].compare_exchange(found, next, SeqCst, SeqCst).is_ok() {
                return (met, met && found & RUNNABLE == 0);
            }
        }
    }

    /// Calls the entries of a head in the order of their places: whether that used up the count. A count of 0 is none.
    fn walk(&self, word: usize, count: u32, roused: &mut Two) -> bool {
        let head = FIRST_PLAIN_HEAD + word;
        let mut list = Two::default();
        self.each_member(head, |index, place| list.put(1_024 * place + index as u64));
        let ranks = &mut list.all[..list.count];
        ranks.sort_unstable();
        let mut left = count;
        for rank in ranks {
            let index = (*rank % 1_024) as usize;
            let entry = self.load(ENTRY_AT + index);
            if entry / KEY % 0x4000 == word as u64 && self.call(head, index, roused) {
                if left == 1 {
                    return true;
                }
                left = left.saturating_sub(1);
            }
        }
        false
    }

    /// Wakes the task of an entry, and takes the entry off where that was woken.
    fn call(&self, head: usize, index: usize, roused: &mut Two) -> bool {
        let who = index / 2;
        let (met, parked) = self.wake_task(who);
        if parked {
            roused.put(who as u64);
        }
        if met {
            self.unqueue(head, index);
        }
        met
    }

    fn unqueue(&self, head: usize, index: usize) {
        self.store(ENTRY_AT + index, 0);
        self.member(head, index).fetch_and(!(1 << (index % 64)), SeqCst);
    }

    /// Stores a value in a condition word, and wakes this many who wait for it, or all for 0: in a hold, and their
    /// threads behind it.
    fn store_and_wake(&self, word: usize, value: u64, count: u32) {
        let head = FIRST_PLAIN_HEAD + word;
        self.store(CONDITION_AT + word, value);
        self.lock_head(head);
        let mut roused = Two::default();
        let spent = self.has_members(head) && self.walk(word, count, &mut roused);
        self.unlock_head(head, spent);
        for who in &roused.all[..roused.count] {
            self.unpark(TASK_AT + *who as usize, 1);
        }
    }
}

/// A task of these words, with the number that it hands on.
struct Task<'a, const TIMED: bool> {
    words: &'a Words<TIMED>,
    number: &'a AtomicU64,
    own: usize,
}

impl<const TIMED: bool> Task<'_, TIMED> {
    /// The position of the own entry word, and its index.
    fn entry(&self) -> (usize, usize) {
        (ENTRY_AT + 2 * self.own, 2 * self.own)
    }

    /// Queues the own entry behind all members of a head.
    fn queue(&self, word: usize) {
        let head = FIRST_PLAIN_HEAD + word;
        let mut place = FIRST_PLACE;
        self.words.each_member(head, |_, at| place = place.max(2 * (at / 2 + 1)));
        let (at, index) = self.entry();
        self.words.load(at);
        self.words.store(at, QUEUED + KEY * word as u64 + place);
        self.words.member(head, index).fetch_or(1 << (index % 64), SeqCst);
    }

    /// Puts the task asleep, unless somebody has woken it since it stored its state, and parks until somebody has.
    fn sleep(&self) {
        let at = TASK_AT + self.own;
        loop {
            let found = self.words.load(at);
            let stays = found & STATES == 0;
            let next = if stays { found } else { found & !RUNNABLE };
            if self.words.all[at].compare_exchange(found, next, SeqCst, SeqCst).is_ok() {
                if stays {
                    return;
                }
                break;
            }
        }
        while self.words.load(at) & RUNNABLE == 0 {
            let found = self.words.load(at);
            if found & RUNNABLE == 0 {
                self.words.park(at, found);
            }
        }
    }

    /// Sleeps while a word has the expected value.
    fn futex_wait(&self, word: usize, expected: u64) {
        let head = FIRST_PLAIN_HEAD + word;
        let (at, index) = self.entry();
        loop {
            self.words.lock_head(head);
            if self.words.load(CONDITION_AT + word) != expected {
                self.words.unlock_head(head, false);
                return;
            }
            if self.words.load(at) == 0 {
                self.queue(word);
            }
            self.words.all[TASK_AT + self.own].fetch_or(UNINTERRUPTIBLE, SeqCst);
            self.words.unlock_head(head, false);
            self.sleep();
            if self.words.load(at) == 0 {
                return;
            }
            self.words.lock_head(head);
            let off = self.words.load(at) == 0;
            if !off {
                self.words.unqueue(head, index);
            }
            self.words.unlock_head(head, false);
            if off {
                return;
            }
        }
    }

    fn mutex_lock(&self) {
        while self.words.all[CONDITION_AT + LOCK].swap(0, SeqCst) == 0 {
            self.futex_wait(LOCK, 0);
        }
    }

    fn mutex_unlock(&self) {
        self.words.store_and_wake(LOCK, 1, 1);
    }

    fn cond_wait(&self) {
        let seen = self.words.load(CONDITION_AT + COND);
        self.mutex_unlock();
        self.futex_wait(COND, seen);
        self.mutex_lock();
    }

    fn cond_broadcast(&self) {
        let seen = self.words.load(CONDITION_AT + COND);
        self.words.store_and_wake(COND, seen.wrapping_add(1), 0);
    }

    /// Adds 1 to the number whenever its parity is the own one, until it is the last.
    fn play(&self, last: u64) {
        self.mutex_lock();
        loop {
            let now = self.number.load(SeqCst);
            if now >= last {
                break;
            }
            if now % 2 == self.own as u64 {
                self.number.store(now + 1, SeqCst);
                self.cond_broadcast();
            } else {
                self.cond_wait();
            }
        }
        self.mutex_unlock();
    }
}

/// How long it takes to hand a number on `n` times.
pub fn time_steps<const TIMED: bool>(n: u64) -> Duration {
    let words = Words::<TIMED>::new();
    let number = AtomicU64::new(0);
    let [first, other] = [0, 1].map(|own| Task { words: &words, number: &number, own });
    let start = Instant::now();
    thread::scope(|scope| {
        scope.spawn(|| first.play(n));
        other.play(n);
    });
    let time = start.elapsed();
    assert_eq!(number.load(SeqCst), n, "a number got lost");
    time
}
