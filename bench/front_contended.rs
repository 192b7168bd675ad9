//! Calls about one thing by many threads at once: by the library for Rust, by a std Mutex and Condvar, and by
//! parking_lot's, where that crate is there. It writes `WHO NAME COUNT NANOSECONDS` for each round of each kind:
//! nanoseconds of the clock for so many pairs of calls of all threads together. The number of threads is given.

use std::sync::{Barrier, Condvar, Mutex};
use std::thread;
use std::time::Instant;
use sugwelan::{Bit, Completion, Domain, Page, Task, Uninterruptible as PLAIN};

const ROUNDS: usize = 10;
const PAIRS: usize = 5_000;
const CELL: Completion = Completion::new(1);
const CONDITION: u8 = 2;
const BIT: Bit = Bit::new(3, 4);
const PAGE: Page = Page::new(5);
const HELD: Bit = Bit::new(6, 4);
const WORK: u32 = 500;

/// What a thread does while it keeps a lock that others want.
fn work() {
    (0..WORK).for_each(|step| {
        std::hint::black_box(step);
    });
}

/// A number under a lock, with a condition variable.
trait Counted: Default + Sync {
    fn add(&self);
    /// Works under the lock.
    fn hold(&self);
    /// Gives one permit, and takes one.
    fn give_and_take(&self);
    /// Sets it, and waits until it is set.
    fn set_and_wait(&self);
}

#[derive(Default)]
struct ByStd(Mutex<u64>, Condvar);

impl Counted for ByStd {
    fn add(&self) {
        *self.0.lock().unwrap() += 1;
    }

    fn hold(&self) {
        let _count = self.0.lock().unwrap();
        work();
    }

    fn give_and_take(&self) {
        *self.0.lock().unwrap() += 1;
        self.1.notify_one();
        let count = self.0.lock().unwrap();
        *self.1.wait_while(count, |count| *count == 0).unwrap() -= 1;
    }

    fn set_and_wait(&self) {
        *self.0.lock().unwrap() = 1;
        self.1.notify_all();
        let count = self.0.lock().unwrap();
        drop(self.1.wait_while(count, |count| *count == 0).unwrap());
    }
}

#[cfg(feature = "parking_lot")]
#[derive(Default)]
struct ByParkingLot(parking_lot::Mutex<u64>, parking_lot::Condvar);

#[cfg(feature = "parking_lot")]
impl ByParkingLot {
    /// Waits until the number is not 0, and keeps the lock.
    fn wait(&self) -> parking_lot::MutexGuard<'_, u64> {
        let mut count = self.0.lock();
        while *count == 0 {
            self.1.wait(&mut count);
        }
        count
    }
}

#[cfg(feature = "parking_lot")]
impl Counted for ByParkingLot {
    fn add(&self) {
        *self.0.lock() += 1;
    }

    fn hold(&self) {
        let _count = self.0.lock();
        work();
    }

    fn give_and_take(&self) {
        *self.0.lock() += 1;
        self.1.notify_one();
        *self.wait() -= 1;
    }

    fn set_and_wait(&self) {
        *self.0.lock() = 1;
        self.1.notify_all();
        drop(self.wait());
    }
}

/// Lets each task's thread make pairs of calls at once: from the first one's beginning to the last one's end.
fn time(who: &str, what: &str, tasks: &mut [Task], pair: impl Fn(&mut Task) + Sync) {
    let starts = Barrier::new(tasks.len());
    let count = PAIRS * tasks.len();
    let times: Vec<(Instant, Instant)> = thread::scope(|scope| {
        let mut threads = Vec::new();
        for task in tasks {
            let (starts, pair) = (&starts, &pair);
            threads.push(scope.spawn(move || {
                starts.wait();
                let begun = Instant::now();
                (0..PAIRS).for_each(|_| pair(task));
                (begun, Instant::now())
            }));
        }
        threads.into_iter().map(|thread| thread.join().unwrap()).collect()
    });
    let begun = times.iter().map(|(begun, _)| begun).min().unwrap();
    let ended = times.iter().map(|(_, ended)| ended).max().unwrap();
    println!("{who} {what} {count} {}", ended.duration_since(*begun).as_nanos());
}

fn library(domain: &Domain, tasks: &mut [Task]) {
    time("sugwelan", "completion", tasks, |task| {
        CELL.complete(task).unwrap();
        CELL.wait(task, PLAIN).block().unwrap();
    });
    time("sugwelan", "condition", tasks, |task| {
        task.set_and_wake(CONDITION, 1, 0).unwrap();
        task.wait_event(CONDITION, PLAIN).block().unwrap();
    });
    let (bit, page) = (domain.mutex(BIT, 0), domain.fair_mutex(PAGE, 0));
    time("sugwelan", "bit", tasks, |task| *bit.lock(task, PLAIN).unwrap() += 1);
    time("sugwelan", "page", tasks, |task| *page.lock(task, PLAIN).unwrap() += 1);
    let held = domain.mutex(HELD, 0);
    time("sugwelan", "held", tasks, |task| {
        let _count = held.lock(task, PLAIN).unwrap();
        work();
    });
}

fn plain<C: Counted>(who: &str, tasks: &mut [Task]) {
    let (permits, condition, lock) = (C::default(), C::default(), C::default());
    time(who, "completion", tasks, |_| permits.give_and_take());
    time(who, "condition", tasks, |_| condition.set_and_wait());
    time(who, "bit", tasks, |_| lock.add());
    time(who, "page", tasks, |_| lock.add());
    time(who, "held", tasks, |_| lock.hold());
}

fn main() {
    let threads = std::env::args().nth(1).map_or(4, |count| count.parse().expect("a number of threads"));
    let domain = Domain::new().unwrap();
    let mut tasks: Vec<Task> = (0..threads).map(|_| domain.task().unwrap()).collect();
    for _ in 0..ROUNDS {
        library(&domain, &mut tasks);
        plain::<ByStd>("std", &mut tasks);
        #[cfg(feature = "parking_lot")]
        plain::<ByParkingLot>("parking_lot", &mut tasks);
    }
}
