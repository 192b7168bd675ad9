//! Round trips of two threads that park, and calls that find nobody waiting: by the library for Rust, by a std Mutex
//! and Condvar, and by parking_lot's, where that crate is there; and round trips of two futures on one thread by the
//! library. It writes `WHO NAME COUNT NANOSECONDS` for each round of each kind.

use std::future::Future;
use std::hint::black_box;
use std::pin::{pin, Pin};
use std::sync::{Condvar, Mutex};
use std::task::{Context, Poll, Waker};
use std::thread;
use std::time::Instant;
use sugwelan::{Bit, Domain, Killable, Page, Task, Uninterruptible as PLAIN};

const ROUNDS: usize = 10;
const TRIPS: usize = 2_000;
const CALLS: usize = 50_000;
const LOCK: Bit = Bit::new(1, 2);
const PAGE: Page = Page::new(3);
const OTHER: u8 = 4;

/// What can be set, and waited for and taken, one for each direction of a trip.
trait Event: Sync {
    fn set(&self);
    fn take(&self);
    fn look(&self);
    fn lock(&self);
}

#[derive(Default)]
struct ByCondvar {
    set: Mutex<bool>,
    changed: Condvar,
}

impl Event for ByCondvar {
    fn set(&self) {
        *self.set.lock().unwrap() = true;
        self.changed.notify_all();
    }

    fn take(&self) {
        let set = self.set.lock().unwrap();
        *self.changed.wait_while(set, |set| !*set).unwrap() = false;
    }

    fn look(&self) {
        assert!(*self.set.lock().unwrap());
    }

    fn lock(&self) {
        drop(black_box(self).set.lock().unwrap());
    }
}

#[cfg(feature = "parking_lot")]
#[derive(Default)]
struct ByParkingLot {
    set: parking_lot::Mutex<bool>,
    changed: parking_lot::Condvar,
}

#[cfg(feature = "parking_lot")]
impl Event for ByParkingLot {
    fn set(&self) {
        *self.set.lock() = true;
        self.changed.notify_all();
    }

    fn take(&self) {
        let mut set = self.set.lock();
        while !*set {
            self.changed.wait(&mut set);
        }
        *set = false;
    }

    fn look(&self) {
        assert!(*self.set.lock());
    }

    fn lock(&self) {
        drop(black_box(self).set.lock());
    }
}

fn time(who: &str, what: &str, count: usize, work: impl FnOnce()) {
    let begun = Instant::now();
    work();
    println!("{who} {what} {count} {}", begun.elapsed().as_nanos());
}

fn calls(who: &str, what: &str, mut call: impl FnMut()) {
    time(who, what, CALLS, || (0..CALLS).for_each(|_| call()));
}

/// Round trips, and calls by one thread, of another kind than the library's.
fn plain<E: Event + Default>(who: &str, alone: bool) {
    let events = [E::default(), E::default()];
    thread::scope(|scope| {
        scope.spawn(|| {
            for _ in 0..TRIPS {
                events[0].take();
                events[1].set();
            }
        });
        time(who, "trip", TRIPS, || {
            for _ in 0..TRIPS {
                events[0].set();
                events[1].take();
            }
        });
    });
    if !alone {
        calls(who, "bit", || events[0].lock());
        calls(who, "page", || events[0].lock());
        calls(who, "set", || events[0].set());
        calls(who, "wait", || events[0].look());
    }
}

fn set(task: &mut Task, way: u8) {
    task.set_and_wake(way, 1, 0).unwrap();
}

fn take(task: &mut Task, way: u8) {
    task.wait_event(way, PLAIN).block().unwrap();
    task.take_condition(way).unwrap();
}

fn library(alone: bool) {
    let domain = Domain::new().unwrap();
    let (mut one, mut other) = (domain.task().unwrap(), domain.task().unwrap());
    thread::scope(|scope| {
        scope.spawn(|| {
            for _ in 0..TRIPS {
                take(&mut other, 0);
                set(&mut other, 1);
            }
        });
        time("sugwelan", "trip", TRIPS, || {
            for _ in 0..TRIPS {
                set(&mut one, 0);
                take(&mut one, 1);
            }
        });
    });
    if !alone {
        one.set_and_wake(OTHER, 1, 0).unwrap();
        let (lock, page) = (domain.bit_lock(LOCK), domain.page_lock(PAGE));
        calls("sugwelan", "bit", || drop(lock.lock(&mut one, PLAIN).unwrap()));
        calls("sugwelan", "page", || drop(page.lock(&mut one, PLAIN).unwrap()));
        calls("sugwelan", "set", || set(&mut one, 0));
        calls("sugwelan", "wait", || one.wait_event(OTHER, PLAIN).block().unwrap());
        futures(one, other);
    }
}

async fn go(mut task: Task, first: u8, then: u8) {
    for _ in 0..TRIPS {
        task.wait_event(first, Killable).await.unwrap();
        task.take_condition(first).unwrap();
        set(&mut task, then);
    }
}

/// Two futures that one thread polls in turn.
fn futures(mut one: Task, other: Task) {
    one.take_condition(0).unwrap();
    set(&mut one, 1);
    let mut context = Context::from_waker(Waker::noop());
    let (one, other) = (pin!(go(one, 1, 0)), pin!(go(other, 0, 1)));
    let mut left: Vec<Pin<&mut dyn Future<Output = ()>>> = vec![one, other];
    time("sugwelan", "futures", TRIPS, || {
        while !left.is_empty() {
            left.retain_mut(|future| future.as_mut().poll(&mut context) == Poll::Pending);
        }
    });
}

fn main() {
    let alone = std::env::args().len() > 1;
    for _ in 0..ROUNDS {
        library(alone);
        plain::<ByCondvar>("condvar", alone);
        #[cfg(feature = "parking_lot")]
        plain::<ByParkingLot>("parking_lot", alone);
    }
}
