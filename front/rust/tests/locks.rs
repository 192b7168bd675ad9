//! Many tasks at the lock of one queue: threads and futures that ask for it at once, futures that are dropped or
//! forgotten wherever they are, and calls behind a future that nobody polls. Nobody waits for ever.

mod common;
mod rounds;

use common::{poll_once, Executor};
use rounds::rounds;
use std::mem::forget;
use std::pin::{pin, Pin};
use std::sync::atomic::{AtomicBool, AtomicU64, Ordering::SeqCst};
use std::sync::{mpsc, Arc, Barrier};
use std::task::Poll;
use std::thread;
use std::time::Duration;
use sugwelan::{Completion, Domain, Killable, Task, Uninterruptible};

const CELL: Completion = Completion::new(1);
const WORKERS: usize = 8;
const NOISE: usize = 2;
const PATIENCE: Duration = Duration::from_secs(300);

/// Runs a test that is to come to an end.
fn in_time(test: impl FnOnce() + Send + 'static) {
    let (over, ends) = mpsc::channel();
    let work = thread::spawn(move || {
        test();
        over.send(()).unwrap();
    });
    if ends.recv_timeout(PATIENCE) == Err(mpsc::RecvTimeoutError::Timeout) {
        panic!("it came to no end");
    }
    work.join().unwrap();
}

/// Gives a permit, and takes one.
fn give_and_take(task: &mut Task) {
    CELL.complete(task).unwrap();
    CELL.wait(task, Uninterruptible).block().unwrap();
}

/// Threads that give and take permits until they are told to end.
struct Noise {
    ends: Arc<AtomicBool>,
    threads: Vec<thread::JoinHandle<()>>,
}

impl Noise {
    fn at(domain: &Domain) -> Noise {
        let ends = Arc::new(AtomicBool::new(false));
        let threads = (0..NOISE).map(|_| {
            let (mut task, ends) = (domain.task().unwrap(), ends.clone());
            thread::spawn(move || {
                while !ends.load(SeqCst) {
                    give_and_take(&mut task);
                }
            })
        });
        Noise {
            threads: threads.collect(),
            ends,
        }
    }

    fn end(self) {
        self.ends.store(true, SeqCst);
        self.threads.into_iter().for_each(|thread| thread.join().unwrap());
    }
}

#[test]
fn threads_ask_at_once() {
    in_time(|| {
        let domain = Domain::new().unwrap();
        let starts = Barrier::new(WORKERS);
        thread::scope(|scope| {
            for worker in 0..WORKERS {
                let (mut task, starts, domain) = (domain.task().unwrap(), &starts, &domain);
                scope.spawn(move || {
                    for round in 0..rounds() {
                        starts.wait();
                        match (worker as u64 + round) % 3 {
                            0 => domain.complete(CELL).unwrap(),
                            _ => CELL.complete(&mut task).unwrap(),
                        }
                        CELL.wait(&mut task, Uninterruptible).block().unwrap();
                    }
                });
            }
        });
        assert_eq!(CELL.is_done(&mut domain.task().unwrap()), Ok(false));
    });
}

/// One thread polls all of them, and makes calls itself that wait for the lock behind futures that it does not poll
/// then.
#[test]
fn a_future_holds_nobody_up() {
    in_time(|| {
        let domain = Domain::new().unwrap();
        let noise = Noise::at(&domain);
        let mut executor = Executor::default();
        for _ in 0..WORKERS {
            let mut task = domain.task().unwrap();
            executor.spawn(async move {
                for _ in 0..rounds() {
                    CELL.complete(&mut task).unwrap();
                    CELL.wait(&mut task, Killable).await.unwrap();
                }
            });
        }
        executor.run(1);
        noise.end();
        assert_eq!(CELL.is_done(&mut domain.task().unwrap()), Ok(false));
    });
}

/// What becomes of a wait that was polled once.
fn gives_up(way: fn(&mut Task) -> bool) {
    in_time(move || {
        let domain = Domain::new().unwrap();
        let noise = Noise::at(&domain);
        let taken = AtomicU64::new(0);
        thread::scope(|scope| {
            for _ in 0..NOISE {
                let (mut task, taken) = (domain.task().unwrap(), &taken);
                scope.spawn(move || {
                    for _ in 0..rounds() {
                        CELL.complete(&mut task).unwrap();
                        if way(&mut task) {
                            taken.fetch_add(1, SeqCst);
                        }
                    }
                });
            }
        });
        noise.end();
        let mut task = domain.task().unwrap();
        for _ in taken.load(SeqCst)..NOISE as u64 * rounds() {
            assert_eq!(CELL.try_wait(&mut task), Ok(true));
        }
        assert_eq!(CELL.try_wait(&mut task), Ok(false));
    });
}

#[test]
fn a_future_is_dropped() {
    gives_up(|task| poll_once(pin!(CELL.wait(task, Killable))) == Poll::Ready(Ok(())));
}

#[test]
fn a_future_is_forgotten() {
    gives_up(|task| {
        let mut wait = CELL.wait(task, Killable);
        let polled = poll_once(Pin::new(&mut wait));
        forget(wait);
        polled == Poll::Ready(Ok(()))
    });
}

/// Its call goes on once it is polled again, or with the next call of its task.
#[test]
fn a_future_is_polled_again() {
    gives_up(|task| {
        let mut wait = pin!(CELL.wait(task, Killable));
        for _ in 0..5 {
            if let Poll::Ready(end) = poll_once(wait.as_mut()) {
                return end == Ok(());
            }
        }
        false
    });
}
