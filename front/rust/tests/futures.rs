//! Futures that wait and wake, by an executor of one thread and of several.

mod common;
mod rounds;

use common::Executor;
use rounds::rounds;
use std::sync::atomic::{AtomicU64, Ordering::SeqCst};
use std::sync::Arc;
use std::thread;
use sugwelan::{Bit, Domain, Killable, Page, Task, Uninterruptible};

const WAITERS: u64 = 4;
const CROWD: u64 = 120;

/// Waits for a condition, and takes it.
async fn claim(task: &mut Task, condition: u8) -> u64 {
    loop {
        task.wait_event_exclusive(condition, Killable).await.unwrap();
        match task.take_condition(condition).unwrap() {
            0 => {}
            value => return value,
        }
    }
}

/// Two futures that answer each other, for each number of threads.
#[test]
fn futures_answer_each_other() {
    for threads in [1, 2, 4] {
        let domain = Domain::new().unwrap();
        let (mut one, mut other) = (domain.task().unwrap(), domain.task().unwrap());
        let mut executor = Executor::default();
        executor.spawn(async move {
            for round in 1..=rounds() {
                assert_eq!(claim(&mut one, 0).await, round);
                one.set_and_wake(1, round, 1).unwrap();
            }
        });
        executor.spawn(async move {
            for round in 1..=rounds() {
                other.set_and_wake(0, round, 1).unwrap();
                assert_eq!(claim(&mut other, 1).await, round);
            }
        });
        executor.run(threads);
    }
}

/// Futures and a thread at one lock, and at one page.
#[test]
fn futures_and_threads_share_locks() {
    for threads in [1, 4] {
        let domain = Domain::new().unwrap();
        let count = Arc::new(domain.mutex(Bit::new(4, 5), 0));
        let page = domain.page_lock(Page::new(9));
        let mut executor = Executor::default();
        for _ in 0..WAITERS {
            let (mut task, count, page) = (domain.task().unwrap(), count.clone(), page.clone());
            executor.spawn(async move {
                for _ in 0..rounds() {
                    *count.lock_later(&mut task, Killable).await.unwrap() += 1;
                    page.lock_later(&mut task, Killable).await.unwrap().add(1).unwrap();
                }
            });
        }
        let mut task = domain.task().unwrap();
        thread::scope(|scope| {
            scope.spawn(|| executor.run(threads));
            for _ in 0..rounds() {
                *count.lock(&mut task, Uninterruptible).unwrap() += 1;
            }
        });
        assert_eq!(
            *count.lock(&mut task, Uninterruptible).unwrap(),
            rounds() * (WAITERS + 1)
        );
        assert_eq!(
            page.lock(&mut task, Uninterruptible).unwrap().add(0),
            Ok(rounds() * WAITERS)
        );
    }
}

/// So many futures at one condition that a wake of all gives the queue back in between.
#[test]
fn a_crowd_is_woken() {
    let domain = Domain::new().unwrap();
    let woken = Arc::new(AtomicU64::new(0));
    let mut executor = Executor::default();
    for _ in 0..CROWD {
        let (mut task, woken) = (domain.task().unwrap(), woken.clone());
        executor.spawn(async move {
            task.wait_event(0, Killable).await.unwrap();
            woken.fetch_add(1, SeqCst);
        });
    }
    let mut setter = domain.task().unwrap();
    executor.spawn(async move {
        let walked = setter.set_and_wake(0, 1, 0).unwrap();
        assert_eq!(u64::from(walked.woken), CROWD);
        assert!(walked.holds > 1);
    });
    executor.run(1);
    assert_eq!(woken.load(SeqCst), CROWD);
}
