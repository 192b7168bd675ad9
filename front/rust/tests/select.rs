//! The first of some futures, by an executor of two threads: those that are dropped with it take nothing from anybody.

mod common;
mod rounds;
mod tokens;

use common::Executor;
use rounds::rounds;
use std::future::{poll_fn, Future};
use std::pin::Pin;
use std::sync::atomic::{AtomicU64, Ordering::SeqCst};
use std::sync::Arc;
use std::task::Poll;
use sugwelan::{Completion, Domain, Task, Uninterruptible};
use tokens::{get, is_one, put, put_first, KINDS, SLEEPS};

const THREADS: usize = 2;
const CLOSED: u8 = 9;
const JOBS: Completion = Completion::new(1);

/// Waits for the first of some futures that is over, and goes on with what it gives; the others are dropped.
macro_rules! select {
    ($($value:pat = $future:expr => $then:expr),+ $(,)?) => {{
        let mut arms: Vec<Pin<Box<dyn Future<Output = _> + Send + '_>>> = vec![
            $(Box::pin(async {
                let $value = $future.await;
                $then
            })),+
        ];
        poll_fn(|context| {
            let ends = arms.iter_mut().map(|arm| arm.as_mut().poll(context));
            ends.into_iter().find(Poll::is_ready).unwrap_or(Poll::Pending)
        })
        .await
    }};
}

/// Is over after so many polls.
async fn polls(mut left: u64) {
    poll_fn(|context| {
        if left == 0 {
            return Poll::Ready(());
        }
        left -= 1;
        context.waker().wake_by_ref();
        Poll::Pending
    })
    .await
}

/// Which arm came first.
enum First {
    One,
    Other,
    Neither,
}

/// Waits for two tokens at once, and for a number of polls.
async fn race(mut one: Task, mut other: Task, pair: usize, worker: u64) {
    let (kind, next) = (KINDS[pair], KINDS[(pair + 1) % KINDS.len()]);
    for round in 0..rounds() {
        let sleep = SLEEPS[(worker + round) as usize % SLEEPS.len()];
        let first = select! {
            () = get(kind, &mut one, sleep) => First::One,
            () = get(next, &mut other, sleep) => First::Other,
            () = polls(round % 4) => First::Neither,
        };
        match first {
            First::One => put(kind, &mut one),
            First::Other => put(next, &mut other),
            First::Neither => {}
        }
    }
}

/// Each pair of tokens, with futures that wait on for each.
#[test]
fn what_a_race_loses_is_left() {
    for pair in 0..KINDS.len() {
        let domain = Domain::new().unwrap();
        let mut executor = Executor::default();
        let kinds = [KINDS[pair], KINDS[(pair + 1) % KINDS.len()]];
        for worker in 0..4 {
            executor.spawn(race(domain.task().unwrap(), domain.task().unwrap(), pair, worker));
        }
        for kind in kinds {
            let mut task = domain.task().unwrap();
            executor.spawn(async move {
                for round in 0..rounds() {
                    get(kind, &mut task, SLEEPS[round as usize % SLEEPS.len()]).await;
                    put(kind, &mut task);
                }
            });
        }
        let mut task = domain.task().unwrap();
        for kind in kinds {
            put_first(kind, &mut task);
        }
        executor.run(THREADS);
        for kind in kinds {
            is_one(kind, &mut task);
        }
    }
}

/// A pool that is closed while jobs come: each job that was given was done, or is there yet.
#[test]
fn a_pool_is_closed() {
    for round in 0..rounds() / 10 {
        let domain = Domain::new().unwrap();
        let done = Arc::new(AtomicU64::new(0));
        let mut executor = Executor::default();
        for _ in 0..4 {
            let (mut worker, mut listener, done) = (domain.task().unwrap(), domain.task().unwrap(), done.clone());
            executor.spawn(async move {
                while select! {
                    job = JOBS.wait(&mut worker, Uninterruptible) => job.is_ok(),
                    closed = listener.wait_event(CLOSED, Uninterruptible) => closed.is_err(),
                } {
                    done.fetch_add(1, SeqCst);
                }
            });
        }
        let mut giver = domain.task().unwrap();
        let given = 10 + round % 10;
        executor.spawn(async move {
            for job in 0..given {
                JOBS.complete(&mut giver).unwrap();
                if job == round % given {
                    giver.set_and_wake(CLOSED, 1, 0).unwrap();
                }
                polls(1).await;
            }
        });
        executor.run(THREADS);
        let (mut task, mut left) = (domain.task().unwrap(), 0);
        while JOBS.try_wait(&mut task).unwrap() {
            left += 1;
        }
        assert_eq!(done.load(SeqCst) + left, given);
    }
}
