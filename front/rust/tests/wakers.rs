//! Wakers that panic, or make calls: no wake is lost behind them.

mod common;

use common::{panics, poll_once, Broken, Counting};
use std::future::Future;
use std::pin::pin;
use std::sync::atomic::Ordering::SeqCst;
use std::sync::Arc;
use std::task::{Context, Wake, Waker};
use sugwelan::{Bit, Completion, Domain, Interruptible, Killable, Task, Uninterruptible};

const PLAIN: u8 = 0;
const DONE: Completion = Completion::new(1);
const CROWD: usize = 120;

/// Futures that wait for a condition, each with a waker that counts; those of some numbers have one that panics.
fn crowd(domain: &Domain, broken: impl Fn(usize) -> bool, wake: impl FnOnce(&mut Task)) {
    let mut setter = domain.task().unwrap();
    let counting = Arc::new(Counting::default());
    let mut tasks: Vec<Task> = (0..CROWD).map(|_| domain.task().unwrap()).collect();
    let mut waits: Vec<_> = tasks.iter_mut().map(|task| task.wait_event(PLAIN, Killable)).collect();
    for (number, wait) in waits.iter_mut().enumerate() {
        let waker = match broken(number) {
            true => Waker::from(Arc::new(Broken)),
            false => Waker::from(counting.clone()),
        };
        assert!(pin!(wait).poll(&mut Context::from_waker(&waker)).is_pending());
    }
    assert!(panics(|| wake(&mut setter)));
    let sound = (0..CROWD).filter(|number| !broken(*number)).count();
    assert_eq!(counting.0.load(SeqCst), sound);
    for wait in &mut waits {
        assert!(poll_once(pin!(wait)).is_ready());
    }
    drop(waits);
    assert_eq!(setter.set_and_wake(PLAIN, 0, 0).unwrap().woken, 0);
}

#[test]
fn all_others_are_roused() {
    let domain = Domain::new().unwrap();
    for broken in [0, 63, 64, CROWD - 1] {
        crowd(
            &domain,
            |number| number == broken,
            |setter| {
                setter.set_and_wake(PLAIN, 1, 0).unwrap();
            },
        );
    }
    crowd(
        &domain,
        |number| number % 2 == 0,
        |setter| {
            setter.domain().set_and_wake(PLAIN, 1, 0).unwrap();
        },
    );
}

/// A guard that gives its lock back to a future whose waker panics has given it back.
#[test]
fn a_guard_is_dropped() {
    let domain = Domain::new().unwrap();
    let mutex = domain.mutex(Bit::new(0, 0), 0);
    let (mut keeper, mut next) = (domain.task().unwrap(), domain.task().unwrap());
    let guard = mutex.lock(&mut keeper, Uninterruptible).unwrap();
    let mut wait = Box::pin(mutex.lock_later(&mut next, Interruptible));
    let waker = Waker::from(Arc::new(Broken));
    assert!(wait.as_mut().poll(&mut Context::from_waker(&waker)).is_pending());
    assert!(panics(|| drop(guard)));
    assert!(poll_once(wait.as_mut()).is_ready());
    drop(wait);
    assert!(keeper.close().is_ok());
}

/// A task whose wake made a waker panic makes further calls.
#[test]
fn the_call_is_over() {
    let domain = Domain::new().unwrap();
    let (mut waiter, mut giver) = (domain.task().unwrap(), domain.task().unwrap());
    let waker = Waker::from(Arc::new(Broken));
    let mut wait = pin!(DONE.wait(&mut waiter, Killable));
    assert!(wait.as_mut().poll(&mut Context::from_waker(&waker)).is_pending());
    assert!(panics(|| DONE.complete(&mut giver).unwrap()));
    assert_eq!(DONE.is_done(&mut giver), Ok(true));
    assert!(poll_once(wait).is_ready());
    assert_eq!(DONE.is_done(&mut giver), Ok(false));
    assert!(giver.close().is_ok());
}

/// A waker that makes calls of the Domain itself.
struct Chain(Domain, Completion);

impl Wake for Chain {
    fn wake(self: Arc<Chain>) {
        self.0.complete(self.1).unwrap();
        drop(self.0.task().unwrap());
    }
}

#[test]
fn a_waker_makes_calls() {
    let domain = Domain::new().unwrap();
    let completions = [Completion::new(2), Completion::new(3), Completion::new(4)];
    let mut tasks: Vec<Task> = (0..2).map(|_| domain.task().unwrap()).collect();
    let mut waits = Vec::new();
    for (number, task) in tasks.iter_mut().enumerate() {
        let mut wait = Box::pin(completions[number].wait(task, Killable));
        let waker = Waker::from(Arc::new(Chain(domain.clone(), completions[number + 1])));
        assert!(wait.as_mut().poll(&mut Context::from_waker(&waker)).is_pending());
        waits.push(wait);
    }
    domain.complete(completions[0]).unwrap();
    assert!(waits.iter_mut().all(|wait| poll_once(wait.as_mut()).is_ready()));
    let mut task = domain.task().unwrap();
    assert_eq!(completions[2].try_wait(&mut task), Ok(true));
}

/// A waker that panics while its thread is in a panic: the guard is dropped, and nothing is aborted.
#[test]
fn in_a_panic() {
    let domain = Domain::new().unwrap();
    let mutex = domain.mutex(Bit::new(0, 0), 0);
    let (mut keeper, mut next) = (domain.task().unwrap(), domain.task().unwrap());
    let mut wait = Box::pin(mutex.lock_later(&mut next, Interruptible));
    assert!(panics(|| {
        let _guard = mutex.lock(&mut keeper, Uninterruptible).unwrap();
        let waker = Waker::from(Arc::new(Broken));
        assert!(wait.as_mut().poll(&mut Context::from_waker(&waker)).is_pending());
        std::panic::resume_unwind(Box::new("the keeper panics"));
    }));
    assert!(poll_once(wait.as_mut()).is_ready());
}

/// Each call of a Domain, for who has no task at hand.
#[test]
fn calls_of_a_domain() {
    let domain = Domain::new().unwrap();
    let mut task = domain.task().unwrap();
    domain.set_and_wake(PLAIN, 5, 0).unwrap();
    assert_eq!(task.take_condition(PLAIN), Ok(5));
    assert_eq!(domain.set_and_swake_one(48, 6), Ok(0));
    assert_eq!(task.take_condition(48), Ok(6));
    assert_eq!(domain.set_and_swake_all(48, 7), Ok(0));
    assert_eq!(task.take_condition(48), Ok(7));
    domain.publish_var_and_wake(16, 8).unwrap();
    assert_eq!(task.wait_var_event(16, 0, Killable).block(), Ok(8));
    domain.complete(DONE).unwrap();
    assert_eq!(DONE.wait(&mut task, Killable).block(), Ok(()));
    domain.complete_all(DONE).unwrap();
    assert_eq!(
        (DONE.try_wait(&mut task), DONE.is_done(&mut task)),
        (Ok(true), Ok(true))
    );
    DONE.reinit(&mut task).unwrap();
    assert_eq!(DONE.is_done(&mut task), Ok(false));
    {
        let mut wait = pin!(task.swait_event(48, Interruptible));
        assert!(poll_once(wait.as_mut()).is_pending());
        assert_eq!((domain.swake_up_one(48), domain.swake_up_all(48)), (Ok(1), Ok(0)));
        assert!(poll_once(wait.as_mut()).is_pending());
    }
    let mut wait = pin!(task.wait_event(PLAIN, Interruptible));
    assert!(poll_once(wait.as_mut()).is_pending());
    assert_eq!(
        domain.wake_up(PLAIN, sugwelan::Mode::Interruptible, 0).unwrap().woken,
        1
    );
}
