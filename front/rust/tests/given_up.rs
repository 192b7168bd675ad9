//! Waits that are given up take nothing from anybody else: a token of each kind goes on to the next who waits for it.

mod common;
mod rounds;
mod tokens;

use common::{panics, poll_once, Broken, Counting, Executor};
use rounds::rounds;
use std::future::{poll_fn, Future};
use std::pin::{pin, Pin};
use std::sync::atomic::{AtomicU64, Ordering::SeqCst};
use std::sync::{mpsc, Arc};
use std::task::{Context, Poll, Waker};
use std::thread;
use std::time::Duration;
use sugwelan::{Domain, Error, Interruptible, Killable, Signal, State, Task, Uninterruptible, Wait};
use tokens::{block, get, of_wait, put, put_first, take_first, Kind, Sleep, BIT, KINDS, PLAIN, SLEEPS};

const PATIENCE: Duration = Duration::from_secs(60);

/// How a wait is given up.
#[derive(Clone, Copy, Debug, PartialEq, Eq)]
enum How {
    NotPolled,
    Asleep,
    Selected,
    WakerPanics,
    Forgotten,
}

const HOWS: [How; 5] = [
    How::NotPolled,
    How::Asleep,
    How::Selected,
    How::WakerPanics,
    How::Forgotten,
];

/// What becomes of the task.
#[derive(Clone, Copy, Debug, PartialEq, Eq)]
enum Then {
    Idle,
    Calls,
    Dropped,
}

const THENS: [Then; 3] = [Then::Idle, Then::Calls, Then::Dropped];

/// Polls a wait once, and forgets it where it is under way: whether it is over.
fn forget<T, S: State>(mut wait: Wait<'_, T, S>) -> bool {
    let over = poll_once(Pin::new(&mut wait)).is_ready();
    std::mem::forget(wait);
    over
}

/// The same of a wait for the token.
fn forgotten(kind: Kind, task: &mut Task, sleep: Sleep) -> bool {
    of_wait!(kind, task, sleep, wait => forget(wait))
}

/// Begins to wait for the token, of which one is given back meanwhile, and gives up in some way.
fn give_up(kind: Kind, how: How, sleep: Sleep, lost: &mut Task, put: impl FnOnce()) {
    if how == How::Forgotten {
        assert!(!forgotten(kind, lost, sleep));
        return put();
    }
    let mut wait = Box::pin(get(kind, lost, sleep));
    let waker = match how {
        How::WakerPanics => Waker::from(Arc::new(Broken)),
        _ => Waker::noop().clone(),
    };
    if how != How::NotPolled {
        assert!(wait.as_mut().poll(&mut Context::from_waker(&waker)).is_pending());
    }
    match how {
        How::NotPolled | How::Asleep => {
            drop(wait);
            put();
        }
        How::Selected => {
            put();
            drop(wait);
        }
        How::WakerPanics => {
            assert!(panics(put));
            drop(wait);
        }
        How::Forgotten => unreachable!("see above"),
    }
}

/// For each kind, each state and each way.
fn each(case: impl Fn(Kind, How, Sleep)) {
    for kind in KINDS {
        for how in HOWS {
            for sleep in SLEEPS {
                case(kind, how, sleep);
            }
        }
    }
}

/// The next one is a future, which waits already when the first is given up.
#[test]
fn the_next_future_gets_it() {
    each(|kind, how, sleep| {
        for then in THENS {
            if then == Then::Idle && how == How::Forgotten {
                continue;
            }
            let domain = Domain::new().unwrap();
            let (mut keeper, mut lost, mut next) =
                (domain.task().unwrap(), domain.task().unwrap(), domain.task().unwrap());
            take_first(kind, &mut keeper);
            let mut second = Box::pin(get(kind, &mut next, sleep));
            let counting = Arc::new(Counting::default());
            let waker = Waker::from(counting.clone());
            give_up(kind, how, sleep, &mut lost, || {
                // It waits behind the first: so where that was asleep, that is selected.
                assert!(second.as_mut().poll(&mut Context::from_waker(&waker)).is_pending());
                put(kind, &mut keeper);
            });
            match then {
                Then::Idle => {}
                Then::Calls => assert_eq!(lost.take_signal(), Ok(None), "{kind:?} {how:?}"),
                Then::Dropped => drop(lost),
            }
            assert!(counting.0.load(SeqCst) > 0, "{kind:?} {how:?}: not woken");
            assert!(
                poll_once(second.as_mut()).is_ready(),
                "{kind:?} {how:?}: woken and got nothing"
            );
            drop(second);
            put(kind, &mut next);
        }
    });
}

/// The next one is a thread, which parks.
#[test]
fn the_next_thread_gets_it() {
    each(|kind, how, sleep| {
        let domain = Domain::new().unwrap();
        let (mut keeper, mut lost, mut next) = (domain.task().unwrap(), domain.task().unwrap(), domain.task().unwrap());
        take_first(kind, &mut keeper);
        let (says, hears) = mpsc::channel();
        give_up(kind, how, sleep, &mut lost, || {
            thread::spawn(move || {
                block(kind, &mut next);
                put(kind, &mut next);
                drop(next);
                says.send(()).unwrap();
            });
            thread::sleep(Duration::from_millis(1));
            put(kind, &mut keeper);
        });
        drop(lost);
        hears
            .recv_timeout(PATIENCE)
            .unwrap_or_else(|_| panic!("{kind:?} {how:?}: hangs"));
    });
}

/// Gives up after so many polls.
async fn for_polls<T>(polls: u64, work: Pin<&mut impl Future<Output = T>>) -> Option<T> {
    let (mut left, mut work) = (polls, work);
    poll_fn(|context| {
        if let Poll::Ready(value) = work.as_mut().poll(context) {
            return Poll::Ready(Some(value));
        }
        if left == 0 {
            return Poll::Ready(None);
        }
        left -= 1;
        context.waker().wake_by_ref();
        Poll::Pending
    })
    .await
}

/// Futures that give up sooner or later, beside such that wait on and a thread that parks, by two threads.
#[test]
fn an_executor_drops_futures() {
    for kind in KINDS {
        let domain = Domain::new().unwrap();
        let gained = Arc::new(AtomicU64::new(0));
        let mut executor = Executor::default();
        for worker in 0..4 {
            let (mut task, gained) = (domain.task().unwrap(), gained.clone());
            executor.spawn(async move {
                for round in 0..rounds() {
                    let polls = (worker + round) % 4;
                    if for_polls(polls, pin!(get(kind, &mut task, SLEEPS[round as usize % 3])))
                        .await
                        .is_some()
                    {
                        gained.fetch_add(1, SeqCst);
                        put(kind, &mut task);
                    }
                }
            });
        }
        for _ in 0..2 {
            let mut task = domain.task().unwrap();
            executor.spawn(async move {
                for _ in 0..rounds() {
                    get(kind, &mut task, Sleep::Interruptible).await;
                    put(kind, &mut task);
                }
            });
        }
        let mut task = domain.task().unwrap();
        put_first(kind, &mut task);
        thread::scope(|scope| {
            scope.spawn(|| executor.run(2));
            for _ in 0..rounds() {
                block(kind, &mut task);
                put(kind, &mut task);
            }
        });
    }
}

/// Tasks that are dropped with their waits, again and again, while others wait for the same.
#[test]
fn tasks_are_dropped_in_mid_wait() {
    for kind in KINDS {
        let domain = Domain::new().unwrap();
        let mut first = domain.task().unwrap();
        put_first(kind, &mut first);
        thread::scope(|scope| {
            for worker in 0..3 {
                let domain = &domain;
                scope.spawn(move || {
                    for round in 0..rounds() {
                        let mut task = domain.task().unwrap();
                        match (worker + round) % 3 {
                            0 => {
                                block(kind, &mut task);
                                put(kind, &mut task);
                            }
                            1 => {
                                let over = forgotten(kind, &mut task, Sleep::Uninterruptible);
                                if over && matches!(kind, Kind::Bit | Kind::Page | Kind::Permit) {
                                    put(kind, &mut task);
                                }
                            }
                            _ => {
                                let got = poll_once(pin!(get(kind, &mut task, Sleep::Interruptible))).is_ready();
                                if got {
                                    put(kind, &mut task);
                                }
                            }
                        }
                    }
                });
            }
        });
        block(kind, &mut first);
        put(kind, &mut first);
    }
}

/// A wait for a variable, for a clear bit, or for all: nothing is to be handed on, and the entry is gone.
#[test]
fn other_waits_are_left() {
    fn in_state(state: impl State) {
        let domain = Domain::new().unwrap();
        let (mut task, mut setter) = (domain.task().unwrap(), domain.task().unwrap());
        assert_eq!(setter.trylock_bit(BIT), Ok(true));
        assert!(poll_once(pin!(task.wait_var_event(20, 0, state))).is_pending());
        assert!(poll_once(pin!(task.wait_on_bit(BIT, state))).is_pending());
        assert!(poll_once(pin!(task.wait_event(PLAIN, state))).is_pending());
        assert_eq!(setter.publish_var_and_wake(20, 1).unwrap().woken, 0);
        assert_eq!(setter.clear_and_wake_up_bit(BIT).unwrap().woken, 0);
        assert_eq!(setter.set_and_wake(PLAIN, 1, 0).unwrap().woken, 0);
        assert!(task.close().is_ok());
    }
    in_state(Uninterruptible);
    in_state(Interruptible);
    in_state(Killable);
}

/// No signal ends a wait that is left, and those of others are not lost with it.
#[test]
fn signals_of_others_stay() {
    let domain = Domain::new().unwrap();
    let mut task = domain.task().unwrap();
    let number = task.number();
    assert!(poll_once(pin!(task.wait_event(PLAIN, Killable))).is_pending());
    assert_eq!(task.take_signal(), Ok(None));
    {
        let mut wait = pin!(task.wait_event(PLAIN, Killable));
        assert!(poll_once(wait.as_mut()).is_pending());
        domain.raise_signal(number, Signal::Plain).unwrap();
        assert!(poll_once(wait.as_mut()).is_pending());
    }
    assert_eq!(task.pending_signal(), Some(Signal::Plain));
    assert_eq!(task.wait_event(PLAIN, Interruptible).block(), Err(Error::Signal));
    assert_eq!(task.take_signal(), Ok(Some(Signal::Plain)));
    {
        let mut wait = pin!(task.wait_event(PLAIN, Interruptible));
        assert!(poll_once(wait.as_mut()).is_pending());
        domain.raise_signal(number, Signal::Fatal).unwrap();
    }
    assert_eq!(task.take_signal(), Ok(Some(Signal::Fatal)));
    assert_eq!(task.take_signal(), Ok(None));
}

/// A signal ends a wait, and the future is over; a future that is over says so when it is polled once more.
#[test]
fn a_signal_ends_a_future() {
    let domain = Domain::new().unwrap();
    let mut task = domain.task().unwrap();
    let number = task.number();
    let mut wait = pin!(task.wait_event(PLAIN, Interruptible));
    assert!(poll_once(wait.as_mut()).is_pending());
    domain.raise_signal(number, Signal::Plain).unwrap();
    assert_eq!(poll_once(wait.as_mut()), Poll::Ready(Err(Error::Signal)));
    assert_eq!(poll_once(wait.as_mut()), Poll::Ready(Err(Error::Over)));
}
