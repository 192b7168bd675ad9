//! Waits with limits: each ends at its limit and not before it, and where the limit and the wake race, nothing is lost.

mod rounds;
mod tokens;

use rounds::rounds;
use std::sync::atomic::{AtomicBool, AtomicU64, Ordering::SeqCst};
use std::thread;
use std::time::{Duration, Instant};
use sugwelan::{Bit, Completion, Domain, Error, Interruptible, Killable, Page, Signal, State, Task, Uninterruptible};
use tokens::{block, get_within, is_one, of_wait, put, put_first, take_first, Kind, Sleep, KINDS, SLEEPS};

const MILLISECOND: Duration = Duration::from_millis(1);
const SECOND: Duration = Duration::from_secs(1);
const JOBS: Completion = Completion::new(1);

/// A wait that ends at its limit, and not before it.
fn ends_at(limit: Duration, wait: impl FnOnce(Duration) -> Result<(), Error>) {
    let begun = Instant::now();
    assert_eq!(wait(limit), Err(Error::TimedOut));
    assert!(begun.elapsed() >= limit);
}

/// A wait for the token that does so.
fn token_at(limit: Duration, kind: Kind, task: &mut Task, sleep: Sleep) {
    ends_at(limit, |limit| of_wait!(kind, task, sleep, wait => wait.timeout(limit)));
}

/// The waits for tokens in each state, at limits of 0 and 1 ms: the task is off the queue then, and the next wait is as
/// ever.
#[test]
fn waits_for_tokens_end_at_their_limits() {
    for kind in KINDS {
        for sleep in SLEEPS {
            let domain = Domain::new().unwrap();
            let (mut keeper, mut task, mut next) =
                (domain.task().unwrap(), domain.task().unwrap(), domain.task().unwrap());
            take_first(kind, &mut keeper);
            token_at(Duration::ZERO, kind, &mut task, sleep);
            token_at(MILLISECOND, kind, &mut task, sleep);
            put(kind, &mut keeper);
            block(kind, &mut next);
            put(kind, &mut next);
            assert!(get_within(kind, &mut task, sleep, Duration::ZERO));
            put(kind, &mut task);
            assert!(get_within(kind, &mut task, sleep, Duration::MAX));
            put(kind, &mut task);
            assert_eq!(task.take_signal(), Ok(None));
        }
    }
}

/// The others: nobody is in the queue then.
#[test]
fn other_waits_end_at_their_limits() {
    fn in_state(state: impl State) {
        let bit = Bit::new(1, 1);
        let domain = Domain::new().unwrap();
        let (mut task, mut setter) = (domain.task().unwrap(), domain.task().unwrap());
        assert_eq!(setter.trylock_bit(bit), Ok(true));
        for limit in [Duration::ZERO, MILLISECOND] {
            ends_at(limit, |limit| {
                task.wait_var_event(20, 0, state).timeout(limit).map(drop)
            });
            ends_at(limit, |limit| task.wait_on_bit(bit, state).timeout(limit));
            ends_at(limit, |limit| task.wait_event(3, state).timeout(limit));
        }
        assert_eq!(setter.publish_var_and_wake(20, 1).unwrap().woken, 0);
        assert_eq!(setter.clear_and_wake_up_bit(bit).unwrap().woken, 0);
        assert_eq!(setter.set_and_wake(3, 1, 0).unwrap().woken, 0);
        assert_eq!(task.wait_var_event(20, 0, state).timeout(SECOND), Ok(1));
        assert_eq!(task.wait_on_bit(bit, state).timeout(SECOND), Ok(()));
        assert_eq!(task.wait_event(3, state).timeout(SECOND), Ok(()));
    }
    in_state(Uninterruptible);
    in_state(Interruptible);
    in_state(Killable);
}

/// All kinds at once at a limit of 1 s.
#[test]
fn a_second_is_a_second() {
    thread::scope(|scope| {
        for kind in KINDS {
            for sleep in SLEEPS {
                scope.spawn(move || {
                    let domain = Domain::new().unwrap();
                    let (mut keeper, mut task) = (domain.task().unwrap(), domain.task().unwrap());
                    take_first(kind, &mut keeper);
                    token_at(SECOND, kind, &mut task, sleep);
                    put(kind, &mut keeper);
                });
            }
        }
    });
}

/// So it is of the others, in each state.
#[test]
fn a_second_is_a_second_of_other_waits() {
    fn in_state(state: impl State) {
        let bit = Bit::new(1, 1);
        let domain = Domain::new().unwrap();
        let (mut keeper, mut one) = (domain.task().unwrap(), domain.task().unwrap());
        let (mut two, mut three) = (domain.task().unwrap(), domain.task().unwrap());
        assert_eq!(keeper.trylock_bit(bit), Ok(true));
        thread::scope(|scope| {
            scope.spawn(|| {
                ends_at(SECOND, |limit| {
                    one.wait_var_event(20, 0, state).timeout(limit).map(drop)
                });
            });
            scope.spawn(|| ends_at(SECOND, |limit| two.wait_on_bit(bit, state).timeout(limit)));
            scope.spawn(|| ends_at(SECOND, |limit| three.wait_event(3, state).timeout(limit)));
        });
        assert!(keeper.clear_and_wake_up_bit(bit).is_ok());
    }
    thread::scope(|scope| {
        scope.spawn(|| in_state(Uninterruptible));
        scope.spawn(|| in_state(Interruptible));
        scope.spawn(|| in_state(Killable));
    });
}

/// One that is woken ends then, and not at its limit.
#[test]
fn a_wake_comes_first() {
    for kind in KINDS {
        let domain = Domain::new().unwrap();
        let (mut keeper, mut task) = (domain.task().unwrap(), domain.task().unwrap());
        take_first(kind, &mut keeper);
        let begun = Instant::now();
        thread::scope(|scope| {
            scope.spawn(|| assert!(get_within(kind, &mut task, Sleep::Uninterruptible, 600 * SECOND)));
            thread::sleep(10 * MILLISECOND);
            put(kind, &mut keeper);
        });
        assert!(begun.elapsed() < 600 * SECOND);
        put(kind, &mut task);
    }
}

/// A number that is spread over all, for each that comes next.
fn spread(random: &mut u64) -> u64 {
    *random = random
        .wrapping_mul(6364136223846793005)
        .wrapping_add(1442695040888963407);
    *random >> 33
}

/// Works on for a while.
fn keep(random: &mut u64) {
    for _ in 0..spread(random) % 4096 {
        std::hint::spin_loop();
    }
}

/// One token, waiters that give up sooner or later, and others who wait on.
#[test]
fn limits_race_with_wakes() {
    for kind in KINDS {
        let domain = Domain::new().unwrap();
        let mut first = domain.task().unwrap();
        thread::scope(|scope| {
            for worker in 0..3 {
                let (mut task, mut random) = (domain.task().unwrap(), worker);
                scope.spawn(move || {
                    for round in 0..rounds() {
                        let limit = Duration::from_nanos(spread(&mut random) % 30_000);
                        if get_within(kind, &mut task, SLEEPS[round as usize % 3], limit) {
                            keep(&mut random);
                            put(kind, &mut task);
                        }
                    }
                });
            }
            for worker in 0..2 {
                let (mut task, mut random) = (domain.task().unwrap(), worker);
                scope.spawn(move || {
                    for _ in 0..rounds() {
                        block(kind, &mut task);
                        keep(&mut random);
                        put(kind, &mut task);
                    }
                });
            }
            put_first(kind, &mut first);
        });
        is_one(kind, &mut first);
    }
}

/// So many give up what nobody puts there that they wait for the lock of the queue, too, and go on with each other's
/// waits: each ends at its limit, though nobody wakes them.
#[test]
fn a_crowd_gives_up() {
    for kind in KINDS {
        let domain = Domain::new().unwrap();
        let mut keeper = domain.task().unwrap();
        take_first(kind, &mut keeper);
        thread::scope(|scope| {
            for worker in 0..8 {
                let (mut task, mut random) = (domain.task().unwrap(), worker);
                scope.spawn(move || {
                    for round in 0..rounds() {
                        let limit = Duration::from_nanos(spread(&mut random) % 30_000);
                        assert!(!get_within(kind, &mut task, SLEEPS[round as usize % 3], limit));
                    }
                });
            }
        });
        put(kind, &mut keeper);
        is_one(kind, &mut keeper);
    }
}

/// Locks for so long at most.
#[test]
fn locks_have_limits() {
    let domain = Domain::new().unwrap();
    let (mut keeper, mut task) = (domain.task().unwrap(), domain.task().unwrap());
    let (lock, page) = (domain.mutex(Bit::new(0, 3), 0), domain.fair_mutex(Page::new(9), 0));
    for value in [&lock, &page] {
        let guard = value.lock(&mut keeper, Killable).unwrap();
        let refused = value.lock_timeout(&mut task, Uninterruptible, MILLISECOND).err();
        assert_eq!(refused, Some(Error::TimedOut));
        drop(guard);
        *value.lock_timeout(&mut task, Uninterruptible, MILLISECOND).unwrap() += 1;
        assert_eq!(*value.lock(&mut keeper, Killable).unwrap(), 1);
    }
}

/// A signal ends a wait with a limit, and stays where the limit came first.
#[test]
fn signals_end_waits_with_limits() {
    let domain = Domain::new().unwrap();
    let mut task = domain.task().unwrap();
    domain.raise_signal(task.number(), Signal::Plain).unwrap();
    assert_eq!(task.wait_event(3, Interruptible).timeout(SECOND), Err(Error::Signal));
    assert_eq!(task.wait_event(3, Killable).timeout(MILLISECOND), Err(Error::TimedOut));
    assert_eq!(task.take_signal(), Ok(Some(Signal::Plain)));
    assert_eq!(task.wait_event(99, Killable).timeout(MILLISECOND), Err(Error::Invalid));
}

/// A pending signal ends each wait that admits it, whatever its limit is, and is not told as the limit; where the wait
/// does not admit it, the limit comes, and it stays.
#[test]
fn signals_are_not_told_as_limits() {
    for kind in KINDS {
        for sleep in SLEEPS {
            let domain = Domain::new().unwrap();
            let (mut keeper, mut task) = (domain.task().unwrap(), domain.task().unwrap());
            take_first(kind, &mut keeper);
            let admits = sleep == Sleep::Interruptible || (kind == Kind::Simple && sleep == Sleep::Killable);
            domain.raise_signal(task.number(), Signal::Plain).unwrap();
            for limit in [Duration::ZERO, MILLISECOND] {
                let wanted = if admits { Error::Signal } else { Error::TimedOut };
                let end = of_wait!(kind, &mut task, sleep, wait => wait.timeout(limit));
                assert_eq!(end, Err(wanted), "{kind:?} {sleep:?}");
            }
            assert_eq!(task.take_signal(), Ok(Some(Signal::Plain)));
            domain.raise_signal(task.number(), Signal::Fatal).unwrap();
            for limit in [Duration::ZERO, MILLISECOND] {
                let wanted = if sleep == Sleep::Uninterruptible {
                    Error::TimedOut
                } else {
                    Error::Signal
                };
                let end = of_wait!(kind, &mut task, sleep, wait => wait.timeout(limit));
                assert_eq!(end, Err(wanted), "{kind:?} {sleep:?}");
            }
            put(kind, &mut keeper);
        }
    }
}

/// A pool of threads that is shut down while jobs come: each job that was given was done, or is there yet.
#[test]
fn a_pool_shuts_down() {
    for round in 0..rounds() / 10 {
        let domain = Domain::new().unwrap();
        let (closed, done) = (AtomicBool::new(false), AtomicU64::new(0));
        let mut giver = domain.task().unwrap();
        let given = 10 + round % 10;
        thread::scope(|scope| {
            for _ in 0..3 {
                let (mut task, closed, done) = (domain.task().unwrap(), &closed, &done);
                scope.spawn(move || loop {
                    match JOBS.wait(&mut task, Uninterruptible).timeout(MILLISECOND / 20) {
                        Ok(()) => done.fetch_add(1, SeqCst),
                        Err(Error::TimedOut) if closed.load(SeqCst) => return,
                        end => {
                            assert_eq!(end, Err(Error::TimedOut));
                            0
                        }
                    };
                });
            }
            for job in 0..given {
                JOBS.complete(&mut giver).unwrap();
                if job == round % given {
                    closed.store(true, SeqCst);
                }
            }
        });
        let mut left = 0;
        while JOBS.try_wait(&mut giver).unwrap() {
            left += 1;
        }
        assert_eq!(done.load(SeqCst) + left, given);
    }
}
