//! Threads that wait and wake, in rounds: none hangs, and none gets what it should not.

mod rounds;

use rounds::rounds;
use std::thread;
use sugwelan::{Bit, Completion, Domain, Error, Interruptible, Killable, Page, Signal, Task};
use sugwelan::{MutexGuard, Uninterruptible as PLAIN};

const WAITERS: usize = 4;
const BIT: Bit = Bit::new(5, 6);

/// A Domain and some tasks of it.
fn tasks(count: usize) -> (Domain, Vec<Task>) {
    let domain = Domain::new().unwrap();
    let tasks = (0..count).map(|_| domain.task().unwrap()).collect();
    (domain, tasks)
}

/// Lets others come first by more or less.
fn pause(round: u64) {
    for i in 0..round % 8 * 2000 {
        std::hint::black_box(i);
    }
}

/// Waits for a condition, and takes it.
fn claim(task: &mut Task, condition: u8) -> u64 {
    loop {
        task.wait_event_exclusive(condition, PLAIN).block().unwrap();
        match task.take_condition(condition).unwrap() {
            0 => {}
            value => return value,
        }
    }
}

#[test]
fn all_wait_for_one_condition() {
    for round in 0..rounds() {
        let (domain, mut tasks) = tasks(WAITERS);
        let mut setter = domain.task().unwrap();
        thread::scope(|scope| {
            for task in &mut tasks {
                scope.spawn(|| task.wait_event(0, PLAIN).block().unwrap());
            }
            pause(round);
            assert!(setter.set_and_wake(0, 1, 0).unwrap().woken <= 4);
        });
    }
}

#[test]
fn two_answer_each_other() {
    let (_domain, mut tasks) = tasks(2);
    let (one, other) = tasks.split_at_mut(1);
    thread::scope(|scope| {
        scope.spawn(|| {
            for round in 1..=rounds() {
                assert_eq!(claim(&mut one[0], 0), round);
                one[0].set_and_wake(1, round, 1).unwrap();
            }
        });
        for round in 1..=rounds() {
            other[0].set_and_wake(0, round, 1).unwrap();
            assert_eq!(claim(&mut other[0], 1), round);
        }
    });
}

#[test]
fn a_bit_and_a_page_guard_counts() {
    let (domain, tasks) = tasks(WAITERS);
    let count = domain.mutex(Bit::new(3, 17), 0);
    let other = domain.fair_mutex(Page::new(8), 0);
    thread::scope(|scope| {
        for mut task in tasks {
            let (count, other) = (&count, &other);
            scope.spawn(move || {
                for _ in 0..rounds() {
                    *count.lock(&mut task, PLAIN).unwrap() += 1;
                    let mut first = count.lock(&mut task, Killable).unwrap();
                    *other.lock(&mut first, PLAIN).unwrap() += 1;
                    MutexGuard::lend(&mut first).set_and_wake(0, 1, 1).unwrap();
                }
            });
        }
    });
    assert_eq!(count.into_inner(), rounds() * WAITERS as u64);
    assert_eq!(other.into_inner(), rounds() * WAITERS as u64);
}

#[test]
fn a_page_counts_its_locks() {
    let (domain, tasks) = tasks(WAITERS);
    let page = domain.page_lock(Page::new(9));
    thread::scope(|scope| {
        for mut task in tasks {
            let page = &page;
            scope.spawn(move || {
                for _ in 0..rounds() {
                    page.lock(&mut task, PLAIN).unwrap().add(1).unwrap();
                }
            });
        }
    });
    let mut task = domain.task().unwrap();
    let mut guard = page.try_lock(&mut task).unwrap().unwrap();
    assert_eq!(guard.add(0), Ok(rounds() * WAITERS as u64));
    assert_eq!(guard.lend().set_and_wake(0, 1, 0).unwrap().woken, 0);
}

#[test]
fn a_variable_goes_up() {
    let (domain, mut tasks) = tasks(WAITERS);
    let mut setter = domain.task().unwrap();
    let last = rounds();
    thread::scope(|scope| {
        for task in &mut tasks {
            scope.spawn(|| {
                let mut value = 0;
                while value < last {
                    let found = task.wait_var_event(20, value, PLAIN).block().unwrap();
                    assert!(found > value);
                    value = found;
                }
            });
        }
        for value in 1..=last {
            setter.publish_var_and_wake(20, value).unwrap();
        }
    });
}

#[test]
fn a_bit_is_waited_for() {
    let (domain, mut tasks) = tasks(WAITERS);
    let mut keeper = domain.task().unwrap();
    for round in 0..rounds() {
        assert_eq!(keeper.trylock_bit(BIT), Ok(true));
        thread::scope(|scope| {
            for task in &mut tasks {
                scope.spawn(|| task.wait_on_bit(BIT, Killable).block().unwrap());
            }
            pause(round);
            keeper.clear_and_wake_up_bit(BIT).unwrap();
        });
    }
}

#[test]
fn completions_hand_permits_on() {
    let (domain, mut tasks) = tasks(WAITERS);
    let mut giver = domain.task().unwrap();
    let done = Completion::new(6);
    for round in 0..rounds() {
        thread::scope(|scope| {
            for task in &mut tasks {
                scope.spawn(|| done.wait(task, PLAIN).block().unwrap());
            }
            pause(round);
            (0..WAITERS).for_each(|_| done.complete(&mut giver).unwrap());
        });
        assert_eq!(done.try_wait(&mut giver), Ok(false));
    }
    done.complete_all(&mut giver).unwrap();
    assert_eq!(done.is_done(&mut giver), Ok(true));
    done.reinit(&mut giver).unwrap();
    assert_eq!(done.is_done(&mut giver), Ok(false));
}

#[test]
fn simple_queues_wake_all() {
    let (domain, mut tasks) = tasks(WAITERS);
    let mut setter = domain.task().unwrap();
    for round in 0..rounds() {
        setter.take_condition(50).unwrap();
        thread::scope(|scope| {
            for task in &mut tasks {
                scope.spawn(|| task.swait_event(50, PLAIN).block().unwrap());
            }
            pause(round);
            assert!(setter.set_and_swake_all(50, 1).unwrap() <= 4);
        });
    }
}

#[test]
fn a_task_that_is_woken_for_nothing_sleeps_again() {
    let (domain, mut tasks) = tasks(1);
    let number = tasks[0].number();
    assert_eq!(domain.wake_up_process(number), Ok(false));
    for _ in 0..rounds() {
        thread::scope(|scope| {
            let waiter = scope.spawn(|| {
                tasks[0].wait_event(0, PLAIN).block().unwrap();
                tasks[0].take_condition(0)
            });
            for _ in 0..3 {
                while !domain.wake_up_process(number).unwrap() {
                    thread::yield_now();
                }
            }
            assert_eq!(domain.set_and_wake(0, 7, 0).map(|_| ()), Ok(()));
            assert_eq!(waiter.join().unwrap(), Ok(7));
        });
    }
}

#[test]
fn signals_end_waits() {
    let (domain, mut tasks) = tasks(WAITERS);
    let numbers: Vec<u8> = tasks.iter().map(Task::number).collect();
    for round in 0..rounds() {
        thread::scope(|scope| {
            for task in &mut tasks {
                scope.spawn(|| {
                    assert_eq!(task.wait_event(0, Interruptible).block(), Err(Error::Signal));
                    assert_eq!(task.take_signal(), Ok(Some(Signal::Plain)));
                });
            }
            pause(round);
            for number in &numbers {
                domain.raise_signal(*number, Signal::Plain).unwrap();
            }
        });
    }
}
