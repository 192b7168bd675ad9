//! Wrong calls: each says why, and nothing has changed.

mod rounds;

use std::thread;
use sugwelan::{Bit, Domain, Error, Interruptible, Mode, Page, Signal, Task, Uninterruptible as PLAIN};

const BIT: Bit = Bit::new(2, 5);
const OTHER: Bit = Bit::new(2, 6);
const PAGE: Page = Page::new(9);

/// A task that keeps a bit and a page; a condition is set, a variable was changed.
fn arranged(domain: &Domain) -> Task {
    let mut task = domain.task().unwrap();
    task.set_and_wake(3, 7, 0).unwrap();
    task.publish_var_and_wake(20, 9).unwrap();
    assert_eq!(task.trylock_bit(BIT), Ok(true));
    assert_eq!(task.trylock_page(PAGE), Ok(true));
    assert_eq!(task.add_tally(PAGE, 3), Ok(0));
    task
}

/// Looks whether all is as it was arranged.
fn is_as_before(task: &mut Task) {
    assert_eq!(task.wait_event(3, PLAIN).block(), Ok(()));
    assert_eq!(task.wait_var_event(20, 8, PLAIN).block(), Ok(9));
    assert!(task.domain().bit_lock(BIT).try_lock(task).unwrap().is_none());
    assert!(task.domain().page_lock(PAGE).try_lock(task).unwrap().is_none());
    assert_eq!(task.add_tally(PAGE, 0), Ok(3));
    assert_eq!(task.take_condition(4), Ok(0));
}

/// Looks whether a call is refused for a reason, and has changed nothing.
fn refused<T>(task: &mut Task, why: Error, call: impl FnOnce(&mut Task) -> Result<T, Error>) {
    assert_eq!(call(task).err(), Some(why));
    is_as_before(task);
}

/// Gives back what the task keeps, and the task.
fn give_back(mut task: Task) {
    task.clear_and_wake_up_bit(BIT).unwrap();
    task.unlock_page(PAGE).unwrap();
    assert!(task.close().is_ok());
}

#[test]
fn numbers_out_of_range() {
    let domain = Domain::new().unwrap();
    let mut task = arranged(&domain);
    let invalid = Error::Invalid;
    refused(&mut task, invalid, |task| task.wait_event(48, PLAIN).block());
    refused(&mut task, invalid, |task| task.wait_event_exclusive(255, PLAIN).block());
    refused(&mut task, invalid, |task| task.swait_event(47, PLAIN).block());
    refused(&mut task, invalid, |task| task.wake_up(48, Mode::Normal, 0));
    refused(&mut task, invalid, |task| task.set_and_wake(48, 1, 0));
    refused(&mut task, invalid, |task| task.take_condition(64));
    refused(&mut task, invalid, |task| task.set_and_swake_one(47, 1));
    refused(&mut task, invalid, |task| task.set_and_swake_all(64, 1));
    refused(&mut task, invalid, |task| task.wait_var_event(128, 0, PLAIN).block());
    refused(&mut task, invalid, |task| task.publish_var_and_wake(15, 1));
    refused(&mut task, invalid, |task| task.publish_var_and_wake(128, 1));
    refused(&mut task, invalid, |task| task.domain().set_and_wake(48, 1, 0));
    refused(&mut task, invalid, |task| task.domain().wake_up(64, Mode::Normal, 0));
    refused(&mut task, invalid, |task| task.domain().set_and_swake_one(47, 1));
    refused(&mut task, invalid, |task| task.domain().set_and_swake_all(64, 1));
    refused(&mut task, invalid, |task| task.domain().swake_up_one(47));
    refused(&mut task, invalid, |task| task.domain().swake_up_all(64));
    refused(&mut task, invalid, |task| task.domain().publish_var_and_wake(15, 1));
    give_back(task);
}

#[test]
fn bits_of_others() {
    let domain = Domain::new().unwrap();
    let mut task = arranged(&domain);
    let (held, not_held) = (Error::Held, Error::NotHeld);
    refused(&mut task, not_held, |task| task.clear_and_wake_up_bit(OTHER));
    refused(&mut task, not_held, |task| task.unlock_page(Page::new(10)));
    refused(&mut task, not_held, |task| task.add_tally(Page::new(10), 1));
    refused(&mut task, held, |task| task.wait_on_bit(BIT, PLAIN).block());
    refused(&mut task, held, |task| task.wait_on_bit_lock(BIT, PLAIN).block());
    refused(&mut task, held, |task| task.lock_page(PAGE, PLAIN).block());
    refused(&mut task, held, |task| task.wait_on_bit(PAGE.into(), PLAIN).block());
    let (mut task, why) = task.close().unwrap_err();
    assert_eq!(why, Error::Keeps);
    is_as_before(&mut task);
    give_back(task);
}

/// A lock knows the tasks of its own Domain from those of another one.
#[test]
fn tasks_of_another_domain_get_no_lock() {
    let (domain, other) = (Domain::new().unwrap(), Domain::new().unwrap());
    let (mut task, mut stranger) = (domain.task().unwrap(), other.task().unwrap());
    let (lock, page) = (domain.bit_lock(BIT), domain.page_lock(PAGE));
    let (mutex, fair) = (domain.mutex(OTHER, 0), domain.fair_mutex(Page::new(1), 0));
    let foreign = Some(Error::Foreign);
    for _ in 0..2 {
        assert_eq!(lock.lock(&mut stranger, PLAIN).err(), foreign);
        assert_eq!(lock.try_lock(&mut stranger).err(), foreign);
        assert_eq!(page.lock(&mut stranger, Interruptible).err(), foreign);
        assert_eq!(page.try_lock(&mut stranger).err(), foreign);
        assert_eq!(mutex.lock(&mut stranger, PLAIN).err(), foreign);
        assert_eq!(fair.try_lock(&mut stranger).err(), foreign);
    }
    assert!(lock.lock(&mut task, PLAIN).is_ok());
    assert!(domain != other && domain == task.domain());
    assert!(other.bit_lock(BIT).lock(&mut stranger, PLAIN).is_ok());
}

#[test]
fn so_many_tasks_at_a_time() {
    let domain = Domain::new().unwrap();
    let rest: Vec<Task> = (0..255).map(|_| domain.task().unwrap()).collect();
    let mut numbers: Vec<u8> = rest.iter().map(Task::number).collect();
    numbers.sort_unstable();
    numbers.dedup();
    assert_eq!(numbers.len(), 255);
    assert_eq!(domain.task().err(), Some(Error::NoNumber));
    assert_eq!(rest[7].fork().err(), Some(Error::NoNumber));
    drop(rest);
    assert!(domain.task().is_ok());
}

/// Tasks one after the other, four at a time, many more than there are numbers.
#[test]
fn numbers_are_used_again() {
    let domain = Domain::new().unwrap();
    let count = domain.mutex(BIT, 0);
    let each = rounds::rounds() * 25;
    thread::scope(|scope| {
        for _ in 0..4 {
            let (domain, count) = (&domain, &count);
            scope.spawn(move || {
                for _ in 0..each {
                    let mut task = domain.task().unwrap();
                    assert_eq!(task.pending_signal(), None);
                    *count.lock(&mut task, PLAIN).unwrap() += 1;
                    domain.raise_signal(task.number(), Signal::Plain).unwrap();
                }
            });
        }
    });
    assert_eq!(count.into_inner(), each * 4);
}

/// A signal ends no call that need not sleep; who is to stop looks for it.
#[test]
fn a_signal_is_seen_and_not_taken() {
    let domain = Domain::new().unwrap();
    let mut task = domain.task().unwrap();
    task.set_and_wake(0, 1, 0).unwrap();
    domain.raise_signal(task.number(), Signal::Plain).unwrap();
    assert_eq!(task.wait_event(0, Interruptible).block(), Ok(()));
    assert_eq!(task.pending_signal(), Some(Signal::Plain));
    task.raise_signal(task.number(), Signal::Fatal).unwrap();
    assert_eq!(task.pending_signal(), Some(Signal::Fatal));
    assert_eq!(task.wait_event(1, Interruptible).block(), Err(Error::Signal));
    assert_eq!(task.take_signal(), Ok(Some(Signal::Fatal)));
    assert_eq!(task.take_signal(), Ok(None));
    assert_eq!(task.pending_signal(), None);
}

/// The tasks of a Domain outlive the value by which it was made.
#[test]
fn tasks_outlive_their_domain() {
    let domain = Domain::new().unwrap();
    let (mut waiter, mut setter) = (domain.task().unwrap(), domain.task().unwrap());
    drop(domain);
    let waited = thread::spawn(move || waiter.wait_event(0, PLAIN).block());
    setter.set_and_wake(0, 1, 0).unwrap();
    assert_eq!(waited.join().unwrap(), Ok(()));
}
