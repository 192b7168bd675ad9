//! A queue with eight slots between two threads: one completion counts the free slots, the other one the items. Who
//! takes a permit of the one gives a permit of the other.

use std::collections::VecDeque;
use std::thread;
use sugwelan::{Completion, Domain, Error, Killable, Mutex, Page, Task};

const FREE: Completion = Completion::new(0);
const ITEMS: Completion = Completion::new(1);
const LOCK: Page = Page::new(0);
const SLOTS: u64 = 8;
const COUNT: u64 = 1000;

/// Puts an item into the queue, once a slot is free.
fn put(queue: &Mutex<VecDeque<u64>>, task: &mut Task, item: u64) -> Result<(), Error> {
    FREE.wait(task, Killable).block()?;
    queue.lock(task, Killable)?.push_back(item);
    ITEMS.complete(task)
}

/// Takes the next item, once there is one.
fn get(queue: &Mutex<VecDeque<u64>>, task: &mut Task) -> Result<Option<u64>, Error> {
    ITEMS.wait(task, Killable).block()?;
    let item = queue.lock(task, Killable)?.pop_front();
    FREE.complete(task)?;
    Ok(item)
}

fn main() -> Result<(), Error> {
    let domain = Domain::new()?;
    let queue = domain.fair_mutex(LOCK, VecDeque::new());
    let (mut giver, mut taker) = (domain.task()?, domain.task()?);
    for _ in 0..SLOTS {
        domain.complete(FREE)?;
    }
    let sum = thread::scope(|scope| {
        scope.spawn(|| (1..=COUNT).try_for_each(|item| put(&queue, &mut giver, item)));
        let mut sum = 0;
        for _ in 0..COUNT {
            sum += get(&queue, &mut taker)?.unwrap_or(0);
        }
        Ok(sum)
    })?;
    println!("{COUNT} items, sum {sum}");
    Ok(())
}
