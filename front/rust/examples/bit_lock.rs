//! Threads count under a lock that is one bit.

use std::thread;
use sugwelan::{Bit, Domain, Error, Interruptible, Mutex, Task};

const LOCK: Bit = Bit::new(2, 17);
const THREADS: u64 = 4;
const TIMES: u64 = 10_000;

/// Adds 1 under the lock, which the guard gives back.
fn add(task: &mut Task, count: &Mutex<u64>) -> Result<(), Error> {
    *count.lock(task, Interruptible)? += 1;
    Ok(())
}

fn main() -> Result<(), Error> {
    let domain = Domain::new()?;
    let count = domain.mutex(LOCK, 0);
    thread::scope(|scope| {
        for _ in 0..THREADS {
            let mut task = domain.task()?;
            let count = &count;
            scope.spawn(move || (0..TIMES).try_for_each(|_| add(&mut task, count)));
        }
        Ok(())
    })?;
    println!("{THREADS} threads counted to {}", count.into_inner());
    Ok(())
}
