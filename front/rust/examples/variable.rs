//! Threads that meet after each of their turns: a variable has the number of the turn, and the last one who comes
//! publishes the next.

use std::sync::atomic::{AtomicU64, Ordering::SeqCst};
use std::thread;
use sugwelan::{Domain, Error, Killable, Task};

const TURN: u8 = 16;
const THREADS: u64 = 4;
const TURNS: u64 = 100;

/// Waits until all threads are at the end of a turn.
fn meet(task: &mut Task, arrived: &AtomicU64, turn: u64) -> Result<(), Error> {
    if arrived.fetch_add(1, SeqCst) + 1 == THREADS * (turn + 1) {
        task.publish_var_and_wake(TURN, turn + 1)?;
    }
    task.wait_var_event(TURN, turn, Killable).block()?;
    Ok(())
}

/// Adds 1 in each turn, and looks whether all others have done so too.
fn take_turns(task: &mut Task, arrived: &AtomicU64, sum: &AtomicU64) -> Result<(), Error> {
    for turn in 0..TURNS {
        sum.fetch_add(1, SeqCst);
        meet(task, arrived, turn)?;
        assert!(sum.load(SeqCst) >= THREADS * (turn + 1));
    }
    Ok(())
}

fn main() -> Result<(), Error> {
    let domain = Domain::new()?;
    let (arrived, sum) = (AtomicU64::new(0), AtomicU64::new(0));
    thread::scope(|scope| {
        let mut threads = Vec::new();
        for _ in 0..THREADS {
            let (mut task, arrived, sum) = (domain.task()?, &arrived, &sum);
            threads.push(scope.spawn(move || take_turns(&mut task, arrived, sum)));
        }
        let ends = threads.into_iter().map(|thread| thread.join().expect("none panics"));
        ends.collect::<Result<(), Error>>()
    })?;
    println!("{THREADS} threads, {TURNS} turns, sum {}", sum.into_inner());
    Ok(())
}
