//! A pool of workers that is shut down: each waits for a job for so long at most, and looks then whether the pool is
//! closed. Nobody wakes them for that, and no job is lost.

use std::sync::atomic::{AtomicBool, AtomicU64, Ordering::SeqCst};
use std::thread;
use std::time::Duration;
use sugwelan::{Completion, Domain, Error, Task, Uninterruptible};

const JOBS_LEFT: Completion = Completion::new(0);
const WORKERS: usize = 4;
const JOBS: u64 = 1000;
const TICK: Duration = Duration::from_millis(2);

/// What the threads share.
#[derive(Default)]
struct Pool {
    closed: AtomicBool,
    taken: AtomicU64,
}

impl Pool {
    /// The next job, once there is one: none where the pool is closed and no job is left.
    fn get(&self, task: &mut Task) -> Result<Option<u64>, Error> {
        loop {
            match JOBS_LEFT.wait(task, Uninterruptible).timeout(TICK) {
                Ok(()) => return Ok(Some(self.taken.fetch_add(1, SeqCst) + 1)),
                Err(Error::TimedOut) if self.closed.load(SeqCst) => return Ok(None),
                Err(Error::TimedOut) => {}
                Err(error) => return Err(error),
            }
        }
    }

    /// The work of a thread: the sum of its jobs.
    fn work(&self, mut task: Task) -> Result<u64, Error> {
        let mut sum = 0;
        while let Some(job) = self.get(&mut task)? {
            sum += job;
        }
        Ok(sum)
    }
}

fn main() -> Result<(), Error> {
    let domain = Domain::new()?;
    let pool = Pool::default();
    let sum: u64 = thread::scope(|scope| {
        let mut workers = Vec::new();
        for _ in 0..WORKERS {
            let (task, pool) = (domain.task()?, &pool);
            workers.push(scope.spawn(|| pool.work(task)));
        }
        for _ in 0..JOBS {
            domain.complete(JOBS_LEFT)?;
        }
        pool.closed.store(true, SeqCst);
        let ends = workers
            .into_iter()
            .map(|worker| worker.join().expect("no worker panics"));
        ends.sum::<Result<u64, Error>>()
    })?;
    println!("{WORKERS} workers have stopped, {JOBS} jobs, sum {sum}");
    Ok(())
}
