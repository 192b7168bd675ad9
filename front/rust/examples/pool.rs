//! A pool of workers that wait exclusively: each new job wakes one of them. The queue of jobs is locked by a bit.

use std::collections::VecDeque;
use std::thread;
use sugwelan::{Bit, Domain, Error, Mutex, MutexGuard, Task, Uninterruptible};

const WORK: u8 = 0;
const LOCK: Bit = Bit::new(0, 0);
const WORKERS: usize = 4;
const JOBS: u64 = 1000;

/// The queue of jobs. The condition WORK is the number of jobs in it, and changes only while the lock is kept.
type Jobs = Mutex<VecDeque<u64>>;

/// Does something with the queue under its lock, and wakes one worker where jobs are left.
fn change<T>(jobs: &Jobs, task: &mut Task, change: impl FnOnce(&mut VecDeque<u64>) -> T) -> Result<T, Error> {
    let mut queue = jobs.lock(task, Uninterruptible)?;
    let answer = change(&mut queue);
    let left = queue.len() as u64;
    MutexGuard::lend(&mut queue).set_and_wake(WORK, left, 1)?;
    Ok(answer)
}

/// Takes the next job, once there is one.
fn get(jobs: &Jobs, task: &mut Task) -> Result<u64, Error> {
    loop {
        task.wait_event_exclusive(WORK, Uninterruptible).block()?;
        if let Some(job) = change(jobs, task, VecDeque::pop_front)? {
            return Ok(job);
        }
    }
}

/// Works until a job comes that is 0: the sum of the jobs.
fn work(mut task: Task, jobs: &Jobs) -> Result<u64, Error> {
    let mut sum = 0;
    loop {
        match get(jobs, &mut task)? {
            0 => return Ok(sum),
            job => sum += job,
        }
    }
}

fn main() -> Result<(), Error> {
    let domain = Domain::new()?;
    let jobs = domain.mutex(LOCK, VecDeque::new());
    let mut giver = domain.task()?;
    let sum = thread::scope(|scope| {
        let mut workers = Vec::new();
        for _ in 0..WORKERS {
            let (task, jobs) = (domain.task()?, &jobs);
            workers.push(scope.spawn(move || work(task, jobs)));
        }
        for job in (1..=JOBS).chain([0; WORKERS]) {
            change(&jobs, &mut giver, |queue| queue.push_back(job))?;
        }
        let sums = workers
            .into_iter()
            .map(|worker| worker.join().expect("no worker panics"));
        sums.sum::<Result<u64, Error>>()
    })?;
    println!("{WORKERS} workers, {JOBS} jobs, sum {sum}");
    Ok(())
}
