//! A small executor: futures are polled in turn by a number of threads, each future by one thread at a time; and
//! wakers that do more or less than they should.

// Each test takes a part of it.
#![allow(dead_code)]

use std::collections::VecDeque;
use std::future::Future;
use std::pin::Pin;
use std::sync::atomic::{AtomicUsize, Ordering::SeqCst};
use std::sync::{Arc, Condvar, Mutex};
use std::task::{Context, Poll, Wake, Waker};
use std::thread;

type Work = Pin<Box<dyn Future<Output = ()> + Send>>;

/// A future that was handed to an executor, until it is over.
struct Job {
    work: Mutex<Option<Work>>,
    queue: Arc<Queue>,
}

/// The jobs that are to be polled.
#[derive(Default)]
struct Queue {
    jobs: Mutex<VecDeque<Arc<Job>>>,
    more: Condvar,
    left: AtomicUsize,
}

impl Queue {
    fn put(&self, job: Arc<Job>) {
        self.jobs.lock().unwrap().push_back(job);
        self.more.notify_one();
    }

    /// The next job, or none once all are over.
    fn get(&self) -> Option<Arc<Job>> {
        let mut jobs = self.jobs.lock().unwrap();
        loop {
            if let Some(job) = jobs.pop_front() {
                return Some(job);
            }
            if self.left.load(SeqCst) == 0 {
                return None;
            }
            jobs = self.more.wait(jobs).unwrap();
        }
    }

    fn end_one(&self) {
        let jobs = self.jobs.lock().unwrap();
        self.left.fetch_sub(1, SeqCst);
        self.more.notify_all();
        drop(jobs);
    }
}

impl Wake for Job {
    fn wake(self: Arc<Job>) {
        let queue = self.queue.clone();
        queue.put(self);
    }
}

impl Job {
    fn poll(self: &Arc<Job>) {
        let waker = Waker::from(self.clone());
        let mut place = self.work.lock().unwrap();
        let Some(work) = place.as_mut() else { return };
        if work.as_mut().poll(&mut Context::from_waker(&waker)).is_ready() {
            *place = None;
            self.queue.end_one();
        }
    }
}

/// Futures that are to be run to their ends.
#[derive(Default)]
pub struct Executor {
    queue: Arc<Queue>,
}

impl Executor {
    /// One more.
    pub fn spawn(&mut self, work: impl Future<Output = ()> + Send + 'static) {
        self.queue.left.fetch_add(1, SeqCst);
        let work = Mutex::new(Some(Box::pin(work) as Work));
        self.queue.put(Arc::new(Job {
            work,
            queue: self.queue.clone(),
        }));
    }

    /// Runs all by so many threads.
    pub fn run(self, threads: usize) {
        thread::scope(|scope| {
            for _ in 0..threads {
                scope.spawn(|| {
                    while let Some(job) = self.queue.get() {
                        job.poll();
                    }
                });
            }
        });
    }
}

/// Polls a future once.
pub fn poll_once<F: Future>(work: Pin<&mut F>) -> Poll<F::Output> {
    work.poll(&mut Context::from_waker(Waker::noop()))
}

/// A waker that counts how often it was called.
#[derive(Default)]
pub struct Counting(pub AtomicUsize);

impl Wake for Counting {
    fn wake(self: Arc<Counting>) {
        self.0.fetch_add(1, SeqCst);
    }
}

/// A waker that panics, and writes nothing of it.
pub struct Broken;

impl Wake for Broken {
    fn wake(self: Arc<Broken>) {
        std::panic::resume_unwind(Box::new("a waker panics"));
    }
}

/// Whether a call panics.
pub fn panics(call: impl FnOnce()) -> bool {
    std::panic::catch_unwind(std::panic::AssertUnwindSafe(call)).is_err()
}
