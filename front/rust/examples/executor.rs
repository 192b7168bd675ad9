//! An executor of two threads whose queue of futures waits by a completion, and futures that give a wait up: what a
//! race loses is dropped in mid-wait, and takes nothing from those who wait on.

use std::collections::VecDeque;
use std::future::{poll_fn, Future};
use std::pin::{pin, Pin};
use std::sync::atomic::{AtomicU64, Ordering::SeqCst};
use std::sync::{Arc, Mutex};
use std::task::{Context, Poll, Wake, Waker};
use std::thread;
use sugwelan::{Completion, Domain, Error, Killable, Task};

const READY: Completion = Completion::new(0);
const PERMITS: Completion = Completion::new(1);
const NEVER: u8 = 3;
const THREADS: u64 = 2;
const FUTURES: u64 = 20;

type Work = Pin<Box<dyn Future<Output = ()> + Send>>;

/// Futures that are to be polled. READY has a permit for each. A None ends a thread.
struct Queue {
    domain: Domain,
    jobs: Mutex<VecDeque<Option<Arc<Job>>>>,
}

/// A future that is not over yet.
struct Job {
    work: Mutex<Option<Work>>,
    queue: Arc<Queue>,
}

impl Queue {
    fn put(&self, job: Option<Arc<Job>>) {
        self.jobs.lock().unwrap().push_back(job);
        self.domain.complete(READY).expect("the number is good");
    }

    /// The work of a thread of the executor.
    fn run(&self, mut task: Task) -> Result<(), Error> {
        loop {
            READY.wait(&mut task, Killable).block()?;
            let job = self.jobs.lock().unwrap().pop_front();
            match job.flatten() {
                Some(job) => job.poll(),
                None => return Ok(()),
            }
        }
    }
}

/// A waker has no task at hand: it makes its wake by the Domain.
impl Wake for Job {
    fn wake(self: Arc<Job>) {
        let queue = self.queue.clone();
        queue.put(Some(self));
    }
}

impl Job {
    fn poll(self: Arc<Job>) {
        let waker = Waker::from(self.clone());
        let mut place = self.work.lock().unwrap();
        if let Some(work) = place.as_mut() {
            if work.as_mut().poll(&mut Context::from_waker(&waker)).is_ready() {
                *place = None;
            }
        }
    }
}

/// Waits for the first of two futures to be over, and drops the other one.
async fn first_of<T>(one: impl Future<Output = T>, other: impl Future<Output = T>) -> T {
    let (mut one, mut other) = (pin!(one), pin!(other));
    poll_fn(|context| match one.as_mut().poll(context) {
        Poll::Pending => other.as_mut().poll(context),
        ready => ready,
    })
    .await
}

/// Takes a permit, and gives two waits up: one that never ends, and one that would have taken a permit too.
async fn race(mut one: Task, mut other: Task, taken: Arc<AtomicU64>) {
    let never = one.wait_event(NEVER, Killable);
    let permit = PERMITS.wait(&mut other, Killable);
    first_of(never, permit).await.expect("no signal is raised");
    let (more, none) = (PERMITS.wait(&mut one, Killable), async { Ok(()) });
    first_of(more, none).await.expect("it is over at once");
    taken.fetch_add(1, SeqCst);
}

fn main() -> Result<(), Error> {
    let domain = Domain::new()?;
    let taken = Arc::new(AtomicU64::new(0));
    let queue = Arc::new(Queue {
        domain: domain.clone(),
        jobs: Mutex::default(),
    });
    for _ in 0..FUTURES {
        let work: Work = Box::pin(race(domain.task()?, domain.task()?, taken.clone()));
        let (work, queue) = (Mutex::new(Some(work)), queue.clone());
        queue.clone().put(Some(Arc::new(Job { work, queue })));
    }
    thread::scope(|scope| {
        for _ in 0..THREADS {
            let (task, queue) = (domain.task()?, &queue);
            scope.spawn(|| queue.run(task));
        }
        while taken.load(SeqCst) < FUTURES {
            domain.complete(PERMITS)?;
            thread::yield_now();
        }
        (0..THREADS).for_each(|_| queue.put(None));
        Ok(())
    })?;
    println!("{FUTURES} jobs are over");
    Ok(())
}
