//! A driver and its device as two futures on one thread: what waits gives the thread to the other one.

use std::future::Future;
use std::pin::{pin, Pin};
use std::sync::Arc;
use std::task::{Context, Poll, Wake, Waker};
use std::thread::{self, Thread};
use sugwelan::{Domain, Error, Killable, Task};

const COMMAND: u8 = 0;
const STATUS: u8 = 1;
const COMMANDS: u64 = 3;

/// Waits for a condition and takes its value, as a future.
async fn claim(task: &mut Task, condition: u8) -> Result<u64, Error> {
    loop {
        task.wait_event(condition, Killable).await?;
        match task.take_condition(condition)? {
            0 => {}
            value => return Ok(value),
        }
    }
}

async fn driver(mut task: Task) -> Result<(), Error> {
    for command in 1..=COMMANDS {
        task.set_and_wake(COMMAND, command, 1)?;
        println!("command {command}: status {}", claim(&mut task, STATUS).await?);
    }
    Ok(())
}

async fn device(mut task: Task) -> Result<(), Error> {
    for _ in 0..COMMANDS {
        let command = claim(&mut task, COMMAND).await?;
        task.set_and_wake(STATUS, command * 10, 1)?;
    }
    Ok(())
}

/// Goes on with the thread that runs both futures.
struct Unpark(Thread);

impl Wake for Unpark {
    fn wake(self: Arc<Unpark>) {
        self.0.unpark();
    }
}

/// Runs futures to their ends, by one thread that parks where none goes on.
fn run(mut futures: Vec<Pin<&mut dyn Future<Output = Result<(), Error>>>>) -> Result<(), Error> {
    let waker = Waker::from(Arc::new(Unpark(thread::current())));
    let mut context = Context::from_waker(&waker);
    while !futures.is_empty() {
        let mut failed = None;
        futures.retain_mut(|future| match future.as_mut().poll(&mut context) {
            Poll::Pending => true,
            Poll::Ready(answer) => {
                failed = failed.or(answer.err());
                false
            }
        });
        match failed {
            Some(error) => return Err(error),
            None if futures.is_empty() => {}
            None => thread::park(),
        }
    }
    Ok(())
}

fn main() -> Result<(), Error> {
    let domain = Domain::new()?;
    run(vec![pin!(driver(domain.task()?)), pin!(device(domain.task()?))])
}
