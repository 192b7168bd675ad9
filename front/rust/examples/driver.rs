//! A driver hands commands to a device and waits for its interrupts. The device is a thread here.

use std::thread;
use sugwelan::{Domain, Error, Killable, Task};

const COMMAND: u8 = 0;
const STATUS: u8 = 1;
const STOP: u64 = 99;

/// Waits for a condition and takes its value. Another task may have been faster; then it waits again.
fn claim(task: &mut Task, condition: u8) -> Result<u64, Error> {
    loop {
        task.wait_event(condition, Killable).block()?;
        match task.take_condition(condition)? {
            0 => {}
            value => return Ok(value),
        }
    }
}

/// Hands a command, not 0, to the device, and waits for its interrupt: the status.
fn transfer(driver: &mut Task, command: u64) -> Result<u64, Error> {
    driver.set_and_wake(COMMAND, command, 1)?;
    claim(driver, STATUS)
}

/// The device works on commands until it is stopped, and raises an interrupt after each.
fn device(mut task: Task) -> Result<(), Error> {
    loop {
        let command = claim(&mut task, COMMAND)?;
        task.set_and_wake(STATUS, command * 10, 1)?;
        if command == STOP {
            return Ok(());
        }
    }
}

fn main() -> Result<(), Error> {
    let domain = Domain::new()?;
    let (mut driver, other) = (domain.task()?, domain.task()?);
    let device = thread::spawn(|| device(other));
    for command in 1..=3 {
        println!("command {command}: status {}", transfer(&mut driver, command)?);
    }
    transfer(&mut driver, STOP)?;
    device.join().expect("the device does not panic")
}
