//! The moments of a replay for Chrome's trace viewer: a track for each task, ten microseconds a line.

use crate::fault::Fault;
use crate::follow::world::World;
use crate::json::Quoted;
use crate::room::Sheet;
use crate::say::sentence::sentence;
use crate::text::line::{Slept, What};
use crate::text::moment::{target, Act, Moment};
use std::fmt::{self, Write};

/// The trace that is put together: its events, as far as they are known, without the bracket at its end. All events are
/// of one process, and the names of their parts rise.
struct Trace {
    out: Sheet,
    /// How many arrows there are.
    arrows: u32,
}

impl Trace {
    /// A trace that names its process.
    fn new() -> Result<Trace, fmt::Error> {
        let mut out = Sheet::default();
        out.write_str(
            "[{\"args\":{\"name\":\"replay\"},\"name\":\"process_name\",\"ph\":\"M\",\"pid\":1}\n",
        )?;
        Ok(Trace { out, arrows: 0 })
    }

    /// The beginning or the end of a stretch of a task.
    fn edge(&mut self, phase: &str, name: &str, task: u8, time: u64) -> fmt::Result {
        let name = Quoted(name);
        writeln!(
            self.out,
            ",{{\"name\":{name},\"ph\":\"{phase}\",\"pid\":1,\"tid\":{task},\"ts\":{time}}}"
        )
    }

    /// An end of an arrow.
    fn arrow(&mut self, phase: &str, task: u8, time: u64) -> fmt::Result {
        let id = self.arrows;
        writeln!(
            self.out,
            ",{{\"bp\":\"e\",\"cat\":\"wake\",\"id\":{id},\"name\":\"wake\",\"ph\":\"{phase}\",\
             \"pid\":1,\"tid\":{task},\"ts\":{time}}}"
        )
    }

    /// A wake of a task that sleeps.
    fn wake(&mut self, by: u8, task: u8, time: u64) -> fmt::Result {
        self.arrows = self.arrows.saturating_add(1);
        self.arrow("s", by, time)?;
        self.arrow("f", task, time.saturating_add(5))?;
        self.edge("E", "asleep", task, time.saturating_add(5))
    }

    /// A line, with its sentence.
    fn line(&mut self, name: &str, said: &str, task: u8, time: u64) -> fmt::Result {
        let (name, said) = (Quoted(name), Quoted(said));
        writeln!(
            self.out,
            ",{{\"args\":{{\"sentence\":{said}}},\"cat\":\"line\",\"dur\":8,\"name\":{name},\
             \"ph\":\"X\",\"pid\":1,\"tid\":{task},\"ts\":{time}}}"
        )
    }

    /// Adds a moment. `slept` says whether the task that it means slept before.
    fn put(&mut self, moment: &Moment, said: &str, slept: bool, time: u64) -> fmt::Result {
        let task = moment.task;
        let what = match moment.act {
            Act::Opens => return self.edge("B", moment.call_text(), task, time),
            Act::Does(what) => what,
        };
        self.line(&moment.to_string(), said, task, time)?;
        match what {
            What::Sleep(Slept::Asleep) => self.edge("B", "asleep", task, time.saturating_add(9)),
            What::Wake { who, woke: true } if slept => self.wake(task, who, time),
            _ => Ok(()),
        }
    }
}

/// The trace of moments. Calls are stretches where a script tells their openings.
///
/// # Errors
///
/// There is no memory.
pub fn trace_of(moments: &[Moment], scripted: bool) -> Result<String, Fault> {
    let mut world = World::new(scripted);
    let mut trace = Trace::new()?;
    let mut time = 0u64;
    for moment in moments {
        let slept = target(moment).is_some_and(|task| !world.task(task).runnable);
        let called = world.task(moment.task).told;
        let deed = world.follow(moment)?;
        let said = sentence(moment, &deed, &world);
        trace.put(moment, &said, slept, time)?;
        if called && matches!(moment.act, Act::Does(What::Ended(_))) {
            trace.edge("E", "call", moment.task, time.saturating_add(9))?;
        }
        time = time.saturating_add(10);
    }
    trace.out.write_str("]\n")?;
    Ok(trace.out.into_text())
}
