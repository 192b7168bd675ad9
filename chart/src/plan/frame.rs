//! What stands after each row of a chart.

use crate::follow::queues::{Change, Member};
use crate::follow::task::{Deed, Task, Why};
use crate::follow::world::World;
use crate::plan::rows::Row;
use crate::say::sentence::sentence;
use crate::text::line::{Kind, Pending, State, Word};
use crate::text::moment::Moment;
use crate::text::watch::Watch;
use std::collections::TryReserveError;

/// How a task's bar is drawn.
#[derive(Clone, Copy, PartialEq, Eq)]
pub enum Bar {
    /// The task was not met yet.
    Absent,
    /// No call is open.
    Idle,
    /// It runs, in a call.
    Runs,
    /// It stored a state to sleep, and still runs.
    Set,
    Asleep,
}

/// Why a task sleeps though what it waits for is set.
#[derive(Clone, Copy, PartialEq, Eq)]
pub enum Shade {
    /// It does not.
    Clear,
    /// A wake is owed, by this task first, and by so many.
    Owed { first: u8, count: u8 },
    /// A task that was selected for the bit has not tried it yet.
    Trying { by: u8 },
    /// Nobody owes the wake, and why.
    Bare(Why),
}

/// What is drawn of a task after a row.
#[derive(Clone, Copy, PartialEq, Eq)]
pub struct View {
    pub bar: Bar,
    pub state: State,
    pub shade: Shade,
    pub signal: Pending,
    pub flag: bool,
    /// What its open call waits for is set.
    pub lit: bool,
    pub hold: Option<u16>,
    pub owes: bool,
}

impl View {
    /// The view of a task that was not met yet.
    pub const ABSENT: View = View {
        bar: Bar::Absent,
        state: State::Running,
        shade: Shade::Clear,
        signal: Pending::Nothing,
        flag: false,
        lit: false,
        hold: None,
        owes: false,
    };
}

/// What stands after a row.
pub struct Frame {
    views: Vec<View>,
    /// The values of the chart's words.
    pub values: Vec<u64>,
    pub deed: Deed,
    /// The last change of a queue in the row, and the members of that head after it.
    pub change: Option<Change>,
    pub members: Vec<Member>,
    pub sentence: String,
}

impl Frame {
    /// A task after the row.
    pub fn view(&self, task: u8) -> View {
        self.views
            .get(usize::from(task))
            .copied()
            .unwrap_or(View::ABSENT)
    }

    /// The value of a word of the chart.
    pub fn value(&self, place: usize) -> u64 {
        self.values.get(place).copied().unwrap_or(0)
    }

    /// Who holds a head.
    pub fn is_held(&self, head: u16) -> bool {
        self.views.iter().any(|v| v.hold == Some(head))
    }
}

/// Who owes a wake that a watch waits for: the first one, and how many.
fn owing(world: &World, watch: &Watch) -> Option<(u8, u8)> {
    let owing = || world.debts.iter().filter(|debt| debt.watch.meets(watch));
    let first = owing().map(|debt| debt.task).min()?;
    Some((first, u8::try_from(owing().count()).unwrap_or(u8::MAX)))
}

/// Which task was selected for a bit and has not tried it yet.
fn trying(world: &World, watch: &Watch) -> Option<u8> {
    (0..=u8::MAX).find(|who| {
        let tried = world.task(*who).trying;
        tried.is_some_and(|tried| tried.meets(watch))
    })
}

/// Why a task sleeps though what it waits for is set.
fn shade_of(world: &World, task: &Task) -> Shade {
    let Some(watch) = &task.watch else {
        return Shade::Clear;
    };
    if !world.is_exposed(task) {
        return Shade::Clear;
    }
    if let Some((first, count)) = owing(world, watch) {
        return Shade::Owed { first, count };
    }
    if let Some(by) = trying(world, watch) {
        return Shade::Trying { by };
    }
    // A bit's count is spent on a task that tries it: where none does, that is no reason.
    match task.why {
        Why::Spent if watch.bit.is_some() => Shade::Bare(Why::Lost),
        // The law speaks of who has looked since it queued its entry.
        Why::Lost if watch.word.kind == Kind::Plain && !task.looked => Shade::Bare(Why::Unlooked),
        why => Shade::Bare(why),
    }
}

/// What is drawn of a task.
fn view_of(world: &World, who: u8) -> View {
    let task = world.task(who);
    if !task.seen {
        return View::ABSENT;
    }
    let bar = if !task.runnable {
        Bar::Asleep
    } else if task.state != State::Running {
        Bar::Set
    } else if task.open {
        Bar::Runs
    } else {
        Bar::Idle
    };
    let set = match &task.watch {
        Some(watch) => world.is_set(watch) == Some(true),
        None => false,
    };
    View {
        bar,
        state: task.state,
        shade: shade_of(world, &task),
        signal: task.signal,
        flag: task.flag,
        lit: task.open && (task.told || task.waiter) && set,
        hold: world.queues.held_by(who),
        owes: world.owes(who),
    }
}

/// The frame of a state.
fn frame_of(
    world: &World,
    words: &[Word],
    tasks: usize,
    deed: Deed,
    change: Option<Change>,
    sentence: String,
) -> Result<Frame, TryReserveError> {
    let told = change.map_or(&[][..], |change| world.queues.members(change.head));
    let mut members = Vec::new();
    members.try_reserve_exact(told.len())?;
    members.extend_from_slice(told);
    Ok(Frame {
        views: (0..=u8::MAX)
            .take(tasks)
            .map(|task| view_of(world, task))
            .collect(),
        values: words.iter().map(|word| world.value(word)).collect(),
        deed,
        change,
        members,
        sentence,
    })
}

/// The frame of a state before any row.
fn bare_frame(world: &World, words: &[Word], tasks: usize) -> Result<Frame, TryReserveError> {
    let sentence = String::new();
    frame_of(world, words, tasks, Deed::NONE, None, sentence)
}

/// The frames of a chart.
pub struct Frames {
    /// What stands before the first row.
    pub start: Frame,
    /// What stands after each row.
    pub after: Vec<Frame>,
}

/// Follows all moments up to the last row, and keeps what stands before the first row and after each.
///
/// # Errors
///
/// There is no memory.
pub fn follow_all(
    moments: &[Moment],
    rows: &[Row],
    words: &[Word],
    tasks: usize,
    scripted: bool,
) -> Result<Frames, TryReserveError> {
    let mut world = World::new(scripted);
    let mut start = bare_frame(&world, words, tasks)?;
    let mut after = Vec::new();
    let mut change = None;
    let first = rows.first().map_or(0, |row| row.span().0);
    for (at, moment) in moments.iter().enumerate() {
        if at == first {
            start = bare_frame(&world, words, tasks)?;
        }
        let Some(row) = rows.get(after.len()) else {
            break;
        };
        let deed = world.follow(moment)?;
        if at < row.span().0 {
            continue;
        }
        change = deed.change.or(change);
        if at == row.last() {
            let text = sentence(moment, &deed, &world);
            after.push(frame_of(&world, words, tasks, deed, change, text)?);
            change = None;
        }
    }
    Ok(Frames { start, after })
}
