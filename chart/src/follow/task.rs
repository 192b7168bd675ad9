//! A task as it stands after a line, the wakes that are owed, and what a line did.

use crate::follow::queues::Change;
use crate::text::line::{Pending, State};
use crate::text::watch::Watch;

/// Why nobody owes the wake of one who sleeps on a set condition.
#[derive(Clone, Copy, PartialEq, Eq)]
pub enum Why {
    /// The walk's count was used up by others.
    Spent,
    /// The wake was not for a task in this state.
    Missed,
    /// It has not loaded its condition since it queued its entry.
    Unlooked,
    /// None of the reasons that there are.
    Lost,
}

/// A task as it stands after a line.
#[derive(Clone, Copy)]
pub struct Task {
    /// It acted, or was meant by a line.
    pub seen: bool,
    pub state: State,
    pub runnable: bool,
    pub signal: Pending,
    /// The flag of its entry is set.
    pub flag: bool,
    /// A call is open.
    pub open: bool,
    /// A script told which call.
    pub told: bool,
    /// It stored a state to sleep in this call.
    pub waiter: bool,
    /// The open call takes one of a completion.
    pub takes: bool,
    /// The open call waits by looks at its condition.
    pub looks: bool,
    pub watch: Option<Watch>,
    /// Since it queued its entry for a plain condition it has loaded that condition.
    pub looked: bool,
    /// A walk for a bit selected it, and it has not tried the bit since.
    pub trying: Option<Watch>,
    pub why: Why,
}

impl Task {
    pub const NEW: Task = Task {
        seen: false,
        state: State::Running,
        runnable: true,
        signal: Pending::Nothing,
        flag: false,
        open: false,
        told: false,
        waiter: false,
        takes: false,
        looks: false,
        watch: None,
        looked: false,
        trying: None,
        why: Why::Lost,
    };
}

/// A wake that a task owes since it published a condition.
#[derive(Clone, Copy)]
pub struct Debt {
    pub task: u8,
    pub watch: Watch,
}

/// What a line did, beside the state after it.
#[derive(Clone, Copy)]
pub struct Deed {
    /// The value of the line's word before it.
    pub old: u64,
    /// The task that the line means, as it stood before.
    pub target: Option<Task>,
    /// Whether what was looked at need not be waited for, where that is known.
    pub passed: Option<bool>,
    /// The actor owes a wake by this line.
    pub owes: bool,
    pub change: Option<Change>,
}

impl Deed {
    pub const NONE: Deed = Deed {
        old: 0,
        target: None,
        passed: None,
        owes: false,
        change: None,
    };
}
