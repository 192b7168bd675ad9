//! One English sentence for each moment.

use crate::follow::task::{Deed, Task};
use crate::follow::world::World;
use crate::text::line::{Answer, Form, Kind, Pending, Slept, State, Stop, What, Word};
use crate::text::moment::{Act, Moment};
use crate::text::watch::FIRST_SIMPLE;

/// A state as a sentence names it.
fn state_words(state: State) -> &'static str {
    match state {
        State::Running => "running",
        State::Interruptible => "interruptible sleep",
        State::Uninterruptible => "uninterruptible sleep",
        State::Killable => "killable sleep",
    }
}

/// A kind of condition word as a sentence names it.
fn kind_words(kind: Kind) -> &'static str {
    match kind {
        Kind::Plain => "condition",
        Kind::Done => "completion",
        Kind::Bits => "bit word",
        Kind::Variable => "variable",
    }
}

/// Why a call is not opened, by the number of its refusal.
fn refusal_words(reason: u8) -> &'static str {
    match reason {
        1 => "there is no such task",
        2 => "the task has a call open",
        3 => "there is no such condition, or a number is out of range",
        4 => "the task does not hold the bit it would clear",
        5 => "the task's entry is queued already",
        6 => "the task has added no entry (for woken: no woken one)",
        _ => "the text does not say why",
    }
}

/// What a kernel calls a call, by its first word.
fn kernel_name(call: &str) -> &'static str {
    match call.split(' ').next().unwrap_or("") {
        "wait" => " (wait_event)",
        "wake" => " (__wake_up)",
        "add" => " (add_wait_queue)",
        "remove" => " (remove_wait_queue)",
        "woken" => " (wait_woken)",
        "kick" => " (wake_up_process)",
        "swait" => " (swait_event)",
        "swake" => " (swake_up)",
        "complete" => " (complete)",
        "completeall" => " (complete_all)",
        "reinit" => " (reinit_completion)",
        _ => other_kernel_name(call),
    }
}

/// The names of the calls about completions, bits and variables.
fn other_kernel_name(call: &str) -> &'static str {
    match call.split(' ').next().unwrap_or("") {
        "waitfor" => " (wait_for_completion)",
        "trywait" => " (try_wait_for_completion)",
        "isdone" => " (completion_done)",
        "trybit" => " (test_and_set_bit)",
        "waitbit" => " (wait_on_bit)",
        "lockbit" => " (wait_on_bit_lock)",
        "lockpage" => " (lock_page)",
        "clearbit" => " (clear_and_wake_up_bit)",
        "waitvar" => " (wait_var_event)",
        "setvar" => " (wake_up_var)",
        _ => "",
    }
}

/// Whether what a load found need be waited for.
fn verdict(word: &Word, task: &Task, deed: &Deed) -> &'static str {
    if !task.looks || task.watch.is_none() {
        return ".";
    }
    match (deed.passed, word.kind) {
        (None, _) => ".",
        (Some(true), Kind::Plain | Kind::Done) => ": set.",
        (Some(false), Kind::Plain | Kind::Done) => ": not set.",
        (Some(true), Kind::Bits) => ": the bit is clear.",
        (Some(false), Kind::Bits) => ": the bit is taken.",
        (Some(true), Kind::Variable) => ": changed.",
        (Some(false), Kind::Variable) => ": unchanged.",
    }
}

/// The sentence of a store.
fn set_sentence(who: u8, word: &Word, value: u64, task: &Task, deed: &Deed) -> String {
    let kind = kind_words(word.kind);
    let old = deed.old;
    if deed.owes && word.kind == Kind::Variable {
        return format!(
            "Task {who} stores {value} in {kind} {word}; it was {old}, and task {who} owes the wake \
             to all who wait for a change."
        );
    }
    if deed.owes && old != 0 {
        return format!(
            "Task {who} stores {value} in {kind} {word}; it was {old}, set already, and task {who} owes the wake."
        );
    }
    if deed.owes {
        return format!(
            "Task {who} stores {value} in {kind} {word}: from here it is set, and task {who} owes the wake."
        );
    }
    let takes = task.takes || (!task.told && value != 0);
    if word.kind == Kind::Done && takes && old.checked_sub(1) == Some(value) {
        return format!("Task {who} takes one from {kind} {word}, which leaves {value}.");
    }
    format!("Task {who} stores {value} in {kind} {word}; it was {old}.")
}

/// The sentence of a walk that tries to take a bit for another task.
fn try_for_sentence(who: u8, place: (u8, u8), found: bool, target: u8) -> String {
    let (word, bit) = place;
    if found {
        format!(
            "Task {who} tries to set bit {bit} of word {word} for task {target} and finds it set: it \
             is held already."
        )
    } else {
        format!(
            "Task {who} sets bit {bit} of word {word} for task {target} and finds it clear: the bit \
             is task {target}'s."
        )
    }
}

/// The sentence of a line that tries to take a bit.
fn try_sentence(who: u8, what: &What) -> String {
    match *what {
        What::Try {
            word,
            bit,
            found: false,
        } => format!(
            "Task {who} sets bit {bit} of word {word} and finds it clear: the bit is now its own."
        ),
        What::Try {
            word,
            bit,
            found: true,
        } => format!(
            "Task {who} tries to set bit {bit} of word {word} and finds it set: it is held already."
        ),
        What::TryFor {
            word,
            bit,
            found,
            who: target,
        } => try_for_sentence(who, (word, bit), found, target),
        _ => queue_sentence(who, what),
    }
}

/// The sentence of a line about a condition word.
fn word_sentence(who: u8, what: &What, task: &Task, deed: &Deed) -> String {
    match *what {
        What::Load { word, value } => {
            let kind = kind_words(word.kind);
            let end = verdict(&word, task, deed);
            format!("Task {who} looks at {kind} {word} and finds {value}{end}")
        }
        What::Set { word, value } => set_sentence(who, &word, value, task, deed),
        What::Take { number, found: 0 } => {
            format!("Task {who} takes c{number} and finds nothing there.")
        }
        What::Take { number, found } => {
            format!("Task {who} takes c{number}: it finds {found} and leaves 0.")
        }
        What::Clear { word, bit } => {
            format!(
                "Task {who} clears bit {bit} of word {word}: from here it is free, and task {who} owes the wake."
            )
        }
        _ => try_sentence(who, what),
    }
}

/// The sentence of a line that queues an entry.
fn form_sentence(who: u8, head: u16, form: Form) -> String {
    match form {
        Form::Front => format!(
            "Task {who} queues its entry at the front of head {head}, not exclusive: waking it uses up no count."
        ),
        Form::Priority => format!(
            "Task {who} queues its entry on head {head} with priority: exclusive, and before all \
             entries without priority."
        ),
        Form::Tail if head >= FIRST_SIMPLE => format!(
            "Task {who} queues its entry at the tail of head {head}, after all others."
        ),
        Form::Tail => format!(
            "Task {who} queues its entry at the tail of head {head}, exclusive: waking it uses up one \
             of a wake's count."
        ),
    }
}

/// The sentence of a line about a head.
fn queue_sentence(who: u8, what: &What) -> String {
    match *what {
        What::Lock { head } => format!("Task {who} takes the lock of head {head}."),
        What::Unlock { head, spent: false } => {
            format!("Task {who} gives back the lock of head {head}.")
        }
        What::Unlock { head, spent: true } => {
            format!(
                "Task {who} gives back the lock of head {head}; its wake has used up its count."
            )
        }
        What::Queue { head, form } => form_sentence(who, head, form),
        What::Unqueue { who: target } if target == who => {
            format!("Task {who} takes its own entry off the queue.")
        }
        What::Unqueue { who: target } => {
            format!("Task {who} takes task {target}'s entry off the queue.")
        }
        What::Mark { head } => {
            format!(
                "Task {who}'s walk has visited 65 entries in this hold: it puts its bookmark in the queue \
                 of head {head}, to let others have the lock."
            )
        }
        What::Unmark { head } => {
            format!(
                "Task {who} takes its bookmark out of the queue of head {head} and goes on after it."
            )
        }
        _ => look_sentence(who, what),
    }
}

/// The sentence of a look without the lock.
fn look_sentence(who: u8, what: &What) -> String {
    match *what {
        What::Queued { there } => {
            let found = if there {
                "it is still queued"
            } else {
                "it is off already"
            };
            format!("Task {who} looks at its own entry without the lock: {found}.")
        }
        What::Active { head, there } => {
            let found = if there {
                "somebody is queued, so it will walk"
            } else {
                "nobody is queued, so there is nobody to wake"
            };
            format!("Task {who} looks at head {head} without the lock: {found}.")
        }
        What::Look { pending: true } => {
            format!(
                "Task {who} looks for signals and finds one that its state admits: it will not wait on."
            )
        }
        What::Look { pending: false } => {
            format!("Task {who} looks for signals and finds none that its state admits.")
        }
        What::Flag { there: true } => {
            format!("Task {who} reads its WOKEN flag: it is set, so it will not sleep.")
        }
        What::Flag { there: false } => {
            format!("Task {who} reads its WOKEN flag: it is clear, so it goes to sleep.")
        }
        What::Unflag => format!("Task {who} clears its WOKEN flag."),
        _ => state_sentence(who, what),
    }
}

/// The sentence of a line about the own state and signals.
fn state_sentence(who: u8, what: &What) -> String {
    match *what {
        What::State(State::Running) => {
            format!("Task {who} sets its state to running: it will not sleep.")
        }
        What::State(state) => {
            let state = state_words(state);
            format!(
                "Task {who} sets its state to {state}; it still runs, and a wake for this state now makes \
                 it running again."
            )
        }
        What::Sleep(Slept::Asleep) => format!("Task {who} falls asleep."),
        What::Sleep(Slept::Stayed) => {
            format!("Task {who} would sleep, but a wake has made it running: it stays awake.")
        }
        What::Sleep(Slept::Signalled) => {
            format!("Task {who} would sleep, but a signal is pending: it stays awake.")
        }
        What::Accept(Pending::Nothing) => {
            format!("Task {who} takes its signals: there were none.")
        }
        What::Accept(taken) => {
            let taken = taken.name();
            format!("Task {who} takes its signals: there was a {taken} one.")
        }
        _ => end_sentence(who, what),
    }
}

/// The sentence of a line that ends a call or makes no step.
fn end_sentence(who: u8, what: &What) -> String {
    match *what {
        What::Ended(Answer::Walk {
            woken,
            selected,
            holds,
            stop,
        }) => {
            let how = match stop {
                Stop::End => "ends at the end of the queue",
                Stop::Spent => "ends because its count is used up",
                Stop::Stopped => "was stopped",
            };
            let plural = if holds == 1 { "" } else { "s" };
            format!(
                "Task {who}'s walk {how}: {woken} woken, {selected} of them exclusive, {holds} \
                 hold{plural} of the lock."
            )
        }
        What::Ended(Answer::Minus(512)) => {
            format!("Task {who}'s call ends with -512: a signal ended the wait.")
        }
        What::Ended(Answer::Minus(4)) => {
            format!("Task {who}'s call ends with -4: a signal ended the wait for the bit.")
        }
        What::Ended(answer) => format!("Task {who}'s call ends with the answer {answer}."),
        What::Refused { reason } => {
            let why = refusal_words(reason);
            format!("Task {who}'s call is not opened: {why}.")
        }
        What::NoCall => format!("Task {who} can make no step: it has no call open."),
        _ => format!("Task {who} can make no step: it is asleep."),
    }
}

/// The sentence of a wake.
fn wake_sentence(who: u8, target: u8, woke: bool, deed: &Deed) -> String {
    let (state, runnable) = match &deed.target {
        Some(before) => (before.state, before.runnable),
        None => (State::Running, true),
    };
    if woke && !runnable {
        return format!("Task {who} wakes task {target} out of its sleep.");
    }
    if woke {
        return format!(
            "Task {who} wakes task {target} before it sleeps: its sleep will not come."
        );
    }
    if state == State::Running {
        return format!(
            "Task {who}'s wake does not meet task {target}: its state is running already."
        );
    }
    let state = state_words(state);
    format!(
        "Task {who}'s wake does not meet task {target}: it is not for a task in this state ({state})."
    )
}

/// The sentence of a line that means another task or a held head.
fn other_sentence(who: u8, what: &What, deed: &Deed, world: &World) -> String {
    match *what {
        What::Wake { who: target, woke } => wake_sentence(who, target, woke, deed),
        What::Signal { who: target, fatal } => {
            let fatal = if fatal { "fatal " } else { "" };
            format!("Task {who} raises a {fatal}signal at task {target}.")
        }
        What::Woken { who: target } => {
            format!(
                "Task {who} sets the WOKEN flag of task {target}'s entry: its next look at the flag will see this wake."
            )
        }
        What::Handed { who: target } => {
            format!(
                "Task {who} tells task {target}, by the flag of its entry, that the bit is its own."
            )
        }
        What::Busy { head } => match world.queues.holder(head) {
            Some(holder) => format!(
                "Task {who} can make no step: it would lock head {head}, which task {holder} holds."
            ),
            None => format!(
                "Task {who} can make no step: it would lock head {head}, which another task holds."
            ),
        },
        _ => {
            let task = world.task(who);
            word_sentence(who, what, &task, deed)
        }
    }
}

/// What a moment says, in English. `world` is the state after it.
pub fn sentence(moment: &Moment, deed: &Deed, world: &World) -> String {
    let who = moment.task;
    match &moment.act {
        Act::Does(what) => other_sentence(who, what, deed, world),
        Act::Opens => {
            let call = moment.call_text();
            let name = kernel_name(call);
            format!("Task {who} calls {call}{name}.")
        }
    }
}
