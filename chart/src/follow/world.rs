//! What is followed from line to line: tasks, queues, words, and who owes which wake.

use crate::follow::queues::{Queues, Sort};
use crate::follow::task::{Debt, Deed, Task, Why};
use crate::room::push;
use crate::text::line::{Kind, Pending, Slept, State, What, Word};
use crate::text::moment::{Act, Moment, TASKS};
use crate::text::watch::{bit_value, has_bit, lone_bit, Watch, FIRST_PLAIN};
use std::collections::{BTreeMap, TryReserveError};

/// The state that is followed.
pub struct World {
    tasks: Vec<Task>,
    pub queues: Queues,
    words: BTreeMap<Word, u64>,
    pub debts: Vec<Debt>,
    /// Whom a walk's wake did not meet, by the walker and the sleeper.
    missed: Vec<(u8, u8)>,
    /// A script tells what calls are opened.
    scripted: bool,
}

impl World {
    /// The state before the first line.
    pub fn new(scripted: bool) -> World {
        World {
            tasks: vec![Task::NEW; TASKS],
            queues: Queues::default(),
            words: BTreeMap::new(),
            debts: Vec::new(),
            missed: Vec::new(),
            scripted,
        }
    }

    /// A task as it stands.
    pub fn task(&self, task: u8) -> Task {
        self.tasks
            .get(usize::from(task))
            .copied()
            .unwrap_or(Task::NEW)
    }

    fn put(&mut self, task: u8, next: Task) {
        if let Some(place) = self.tasks.get_mut(usize::from(task)) {
            *place = next;
        }
    }

    /// The value of a word.
    pub fn value(&self, word: &Word) -> u64 {
        self.words.get(word).copied().unwrap_or(0)
    }

    fn store(&mut self, word: Word, value: u64) {
        self.words.insert(word, value);
    }

    /// Whether a watch is set, where that is known.
    pub fn is_set(&self, watch: &Watch) -> Option<bool> {
        watch.is_set(self.value(&watch.word))
    }

    /// Whether a task sleeps though what it waits for is set.
    pub fn is_exposed(&self, task: &Task) -> bool {
        !task.runnable
            && task
                .watch
                .is_some_and(|watch| self.is_set(&watch) == Some(true))
    }

    /// Whether a task owes a wake.
    pub fn owes(&self, task: u8) -> bool {
        self.debts.iter().any(|d| d.task == task)
    }

    /// The condition of the head where a task's entry stands.
    fn entry_watch(&self, task: u8) -> Option<Watch> {
        let number = self.queues.condition_of(task)?;
        Some(Watch::whole(Kind::Plain, number))
    }

    /// A walk of a task is over, so it owes no more what it owed for a head: where it is none, of all conditions that
    /// share heads. Of whom it was for, and who still sleeps, it is kept why.
    fn settle(&mut self, by: u8, head: Option<u16>, spent: bool) {
        for who in 0..=u8::MAX {
            let mut task = self.task(who);
            if !self.is_exposed(&task) || !self.is_settled(by, head, &task) {
                continue;
            }
            let missed = self.missed.iter().any(|m| m.0 == by && m.1 == who);
            task.why = if spent {
                Why::Spent
            } else if missed {
                Why::Missed
            } else {
                Why::Lost
            };
            self.put(who, task);
        }
        self.missed.retain(|m| m.0 != by);
        self.debts
            .retain(|d| d.task != by || !ends_at(&d.watch, head));
    }

    /// Whether a walk that is over owed a task its wake.
    fn is_settled(&self, by: u8, head: Option<u16>, task: &Task) -> bool {
        task.watch.is_some_and(|watch| {
            self.debts
                .iter()
                .any(|d| d.task == by && ends_at(&d.watch, head) && d.watch.meets(&watch))
        })
    }

    /// A task owes the wake of a watch.
    fn owe(&mut self, task: u8, watch: Watch) {
        self.debts
            .retain(|d| d.task != task || d.watch.word != watch.word || d.watch.bit != watch.bit);
        self.debts.push(Debt { task, watch });
    }

    /// Follows a moment.
    ///
    /// # Errors
    ///
    /// There is no memory.
    pub fn follow(&mut self, moment: &Moment) -> Result<Deed, TryReserveError> {
        let who = moment.task;
        let mut task = self.task(who);
        task.seen = true;
        match moment.act {
            Act::Opens => {
                self.put(who, task);
                self.open(who, moment);
                Ok(Deed::NONE)
            }
            Act::Does(what) => {
                if !is_no_step(&what) {
                    task.open = true;
                    task.looks = task.looks || !self.scripted;
                }
                self.put(who, task);
                self.does(who, &what)
            }
        }
    }

    /// A call is opened, as a script tells.
    fn open(&mut self, who: u8, moment: &Moment) {
        let mut task = self.task(who);
        task.open = true;
        task.told = true;
        if let Some(call) = &moment.call {
            task.takes = call.takes;
            task.looks = call.watch.is_some();
            task.watch = if call.flagged {
                self.entry_watch(who)
            } else {
                call.watch
            };
        }
        self.put(who, task);
    }

    /// Follows a line of a task.
    fn does(&mut self, who: u8, what: &What) -> Result<Deed, TryReserveError> {
        let deed = match *what {
            What::Load { word, value } => self.load(who, word, value),
            What::Set { word, value } => self.set(who, word, value),
            What::Take { number, found } => self.take(number, found),
            What::Try { word, bit, found } => self.try_bit(who, word, bit, found),
            What::TryFor {
                word, bit, found, ..
            } => self.try_for(word, bit, found),
            What::Clear { word, bit } => self.clear(who, word, bit),
            What::Lock { .. }
            | What::Unlock { .. }
            | What::Queue { .. }
            | What::Unqueue { .. }
            | What::Mark { .. }
            | What::Unmark { .. } => self.moves(who, what)?,
            What::Active { there, .. } => {
                if !there {
                    self.settle(who, None, false);
                }
                Deed::NONE
            }
            What::Wake { who: target, woke } => self.wake(who, target, woke)?,
            What::Signal { who: target, fatal } => self.signal(target, fatal),
            What::Woken { who: target } | What::Handed { who: target } => {
                let mut task = self.task(target);
                task.seen = true;
                task.flag = true;
                self.put(target, task);
                Deed::NONE
            }
            _ => self.turns(who, what),
        };
        Ok(deed)
    }

    /// Follows a line that changes only its own task.
    fn turns(&mut self, who: u8, what: &What) -> Deed {
        let mut task = self.task(who);
        let mut deed = Deed::NONE;
        match *what {
            What::State(state) => {
                task.state = state;
                task.waiter = task.waiter || state != State::Running;
                self.queues.own(who);
            }
            What::Look { .. } => self.queues.own(who),
            What::Sleep(Slept::Asleep) => {
                task.runnable = false;
                task.why = Why::Lost;
            }
            What::Sleep(_) => task.state = State::Running,
            What::Accept(_) => task.signal = Pending::Nothing,
            What::Unflag => task.flag = false,
            What::Flag { there } => {
                deed.passed = Some(there);
                if !self.scripted && task.trying.is_none() {
                    task.watch = self.entry_watch(who).or(task.watch);
                }
            }
            What::Ended(_) => {
                task.open = false;
                task.told = false;
                task.waiter = false;
                task.takes = false;
                task.looks = false;
                task.watch = None;
                task.trying = None;
            }
            _ => {}
        }
        self.put(who, task);
        deed
    }

    /// Follows a line about a head or its queue.
    fn moves(&mut self, who: u8, what: &What) -> Result<Deed, TryReserveError> {
        let mut deed = Deed::NONE;
        match *what {
            What::Lock { head } => self.queues.lock(head, who)?,
            What::Unlock { head, spent } => {
                let own = self.queues.unlock(head, who);
                if !own && !self.queues.is_marked(head, who) {
                    self.settle(who, Some(head), spent);
                }
            }
            What::Queue { head, form } => {
                deed.change = Some(self.queues.queue(head, who, form)?);
                self.note_look(who, false);
            }
            What::Unqueue { who: target } => deed.change = self.queues.unqueue(target, who),
            What::Mark { head } => deed.change = Some(self.queues.mark(head, who)?),
            What::Unmark { .. } => deed.change = self.queues.unmark(who)?,
            _ => {}
        }
        Ok(deed)
    }

    /// The watch of a word that is looked at, where no script tells it.
    fn seen_watch(&self, task: &Task, word: Word, value: u64) -> Option<Watch> {
        let known = task.watch.is_some_and(|watch| watch.word == word);
        match word.kind {
            Kind::Plain | Kind::Done => Some(Watch::whole(word.kind, word.number)),
            Kind::Variable if !known => Some(Watch::of_variable(word.number, value)),
            Kind::Bits if !known => Some(Watch::of_bit(word.number, lone_bit(value))),
            Kind::Variable | Kind::Bits => task.watch,
        }
    }

    /// A task has queued its entry, or has loaded the condition for which it is queued.
    fn note_look(&mut self, who: u8, looked: bool) {
        let mut task = self.task(who);
        task.looked = looked;
        self.put(who, task);
    }

    fn load(&mut self, who: u8, word: Word, value: u64) -> Deed {
        if word.kind == Kind::Plain && self.queues.condition_of(who) == Some(word.number) {
            self.note_look(who, true);
        }
        let mut task = self.task(who);
        let mut deed = Deed::NONE;
        deed.old = self.value(&word);
        self.store(word, value);
        // A walk's own look at the bit is no wait.
        let is_wait = is_counted(word) || self.queues.held_by(who).is_none();
        if !self.scripted && is_wait {
            task.watch = self.seen_watch(&task, word, value);
            self.put(who, task);
        }
        deed.passed = match &task.watch {
            Some(watch) if watch.word == word => watch.is_set(value),
            _ if is_counted(word) => Some(value != 0),
            _ => None,
        };
        deed
    }

    fn set(&mut self, who: u8, word: Word, value: u64) -> Deed {
        let mut deed = Deed::NONE;
        deed.old = self.value(&word);
        deed.owes = match word.kind {
            Kind::Variable => true,
            Kind::Plain => value != 0,
            Kind::Done | Kind::Bits => value > deed.old,
        };
        self.store(word, value);
        if deed.owes {
            self.owe(who, Watch::whole(word.kind, word.number));
        }
        deed
    }

    fn take(&mut self, number: u8, found: u64) -> Deed {
        let word = Word {
            kind: Kind::Plain,
            number,
        };
        let mut deed = Deed::NONE;
        deed.old = self.value(&word);
        deed.passed = Some(found != 0);
        self.store(word, 0);
        deed
    }

    fn try_bit(&mut self, who: u8, number: u8, bit: u8, found: bool) -> Deed {
        let mut task = self.task(who);
        task.trying = None;
        if !self.scripted && found {
            task.watch = Some(Watch::of_bit(number, Some(bit)));
        }
        self.put(who, task);
        self.try_for(number, bit, found)
    }

    fn try_for(&mut self, number: u8, bit: u8, found: bool) -> Deed {
        let word = Word {
            kind: Kind::Bits,
            number,
        };
        let mut deed = Deed::NONE;
        deed.old = self.value(&word);
        deed.passed = Some(!found);
        let value = deed.old | bit_value(bit);
        self.store(word, value);
        deed
    }

    fn clear(&mut self, who: u8, number: u8, bit: u8) -> Deed {
        let watch = Watch::of_bit(number, Some(bit));
        let mut deed = Deed::NONE;
        deed.old = self.value(&watch.word);
        deed.owes = true;
        let value = if has_bit(deed.old, bit) {
            deed.old ^ bit_value(bit)
        } else {
            deed.old
        };
        self.store(watch.word, value);
        self.owe(who, watch);
        deed
    }

    /// Whether a walk's wake selects a task for a bit: its exclusive entry stands at the head that the walk holds.
    fn selects(&self, by: u8, target: u8) -> bool {
        self.queues.held_by(by).is_some_and(|head| {
            head < FIRST_PLAIN && self.queues.sort_at(head, target) == Some(Sort::Exclusive)
        })
    }

    fn wake(&mut self, by: u8, target: u8, woke: bool) -> Result<Deed, TryReserveError> {
        let mut task = self.task(target);
        let mut deed = Deed::NONE;
        deed.target = Some(task);
        task.seen = true;
        if woke {
            task.state = State::Running;
            task.runnable = true;
            if self.selects(by, target) {
                task.trying = task.watch;
            }
        } else {
            push(&mut self.missed, (by, target))?;
        }
        self.put(target, task);
        Ok(deed)
    }

    fn signal(&mut self, target: u8, fatal: bool) -> Deed {
        let mut task = self.task(target);
        task.seen = true;
        if fatal {
            task.signal = Pending::Fatal;
        } else if task.signal == Pending::Nothing {
            task.signal = Pending::Plain;
        }
        self.put(target, task);
        Deed::NONE
    }
}

/// Whether a walk at a head ends what is owed for a watch.
fn ends_at(watch: &Watch, head: Option<u16>) -> bool {
    watch.head().is_none() || head == watch.head()
}

/// Whether a word is one where a wait needs a value other than 0.
fn is_counted(word: Word) -> bool {
    word.kind == Kind::Plain || word.kind == Kind::Done
}

/// Whether a line is no step of an open call.
fn is_no_step(what: &What) -> bool {
    matches!(
        what,
        What::Refused { .. }
            | What::NoCall
            | What::AsleepStill
            | What::Busy { .. }
            | What::Ended(_)
    )
}
