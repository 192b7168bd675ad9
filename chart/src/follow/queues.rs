//! The queues of the heads, and who holds which head, as the lines of a text tell them.

use crate::room::push;
use crate::text::line::Form;
use crate::text::watch::{FIRST_DONE, FIRST_PLAIN, FIRST_SIMPLE};
use std::collections::TryReserveError;
use std::fmt;

// A walk puts its bookmark before the entry that follows so many of one hold.
const ENTRIES_OF_A_HOLD: usize = 65;

/// What a member of a queue is.
#[derive(Clone, Copy, PartialEq, Eq)]
pub enum Sort {
    Shared,
    Exclusive,
    Priority,
    Simple,
    Bookmark,
}

/// A member of a queue, by the task whose it is.
#[derive(Clone, Copy, PartialEq, Eq)]
pub struct Member {
    pub task: u8,
    pub sort: Sort,
}

impl Member {
    /// Whether it is an entry of a task, and not a bookmark.
    fn is_entry_of(&self, task: u8) -> bool {
        self.task == task && self.sort != Sort::Bookmark
    }
}

impl fmt::Display for Member {
    fn fmt(&self, f: &mut fmt::Formatter<'_>) -> fmt::Result {
        let task = self.task;
        match self.sort {
            Sort::Bookmark => write!(f, "*t{task}"),
            Sort::Priority => write!(f, "▴t{task}"),
            Sort::Shared | Sort::Exclusive | Sort::Simple => write!(f, "t{task}"),
        }
    }
}

/// How a line changed a queue.
#[derive(Clone, Copy, PartialEq, Eq)]
pub enum Way {
    Came,
    Went,
}

/// What a line changed: the member that came to a place of a head's queue, or went from there.
#[derive(Clone, Copy)]
pub struct Change {
    pub head: u16,
    pub way: Way,
    pub at: usize,
    pub member: Member,
}

/// The members of a head, the first one in front.
struct Queue {
    head: u16,
    members: Vec<Member>,
}

/// A hold of a head: whether it is part of the holder's own waiting, and the members that its walk goes over.
struct Hold {
    head: u16,
    task: u8,
    own: bool,
    ahead: Vec<Member>,
}

/// All queues, and all holds.
#[derive(Default)]
pub struct Queues {
    queues: Vec<Queue>,
    holds: Vec<Hold>,
}

/// What an entry is, by its head and by where it is queued.
fn sort_of(head: u16, form: Form) -> Sort {
    match form {
        Form::Priority => Sort::Priority,
        Form::Front => Sort::Shared,
        Form::Tail if head >= FIRST_SIMPLE => Sort::Simple,
        Form::Tail => Sort::Exclusive,
    }
}

/// Where a member goes, by its sort: after the entries with priority, or at the end.
fn place_of(members: &[Member], form: Form) -> usize {
    match form {
        Form::Tail => members.len(),
        Form::Front | Form::Priority => members
            .iter()
            .position(|m| m.sort != Sort::Priority)
            .unwrap_or(members.len()),
    }
}

/// Puts a member at a place, or at the end where there is no such place, and answers where it stands.
fn put(members: &mut Vec<Member>, at: usize, member: Member) -> Result<usize, TryReserveError> {
    let at = at.min(members.len());
    members.try_reserve(1)?;
    members.insert(at, member);
    Ok(at)
}

/// The place of a walk's bookmark: before the first member after the 65th entry of the hold that is still queued, and
/// at the end where there is none.
fn place_of_mark(members: &[Member], ahead: &[Member]) -> usize {
    let mut passed = 0usize;
    for m in ahead {
        if passed >= ENTRIES_OF_A_HOLD {
            if let Some(at) = members.iter().position(|x| x == m) {
                return at;
            }
        }
        if m.sort != Sort::Bookmark {
            passed = passed.saturating_add(1);
        }
    }
    members.len()
}

/// The place among the bookmarks before and after a place, which stand by rising task.
fn among_marks(members: &[Member], at: usize, task: u8) -> usize {
    let mut place = at;
    for (i, m) in members.iter().enumerate() {
        if i == place && m.sort == Sort::Bookmark && m.task < task {
            place = i.saturating_add(1);
        }
    }
    for (i, m) in members.iter().enumerate().rev() {
        if i.saturating_add(1) == place && m.sort == Sort::Bookmark && m.task > task {
            place = i;
        }
    }
    place
}

/// The members of a head among queues.
fn members_of(queues: &[Queue], head: u16) -> &[Member] {
    queues
        .iter()
        .find(|q| q.head == head)
        .map_or(&[], |q| &q.members)
}

/// A copy of members.
fn copied(members: &[Member]) -> Result<Vec<Member>, TryReserveError> {
    let mut copy = Vec::new();
    copy.try_reserve_exact(members.len())?;
    copy.extend_from_slice(members);
    Ok(copy)
}

impl Queues {
    /// The members of a head, the first one in front.
    pub fn members(&self, head: u16) -> &[Member] {
        members_of(&self.queues, head)
    }

    /// How many heads have members.
    pub fn used(&self) -> usize {
        self.queues.iter().filter(|q| !q.members.is_empty()).count()
    }

    /// Who holds a head.
    pub fn holder(&self, head: u16) -> Option<u8> {
        self.holds.iter().find(|h| h.head == head).map(|h| h.task)
    }

    /// The head that a task holds.
    pub fn held_by(&self, task: u8) -> Option<u16> {
        self.holds.iter().find(|h| h.task == task).map(|h| h.head)
    }

    /// Whether a task's bookmark stands at a head.
    pub fn is_marked(&self, head: u16, task: u8) -> bool {
        let mark = Member {
            task,
            sort: Sort::Bookmark,
        };
        self.members(head).contains(&mark)
    }

    /// The plain condition at whose head a task's entry stands.
    pub fn condition_of(&self, task: u8) -> Option<u8> {
        let queue = self.queues.iter().find(|q| {
            (FIRST_PLAIN..FIRST_DONE).contains(&q.head)
                && q.members.iter().any(|m| m.is_entry_of(task))
        })?;
        u8::try_from(queue.head - FIRST_PLAIN).ok()
    }

    /// What a task's entry at a head is, if one is queued there.
    pub fn sort_at(&self, head: u16, task: u8) -> Option<Sort> {
        self.members(head)
            .iter()
            .find(|m| m.is_entry_of(task))
            .map(|m| m.sort)
    }

    /// A task takes a head.
    ///
    /// # Errors
    ///
    /// There is no memory.
    pub fn lock(&mut self, head: u16, task: u8) -> Result<(), TryReserveError> {
        let members = self.members(head);
        let mark = Member {
            task,
            sort: Sort::Bookmark,
        };
        let from = members
            .iter()
            .rposition(|m| *m == mark)
            .map_or(0, |at| at.saturating_add(1));
        let hold = Hold {
            head,
            task,
            own: false,
            ahead: copied(members.get(from..).unwrap_or(&[]))?,
        };
        push(&mut self.holds, hold)
    }

    /// A task gives a head back. Answers whether the hold was part of its own waiting.
    pub fn unlock(&mut self, head: u16, task: u8) -> bool {
        let last = |h: &&Hold| h.head == head && h.task == task;
        let own = self.holds.iter().rfind(last).is_some_and(|h| h.own);
        self.holds.retain(|h| h.head != head || h.task != task);
        own
    }

    /// The holds of a task are part of its own waiting.
    pub fn own(&mut self, task: u8) {
        for hold in &mut self.holds {
            if hold.task == task {
                hold.own = true;
            }
        }
    }

    /// Puts a member into a head's queue at a place.
    fn insert(&mut self, head: u16, at: usize, member: Member) -> Result<Change, TryReserveError> {
        let queue = self.queues.iter_mut().find(|q| q.head == head);
        let at = if let Some(queue) = queue {
            put(&mut queue.members, at, member)?
        } else {
            let members = vec![member];
            push(&mut self.queues, Queue { head, members })?;
            0
        };
        Ok(Change {
            head,
            way: Way::Came,
            at,
            member,
        })
    }

    /// A task's entry is queued.
    ///
    /// # Errors
    ///
    /// There is no memory.
    pub fn queue(&mut self, head: u16, task: u8, form: Form) -> Result<Change, TryReserveError> {
        self.own(task);
        let at = place_of(self.members(head), form);
        let sort = sort_of(head, form);
        self.insert(head, at, Member { task, sort })
    }

    /// A walk's bookmark is queued.
    ///
    /// # Errors
    ///
    /// There is no memory.
    pub fn mark(&mut self, head: u16, task: u8) -> Result<Change, TryReserveError> {
        let members = self.members(head);
        let mut at = members.len();
        for hold in &self.holds {
            if hold.head == head && hold.task == task {
                at = place_of_mark(members, hold.ahead.as_slice());
            }
        }
        let at = among_marks(members, at, task);
        let sort = Sort::Bookmark;
        self.insert(head, at, Member { task, sort })
    }

    /// Takes the first member of a task off: its bookmark, or its entry.
    fn take(&mut self, task: u8, mark: bool) -> Option<Change> {
        self.queues.iter_mut().find_map(|q| {
            let at = q
                .members
                .iter()
                .position(|m| m.task == task && (m.sort == Sort::Bookmark) == mark)?;
            Some(Change {
                head: q.head,
                way: Way::Went,
                at,
                member: q.members.remove(at),
            })
        })
    }

    /// An entry is taken off, by its own task or by another.
    pub fn unqueue(&mut self, who: u8, by: u8) -> Option<Change> {
        let change = self.take(who, false);
        if who == by && change.is_some() {
            self.own(by);
        }
        change
    }

    /// A walk's bookmark is taken off, and the walk goes on after it.
    ///
    /// # Errors
    ///
    /// There is no memory.
    pub fn unmark(&mut self, task: u8) -> Result<Option<Change>, TryReserveError> {
        let Some(change) = self.take(task, true) else {
            return Ok(None);
        };
        let Queues { queues, holds } = self;
        let rest = members_of(queues, change.head)
            .get(change.at..)
            .unwrap_or(&[]);
        for hold in holds {
            if hold.head == change.head && hold.task == task {
                hold.ahead = copied(rest)?;
            }
        }
        Ok(Some(change))
    }
}
