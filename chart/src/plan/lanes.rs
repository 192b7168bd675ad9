//! Which lanes a chart has: one for each task, and one for those that only act alike.

use crate::plan::frame::{Bar, Frames, Shade};
use crate::plan::rows::{varying, Row};
use crate::text::moment::{target, Moment, TASKS};

/// A lane, by its tasks, which rise. It has more than one only where these act in the same rows of many alike.
pub struct Lane {
    pub tasks: Vec<u8>,
}

impl Lane {
    /// The first task.
    pub fn first(&self) -> u8 {
        self.tasks.first().copied().unwrap_or(0)
    }

    /// The task whose state is shown.
    pub fn shown(&self) -> u8 {
        self.tasks.last().copied().unwrap_or(0)
    }

    pub fn is_many(&self) -> bool {
        self.tasks.len() > 1
    }
}

/// What the rows have of a task: a lane of its own, or only rows of many alike, and the first of them and how many.
#[derive(Clone, Copy, Default, PartialEq, Eq)]
struct Use {
    own: bool,
    folded: bool,
    first: usize,
    count: usize,
}

/// The uses of all tasks.
struct Uses {
    uses: Vec<Use>,
}

impl Uses {
    fn get(&self, task: u8) -> Use {
        self.uses
            .get(usize::from(task))
            .copied()
            .unwrap_or_default()
    }

    /// A task has a lane of its own.
    fn own(&mut self, task: u8) {
        if let Some(place) = self.uses.get_mut(usize::from(task)) {
            place.own = true;
        }
    }

    /// A task is in a row of many alike.
    fn fold(&mut self, task: u8, row: usize) {
        if let Some(place) = self.uses.get_mut(usize::from(task)) {
            if !place.folded {
                place.first = row;
            }
            place.folded = true;
            place.count = place.count.saturating_add(1);
        }
    }

    /// Counts a row of a moment.
    fn count_one(&mut self, moment: &Moment) {
        self.own(moment.task);
        if let Some(task) = target(moment) {
            self.own(task);
        }
    }
}

/// The tasks of a row of many alike, in their order.
pub fn alike_tasks(moments: &[Moment], from: usize, to: usize, size: usize) -> Vec<u8> {
    (from..to)
        .step_by(size.max(1))
        .map(|at| varying(moments, at, size))
        .collect()
}

/// What the rows have of all tasks.
fn uses_of(moments: &[Moment], rows: &[Row]) -> Uses {
    let mut uses = Uses {
        uses: vec![Use::default(); TASKS],
    };
    for (i, row) in rows.iter().enumerate() {
        match *row {
            Row::One { at } => {
                if let Some(moment) = moments.get(at) {
                    uses.count_one(moment);
                }
            }
            Row::Alike { from, to, size } => {
                let tasks = alike_tasks(moments, from, to, size);
                for task in &tasks {
                    uses.fold(*task, i);
                }
                if let Some(moment) = moments.get(from) {
                    if !tasks.contains(&moment.task) {
                        uses.own(moment.task);
                    }
                }
            }
        }
    }
    uses
}

/// Tasks that hold, owe or are shaded in a range have lanes of their own, though they do nothing there.
fn count_frames(uses: &mut Uses, frames: &Frames) {
    for frame in &frames.after {
        for task in 0..=u8::MAX {
            let view = frame.view(task);
            if view.bar != Bar::Absent
                && (view.shade != Shade::Clear || view.owes || view.hold.is_some())
            {
                uses.own(task);
            }
        }
    }
}

/// The lanes of a chart, by rising first tasks.
pub fn lanes_of(moments: &[Moment], rows: &[Row], frames: &Frames, ranged: bool) -> Vec<Lane> {
    let mut uses = uses_of(moments, rows);
    if ranged {
        count_frames(&mut uses, frames);
    }
    let mut lanes: Vec<Lane> = Vec::new();
    for task in 0..=u8::MAX {
        let here = uses.get(task);
        if !here.own && !here.folded {
            continue;
        }
        let like = |lane: &&mut Lane| !here.own && uses.get(lane.first()) == here;
        match lanes.iter_mut().find(like) {
            Some(lane) => lane.tasks.push(task),
            None => lanes.push(Lane { tasks: vec![task] }),
        }
    }
    lanes
}

/// Numbers of tasks as ranges, as `t1, t3–t5`.
pub fn ranges(tasks: &[u8]) -> String {
    let mut ranges: Vec<String> = Vec::new();
    let mut rest = tasks;
    while let Some(first) = rest.first() {
        let next = rest
            .windows(2)
            .position(|pair| !matches!(pair, [a, b] if a.checked_add(1) == Some(*b)))
            .map_or(rest.len(), |at| at + 1);
        let (range, others) = rest.split_at(next);
        ranges.push(match range.last() {
            Some(last) if last != first => format!("t{first}–t{last}"),
            _ => format!("t{first}"),
        });
        rest = others;
    }
    ranges.join(", ")
}
