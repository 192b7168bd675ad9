//! Which rows a chart has: a row for each moment, and one for many alike.

use crate::room::push;
use crate::text::line::What;
use crate::text::moment::{target, Act, Moment};
use std::collections::TryReserveError;

/// What stands in a row of the chart.
#[derive(Clone, Copy)]
pub enum Row {
    /// A moment, by its place.
    One { at: usize },
    /// The moments from a place up to another one, in blocks that are alike but for one task.
    Alike { from: usize, to: usize, size: usize },
}

impl Row {
    /// The place of the last moment that the row tells.
    pub fn last(&self) -> usize {
        match *self {
            Row::One { at } => at,
            Row::Alike { to, .. } => to.saturating_sub(1),
        }
    }

    /// The places of the moments that the row tells, up to the second one.
    pub fn span(&self) -> (usize, usize) {
        match *self {
            Row::One { at } => (at, at.saturating_add(1)),
            Row::Alike { from, to, .. } => (from, to),
        }
    }
}

/// The tasks of a block, at most two: the one that acts in its first moment, and another.
#[derive(Clone, Copy)]
struct Cast {
    first: u8,
    second: Option<u8>,
}

impl Cast {
    /// The part that a task has, if it has one.
    fn part(&self, task: u8) -> Option<bool> {
        if task == self.first {
            Some(false)
        } else if Some(task) == self.second {
            Some(true)
        } else {
            None
        }
    }

    /// The task that varies from block to block.
    fn varies(&self) -> u8 {
        self.second.unwrap_or(self.first)
    }
}

/// The cast with one more task, if it is of at most two.
fn joined(cast: Cast, task: u8) -> Option<Cast> {
    match cast.second {
        _ if cast.part(task).is_some() => Some(cast),
        None => Some(Cast {
            first: cast.first,
            second: Some(task),
        }),
        Some(_) => None,
    }
}

/// The cast of a block.
fn cast_of(block: &[Moment]) -> Option<Cast> {
    let first = block.first()?;
    let mut cast = Cast {
        first: first.task,
        second: None,
    };
    for moment in block {
        cast = joined(cast, moment.task)?;
        if let Some(task) = target(moment) {
            cast = joined(cast, task)?;
        }
    }
    Some(cast)
}

/// The line with its other task taken for one and the same.
fn without_target(what: &What) -> What {
    match *what {
        What::Unqueue { .. } => What::Unqueue { who: 0 },
        What::Wake { woke, .. } => What::Wake { who: 0, woke },
        What::Signal { fatal, .. } => What::Signal { who: 0, fatal },
        What::Woken { .. } => What::Woken { who: 0 },
        What::Handed { .. } => What::Handed { who: 0 },
        What::TryFor {
            word, bit, found, ..
        } => What::TryFor {
            word,
            bit,
            found,
            who: 0,
        },
        other => other,
    }
}

/// Whether two moments do the same, but for the task that they mean.
fn does_same(a: &Moment, b: &Moment) -> bool {
    let same = match (&a.act, &b.act) {
        (Act::Opens, Act::Opens) => true,
        (Act::Does(x), Act::Does(y)) => without_target(x) == without_target(y),
        _ => false,
    };
    same && a.call_text() == b.call_text()
}

/// Whether two moments are the same but for tasks that have the same parts in their casts.
fn is_same(a: &Moment, b: &Moment, cast_a: &Cast, cast_b: &Cast) -> bool {
    if cast_a.part(a.task) != cast_b.part(b.task) || !does_same(a, b) {
        return false;
    }
    match (target(a), target(b)) {
        (None, None) => true,
        (Some(x), Some(y)) => cast_a.part(x) == cast_b.part(y),
        _ => false,
    }
}

/// Whether two blocks of one length are alike: the same but for one task.
fn is_alike(a: &[Moment], b: &[Moment]) -> bool {
    let (Some(cast_a), Some(cast_b)) = (cast_of(a), cast_of(b)) else {
        return false;
    };
    if cast_a.second.is_some() != cast_b.second.is_some() || cast_a.varies() == cast_b.varies() {
        return false;
    }
    if cast_a.second.is_some() && cast_a.first != cast_b.first {
        return false;
    }
    a.iter()
        .zip(b.iter())
        .all(|(x, y)| is_same(x, y, &cast_a, &cast_b))
}

/// The moments from a place on, at most so many.
fn block<'m, 'a>(moments: &'m [Moment<'a>], at: usize, size: usize) -> &'m [Moment<'a>] {
    let rest = moments.get(at..).unwrap_or(&[]);
    rest.get(..size).unwrap_or(&[])
}

/// How many blocks of a size, from a place on, are alike, each to the one before.
fn repeats(moments: &[Moment], at: usize, size: usize) -> usize {
    let mut count = 1usize;
    let mut place = at;
    for _ in 0..moments.len() {
        let next = place.saturating_add(size);
        let here = block(moments, place, size);
        let there = block(moments, next, size);
        if there.len() < size || here.len() < size || !is_alike(here, there) {
            break;
        }
        count = count.saturating_add(1);
        place = next;
    }
    count
}

/// The size and the count of the blocks, from a place on, that spare the most rows, if they spare enough.
fn best(moments: &[Moment], at: usize) -> Option<(usize, usize)> {
    let mut best: Option<(usize, usize)> = None;
    for size in 1..10usize {
        let count = repeats(moments, at, size);
        let spared = count.saturating_sub(2).saturating_mul(size);
        let covered = count.saturating_mul(size);
        let more = match best {
            Some((s, c)) => covered > s.saturating_mul(c),
            None => true,
        };
        if count >= 6 && spared >= 6 && more {
            best = Some((size, count));
        }
    }
    best
}

/// The task that varies in a block.
pub fn varying(moments: &[Moment], at: usize, size: usize) -> u8 {
    match cast_of(block(moments, at, size)) {
        Some(cast) => cast.varies(),
        None => 0,
    }
}

/// Rows of one moment each, from a place up to another.
fn push_each(rows: &mut Vec<Row>, from: usize, to: usize) -> Result<(), TryReserveError> {
    for at in from..to {
        push(rows, Row::One { at })?;
    }
    Ok(())
}

/// A row for each moment.
pub fn full_rows(moments: &[Moment]) -> Result<Vec<Row>, TryReserveError> {
    let mut rows = Vec::new();
    push_each(&mut rows, 0, moments.len())?;
    Ok(rows)
}

/// The rows of moments, where of many blocks alike the first and the last one stand, and one row for those between.
pub fn folded_rows(moments: &[Moment]) -> Result<Vec<Row>, TryReserveError> {
    let mut rows = Vec::new();
    let mut at = 0usize;
    for _ in 0..moments.len() {
        if at >= moments.len() {
            break;
        }
        let Some((size, count)) = best(moments, at) else {
            push_each(&mut rows, at, at.saturating_add(1))?;
            at = at.saturating_add(1);
            continue;
        };
        let from = at.saturating_add(size);
        let to = at.saturating_add(size.saturating_mul(count.saturating_sub(1)));
        let end = to.saturating_add(size);
        push_each(&mut rows, at, from)?;
        push(&mut rows, Row::Alike { from, to, size })?;
        push_each(&mut rows, to, end)?;
        at = end;
    }
    Ok(rows)
}

/// Whether a line's number, or that of the next line, lies in a range.
fn is_within(moments: &[Moment], at: usize, first: u32, last: u32) -> bool {
    let rest = moments.get(at..).unwrap_or(&[]);
    let number = rest.iter().find_map(|moment| moment.number);
    number.is_some_and(|number| first <= number && number <= last)
}

/// The rows that tell a line of a range.
pub fn rows_within(
    moments: &[Moment],
    rows: &[Row],
    first: u32,
    last: u32,
) -> Result<Vec<Row>, TryReserveError> {
    let mut kept = Vec::new();
    for row in rows {
        let (from, to) = row.span();
        if (from..to).any(|at| is_within(moments, at, first, last)) {
            push(&mut kept, *row)?;
        }
    }
    Ok(kept)
}
