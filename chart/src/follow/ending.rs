//! The lines after those of the tasks, which show the state at the end, beside the state that was followed.

use crate::follow::world::World;
use crate::text::moment::Moment;
use crate::text::reader::{head, word};
use std::collections::TryReserveError;
use std::str::Split;

/// The words of a line, as many as are wanted, if it has no others.
fn all_words<'a, const COUNT: usize>(mut words: Split<'a, char>) -> Option<[&'a str; COUNT]> {
    let mut all = [""; COUNT];
    for place in &mut all {
        *place = words.next()?;
    }
    words.next().is_none().then_some(all)
}

/// Whether a line `task T STATE SIGNAL ACT` is true of a state, by the words after the first.
fn is_task(world: &World, words: Split<char>) -> Option<bool> {
    let [who, state, signal, act] = all_words(words)?;
    let task = world.task(who.parse::<u8>().ok()?);
    let now = match (task.open, task.runnable) {
        (false, _) => "idle",
        (true, true) => "open",
        (true, false) => "asleep",
    };
    Some(task.state.name() == state && task.signal.name() == signal && now == act)
}

/// Whether a line `head hH MEMBER ..` is true of a state, by the words after the first.
fn is_head(world: &World, mut words: Split<char>) -> Option<bool> {
    let place = head(words.next()?)?;
    for member in world.queues.members(place) {
        let shown = member.to_string();
        if shown.trim_start_matches('▴') != words.next()? {
            return Some(false);
        }
    }
    Some(words.next().is_none())
}

/// Whether a line `word X V` is true of a state, by the words after the first.
fn is_word(world: &World, words: Split<char>) -> Option<bool> {
    let [name, value] = all_words(words)?;
    Some(world.value(&word(name)?) == value.parse::<u64>().ok()?)
}

/// Whether a line at the end is true of a state. What tasks do is compared only where a script tells which calls are
/// open.
fn is_true(world: &World, line: &str, scripted: bool) -> bool {
    let mut words = line.split(' ');
    let told = match words.next() {
        Some("task") if scripted => is_task(world, words),
        Some("head") => is_head(world, words),
        Some("word") => is_word(world, words),
        _ => Some(true),
    };
    told.unwrap_or(false)
}

/// The first of the lines at the end that is not true of the state that was followed, by its number. `first` is the
/// number of the first of these lines.
///
/// # Errors
///
/// There is no memory.
pub fn first_difference(
    moments: &[Moment],
    ends: &str,
    first: u32,
    scripted: bool,
) -> Result<Option<u32>, TryReserveError> {
    let mut world = World::new(scripted);
    for moment in moments {
        world.follow(moment)?;
    }
    let mut number = first;
    for line in ends.split('\n') {
        if !is_true(&world, line, scripted) {
            return Ok(Some(number));
        }
        number = number.saturating_add(1);
    }
    Ok(None)
}
