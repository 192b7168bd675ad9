//! The moments of a replay as English sentences.

use crate::fault::Fault;
use crate::follow::world::World;
use crate::room::Sheet;
use crate::say::sentence::sentence;
use crate::text::moment::Moment;
use std::fmt::Write;

/// Whether a line's number lies in a range, its ends included.
fn is_in(number: u32, range: Option<(u32, u32)>) -> bool {
    range.map_or(true, |(first, last)| first <= number && number <= last)
}

/// One sentence for each moment of a range of lines, after the number of its line. An opening has no number, and goes
/// by that of the next line.
///
/// # Errors
///
/// No moment lies in the range, or there is no memory.
pub fn explain(
    moments: &[Moment],
    scripted: bool,
    range: Option<(u32, u32)>,
) -> Result<String, Fault> {
    let mut world = World::new(scripted);
    let mut out = Sheet::default();
    let mut next = 1u32;
    for moment in moments {
        let deed = world.follow(moment)?;
        let number = moment.number.unwrap_or(next);
        if is_in(number, range) {
            let text = sentence(moment, &deed, &world);
            match moment.number {
                Some(number) => writeln!(out, "{number:>4}  {text}")?,
                None => writeln!(out, "      {text}")?,
            }
        }
        if moment.number.is_some() {
            next = number.saturating_add(1);
        }
    }
    if out.is_empty() {
        return Err(Fault::Nothing);
    }
    Ok(out.into_text())
}
