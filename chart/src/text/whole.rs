//! A replay's text, whole: the lines of its tasks, and the lines after them that show the state at the end.

use crate::fault::Fault;
use crate::room::push;
use crate::text::line::Line;
use crate::text::reader::read_line;

/// The lines of tasks, and the text that stands after them.
pub struct Text<'a> {
    pub lines: Vec<Line>,
    /// The lines that show the state at the end.
    pub ends: &'a str,
}

impl Text<'_> {
    /// The number of the first line after those of the tasks, from 1 on.
    pub fn first_end(&self) -> u32 {
        u32::try_from(self.lines.len())
            .unwrap_or(u32::MAX)
            .saturating_add(1)
    }
}

/// A fault of a line.
fn bad(line: u32, why: &'static str) -> Fault {
    Fault::Text { line, why }
}

/// Whether a line is one of those that show the state at the end.
fn is_end(line: &str) -> bool {
    line == "end"
        || line.starts_with("events ")
        || line.starts_with("task ")
        || line.starts_with("head ")
        || line.starts_with("word ")
}

/// Refuses a text of lines that are not all of those that show the state at the end. `first` is the first one's number.
fn check_ends(ends: &str, first: u32) -> Result<(), Fault> {
    let mut number = first;
    let mut rest = ends;
    for _ in 0..ends.len() {
        let Some((line, more)) = rest.split_once('\n') else {
            break;
        };
        if !is_end(line) {
            return Err(bad(
                number,
                "a task's line cannot stand after the end lines",
            ));
        }
        number = number.saturating_add(1);
        rest = more;
    }
    if rest.is_empty() {
        Ok(())
    } else {
        Err(bad(number, "it has no line feed at its end"))
    }
}

/// Reads a text. What is read is the text itself: the lines of tasks, spelled one after the other each with its line
/// feed, and then the lines at the end as they are.
///
/// # Errors
///
/// `Text` with the first line that is none of a replay's text, has no line feed, or is a task's after the end lines;
/// and `Memory` where there is none.
pub fn read_text(text: &str) -> Result<Text<'_>, Fault> {
    let mut lines = Vec::new();
    let mut number = 1u32;
    let mut rest = text;
    for _ in 0..text.len() {
        let Some((line, more)) = rest.split_once('\n') else {
            break;
        };
        if is_end(line) {
            break;
        }
        match read_line(line) {
            Some(line) => push(&mut lines, line)?,
            None => return Err(bad(number, "it is no line of a replay's text")),
        }
        number = number.saturating_add(1);
        rest = more;
    }
    check_ends(rest, number)?;
    Ok(Text { lines, ends: rest })
}
