//! The signs of a chart: marks on bars, arrows between lanes, and members of queues.

use crate::draw::pen::{place, Pen};
use crate::follow::queues::Sort;
use crate::plan::measure::chip_width;
use std::fmt;

/// A mark on a bar.
#[derive(Clone, Copy)]
pub enum Mark {
    MustWait,
    NeedNot,
    Unknown,
    /// A store that owes a wake, and one that owes none.
    Owing,
    Store,
    Put,
    Off,
    No,
    Yes,
    NoSignal,
    Signal,
    Bookmark,
    Tick,
    Cross,
}

/// Draws a mark around a place.
pub fn draw_mark(pen: &mut Pen, x: f64, y: f64, mark: Mark) -> fmt::Result {
    match mark {
        Mark::MustWait => pen.circle(x, y, 4.5, "mk"),
        Mark::NeedNot => pen.circle(x, y, 4.5, "mka"),
        Mark::Unknown => {
            pen.circle(x, y, 4.5, "mk")?;
            pen.circle(x, y, 1.6, "tkf")
        }
        Mark::Owing => pen.path(x, y - 6.0, "l6 6l-6 6l-6 -6z", "mka"),
        Mark::Store => pen.path(x, y - 6.0, "l6 6l-6 6l-6 -6z", "mk"),
        Mark::Put => {
            pen.circle(x, y, 5.5, "mk")?;
            pen.path(x - 3.0, y, "h6m-3 -3v6", "tk")
        }
        Mark::Off => {
            pen.circle(x, y, 5.5, "mk")?;
            pen.path(x - 3.0, y, "h6", "tk")
        }
        Mark::No => pen.path(x - 4.0, y - 4.0, "h8v8h-8z", "mk"),
        Mark::Yes => pen.path(x - 4.0, y - 4.0, "h8v8h-8z", "mkf"),
        Mark::NoSignal => pen.path(x, y - 5.0, "l5 9h-10z", "mk"),
        Mark::Signal => pen.path(x, y - 5.0, "l5 9h-10z", "mks"),
        Mark::Bookmark => pen.path(x - 4.0, y + 6.0, "v-12h9l-3 3l3 3h-9", "mk"),
        Mark::Tick => pen.path(x - 5.0, y, "h10", "tk"),
        Mark::Cross => pen.path(x - 4.0, y - 4.0, "l8 8m0 -8l-8 8", "sig"),
    }
}

/// What an arrow tells.
#[derive(Clone, Copy)]
pub enum Arrow {
    Wake { woke: bool },
    Signal { fatal: bool },
    Flag,
}

/// The head of an arrow, its point at a place.
fn point(pen: &mut Pen, x: f64, y: f64, right: bool, class: &str) -> fmt::Result {
    let back = if right { "l-8 -5v10z" } else { "l8 -5v10z" };
    pen.path(x, y, back, class)
}

/// The arrow of a wake; of many at once, with two lines.
fn wake(pen: &mut Pen, from: f64, to: f64, y: f64, woke: bool, many: bool) -> fmt::Result {
    let right = to > from;
    let side = if right { 1.0 } else { -1.0 };
    let class = if woke { "wake" } else { "wake no" };
    pen.across(from, y, to - 7.0 * side, "halo")?;
    if many {
        pen.across(from, y - 2.0, to - 8.0 * side, class)?;
        pen.across(from, y + 2.0, to - 8.0 * side, class)?;
    } else {
        pen.across(from, y, to - 8.0 * side, class)?;
    }
    point(
        pen,
        to - side,
        y,
        right,
        if woke { "wakeh" } else { "wakeo" },
    )
}

/// The arrow of a signal, with two heads where it is fatal.
fn signal(pen: &mut Pen, from: f64, to: f64, y: f64, fatal: bool) -> fmt::Result {
    let right = to > from;
    let side = if right { 1.0 } else { -1.0 };
    let end = to - 8.0 * side;
    let before = (from + end) / 2.0 - 6.0 * side;
    pen.across(from, y, to - 7.0 * side, "halo")?;
    let zigzag = if right {
        "l3 -5l6 10l3 -5"
    } else {
        "l-3 -5l-6 10l-3 -5"
    };
    pen.path(from, y, format_args!("H{before}{zigzag}H{end}"), "sig")?;
    if fatal {
        point(pen, to - 8.0 * side, y, right, "sigh")?;
    }
    point(pen, to - side, y, right, "sigh")
}

/// The arrow of a flag that is set, with a pennant.
fn flag(pen: &mut Pen, from: f64, to: f64, y: f64) -> fmt::Result {
    let right = to > from;
    let side = if right { 1.0 } else { -1.0 };
    let end = to - 9.0 * side;
    let pennant = if right {
        "v-12l8 3.5l-8 3.5"
    } else {
        "v-12l-8 3.5l8 3.5"
    };
    pen.across(from, y, end, "halo")?;
    pen.across(from, y, end, "wake")?;
    pen.path(end, y + 6.0, pennant, "wakeh")
}

/// Draws an arrow from a place to another one of the same row.
pub fn draw_arrow(
    pen: &mut Pen,
    from: f64,
    to: f64,
    y: f64,
    arrow: Arrow,
    many: bool,
) -> fmt::Result {
    match arrow {
        Arrow::Wake { woke } => wake(pen, from, to, y, woke, many),
        Arrow::Signal { fatal } => signal(pen, from, to, y, fatal),
        Arrow::Flag => flag(pen, from, to, y),
    }
}

/// Draws a member of a queue.
pub fn chip(pen: &mut Pen, x: f64, y: f64, text: &str, sort: Sort) -> fmt::Result {
    let width = chip_width(text);
    let inner = width - 4.0;
    let at = place(x, y - 8.0, width, 16.0);
    let middle = x + width / 2.0;
    match sort {
        Sort::Bookmark => {
            pen.path(x, y - 8.0, format_args!("h{width}l-4 8l4 8H{x}z"), "chip")?;
            pen.text(x + inner / 2.0, y + 4.0, text, "s ink m")
        }
        Sort::Simple => {
            pen.rect(at, "chip")?;
            pen.text(middle, y + 4.0, text, "s ink m")
        }
        Sort::Shared => {
            pen.round(at, 8.0, "chip")?;
            pen.text(middle, y + 4.0, text, "s ink m")
        }
        Sort::Exclusive | Sort::Priority => {
            pen.round(at, 8.0, "chx")?;
            pen.text(middle, y + 4.0, text, "s chxt m b")
        }
    }
}

/// Draws a zigzag line.
pub fn zigzag(pen: &mut Pen, from: f64, to: f64, y: f64, class: &str) -> fmt::Result {
    let mut turns = String::new();
    let mut x = from;
    let mut up = false;
    for _ in 0..4000u32 {
        if x + 6.0 > to {
            break;
        }
        turns.push_str(if up { "l6 -3" } else { "l6 3" });
        up = !up;
        x += 6.0;
    }
    pen.path(from, y, &turns, class)
}

/// Draws slanted strokes over an area, cut off at its edges.
pub fn hatch(pen: &mut Pen, x: f64, y: f64, width: f64, height: f64) -> fmt::Result {
    let mut low = 9.0 - width;
    for _ in 0..8000u32 {
        if low >= height {
            break;
        }
        // From the left edge, or from the lower one, to the right edge or the upper one.
        let left = low + width;
        let (x1, y1) = if left > height {
            (left - height, height)
        } else {
            (0.0, left)
        };
        let (x2, y2) = if low < 0.0 {
            (width + low, 0.0)
        } else {
            (width, low)
        };
        if x2 - x1 > 1.0 {
            let end_x = x + x2;
            let end_y = y + y2;
            pen.path(x + x1, y + y1, format_args!("L{end_x} {end_y}"), "hat")?;
        }
        low += 9.0;
    }
    Ok(())
}
