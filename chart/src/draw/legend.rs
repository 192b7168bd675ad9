//! The legend: the signs that occur in a chart, and what each says.

use crate::draw::marks::{chip, draw_arrow, draw_mark, hatch, zigzag, Arrow, Mark};
use crate::draw::pen::{place, Pen};
use crate::follow::queues::Sort;
use crate::follow::task::Why;
use crate::plan::frame::{Bar, Frames, Shade, View};
use crate::plan::measure::length_of;
use crate::plan::places::Plan;
use crate::plan::rows::Row;
use crate::text::line::{Form, Pending, What};
use crate::text::moment::{Act, Moment};
use crate::text::watch::FIRST_SIMPLE;
use std::fmt;

/// A sign that a legend explains.
#[derive(Clone, Copy, PartialEq, Eq)]
pub enum Key {
    Runs,
    Set,
    Asleep,
    Lit,
    Owed,
    Bare,
    Lost,
    Owes,
    Hold,
    Busy,
    WakeYes,
    WakeNo,
    Signal,
    Pending,
    Flag,
    Load,
    Store,
    Queue,
    Look,
    Peek,
    End,
    Tick,
    Refused,
    Shared,
    Exclusive,
    Priority,
    Simple,
    Bookmark,
    Alike,
}

/// The signs in their order, and what each says.
static KEYS: [(Key, &str); 29] = [
    (Key::Runs, "runs, in a call"),
    (Key::Set, "set to sleep, still runs"),
    (Key::Asleep, "asleep"),
    (Key::Lit, "what it waits for is set"),
    (Key::Owed, "asleep though it is set, wake owed"),
    (Key::Bare, "asleep though it is set, no wake owed"),
    (Key::Lost, "asleep though it is set: LOST"),
    (Key::Owes, "owes a wake, till its walk ends"),
    (Key::Hold, "holds a head's lock"),
    (Key::Busy, "lock is busy: no step"),
    (Key::WakeYes, "wake: yes"),
    (Key::WakeNo, "wake: no"),
    (Key::Signal, "signal"),
    (Key::Pending, "signal pending"),
    (Key::Flag, "WOKEN flag set; stands while striped"),
    (Key::Load, "load: must wait / need not"),
    (Key::Store, "store: sets, owes the wake / other"),
    (Key::Queue, "entry on / off"),
    (Key::Look, "look for signals: no / yes"),
    (Key::Peek, "other look: no / yes"),
    (Key::End, "call opens (if told), call ends"),
    (Key::Tick, "state stored; sleep that stays"),
    (Key::Refused, "call refused"),
    (Key::Shared, "queued, not exclusive"),
    (Key::Exclusive, "queued, exclusive"),
    (Key::Priority, "exclusive, with priority"),
    (Key::Simple, "queued, simple queue"),
    (Key::Bookmark, "bookmark of a walk"),
    (Key::Alike, "lines alike, folded"),
];

/// Whether a line that queues an entry has a sign.
fn form_has(key: Key, head: u16, form: Form) -> bool {
    match (key, form) {
        (Key::Queue, _) | (Key::Shared, Form::Front) | (Key::Priority, Form::Priority) => true,
        (Key::Exclusive, Form::Tail) => head < FIRST_SIMPLE,
        (Key::Simple, Form::Tail) => head >= FIRST_SIMPLE,
        _ => false,
    }
}

/// Whether a line about a condition word has a sign.
fn word_has(key: Key, what: &What) -> bool {
    match what {
        What::Load { .. } => key == Key::Load,
        What::Set { .. }
        | What::Take { .. }
        | What::Try { .. }
        | What::TryFor { .. }
        | What::Clear { .. } => key == Key::Store,
        _ => false,
    }
}

/// Whether a line has a sign.
fn line_has(key: Key, what: &What) -> bool {
    match (key, what) {
        (_, What::Queue { head, form }) => form_has(key, *head, *form),
        (Key::Hold, What::Lock { .. })
        | (Key::Busy, What::Busy { .. })
        | (Key::WakeYes, What::Wake { woke: true, .. })
        | (Key::WakeNo, What::Wake { woke: false, .. })
        | (Key::Signal, What::Signal { .. })
        | (Key::Flag, What::Woken { .. } | What::Handed { .. })
        | (Key::Queue, What::Unqueue { .. })
        | (Key::Look, What::Look { .. })
        | (Key::Peek, What::Queued { .. } | What::Active { .. } | What::Flag { .. })
        | (Key::End, What::Ended(_))
        | (Key::Tick, What::State(_))
        | (Key::Refused, What::Refused { .. })
        | (Key::Bookmark, What::Mark { .. }) => true,
        _ => word_has(key, what),
    }
}

/// Whether a task's view has a sign.
fn view_has(key: Key, view: &View) -> bool {
    match key {
        Key::Runs => view.bar == Bar::Runs,
        Key::Set => view.bar == Bar::Set,
        Key::Asleep => view.bar == Bar::Asleep,
        Key::Lit => view.lit,
        Key::Owed => matches!(view.shade, Shade::Owed { .. }),
        Key::Bare => matches!(
            view.shade,
            Shade::Trying { .. } | Shade::Bare(Why::Spent | Why::Missed | Why::Unlooked)
        ),
        Key::Lost => view.shade == Shade::Bare(Why::Lost),
        Key::Owes => view.owes,
        Key::Pending => view.signal != Pending::Nothing,
        _ => false,
    }
}

/// Whether a sign occurs in the lines of the rows, or in what stands after a row.
fn occurs(key: Key, moments: &[Moment], rows: &[Row], frames: &Frames) -> bool {
    for row in rows {
        let (from, to) = row.span();
        for moment in moments.get(from..to).unwrap_or(&[]) {
            if let Act::Does(what) = &moment.act {
                if line_has(key, what) {
                    return true;
                }
            }
        }
        if key == Key::Alike && matches!(row, Row::Alike { .. }) {
            return true;
        }
    }
    for frame in &frames.after {
        if (0..=u8::MAX).any(|task| view_has(key, &frame.view(task))) {
            return true;
        }
    }
    false
}

/// The signs that occur.
pub fn keys_of(moments: &[Moment], rows: &[Row], frames: &Frames) -> Vec<Key> {
    let mut keys = Vec::new();
    for (key, _) in &KEYS {
        if occurs(*key, moments, rows, frames) {
            keys.push(*key);
        }
    }
    keys
}

/// What to see in a chart, by the signs that occur.
pub fn notes_of(keys: &[Key]) -> Vec<&'static str> {
    let mut notes = Vec::new();
    if keys.contains(&Key::Owed) {
        notes.push("Each hatched sleep lies level with an amber bar: its wake is still owed.");
    }
    if keys.contains(&Key::Bare) {
        notes.push("Dotted: no wake of this sleeper is owed, and why stands beside it.");
    }
    if keys.contains(&Key::Lost) {
        notes
            .push("LOST: nobody owes the wake of this sleeper, and for none of the known reasons.");
    }
    notes
}

/// Draws a sign that is a piece of a bar.
fn draw_bar_key(pen: &mut Pen, x: f64, y: f64, key: Key) -> fmt::Result {
    let bar = place(x + 4.0, y - 7.0, 22.0, 14.0);
    let class = match key {
        Key::Runs => "run",
        Key::Set => "set",
        _ => "asleep",
    };
    pen.rect(bar, class)?;
    let end = y + 7.0;
    let side = if class == "asleep" { "edge" } else { "side" };
    pen.path(x + 4.5, y - 7.0, format_args!("V{end}"), side)?;
    pen.path(x + 25.5, y - 7.0, format_args!("V{end}"), side)?;
    match key {
        Key::Owed => {
            hatch(pen, x + 4.0, y - 7.0, 22.0, 14.0)?;
            pen.rect(bar, "dedge")
        }
        Key::Bare | Key::Lost => {
            for k in 0..3u32 {
                pen.circle(x + 9.0 + 6.0 * f64::from(k), y, 2.0, "dot")?;
            }
            pen.rect(bar, if key == Key::Lost { "ledge" } else { "bedge" })
        }
        _ => Ok(()),
    }
}

/// Draws two marks on a piece of a bar.
fn draw_pair(pen: &mut Pen, x: f64, y: f64, left: Mark, right: Mark) -> fmt::Result {
    pen.round(place(x - 1.0, y - 8.0, 33.0, 16.0), 3.0, "run")?;
    draw_mark(pen, x + 8.0, y, left)?;
    draw_mark(pen, x + 23.0, y, right)
}

/// Draws a sign that is a member of a queue, or of lines alike.
fn draw_queue_key(pen: &mut Pen, x: f64, y: f64, key: Key) -> fmt::Result {
    match key {
        Key::Shared => chip(pen, x + 1.0, y, "t1", Sort::Shared),
        Key::Exclusive => chip(pen, x + 1.0, y, "t1", Sort::Exclusive),
        Key::Priority => chip(pen, x + 1.0, y, "▴t1", Sort::Priority),
        Key::Simple => chip(pen, x + 1.0, y, "t1", Sort::Simple),
        Key::Bookmark => chip(pen, x + 1.0, y, "*t1", Sort::Bookmark),
        _ => {
            zigzag(pen, x + 1.0, x + 31.0, y - 5.0, "lw")?;
            zigzag(pen, x + 1.0, x + 31.0, y + 3.0, "lw")
        }
    }
}

/// Draws a sign that is an arrow.
fn draw_arrow_key(pen: &mut Pen, x: f64, y: f64, arrow: Arrow) -> fmt::Result {
    draw_arrow(pen, x + 1.0, x + 29.0, y, arrow, false)
}

/// Draws a sign that is a mark, an arrow or a member of a queue.
fn draw_mark_key(pen: &mut Pen, x: f64, y: f64, key: Key) -> fmt::Result {
    match key {
        Key::WakeYes => draw_arrow_key(pen, x, y, Arrow::Wake { woke: true }),
        Key::WakeNo => draw_arrow_key(pen, x, y, Arrow::Wake { woke: false }),
        Key::Signal => draw_arrow_key(pen, x, y, Arrow::Signal { fatal: false }),
        Key::Flag => {
            draw_arrow(pen, x + 1.0, x + 24.0, y, Arrow::Flag, false)?;
            pen.rect(place(x + 27.0, y - 7.0, 3.0, 14.0), "waket")
        }
        Key::Load => draw_pair(pen, x, y, Mark::MustWait, Mark::NeedNot),
        Key::Store => draw_pair(pen, x, y, Mark::Owing, Mark::Store),
        Key::Queue => draw_pair(pen, x, y, Mark::Put, Mark::Off),
        Key::Look => draw_pair(pen, x, y, Mark::NoSignal, Mark::Signal),
        Key::Peek => draw_pair(pen, x, y, Mark::No, Mark::Yes),
        Key::Tick => {
            pen.round(place(x - 1.0, y - 8.0, 33.0, 16.0), 3.0, "run")?;
            draw_mark(pen, x + 15.0, y, Mark::Tick)
        }
        Key::Refused => draw_mark(pen, x + 15.0, y, Mark::Cross),
        _ => draw_queue_key(pen, x, y, key),
    }
}

/// Draws a sign of the legend.
fn draw_key(pen: &mut Pen, x: f64, y: f64, key: Key) -> fmt::Result {
    match key {
        Key::Runs | Key::Set | Key::Asleep | Key::Owed | Key::Bare | Key::Lost => {
            draw_bar_key(pen, x, y, key)
        }
        Key::Lit => {
            pen.rect(place(x + 1.0, y - 8.0, 28.0, 16.0), "tint")?;
            pen.across(x + 1.0, y - 8.0, x + 29.0, "pub")
        }
        Key::Owes => pen.round(place(x + 12.0, y - 8.0, 5.0, 16.0), 2.0, "owe"),
        Key::Hold => pen.round(place(x + 10.0, y - 8.0, 9.0, 16.0), 4.0, "lock"),
        Key::Busy => pen.round(place(x + 10.0, y - 8.0, 9.0, 16.0), 4.0, "busy"),
        Key::Pending => {
            pen.rect(place(x + 10.0, y - 7.0, 5.0, 14.0), "run")?;
            pen.rect(place(x + 15.0, y - 7.0, 3.0, 14.0), "sigt")
        }
        Key::End => {
            pen.round(place(x + 4.0, y - 8.0, 22.0, 16.0), 5.0, "run")?;
            pen.path(
                x + 4.0,
                y - 1.0,
                "v-2a5 5 0 0 1 5 -5h12a5 5 0 0 1 5 5v2",
                "ln",
            )?;
            pen.path(
                x + 4.0,
                y + 1.0,
                "v2a5 5 0 0 0 5 5h12a5 5 0 0 0 5 -5v-2",
                "ln",
            )
        }
        _ => draw_mark_key(pen, x, y, key),
    }
}

/// What a sign says.
fn key_text(key: Key) -> &'static str {
    for k in &KEYS {
        if k.0 == key {
            return k.1;
        }
    }
    ""
}

/// Draws the legend.
pub fn draw_legend(pen: &mut Pen, plan: &Plan, keys: &[Key]) -> fmt::Result {
    let mut column = 0usize;
    let mut y = plan.legend_y + 11.0;
    for key in keys {
        if column >= plan.columns {
            column = 0;
            y += 22.0;
        }
        let x = 24.0 + plan.column * length_of(column);
        draw_key(pen, x, y, *key)?;
        pen.text(x + 46.0, y + 4.0, key_text(*key), "lg ink")?;
        column = column.saturating_add(1);
    }
    Ok(())
}
