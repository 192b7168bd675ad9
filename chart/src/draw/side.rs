//! The columns beside the lanes, and the heads and feet of all columns.

use crate::draw::bars::Scene;
use crate::draw::marks::chip;
use crate::draw::pen::{place, Pen};
use crate::draw::signs::brief;
use crate::follow::queues::Sort;
use crate::plan::frame::{Bar, Frame};
use crate::plan::lanes::ranges;
use crate::plan::measure::{chip_width, letters};
use crate::plan::places::{chips_of, Chip};
use crate::plan::rows::Row;
use crate::text::line::{Kind, Word};
use std::fmt;

/// Draws a piece of a word's strip.
fn draw_strip(pen: &mut Pen, x: f64, from: f64, to: f64, word: &Word, value: u64) -> fmt::Result {
    let counted = word.kind == Kind::Plain || word.kind == Kind::Done;
    let class = if value == 0 {
        "chip"
    } else if counted {
        "owe"
    } else {
        "chx"
    };
    pen.rect(place(x + 7.0, from, 9.0, to - from), class)
}

/// Draws a word's strip, with the new value at each change.
fn draw_word(pen: &mut Pen, scene: &Scene, at: usize, word: &Word) -> fmt::Result {
    let plan = scene.plan;
    let x = plan.word_x(at);
    let mut value = scene.frames.start.value(at);
    let mut from = plan.start();
    for (i, frame) in scene.frames.after.iter().enumerate() {
        let next = frame.value(at);
        if next != value {
            let y = plan.level(i).middle();
            draw_strip(pen, x, from, y, word, value)?;
            let text = brief(next);
            pen.text(x + 21.0, y + 4.0, &text, "s ink b h")?;
            value = next;
            from = y;
        }
    }
    draw_strip(pen, x, from, plan.end, word, value)
}

/// Draws the strips of all words.
pub fn draw_words(pen: &mut Pen, scene: &Scene) -> fmt::Result {
    for (at, word) in scene.plan.words.iter().enumerate() {
        draw_word(pen, scene, at, word)?;
    }
    Ok(())
}

/// Draws a member of a queue that went, at its old place.
fn draw_ghost(pen: &mut Pen, x: f64, y: f64, text: &str, sort: Sort) -> fmt::Result {
    let width = chip_width(text);
    let round = if sort == Sort::Simple || sort == Sort::Bookmark {
        0.0
    } else {
        8.0
    };
    pen.round(place(x, y - 8.0, width, 16.0), round, "ghost")?;
    pen.text(x + width / 2.0, y + 4.0, text, "s mut m")?;
    pen.across(x + 3.0, y, x + width - 3.0, "lw")
}

/// Draws a chip of a row's queue, and answers where the next one stands.
fn draw_chip(
    pen: &mut Pen,
    _scene: &Scene,
    x: f64,
    y: f64,
    shown: &Chip,
) -> Result<f64, fmt::Error> {
    let text = match shown {
        Chip::Left { count } => format!("+{count}"),
        Chip::Shown { member, .. } => member.to_string(),
    };
    let width = chip_width(&text);
    match *shown {
        Chip::Left { .. } => pen.text(x + width / 2.0, y + 4.0, &text, "s mut m")?,
        Chip::Shown {
            member, gone: true, ..
        } => draw_ghost(pen, x, y, &text, member.sort)?,
        Chip::Shown {
            member,
            gone: false,
            new,
        } => {
            chip(pen, x, y, &text, member.sort)?;
            if new {
                pen.across(x + 2.0, y + 10.5, x + width - 2.0, "ln")?;
            }
        }
    }
    Ok(x + width + 5.0)
}

/// Draws the queue that a row changed.
fn draw_queue(pen: &mut Pen, scene: &Scene, y: f64, row: &Row, frame: &Frame) -> fmt::Result {
    let mut x = scene.plan.queue_x;
    let Some(change) = &frame.change else {
        return Ok(());
    };
    if scene.plan.heads {
        let head = change.head;
        pen.text(x, y + 4.0, format_args!("h{head}"), "s lock b")?;
        x += 46.0;
    }
    for shown in &chips_of(row, frame) {
        x = draw_chip(pen, scene, x, y, shown)?;
    }
    if frame.members.is_empty() {
        pen.text(x + 4.0, y + 4.0, "empty", "s mut i")?;
    }
    Ok(())
}

/// Draws the queues that rows changed.
pub fn draw_queues(pen: &mut Pen, scene: &Scene) -> fmt::Result {
    for (i, (row, frame)) in scene.rows.iter().zip(scene.frames.after.iter()).enumerate() {
        draw_queue(pen, scene, scene.plan.level(i).middle(), row, frame)?;
    }
    Ok(())
}

/// Draws the head of a lane that stands for one task, or for many.
fn draw_head(pen: &mut Pen, scene: &Scene, at: usize) -> fmt::Result {
    let plan = scene.plan;
    let Some(lane) = plan.lanes.get(at) else {
        return Ok(());
    };
    let x = plan.lane_x(at);
    let y = plan.top + plan.band;
    let middle = x + plan.sizes.lane / 2.0;
    let (first, last, count) = (lane.first(), lane.shown(), lane.tasks.len());
    match (lane.is_many(), plan.is_labelled()) {
        (false, true) => pen.text(x + 12.0, y - 10.0, format_args!("t{first}"), "b ink"),
        (false, false) => pen.text(middle, y - 10.0, format_args!("t{first}"), "s b ink m"),
        (true, false) => pen.text(middle, y - 10.0, format_args!("×{count}"), "s b ink m"),
        (true, true) => {
            let name = ranges(&lane.tasks);
            if letters(&name) <= 12 {
                pen.text(x + 12.0, y - 24.0, &name, "b ink")?;
            } else {
                pen.text(
                    x + 12.0,
                    y - 24.0,
                    format_args!("t{first} … t{last}"),
                    "b ink",
                )?;
            }
            pen.text(x + 12.0, y - 9.0, format_args!("{count} tasks"), "s mut")
        }
    }
}

/// Draws the heads of all columns.
pub fn draw_heads(pen: &mut Pen, scene: &Scene) -> fmt::Result {
    let plan = scene.plan;
    let y = plan.top + plan.band - 10.0;
    pen.raw("<g data-k=\"hd\">")?;
    pen.rect(
        place(0.0, plan.top - 1.0, plan.width, plan.band + 1.0),
        "bg",
    )?;
    for at in 0..plan.lanes.len() {
        if at % 2 == 0 {
            pen.rect(
                place(plan.lane_x(at), plan.top, plan.sizes.lane, plan.band),
                "lane",
            )?;
        }
        draw_head(pen, scene, at)?;
    }
    pen.text(plan.text_x - 40.0, y, "line", "s mut")?;
    for (at, word) in plan.words.iter().enumerate() {
        pen.text(plan.word_x(at) + 6.0, y, *word, "b ink")?;
    }
    match plan.head {
        Some(_) if plan.heads => pen.text(plan.queue_x, y, "queues", "b ink")?,
        Some(head) => pen.text(plan.queue_x, y, format_args!("queue of h{head}"), "b ink")?,
        None => {}
    }
    pen.across(24.0, plan.top + plan.band, plan.width - 24.0, "grid")?;
    pen.raw("</g>")
}

/// Draws the feet of the lanes: what each task does at the end.
pub fn draw_feet(pen: &mut Pen, scene: &Scene, events: &str) -> fmt::Result {
    let plan = scene.plan;
    let y = plan.end + 17.0;
    pen.text(plan.text_x - 40.0, y, events, "s mut")?;
    let Some(frame) = scene.frames.after.last() else {
        return Ok(());
    };
    if !plan.is_labelled() {
        return Ok(());
    }
    for (at, lane) in plan.lanes.iter().enumerate() {
        let text = match frame.view(lane.shown()).bar {
            Bar::Absent => "",
            Bar::Idle => "idle",
            Bar::Runs | Bar::Set => "call open",
            Bar::Asleep => "asleep",
        };
        pen.text(plan.lane_x(at) + 12.0, y, text, "s mut")?;
    }
    Ok(())
}
