//! A page that steps through a chart: the chart, the row at hand, its sentence, and tables of the state after it.

mod fixed;

use crate::draw::bars::Scene;
use crate::draw::pen::escaped;
use crate::draw::style::{style, Theme};
use crate::follow::queues::Sort;
use crate::follow::task::Why;
use crate::json::{Listed, Quoted};
use crate::plan::frame::{Bar, Frame, Shade, View};
use crate::plan::rows::Row;
use crate::room::Sheet;
use crate::text::line::Pending;
use fixed::{FOOT, HEAD, SCRIPT};
use std::collections::BTreeMap;
use std::fmt::{self, Write};

/// The class of a task's swatch.
fn swatch(view: &View) -> &'static str {
    let shaded = view.shade != Shade::Clear;
    match view.bar {
        Bar::Absent | Bar::Idle => "idle",
        Bar::Runs => "run",
        Bar::Set => "set",
        Bar::Asleep if shaded => "asleep dgr",
        Bar::Asleep => "asleep",
    }
}

/// What a task does.
fn doing(view: &View) -> String {
    let state = view.state.name();
    match view.bar {
        Bar::Absent | Bar::Idle => String::from("idle"),
        Bar::Runs => String::from("runs"),
        Bar::Set => format!("runs, set to {state}"),
        Bar::Asleep => format!("asleep, {state}"),
    }
}

/// Why a task sleeps though what it waits for is set.
fn reason(shade: Shade) -> String {
    match shade {
        Shade::Clear => String::new(),
        Shade::Owed { first, count: 1 } => format!("its condition is set; owed by t{first}. "),
        Shade::Owed { count, .. } => format!("its condition is set; owed by {count} tasks. "),
        Shade::Trying { by } => format!("its bit is clear; t{by} was selected and is to try it. "),
        Shade::Bare(Why::Spent) => {
            String::from("its condition is set; the wake's count was spent on others. ")
        }
        Shade::Bare(Why::Missed) => {
            String::from("its condition is set; the wake was not for its state. ")
        }
        Shade::Bare(Why::Unlooked) => String::from(
            "its condition is set; it has not looked at it since it queued its entry. ",
        ),
        Shade::Bare(Why::Lost) => {
            String::from("its condition is set and nobody owes a wake: LOST. ")
        }
    }
}

/// A task of a row: the class of its swatch, what it does, and what else is to say.
fn task_value(view: &View) -> String {
    let mut more = reason(view.shade);
    if view.signal != Pending::Nothing {
        more.push_str(view.signal.name());
        more.push_str(" signal. ");
    }
    if view.flag {
        more.push_str("WOKEN. ");
    }
    if let Some(head) = view.hold {
        more.push_str(&format!("holds h{head}. "));
    }
    if view.owes {
        more.push_str("owes a wake. ");
    }
    let (class, doing, more) = (swatch(view), doing(view), more);
    format!("[{},{},{}]", Quoted(class), Quoted(&doing), Quoted(&more))
}

/// The members of a queue after a row; a sign stands after those that are exclusive.
fn queue_value(frame: &Frame) -> String {
    let mut members = Vec::new();
    for member in &frame.members {
        let sign = match member.sort {
            Sort::Exclusive | Sort::Priority => "!",
            _ => "",
        };
        members.push(Quoted(&format!("{member}{sign}")).to_string());
    }
    format!("[{}]", Listed(&members))
}

/// What a row changes: tasks, the queue, and the words, by their names.
fn changes(scene: &Scene, before: &Frame, frame: &Frame) -> String {
    let mut changes = BTreeMap::new();
    for task in 0..=u8::MAX {
        let view = frame.view(task);
        if view != before.view(task) {
            changes.insert(format!("t{task}"), task_value(&view));
        }
    }
    if let Some(change) = &frame.change {
        changes.insert(format!("h{}", change.head), queue_value(frame));
    }
    for (at, word) in scene.plan.words.iter().enumerate() {
        let value = frame.value(at);
        if value != before.value(at) {
            changes.insert(format!("w{word}"), format!("\"{value}\""));
        }
    }
    let parts: Vec<String> = changes
        .iter()
        .map(|(name, value)| format!("\"{name}\":{value}"))
        .collect();
    format!("{{{}}}", Listed(&parts))
}

/// The text and the sentence of a row.
fn row_texts(scene: &Scene, row: &Row, frame: &Frame) -> (String, String) {
    let said = String::from(&frame.sentence);
    let text = match scene.moments.get(row.span().0) {
        Some(moment) => {
            let task = moment.task;
            format!("t{task} {moment}")
        }
        None => String::new(),
    };
    match *row {
        Row::One { .. } => (text, said),
        Row::Alike { from, to, size } => {
            let count = to.saturating_sub(from).checked_div(size).unwrap_or(0);
            let said = format!("{count} times what the lines above do, each for another task.");
            (text, said)
        }
    }
}

/// A row: what it changes, its place among the moments, its text, its sentence, its top and its height. The names rise.
fn row_value(scene: &Scene, at: usize, row: &Row, frame: &Frame, before: &Frame) -> String {
    let (text, said) = row_texts(scene, row, frame);
    let level = scene.plan.level(at);
    let (from, _) = row.span();
    let changes = changes(scene, before, frame);
    let (text, said) = (Quoted(&text), Quoted(&said));
    let (top, height) = (level.top, level.height);
    format!(
        "{{\"d\":{changes},\"i\":{from},\"l\":{text},\"s\":{said},\"y\":{top:?},\"z\":{height:?}}}"
    )
}

/// Writes the rows as they may stand in a page's script, which ends at the letter `<` and a slash: JSON has another
/// spelling for that letter, which stands in strings alone.
fn write_rows(out: &mut Sheet, scene: &Scene) -> fmt::Result {
    let mut before = &scene.frames.start;
    out.write_str("[")?;
    for (at, (row, frame)) in scene.rows.iter().zip(&scene.frames.after).enumerate() {
        if at > 0 {
            out.write_str(",")?;
        }
        let value = row_value(scene, at, row, frame, before);
        out.write_str(&value.replace('<', "\\u003c"))?;
        before = frame;
    }
    out.write_str("]")
}

/// The page of a chart.
///
/// # Errors
///
/// There is no memory.
pub fn page(scene: &Scene, svg: &str, title: &str, theme: Theme) -> Result<String, fmt::Error> {
    let title = escaped(title);
    let rules = style(theme);
    let mut out = Sheet::default();
    write!(
        out,
        "<!doctype html>\n<html lang=\"en\"><head><meta charset=\"utf-8\"><title>{title}</title>\n<style>\n{rules}"
    )?;
    for piece in [HEAD, svg, SCRIPT] {
        out.write_str(piece)?;
    }
    write_rows(&mut out, scene)?;
    write!(out, ",O={}", scene.plan.top)?;
    out.write_str(FOOT)?;
    Ok(out.into_text())
}
