//! The rows: the column of texts, and what the actor's lane shows.

use crate::draw::bars::{draw_rule, gap_of, Label, Scene};
use crate::draw::marks::{draw_arrow, draw_mark, zigzag, Arrow, Mark};
use crate::draw::pen::{escaped, place, Pen};
use crate::draw::signs::{sign_of, Sign};
use crate::plan::frame::Frame;
use crate::plan::lanes::{alike_tasks, ranges};
use crate::plan::measure::{letters, shortened, wide};
use crate::plan::places::{word_of, Plan, TEXT_LETTERS};
use crate::plan::rows::Row;
use crate::text::line::What;
use crate::text::moment::{target, Act, Moment};
use std::fmt;

/// Draws the text of a moment.
fn draw_text(pen: &mut Pen, scene: &Scene, moment: &Moment, y: f64) -> fmt::Result {
    let x = scene.plan.text_x;
    if let Some(number) = moment.number {
        pen.text(58.0, y + 4.0, number, "s mut e")?;
    }
    let task = moment.task;
    pen.text(x - 40.0, y + 4.0, format_args!("t{task}"), "b ink")?;
    let text = moment.to_string();
    let text = shortened(&text, TEXT_LETTERS);
    let class = match &moment.act {
        Act::Opens => "i mut",
        Act::Does(What::Ended(_)) => "b ink",
        Act::Does(_) => "ink",
    };
    let shown = escaped(&text);
    pen.text(x, y + 4.0, &shown, class)?;
    let taken = letters(&text).saturating_add(2);
    if let (Act::Does(_), Some(call)) = (&moment.act, &moment.call) {
        let call = shortened(call.text, TEXT_LETTERS.saturating_sub(taken));
        let call = escaped(&call);
        pen.text(x + wide(taken), y + 4.0, &call, "i mut")?;
    }
    Ok(())
}

/// The label of an opening: the call, or its first word where it does not fit.
fn opening_label(call: &str, most: usize) -> &str {
    if letters(call) <= most {
        call
    } else {
        call.split(' ').next().unwrap_or("")
    }
}

/// Draws a label of a lane.
fn draw_label(
    pen: &mut Pen,
    scene: &Scene,
    lane: usize,
    y: f64,
    label: &str,
    class: &str,
) -> fmt::Result {
    let plan = scene.plan;
    if label.is_empty() || !plan.is_labelled() {
        return Ok(());
    }
    let short = shortened(label, plan.sizes.label);
    let short = escaped(&short);
    let x = plan.lane_x(lane) + plan.sizes.label_x;
    pen.text(x, y + 4.0, &short, class)
}

/// Draws the upper or the lower end of a bar.
fn draw_cap(pen: &mut Pen, plan: &Plan, lane: usize, y: f64, upper: bool) -> fmt::Result {
    let x = plan.lane_x(lane) + plan.sizes.bar_x;
    let flat = plan.sizes.bar - 10.0;
    if upper {
        pen.path(
            x,
            y + 0.5,
            format_args!("v-2a5 5 0 0 1 5 -5h{flat}a5 5 0 0 1 5 5v2z"),
            "run",
        )?;
        pen.path(
            x,
            y + 0.5,
            format_args!("v-2a5 5 0 0 1 5 -5h{flat}a5 5 0 0 1 5 5v2"),
            "ln",
        )
    } else {
        pen.path(
            x,
            y - 0.5,
            format_args!("v2a5 5 0 0 0 5 5h{flat}a5 5 0 0 0 5 -5v-2z"),
            "run",
        )?;
        pen.path(
            x,
            y - 0.5,
            format_args!("v2a5 5 0 0 0 5 5h{flat}a5 5 0 0 0 5 -5v-2"),
            "ln",
        )
    }
}

/// Draws an arrow from one lane's bar to another's, and a square for one at the own lane.
fn draw_between(
    pen: &mut Pen,
    plan: &Plan,
    from: usize,
    to: Option<usize>,
    y: f64,
    arrow: Arrow,
    many: bool,
) -> fmt::Result {
    let bar = plan.sizes.bar;
    let left = plan.lane_x(from) + plan.sizes.bar_x;
    let Some(to) = to.filter(|t| *t != from) else {
        let no = matches!(arrow, Arrow::Wake { woke: false });
        return draw_mark(
            pen,
            left + bar / 2.0,
            y,
            if no { Mark::No } else { Mark::Yes },
        );
    };
    let end = plan.lane_x(to) + plan.sizes.bar_x;
    let (x1, x2) = if to > from {
        (left + bar, end)
    } else {
        (left, end + bar)
    };
    let class = match arrow {
        Arrow::Signal { .. } => "sigh",
        _ => "wakeh",
    };
    pen.circle(x1, y, 3.0, class)?;
    draw_arrow(pen, x1, x2, y, arrow, many)
}

/// Draws the wait for a busy lock, down to the row where it is given back or where the task acts again.
fn draw_busy(
    pen: &mut Pen,
    scene: &Scene,
    lane: usize,
    row: usize,
    task: u8,
    head: u16,
) -> fmt::Result {
    let plan = scene.plan;
    let y = plan.level(row).middle();
    let mut end = plan.end;
    for later in row.saturating_add(1)..scene.rows.len() {
        let frame = scene.frames.after.get(later);
        let held = frame.is_some_and(|frame| frame.is_held(head));
        let moment = scene.moment_in(later);
        let acts = moment.is_some_and(|moment| moment.task == task);
        if !held || acts {
            end = plan.level(later).middle();
            break;
        }
    }
    let x = plan.lane_x(lane) + plan.sizes.hold_x;
    let at = place(x, y - 5.0, plan.sizes.hold, end - y + 10.0);
    pen.round(at, plan.sizes.hold / 2.0, "busy")
}

/// Draws a sign in a lane.
fn draw_sign(
    pen: &mut Pen,
    scene: &Scene,
    lane: usize,
    y: f64,
    moment: &Moment,
    sign: &Sign,
) -> fmt::Result {
    let plan = scene.plan;
    if let Some(mark) = sign.mark {
        draw_mark(pen, plan.bar_middle(lane), y, mark)?;
    }
    if let Some(arrow) = sign.arrow {
        let to = target(moment).and_then(|task| plan.lane_of(task));
        draw_between(pen, plan, lane, to, y, arrow, false)?;
    }
    draw_label(pen, scene, lane, y, &sign.label, sign.tone.class())
}

/// Draws what the actor's lane shows of a moment.
fn draw_deed(
    pen: &mut Pen,
    scene: &Scene,
    row: usize,
    moment: &Moment,
    frame: &Frame,
) -> fmt::Result {
    let plan = scene.plan;
    let y = plan.level(row).middle();
    let Some(lane) = plan.lane_of(moment.task) else {
        return Ok(());
    };
    let what = match &moment.act {
        Act::Opens => {
            draw_cap(pen, plan, lane, y, true)?;
            let label = opening_label(moment.call_text(), plan.sizes.label);
            return draw_label(pen, scene, lane, y, label, "s mut h i");
        }
        Act::Does(what) => what,
    };
    match what {
        What::Ended(_) => draw_cap(pen, plan, lane, y, false)?,
        What::Busy { head } => draw_busy(pen, scene, lane, row, moment.task, *head)?,
        _ => {}
    }
    let sign = sign_of(moment.task, what, &frame.deed);
    draw_sign(pen, scene, lane, y, moment, &sign)
}

/// Draws a hairline from a row's text to its actor's lane, where lanes have no labels.
fn draw_lead(
    pen: &mut Pen,
    scene: &Scene,
    row: usize,
    moment: &Moment,
    frame: &Frame,
) -> fmt::Result {
    let plan = scene.plan;
    let Some(lane) = plan.lane_of(moment.task) else {
        return Ok(());
    };
    let x = if frame.view(moment.task).owes {
        plan.sizes.owe_x
    } else {
        plan.sizes.hold_x
    };
    if lane > 0 && !plan.is_labelled() {
        let end = plan.lane_x(lane) + x - 3.0;
        pen.across(plan.lanes_x - 8.0, plan.level(row).middle(), end, "lead")?;
    }
    Ok(())
}

/// Draws a row of many alike.
fn draw_alike(
    pen: &mut Pen,
    scene: &Scene,
    row: usize,
    from: usize,
    to: usize,
    size: usize,
) -> fmt::Result {
    let plan = scene.plan;
    let level = plan.level(row);
    let y = level.middle();
    let tasks = alike_tasks(scene.moments, from, to, size);
    let count = tasks.len();
    let which = ranges(&tasks);
    let room = plan.lanes_x - 36.0;
    pen.round(
        place(24.0, level.top + 6.0, room, level.height - 12.0),
        6.0,
        "fold",
    )?;
    pen.text(34.0, y + 4.0, "⋮", "mut m b")?;
    let full = format!("{count} more alike: {which}");
    if wide(letters(&full)) < room - 32.0 {
        pen.text(48.0, y + 4.0, &full, "ink i")?;
    } else {
        pen.text(48.0, y + 4.0, format_args!("{count} more alike"), "ink i")?;
    }
    let right = plan.lane_x(plan.lanes.len());
    zigzag(pen, plan.lanes_x, right, level.top + 7.0, "lw")?;
    zigzag(
        pen,
        plan.lanes_x,
        right,
        level.top + level.height - 7.0,
        "lw",
    )?;
    draw_alike_deeds(pen, scene, &tasks, from, size, level.top, level.height)
}

/// The first wake of a block: by whom, and whether it answered yes.
fn first_wake(scene: &Scene, from: usize, size: usize) -> Option<(u8, bool)> {
    let block = scene.moments.get(from..from.saturating_add(size))?;
    for moment in block {
        if let Act::Does(What::Wake { woke, .. }) = moment.act {
            return Some((moment.task, woke));
        }
    }
    None
}

/// Draws three points on a lane's bar.
fn draw_points(pen: &mut Pen, plan: &Plan, lane: usize, top: f64, height: f64) -> fmt::Result {
    let x = plan.lane_x(lane) + plan.sizes.bar_x;
    let at = place(x, top + 9.0, plan.sizes.bar, height - 18.0);
    pen.round(at, 3.0, "run")?;
    let y = top + height / 2.0 - 5.0;
    for k in 0..3u32 {
        pen.circle(plan.bar_middle(lane), y + 5.0 * f64::from(k), 1.7, "tkf")?;
    }
    Ok(())
}

/// Draws what the tasks of a row of many alike do: three points on the bars of those that act, or an arrow to those
/// that are woken.
fn draw_alike_deeds(
    pen: &mut Pen,
    scene: &Scene,
    tasks: &[u8],
    from: usize,
    size: usize,
    top: f64,
    height: f64,
) -> fmt::Result {
    let plan = scene.plan;
    let y = top + height / 2.0;
    let actor = match scene.moments.get(from) {
        Some(moment) => moment.task,
        None => return Ok(()),
    };
    if !tasks.contains(&actor) {
        if let (Some((by, woke)), Some(task)) = (first_wake(scene, from, size), tasks.first()) {
            if let Some(lane) = plan.lane_of(by) {
                draw_between(
                    pen,
                    plan,
                    lane,
                    plan.lane_of(*task),
                    y,
                    Arrow::Wake { woke },
                    true,
                )?;
            }
        }
        return Ok(());
    }
    for (i, lane) in plan.lanes.iter().enumerate() {
        if lane.tasks.iter().any(|t| tasks.iter().any(|u| u == t)) {
            draw_points(pen, plan, i, top, height)?;
        }
    }
    Ok(())
}

/// Draws the rule of a store that owes a wake, from the lanes to the word's strip, left out where labels stand.
fn draw_store(
    pen: &mut Pen,
    scene: &Scene,
    row: usize,
    moment: &Moment,
    frame: &Frame,
    labels: &[Label],
) -> fmt::Result {
    let plan = scene.plan;
    let Act::Does(what) = &moment.act else {
        return Ok(());
    };
    let (Some(word), Some(lane)) = (word_of(what), plan.lane_of(moment.task)) else {
        return Ok(());
    };
    if !frame.deed.owes {
        return Ok(());
    }
    let y = plan.level(row).middle();
    let end = match plan.place_of(&word) {
        Some(at) => plan.word_x(at) + 7.0,
        None => plan.words_x - 10.0,
    };
    let sign = sign_of(moment.task, what, &frame.deed);
    let own = letters(&sign.label).min(plan.sizes.label);
    let mut gaps = Vec::new();
    for i in 0..plan.lanes.len() {
        let x = plan.lane_x(i) + plan.sizes.label_x;
        if i == lane && own > 0 {
            gaps.push(gap_of(x, own));
        }
        for label in labels {
            if label.x == x && label.y == y {
                gaps.push(gap_of(x, letters(&label.text)));
            }
        }
    }
    draw_rule(pen, plan.lanes_x, end, y, &gaps)
}

/// Draws the rules of all stores that owe a wake.
pub fn draw_stores(pen: &mut Pen, scene: &Scene, labels: &[Label]) -> fmt::Result {
    for (i, frame) in scene.frames.after.iter().enumerate() {
        if let Some(moment) = scene.moment_in(i) {
            draw_store(pen, scene, i, moment, frame, labels)?;
        }
    }
    Ok(())
}

/// Draws all rows.
pub fn draw_rows(pen: &mut Pen, scene: &Scene) -> fmt::Result {
    for (i, (row, frame)) in scene.rows.iter().zip(&scene.frames.after).enumerate() {
        if let Row::Alike { from, to, size } = *row {
            draw_alike(pen, scene, i, from, to, size)?;
        } else if let Some(moment) = scene.moment_in(i) {
            draw_lead(pen, scene, i, moment, frame)?;
            draw_text(pen, scene, moment, scene.plan.level(i).middle())?;
            draw_deed(pen, scene, i, moment, frame)?;
        }
    }
    Ok(())
}

/// Draws the names of the lanes once more, where a long chart has them.
pub fn draw_names(pen: &mut Pen, plan: &Plan) -> fmt::Result {
    for y in &plan.names {
        let y = *y;
        pen.across(24.0, y, plan.lanes_x - 8.0, "grid")?;
        for (i, lane) in plan.lanes.iter().enumerate() {
            let x = plan.lane_x(i);
            let first = lane.first();
            if plan.is_labelled() {
                pen.text(
                    x + plan.sizes.label_x,
                    y + 4.0,
                    format_args!("t{first}"),
                    "b mut",
                )?;
            } else {
                pen.round(
                    place(x + 1.0, y - 8.0, plan.sizes.lane - 2.0, 16.0),
                    3.0,
                    "bg",
                )?;
                pen.text(
                    x + plan.sizes.lane / 2.0,
                    y + 4.0,
                    format_args!("t{first}"),
                    "s b mut m",
                )?;
            }
        }
    }
    Ok(())
}

/// Puts an area over each row, with its sentence.
pub fn draw_areas(pen: &mut Pen, scene: &Scene) -> fmt::Result {
    for (i, row) in scene.rows.iter().enumerate() {
        let level = scene.plan.level(i);
        let text = match *row {
            Row::Alike { from, to, size } => {
                let tasks = alike_tasks(scene.moments, from, to, size);
                let which = ranges(&tasks);
                let count = tasks.len();
                format!("{count} more alike: {which}")
            }
            Row::One { .. } => match scene.frames.after.get(i) {
                Some(frame) => escaped(&frame.sentence),
                None => String::new(),
            },
        };
        let (from, _) = row.span();
        let (top, height, width) = (level.top, level.height, scene.plan.width - 32.0);
        let place = format!(
            "<rect x=\"16\" y=\"{top}\" width=\"{width}\" height=\"{height}\" class=\"row\""
        );
        pen.raw(format_args!(
            "{place} data-i=\"{from}\"><title>{text}</title></rect>"
        ))?;
    }
    Ok(())
}
