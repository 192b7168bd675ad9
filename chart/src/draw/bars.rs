//! The lanes: grounds, tints, and the bars with what stands on and beside them.

use crate::draw::marks::hatch;
use crate::draw::pen::{place, Pen};
use crate::follow::task::Why;
use crate::plan::frame::{Bar, Frames, Shade, View};
use crate::plan::measure::narrow;
use crate::plan::places::Plan;
use crate::plan::rows::Row;
use crate::text::line::Pending;
use crate::text::moment::Moment;
use std::fmt;

/// What is drawn.
#[derive(Clone, Copy)]
pub struct Scene<'a> {
    pub moments: &'a [Moment<'a>],
    pub rows: &'a [Row],
    pub frames: &'a Frames,
    pub plan: &'a Plan,
}

/// A stretch of a lane in which what is drawn stays the same.
#[derive(Clone, Copy)]
pub struct Stretch {
    pub view: View,
    pub from: f64,
    pub to: f64,
    /// The row in which it begins, if it begins in one.
    pub row: Option<usize>,
}

/// A part of what is drawn of a lane.
#[derive(Clone, Copy)]
pub enum Part {
    Lit,
    Bar,
    Shade,
    Signal,
    Flag,
    Hold,
    Owes,
}

impl Part {
    /// Whether two views have the same part.
    fn is_same(self, a: &View, b: &View) -> bool {
        match self {
            Part::Lit => a.lit == b.lit,
            Part::Bar => a.bar == b.bar,
            Part::Shade => a.shade == b.shade,
            Part::Signal => a.signal == b.signal,
            Part::Flag => a.flag == b.flag,
            Part::Hold => a.hold == b.hold,
            Part::Owes => a.owes == b.owes,
        }
    }
}

impl<'a> Scene<'a> {
    /// The moment of a row of one.
    pub fn moment_in(&self, row: usize) -> Option<&'a Moment<'a>> {
        match *self.rows.get(row)? {
            Row::One { at } => self.moments.get(at),
            Row::Alike { .. } => None,
        }
    }

    /// The view of a lane after a row, or before the first.
    fn view(&self, lane: usize, row: Option<usize>) -> View {
        let Some(lane) = self.plan.lanes.get(lane) else {
            return View::ABSENT;
        };
        match row {
            None => self.frames.start.view(lane.shown()),
            Some(row) => {
                let frame = self.frames.after.get(row);
                frame.map_or(View::ABSENT, |frame| frame.view(lane.shown()))
            }
        }
    }

    /// The stretches of a lane in which a part of its view stays the same. They change in the middle of rows.
    fn stretches(&self, lane: usize, part: Part) -> Vec<Stretch> {
        let mut out = Vec::new();
        let mut view = self.view(lane, None);
        let mut from = self.plan.start();
        let mut begun = None;
        for row in 0..self.rows.len() {
            let next = self.view(lane, Some(row));
            if part.is_same(&view, &next) {
                continue;
            }
            let to = self.plan.level(row).middle();
            let row = Some(row);
            out.push(Stretch {
                view,
                from,
                to,
                row: begun,
            });
            view = next;
            from = to;
            begun = row;
        }
        let to = self.plan.end;
        out.push(Stretch {
            view,
            from,
            to,
            row: begun,
        });
        out
    }
}

/// Draws the grounds of the lanes, and the tints of those whose condition is set.
pub fn draw_grounds(pen: &mut Pen, scene: &Scene) -> fmt::Result {
    let plan = scene.plan;
    let width = plan.sizes.lane;
    for lane in 0..plan.lanes.len() {
        let x = plan.lane_x(lane);
        if lane % 2 == 0 {
            pen.rect(place(x, plan.top, width, plan.end - plan.top), "lane")?;
        }
        for s in &scene.stretches(lane, Part::Lit) {
            if s.view.lit {
                pen.rect(place(x, s.from, width, s.to - s.from), "tint")?;
            }
        }
    }
    pen.across(24.0, plan.end, plan.width - 24.0, "grid")
}

/// Draws the bar of a stretch.
fn draw_bar(pen: &mut Pen, plan: &Plan, lane: usize, s: &Stretch) -> fmt::Result {
    let x = plan.lane_x(lane) + plan.sizes.bar_x;
    let bar = plan.sizes.bar;
    let class = match s.view.bar {
        Bar::Absent => return Ok(()),
        Bar::Idle => {
            let middle = plan.bar_middle(lane);
            let end = s.to;
            return pen.path(middle, s.from, format_args!("V{end}"), "idle");
        }
        Bar::Runs => "run",
        Bar::Set => "set",
        Bar::Asleep => "asleep",
    };
    let side = if s.view.bar == Bar::Asleep {
        "edge"
    } else {
        "side"
    };
    pen.rect(place(x, s.from, bar, s.to - s.from), class)?;
    let end = s.to;
    pen.path(x + 0.5, s.from, format_args!("V{end}"), side)?;
    pen.path(x + bar - 0.5, s.from, format_args!("V{end}"), side)
}

/// Draws the dots of a sleep that no wake covers.
fn draw_dots(pen: &mut Pen, x: f64, from: f64, to: f64) -> fmt::Result {
    let mut y = from + 7.0;
    for _ in 0..8000u32 {
        if y >= to - 3.0 {
            break;
        }
        pen.circle(x, y, 2.2, "dot")?;
        y += 9.0;
    }
    Ok(())
}

/// Draws the shade of a stretch.
fn draw_shade(pen: &mut Pen, plan: &Plan, lane: usize, s: &Stretch) -> fmt::Result {
    let x = plan.lane_x(lane) + plan.sizes.bar_x;
    let bar = plan.sizes.bar;
    let at = place(x, s.from, bar, s.to - s.from);
    let edge = match s.view.shade {
        Shade::Clear => return Ok(()),
        Shade::Owed { .. } => {
            hatch(pen, x, s.from, bar, s.to - s.from)?;
            return pen.rect(at, "dedge");
        }
        Shade::Bare(Why::Lost) => "ledge",
        Shade::Bare(_) | Shade::Trying { .. } => "bedge",
    };
    draw_dots(pen, x + bar / 2.0, s.from, s.to)?;
    pen.rect(at, edge)
}

/// Draws the stripes beside a lane's bar: a pending signal, and a flag.
fn draw_stripes(pen: &mut Pen, scene: &Scene, lane: usize) -> fmt::Result {
    let plan = scene.plan;
    let x = plan.lane_x(lane) + plan.sizes.bar_x + plan.sizes.bar;
    let (gap, width) = if plan.is_labelled() {
        (4.0, 3.0)
    } else {
        (2.0, 2.0)
    };
    for s in &scene.stretches(lane, Part::Signal) {
        if s.view.signal != Pending::Nothing {
            pen.rect(place(x, s.from, 3.0, s.to - s.from), "sigt")?;
        }
    }
    for s in &scene.stretches(lane, Part::Flag) {
        if s.view.flag {
            pen.rect(place(x + gap, s.from, width, s.to - s.from), "waket")?;
        }
    }
    Ok(())
}

/// Draws the spans beside a lane's bar: holds, and wakes that are owed.
fn draw_spans(pen: &mut Pen, scene: &Scene, lane: usize) -> fmt::Result {
    let plan = scene.plan;
    let x = plan.lane_x(lane);
    let sizes = plan.sizes;
    for s in &scene.stretches(lane, Part::Hold) {
        if s.view.hold.is_some() {
            let at = place(
                x + sizes.hold_x,
                s.from - 4.0,
                sizes.hold,
                s.to - s.from + 8.0,
            );
            pen.round(at, sizes.hold / 2.0, "lock")?;
        }
    }
    for s in &scene.stretches(lane, Part::Owes) {
        if s.view.owes {
            let at = place(
                x + sizes.owe_x,
                s.from - 3.0,
                sizes.owe,
                s.to - s.from + 6.0,
            );
            pen.round(at, 2.0, "owe")?;
        }
    }
    Ok(())
}

/// Draws the bars of all lanes.
pub fn draw_bars(pen: &mut Pen, scene: &Scene) -> fmt::Result {
    for lane in 0..scene.plan.lanes.len() {
        for s in &scene.stretches(lane, Part::Bar) {
            draw_bar(pen, scene.plan, lane, s)?;
        }
        for s in &scene.stretches(lane, Part::Shade) {
            draw_shade(pen, scene.plan, lane, s)?;
        }
        draw_stripes(pen, scene, lane)?;
        draw_spans(pen, scene, lane)?;
    }
    Ok(())
}

/// A label beside a shaded bar.
pub struct Label {
    pub x: f64,
    pub y: f64,
    pub text: String,
    pub class: &'static str,
}

/// The text of a shade, for labels of so many letters.
fn shade_text(shade: Shade, most: usize) -> String {
    let wide = most >= 11;
    match shade {
        Shade::Clear => String::new(),
        Shade::Owed { first, count: 1 } if wide => format!("owed by t{first}"),
        Shade::Owed { first, count: 1 } => format!("by t{first}"),
        Shade::Owed { count, .. } => format!("by {count}"),
        Shade::Trying { by } if wide => format!("t{by} to try"),
        Shade::Trying { by } => format!("t{by} tries"),
        Shade::Bare(Why::Spent) if wide => String::from("count spent"),
        Shade::Bare(Why::Spent) => String::from("spent"),
        Shade::Bare(Why::Missed) if wide => String::from("mode missed"),
        Shade::Bare(Why::Missed) => String::from("missed"),
        Shade::Bare(Why::Unlooked) if wide => String::from("not looked"),
        Shade::Bare(Why::Unlooked) => String::from("no look"),
        Shade::Bare(Why::Lost) => String::from("LOST"),
    }
}

/// Whether a lane's own task acts in a row, whose label then stands there.
fn acts_in(scene: &Scene, lane: usize, row: usize) -> bool {
    let moment = scene.moment_in(row);
    moment.is_some_and(|moment| scene.plan.lane_of(moment.task) == Some(lane))
}

/// The labels of the shades, each in the row where its shade begins, or in the next one where that row is taken.
pub fn labels_of(scene: &Scene) -> Vec<Label> {
    let plan = scene.plan;
    let mut labels = Vec::new();
    if !plan.is_labelled() {
        return labels;
    }
    for lane in 0..plan.lanes.len() {
        for s in &scene.stretches(lane, Part::Shade) {
            let Some(row) = s.row else {
                continue;
            };
            let y = if acts_in(scene, lane, row) {
                s.from + plan.sizes.row
            } else {
                s.from
            };
            if s.view.shade == Shade::Clear || y > s.to {
                continue;
            }
            let lost = s.view.shade == Shade::Bare(Why::Lost);
            labels.push(Label {
                x: plan.lane_x(lane) + plan.sizes.label_x,
                y,
                text: shade_text(s.view.shade, plan.sizes.label),
                class: if lost { "s sigt b h" } else { "s at b h" },
            });
        }
    }
    labels
}

/// Draws a line across, left out where labels stand. `gaps` rise.
pub fn draw_rule(pen: &mut Pen, from: f64, to: f64, y: f64, gaps: &[(f64, f64)]) -> fmt::Result {
    let mut x = from;
    for gap in gaps {
        if gap.0 > x && gap.0 < to {
            pen.across(x, y, gap.0, "pub")?;
        }
        if gap.1 > x {
            x = gap.1;
        }
    }
    if x < to {
        pen.across(x, y, to, "pub")?;
    }
    Ok(())
}

/// The room that a label takes.
pub fn gap_of(x: f64, letters: usize) -> (f64, f64) {
    (x - 3.0, x + narrow(letters) + 4.0)
}
