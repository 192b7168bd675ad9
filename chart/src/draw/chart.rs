//! A chart, from the moments of a replay to its SVG.

use crate::draw::bars::{draw_bars, draw_grounds, labels_of, Scene};
use crate::draw::cells::{draw_areas, draw_names, draw_rows, draw_stores};
use crate::draw::legend::{draw_legend, keys_of, notes_of, Key};
use crate::draw::pen::{escaped, place, Pen};
use crate::draw::side::{draw_feet, draw_heads, draw_queues, draw_words};
use crate::draw::style::{style, Theme};
use crate::fault::Fault;
use crate::plan::frame::{follow_all, Frames};
use crate::plan::lanes::lanes_of;
use crate::plan::measure::length_of;
use crate::plan::places::{plan_of, put_rows, words_of, Plan};
use crate::plan::rows::{folded_rows, full_rows, rows_within, Row};
use crate::text::moment::{target, Moment};
use std::fmt;

/// The most rows that a chart has.
pub const ROWS: u32 = 2000;

/// How a chart is to be.
#[derive(Clone, Copy)]
pub struct Options<'a> {
    pub title: &'a str,
    pub theme: Theme,
    /// Nothing is folded.
    pub full: bool,
    /// The first and the last line, by their numbers in the text.
    pub range: Option<(u32, u32)>,
    /// The chart stands in a page, which has the style and moves a row.
    pub paged: bool,
    /// A script told the openings.
    pub scripted: bool,
}

/// The rows of a chart, if they are not too many.
pub fn chart_rows(moments: &[Moment], options: &Options) -> Result<Vec<Row>, Fault> {
    let rows = if options.full {
        full_rows(moments)?
    } else {
        folded_rows(moments)?
    };
    let rows = match options.range {
        Some((first, last)) => rows_within(moments, &rows, first, last)?,
        None => rows,
    };
    if rows.is_empty() {
        return Err(Fault::Nothing);
    }
    let count = u32::try_from(rows.len()).unwrap_or(u32::MAX);
    if count > ROWS {
        return Err(Fault::Rows {
            rows: count,
            most: ROWS,
        });
    }
    Ok(rows)
}

/// How many tasks act, and one more than the last task that a moment names.
fn tasks_of(moments: &[Moment]) -> (usize, usize) {
    let mut acting: Vec<u8> = Vec::new();
    let mut most = 0usize;
    for moment in moments {
        if !acting.contains(&moment.task) {
            acting.push(moment.task);
        }
        let named = target(moment).unwrap_or(0).max(moment.task);
        most = most.max(usize::from(named).saturating_add(1));
    }
    (acting.len(), most)
}

/// How many lines moments tell.
fn lines_of(moments: &[Moment]) -> usize {
    moments.iter().filter(|m| m.number.is_some()).count()
}

/// The line under the title.
fn sub_title(moments: &[Moment], acting: usize, plan: &Plan, options: &Options) -> String {
    let lines = lines_of(moments);
    let Some((first, last)) = options.range else {
        return format!("{lines} lines, {acting} tasks. Time runs downward, a row a line.");
    };
    let end = last.min(u32::try_from(lines).unwrap_or(u32::MAX));
    let mut shown = 0usize;
    for lane in &plan.lanes {
        shown = shown.saturating_add(lane.tasks.len());
    }
    let out = acting.saturating_sub(shown);
    if out == 0 {
        return format!(
            "Lines {first}–{end} of {lines}, {acting} tasks. Time runs downward, a row a line."
        );
    }
    format!(
        "Lines {first}–{end} of {lines}, {acting} tasks. Time runs downward, a row a line. {out} \
         tasks that do nothing here are left out."
    )
}

/// Draws the ground, the title, and what to see.
fn draw_title(
    pen: &mut Pen,
    plan: &Plan,
    title: &str,
    sub: &str,
    notes: &[&'static str],
) -> fmt::Result {
    pen.rect(place(0.0, 0.0, plan.width, plan.height), "bg")?;
    pen.text(24.0, 36.0, title, "ti ink")?;
    pen.text(24.0, 57.0, sub, "st mut")?;
    for (i, note) in notes.iter().enumerate() {
        let lost = note.starts_with("LOST");
        pen.text(
            24.0,
            76.0 + 19.0 * length_of(i),
            *note,
            if lost { "st sigt" } else { "st at" },
        )?;
    }
    Ok(())
}

/// Draws the lanes and all that stands in and beside them.
fn draw_scene(
    pen: &mut Pen,
    scene: &Scene,
    keys: &[Key],
    paged: bool,
    events: &str,
) -> fmt::Result {
    draw_legend(pen, scene.plan, keys)?;
    draw_grounds(pen, scene)?;
    if paged {
        let (width, height) = (scene.plan.width - 32.0, scene.plan.sizes.row);
        pen.raw(format_args!(
            "<rect x=\"16\" y=\"-100\" width=\"{width}\" height=\"{height}\" rx=\"4\" class=\"hl\" data-k=\"cur\"/>"
        ))?;
    }
    draw_bars(pen, scene)?;
    let labels = labels_of(scene);
    draw_stores(pen, scene, &labels)?;
    draw_rows(pen, scene)?;
    for label in &labels {
        pen.text(label.x, label.y + 4.0, &label.text, label.class)?;
    }
    draw_names(pen, scene.plan)?;
    draw_areas(pen, scene)?;
    draw_words(pen, scene)?;
    draw_queues(pen, scene)?;
    draw_heads(pen, scene)?;
    draw_feet(pen, scene, events)
}

/// Begins the picture, and draws its title, and what to see.
fn begin(
    plan: &Plan,
    options: &Options,
    sub: &str,
    notes: &[&'static str],
) -> Result<Pen, fmt::Error> {
    let title = escaped(options.title);
    let title = &title;
    let (width, height) = (plan.width, plan.height);
    let mut pen = Pen::default();
    pen.raw(format_args!(
        "<svg xmlns=\"http://www.w3.org/2000/svg\" viewBox=\"0 0 {width} {height}\""
    ))?;
    pen.raw(format_args!(
        "width=\"{width}\" height=\"{height}\" role=\"img\" aria-label=\"{title}\">"
    ))?;
    pen.raw(format_args!("<title>{title}</title>"))?;
    if !options.paged {
        let rules = style(options.theme);
        pen.raw(format_args!("<style>\n{rules}</style>"))?;
    }
    draw_title(&mut pen, plan, title, sub, notes)?;
    Ok(pen)
}

/// A chart that was drawn: what stands in it and where, and the picture.
pub struct Drawing {
    rows: Vec<Row>,
    frames: Frames,
    plan: Plan,
    pub svg: String,
}

impl Drawing {
    /// What was drawn of the moments.
    pub fn scene<'a>(&'a self, moments: &'a [Moment<'a>]) -> Scene<'a> {
        Scene {
            moments,
            rows: &self.rows,
            frames: &self.frames,
            plan: &self.plan,
        }
    }
}

/// Draws a chart of moments. `events` is the text's line of events, which stands at its foot.
///
/// # Errors
///
/// It would have no row, or too many; or there is no memory.
pub fn draw(moments: &[Moment], events: &str, options: &Options) -> Result<Drawing, Fault> {
    let rows = chart_rows(moments, options)?;
    let words = words_of(moments, &rows);
    let (acting, most) = tasks_of(moments);
    let frames = follow_all(moments, &rows, &words, most, options.scripted)?;
    let ranged = options.range.is_some();
    let lanes = lanes_of(moments, &rows, &frames, ranged);
    let keys = keys_of(moments, &rows, &frames);
    let notes = notes_of(&keys);
    let mut plan = plan_of(moments, &rows, &frames, lanes, words);
    put_rows(&mut plan, &rows, notes.len(), keys.len());
    let sub = sub_title(moments, acting, &plan, options);
    let mut pen = begin(&plan, options, &sub, &notes)?;
    let mut drawing = Drawing {
        rows,
        frames,
        plan,
        svg: String::new(),
    };
    let events = if ranged { "" } else { events };
    draw_scene(
        &mut pen,
        &drawing.scene(moments),
        &keys,
        options.paged,
        events,
    )?;
    pen.raw("</svg>")?;
    drawing.svg = pen.svg.into_text();
    Ok(drawing)
}
