//! Where everything stands in a chart, in pixels, by counts of letters, lanes and rows.

use crate::follow::queues::{Change, Member, Sort, Way};
use crate::plan::frame::{Frame, Frames};
use crate::plan::lanes::Lane;
use crate::plan::measure::{chip_width, length_of, letters, wide};
use crate::plan::rows::Row;
use crate::text::line::{Kind, What, Word};
use crate::text::moment::{Act, Moment};

/// The most condition words that have a strip.
const WORDS: usize = 6;

/// The most letters of a line's text that are shown.
pub const TEXT_LETTERS: usize = 44;

/// How far a word's strip stands from the next one.
pub const WORD_WIDTH: f64 = 66.0;

/// Widths and places within a lane.
#[derive(Clone, Copy)]
pub struct Sizes {
    pub lane: f64,
    pub row: f64,
    pub fold: f64,
    pub owe_x: f64,
    pub owe: f64,
    pub hold_x: f64,
    pub hold: f64,
    pub bar_x: f64,
    pub bar: f64,
    pub label_x: f64,
    /// How many letters a label may have: none where the lanes are narrow.
    pub label: usize,
}

/// The sizes for so many lanes.
fn sizes_of(lanes: usize) -> Sizes {
    let (lane, row, fold, label) = match lanes {
        0..=4 => (136.0, 22.0, 40.0, 11usize),
        5..=8 => (116.0, 22.0, 40.0, 8),
        9..=20 => (48.0, 22.0, 40.0, 0),
        _ => (30.0, 20.0, 36.0, 0),
    };
    let (owe_x, owe, hold_x, hold, bar_x, bar) = match lanes {
        0..=8 => (4.0, 5.0, 13.0, 9.0, 26.0, 24.0),
        9..=20 => (4.0, 4.0, 11.0, 6.0, 20.0, 18.0),
        _ => (1.0, 3.0, 6.0, 4.0, 12.0, 14.0),
    };
    Sizes {
        lane,
        row,
        fold,
        owe_x,
        owe,
        hold_x,
        hold,
        bar_x,
        bar,
        label_x: bar_x + bar + 10.0,
        label,
    }
}

/// A row's top and height.
#[derive(Clone, Copy)]
pub struct Level {
    pub top: f64,
    pub height: f64,
}

impl Level {
    pub fn middle(&self) -> f64 {
        self.top + self.height / 2.0
    }
}

/// The plan of a chart.
pub struct Plan {
    pub lanes: Vec<Lane>,
    pub words: Vec<Word>,
    /// The heads whose queues change in the chart: the first one, and whether there are more.
    pub head: Option<u16>,
    pub heads: bool,
    pub sizes: Sizes,
    pub text_x: f64,
    pub lanes_x: f64,
    pub words_x: f64,
    pub queue_x: f64,
    pub width: f64,
    /// How many entries of the legend stand side by side, and how far from one another.
    pub columns: usize,
    pub column: f64,
    /// Where the legend begins.
    pub legend_y: f64,
    /// Where the heads of the lanes begin, and how high they are.
    pub top: f64,
    pub band: f64,
    pub levels: Vec<Level>,
    /// Where the names of the lanes stand once more.
    pub names: Vec<f64>,
    pub end: f64,
    pub height: f64,
}

impl Plan {
    /// The left side of a lane.
    pub fn lane_x(&self, lane: usize) -> f64 {
        self.lanes_x + self.sizes.lane * length_of(lane)
    }

    /// The middle of a lane's bar.
    pub fn bar_middle(&self, lane: usize) -> f64 {
        self.lane_x(lane) + self.sizes.bar_x + self.sizes.bar / 2.0
    }

    /// The lane of a task.
    pub fn lane_of(&self, task: u8) -> Option<usize> {
        for (i, lane) in self.lanes.iter().enumerate() {
            if lane.tasks.contains(&task) {
                return Some(i);
            }
        }
        None
    }

    /// The place of a row.
    pub fn level(&self, row: usize) -> Level {
        self.levels.get(row).copied().unwrap_or(Level {
            top: 0.0,
            height: 0.0,
        })
    }

    /// Where the first row's lanes begin.
    pub fn start(&self) -> f64 {
        self.top + self.band + 1.0
    }

    /// The place of a word's strip.
    pub fn word_x(&self, place: usize) -> f64 {
        self.words_x + WORD_WIDTH * length_of(place)
    }

    pub fn place_of(&self, word: &Word) -> Option<usize> {
        self.words.iter().position(|w| w == word)
    }

    pub fn is_labelled(&self) -> bool {
        self.sizes.label > 0
    }
}

/// The condition word that a line is about.
pub fn word_of(what: &What) -> Option<Word> {
    match *what {
        What::Load { word, .. } | What::Set { word, .. } => Some(word),
        What::Take { number, .. } => Some(Word {
            kind: Kind::Plain,
            number,
        }),
        What::Try { word, .. } | What::TryFor { word, .. } | What::Clear { word, .. } => {
            Some(Word {
                kind: Kind::Bits,
                number: word,
            })
        }
        _ => None,
    }
}

/// The condition words that rows tell of, in their order, at most six.
pub fn words_of(moments: &[Moment], rows: &[Row]) -> Vec<Word> {
    let mut words: Vec<Word> = Vec::new();
    for row in rows {
        let (from, to) = row.span();
        for moment in moments.get(from..to).unwrap_or(&[]) {
            if let Act::Does(what) = &moment.act {
                if let Some(word) = word_of(what) {
                    if !words.contains(&word) {
                        words.push(word);
                    }
                }
            }
        }
    }
    words.sort();
    words.truncate(WORDS);
    words
}

/// How many letters the texts of the rows have at most.
fn text_letters(moments: &[Moment], rows: &[Row]) -> usize {
    let mut most = 18usize;
    for row in rows {
        if let Row::One { at } = *row {
            if let Some(moment) = moments.get(at) {
                let text = moment.to_string();
                let refused = match (&moment.act, &moment.call) {
                    (Act::Does(_), Some(call)) => letters(call.text).saturating_add(2),
                    _ => 0,
                };
                most = most.max(letters(&text).saturating_add(refused));
            }
        }
    }
    most.min(TEXT_LETTERS)
}

/// A member of a queue that is shown, or how many are left out.
#[derive(Clone, Copy)]
pub enum Chip {
    Shown {
        member: Member,
        gone: bool,
        new: bool,
    },
    Left {
        count: u32,
    },
}

/// The members of a queue with the one that went, in its old place.
fn with_gone(frame: &Frame, change: &Change) -> Vec<Member> {
    let mut members = Vec::new();
    members.extend_from_slice(frame.members.as_slice());
    if change.way == Way::Went {
        let at = change.at.min(members.len());
        members.insert(at, change.member);
    }
    members
}

/// Whether a member of a long queue is shown: the first two, the last two, the bookmarks and the one that changed.
fn is_shown(member: &Member, place: usize, count: usize, at: Option<usize>) -> bool {
    count <= 6
        || place < 2
        || place.saturating_add(2) >= count
        || member.sort == Sort::Bookmark
        || at == Some(place)
}

/// What is shown of the queue that a row changed. A row of many alike shows the queue after it.
pub fn chips_of(row: &Row, frame: &Frame) -> Vec<Chip> {
    let mut chips = Vec::new();
    let Some(change) = &frame.change else {
        return chips;
    };
    let one = matches!(row, Row::One { .. });
    let members = if one {
        with_gone(frame, change)
    } else {
        frame.members.clone()
    };
    let at = if one { Some(change.at) } else { None };
    let mut left = 0u32;
    for (i, member) in members.iter().enumerate() {
        if !is_shown(member, i, members.len(), at) {
            left = left.saturating_add(1);
            continue;
        }
        if left > 0 {
            chips.push(Chip::Left { count: left });
            left = 0;
        }
        let here = at == Some(i);
        chips.push(Chip::Shown {
            member: *member,
            gone: here && change.way == Way::Went,
            new: here && change.way == Way::Came,
        });
    }
    chips
}

/// How wide a chip of a row is.
fn width_of(chip: &Chip) -> f64 {
    let text = match chip {
        Chip::Shown { member, .. } => member.to_string(),
        Chip::Left { count } => format!("+{count}"),
    };
    chip_width(&text) + 5.0
}

/// How wide the queues of the rows are at most.
fn queue_width(rows: &[Row], frames: &Frames, many: bool) -> f64 {
    let mut most = 120.0f64;
    let lead = if many { 56.0 } else { 10.0 };
    for (row, frame) in rows.iter().zip(frames.after.iter()) {
        let mut width = lead;
        for chip in &chips_of(row, frame) {
            width += width_of(chip);
        }
        if width > most {
            most = width;
        }
    }
    most
}

/// The first head whose queue changes, and whether another one's does.
fn heads_of(frames: &Frames) -> (Option<u16>, bool) {
    let mut first = None;
    let mut more = false;
    for frame in &frames.after {
        if let Some(change) = &frame.change {
            match first {
                None => first = Some(change.head),
                Some(head) => more = more || head != change.head,
            }
        }
    }
    (first, more)
}

/// Whether the names of the lanes stand again before a row: every forty rows of a chart of more than sixty.
fn has_names(row: usize, rows: usize) -> bool {
    rows > 60 && row > 0 && row % 40 == 0 && rows.saturating_sub(row) > 12
}

/// Puts the rows under one another.
fn put_levels(plan: &mut Plan, rows: &[Row]) {
    let mut y = plan.start() + 3.0;
    for (i, row) in rows.iter().enumerate() {
        if has_names(i, rows.len()) {
            plan.names.push(y + plan.sizes.row / 2.0);
            y += plan.sizes.row;
        }
        let height = match row {
            Row::One { .. } => plan.sizes.row,
            Row::Alike { .. } => plan.sizes.fold,
        };
        plan.levels.push(Level { top: y, height });
        y += height;
    }
    plan.end = y + 6.0;
    plan.height = plan.end + 50.0;
}

/// How many columns a legend has in a width.
fn columns_of(width: f64) -> (usize, f64) {
    let room = width - 48.0;
    let mut columns = 2usize;
    for count in 3..7usize {
        if length_of(count) * 300.0 <= room {
            columns = count;
        }
    }
    let column = room / length_of(columns);
    // Whole pixels suffice here, and are the same however a number is written.
    let whole = column as u32;
    (columns, f64::from(whole.min(340)))
}

/// How high the heads of lanes are.
fn band_of(lanes: &[Lane]) -> f64 {
    if lanes.iter().any(Lane::is_many) {
        44.0
    } else {
        30.0
    }
}

/// A plan in which nothing has a place yet.
fn empty_plan(lanes: Vec<Lane>, words: Vec<Word>) -> Plan {
    let sizes = sizes_of(lanes.len());
    let band = band_of(&lanes);
    Plan {
        lanes,
        words,
        head: None,
        heads: false,
        sizes,
        text_x: 108.0,
        lanes_x: 0.0,
        words_x: 0.0,
        queue_x: 0.0,
        width: 0.0,
        columns: 2,
        column: 300.0,
        legend_y: 74.0,
        top: 0.0,
        band,
        levels: Vec::new(),
        names: Vec::new(),
        end: 0.0,
        height: 0.0,
    }
}

/// Plans the columns of a chart.
pub fn plan_of(
    moments: &[Moment],
    rows: &[Row],
    frames: &Frames,
    lanes: Vec<Lane>,
    words: Vec<Word>,
) -> Plan {
    let mut plan = empty_plan(lanes, words);
    plan.lanes_x = plan.text_x + wide(text_letters(moments, rows)) + 20.0;
    plan.words_x = plan.lane_x(plan.lanes.len()) + 22.0;
    let gap = if plan.words.is_empty() { 0.0 } else { 10.0 };
    plan.queue_x = plan.word_x(plan.words.len()) + gap;
    let (head, heads) = heads_of(frames);
    let queue = match head {
        Some(_) => queue_width(rows, frames, heads) + 20.0,
        None => 10.0,
    };
    let width = (plan.queue_x + queue).max(640.0);
    let (columns, column) = columns_of(width);
    plan.head = head;
    plan.heads = heads;
    plan.width = width;
    plan.columns = columns;
    plan.column = column;
    plan
}

/// Puts the legend and the rows where they stand, under so many notes and with so many signs.
pub fn put_rows(plan: &mut Plan, rows: &[Row], notes: usize, signs: usize) {
    plan.legend_y = 74.0 + 19.0 * length_of(notes);
    let lines = signs.div_ceil(plan.columns.max(1));
    plan.top = plan.legend_y + 22.0 * length_of(lines) + 18.0;
    put_levels(plan, rows)
}
