//! Lines of SVG.

use crate::room::Sheet;
use std::fmt::{self, Display, Write};

/// A picture that is being drawn.
#[derive(Default)]
pub struct Pen {
    pub svg: Sheet,
}

/// A rectangle, in pixels.
#[derive(Clone, Copy)]
pub struct Area {
    pub x: f64,
    pub y: f64,
    pub width: f64,
    pub height: f64,
}

/// The area at a place, of a size.
pub fn place(x: f64, y: f64, width: f64, height: f64) -> Area {
    Area {
        x,
        y,
        width,
        height,
    }
}

/// A text with the letters that mean something in SVG and HTML written otherwise.
pub fn escaped(text: &str) -> String {
    let mut out = String::new();
    for letter in text.chars() {
        match letter {
            '&' => out.push_str("&amp;"),
            '<' => out.push_str("&lt;"),
            '>' => out.push_str("&gt;"),
            '"' => out.push_str("&quot;"),
            '\'' => out.push_str("&#x27;"),
            _ => out.push(letter),
        }
    }
    out
}

impl Pen {
    /// A text of SVG as it is.
    pub fn raw(&mut self, text: impl Display) -> fmt::Result {
        writeln!(self.svg, "{text}")
    }

    pub fn rect(&mut self, at: Area, class: &str) -> fmt::Result {
        let Area {
            x,
            y,
            width,
            height,
        } = at;
        writeln!(
            self.svg,
            "<rect x=\"{x}\" y=\"{y}\" width=\"{width}\" height=\"{height}\" class=\"{class}\"/>"
        )
    }

    /// A rectangle with round corners.
    pub fn round(&mut self, at: Area, radius: f64, class: &str) -> fmt::Result {
        let Area {
            x,
            y,
            width,
            height,
        } = at;
        write!(
            self.svg,
            "<rect x=\"{x}\" y=\"{y}\" width=\"{width}\" height=\"{height}\" "
        )?;
        writeln!(self.svg, "rx=\"{radius}\" class=\"{class}\"/>")
    }

    pub fn circle(&mut self, x: f64, y: f64, radius: f64, class: &str) -> fmt::Result {
        writeln!(
            self.svg,
            "<circle cx=\"{x}\" cy=\"{y}\" r=\"{radius}\" class=\"{class}\"/>"
        )
    }

    /// A path from a place on, by the rest of its directions.
    pub fn path(&mut self, x: f64, y: f64, more: impl Display, class: &str) -> fmt::Result {
        writeln!(self.svg, "<path d=\"M{x} {y}{more}\" class=\"{class}\"/>")
    }

    /// A line to the right.
    pub fn across(&mut self, x: f64, y: f64, end: f64, class: &str) -> fmt::Result {
        self.path(x, y, format_args!("H{end}"), class)
    }

    /// A text, from a place on or as its class says.
    pub fn text(&mut self, x: f64, y: f64, text: impl Display, class: &str) -> fmt::Result {
        writeln!(
            self.svg,
            "<text x=\"{x}\" y=\"{y}\" class=\"{class}\">{text}</text>"
        )
    }
}
