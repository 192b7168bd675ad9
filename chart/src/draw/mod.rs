//! The chart of a replay as a picture of SVG.

pub mod bars;
mod cells;
pub mod chart;
mod legend;
mod marks;
pub mod pen;
mod side;
mod signs;
pub mod style;
