//! The plan of a chart: its rows and lanes, what stands after each row, and where everything is drawn.

pub mod frame;
pub mod lanes;
pub mod measure;
pub mod places;
pub mod rows;
