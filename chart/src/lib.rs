//! The text of a replay as a picture, a page, a trace or sentences. It knows the lines of the text and nothing of the
//! program that wrote them.

pub mod command;
pub mod draw;
pub mod fault;
pub mod follow;
mod json;
pub mod page;
pub mod plan;
pub mod room;
pub mod run;
pub mod say;
pub mod text;
pub mod trace;
