//! The moments of a replay in English.

pub mod explain;
pub mod sentence;
