//! The text of a replay, and the script that it was made of, as moments: who did what, line by line. A line is read
//! just where it is spelled as one.

pub mod line;
pub mod moment;
pub mod reader;
pub mod script;
pub mod watch;
pub mod whole;
