//! Why the program ends without a chart.

use std::collections::TryReserveError;
use std::fmt;
use std::io;

/// The most bytes of a text.
pub const BYTES: u64 = 67_108_864;

/// What went wrong.
#[derive(Clone, Copy, Debug, PartialEq, Eq)]
pub enum Fault {
    /// The words are no command.
    Usage,
    /// A line of the text is bad: its number, from 1 on, and why.
    Text { line: u32, why: &'static str },
    /// A line of the script is bad, or the text is not that of the script: the line's number, from 1 on, and why.
    Script { line: u32, why: &'static str },
    /// The chart would have more rows than can be read.
    Rows { rows: u32, most: u32 },
    /// No line stands in the range.
    Nothing,
    /// The bytes are no text of UTF-8, or a read failed.
    Read,
    /// The script's file could not be read.
    File,
    /// A write failed.
    Write,
    /// The text is longer than the program reads.
    Long,
    /// There is no memory.
    Memory,
}

impl Fault {
    /// The status with which the program ends.
    pub fn status(self) -> u8 {
        match self {
            Fault::Usage => 2,
            Fault::Text { .. } | Fault::Script { .. } | Fault::Nothing => 3,
            Fault::Read | Fault::File => 4,
            Fault::Write => 5,
            Fault::Memory => 7,
            Fault::Long | Fault::Rows { .. } => 8,
        }
    }

    /// Why a read failed: for want of memory, or else as the reader's kind of fault.
    pub fn of_read(error: &io::Error, otherwise: Fault) -> Fault {
        if error.kind() == io::ErrorKind::OutOfMemory {
            Fault::Memory
        } else {
            otherwise
        }
    }
}

impl From<TryReserveError> for Fault {
    fn from(_: TryReserveError) -> Fault {
        Fault::Memory
    }
}

/// What is written goes to memory, so that only want of it makes a write fail.
impl From<fmt::Error> for Fault {
    fn from(_: fmt::Error) -> Fault {
        Fault::Memory
    }
}

impl fmt::Display for Fault {
    fn fmt(&self, f: &mut fmt::Formatter<'_>) -> fmt::Result {
        match *self {
            Fault::Usage => f.write_str(
                "usage: waitq_chart [--explain | --html | --trace] [--script FILE] [--title TEXT] \
                 [--lines A-B] [--full] [--theme auto | light | dark]",
            ),
            Fault::Text { line, why } => write!(f, "line {line} of the text: {why}"),
            Fault::Script { line, why } => write!(f, "line {line} of the script: {why}"),
            Fault::Rows { rows, most } => write!(
                f,
                "the chart would have {rows} rows, more than {most}: give a range, as --lines 1-500"
            ),
            Fault::Nothing => f.write_str("no line of the text stands in the range"),
            Fault::Read => f.write_str("the text could not be read, or is not UTF-8"),
            Fault::File => f.write_str("the script could not be read, or is not UTF-8"),
            Fault::Write => f.write_str("the output could not be written"),
            Fault::Long => write!(f, "the text has more than {BYTES} bytes"),
            Fault::Memory => f.write_str("no memory is left"),
        }
    }
}
