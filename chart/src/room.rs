//! Lists and texts that grow with the input, and say so where there is no memory for more.

use std::collections::TryReserveError;
use std::fmt;

/// Adds an item to a list that grows with the input.
///
/// # Errors
///
/// There is no memory for it.
pub fn push<T>(list: &mut Vec<T>, item: T) -> Result<(), TryReserveError> {
    if list.len() == list.capacity() {
        list.try_reserve(1)?;
    }
    list.push(item);
    Ok(())
}

/// A text that is written piece by piece. A write fails only where there is no memory for it.
#[derive(Default)]
pub struct Sheet {
    text: String,
}

impl Sheet {
    /// What was written.
    pub fn into_text(self) -> String {
        self.text
    }

    /// Whether nothing was written.
    pub fn is_empty(&self) -> bool {
        self.text.is_empty()
    }
}

impl fmt::Write for Sheet {
    fn write_str(&mut self, piece: &str) -> fmt::Result {
        self.text.try_reserve(piece.len()).map_err(|_| fmt::Error)?;
        self.text.push_str(piece);
        Ok(())
    }
}
