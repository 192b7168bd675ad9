//! What a task waits for, or owes a wake of.

use crate::text::line::{Kind, Word};
use std::fmt;

/// The head of the first plain condition; those below are of bits and variables.
pub const FIRST_PLAIN: u16 = 256;

/// The head of the first plain condition with a simple queue.
pub const FIRST_SIMPLE: u16 = 304;

/// The head of the first completion.
pub const FIRST_DONE: u16 = 320;

/// A condition: a word of its own, one bit of a bit word, or that a variable differs from an old value.
#[derive(Clone, Copy, PartialEq, Eq)]
pub struct Watch {
    pub word: Word,
    /// The bit of a bit word, where it is known.
    pub bit: Option<u8>,
    /// The value from which a variable is to differ.
    pub old: u64,
}

impl Watch {
    /// The watch of a word itself.
    pub fn whole(kind: Kind, number: u8) -> Watch {
        let word = Word { kind, number };
        Watch {
            word,
            bit: None,
            old: 0,
        }
    }

    /// The watch of a bit.
    pub fn of_bit(number: u8, bit: Option<u8>) -> Watch {
        let word = Word {
            kind: Kind::Bits,
            number,
        };
        Watch { word, bit, old: 0 }
    }

    /// The watch of a variable.
    pub fn of_variable(number: u8, old: u64) -> Watch {
        let word = Word {
            kind: Kind::Variable,
            number,
        };
        Watch {
            word,
            bit: None,
            old,
        }
    }

    /// Whether a wake of this condition is one of what another watch waits for.
    pub fn meets(&self, other: &Watch) -> bool {
        self.word == other.word && (other.bit.is_none() || self.bit == other.bit)
    }

    /// Whether the condition is set where its word has a value. A bit is set, in this sense, where it is clear.
    pub fn is_set(&self, value: u64) -> Option<bool> {
        match self.word.kind {
            Kind::Plain | Kind::Done => Some(value != 0),
            Kind::Variable => Some(value != self.old),
            Kind::Bits => Some(!has_bit(value, self.bit?)),
        }
    }

    /// The head of a plain condition or a completion. The others share heads.
    pub fn head(&self) -> Option<u16> {
        let number = u16::from(self.word.number);
        match self.word.kind {
            Kind::Plain => Some(FIRST_PLAIN + number),
            Kind::Done => Some(FIRST_DONE + number),
            Kind::Bits | Kind::Variable => None,
        }
    }
}

/// The number with one bit set, and 0 beyond the last bit.
pub fn bit_value(bit: u8) -> u64 {
    if bit < 64 {
        1u64 << bit
    } else {
        0
    }
}

/// Whether a bit of a value is set.
pub fn has_bit(value: u64, bit: u8) -> bool {
    value & bit_value(bit) != 0
}

/// The one bit that a value has, if it has just one.
pub fn lone_bit(value: u64) -> Option<u8> {
    if value.count_ones() != 1 {
        return None;
    }
    u8::try_from(value.trailing_zeros()).ok()
}

impl fmt::Display for Watch {
    fn fmt(&self, f: &mut fmt::Formatter<'_>) -> fmt::Result {
        let word = self.word;
        match (word.kind, self.bit) {
            (Kind::Bits, Some(bit)) => write!(f, "{word}.{bit}"),
            (Kind::Bits, None) => write!(f, "{word}.?"),
            _ => write!(f, "{word}"),
        }
    }
}
