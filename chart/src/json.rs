//! JSON as it is written: texts in quotes, lists and objects.

use std::fmt::{self, Display};

/// A text that is shown as JSON writes it, in quotes.
pub struct Quoted<'a>(pub &'a str);

impl Display for Quoted<'_> {
    fn fmt(&self, f: &mut fmt::Formatter<'_>) -> fmt::Result {
        f.write_str("\"")?;
        let mut rest = self.0;
        while let Some(at) = rest.find(is_escaped) {
            let (plain, from) = rest.split_at(at);
            f.write_str(plain)?;
            let mut letters = from.chars();
            if let Some(letter) = letters.next() {
                write_escaped(f, letter)?;
            }
            rest = letters.as_str();
        }
        f.write_str(rest)?;
        f.write_str("\"")
    }
}

/// Whether JSON spells a letter otherwise than as itself.
fn is_escaped(letter: char) -> bool {
    letter == '"' || letter == '\\' || letter < ' '
}

/// Writes a letter that is not spelled as itself.
fn write_escaped(f: &mut fmt::Formatter<'_>, letter: char) -> fmt::Result {
    match letter {
        '"' => f.write_str("\\\""),
        '\\' => f.write_str("\\\\"),
        '\u{8}' => f.write_str("\\b"),
        '\t' => f.write_str("\\t"),
        '\n' => f.write_str("\\n"),
        '\u{c}' => f.write_str("\\f"),
        '\r' => f.write_str("\\r"),
        other => write!(f, "\\u{:04x}", u32::from(other)),
    }
}

/// Values between commas, each shown as it is.
pub struct Listed<'a>(pub &'a [String]);

impl Display for Listed<'_> {
    fn fmt(&self, f: &mut fmt::Formatter<'_>) -> fmt::Result {
        for (at, value) in self.0.iter().enumerate() {
            if at > 0 {
                f.write_str(",")?;
            }
            f.write_str(value)?;
        }
        Ok(())
    }
}

#[cfg(test)]
mod tests {
    use super::{Listed, Quoted};

    #[test]
    fn texts_are_quoted() {
        assert_eq!(Quoted("").to_string(), "\"\"");
        assert_eq!(Quoted("a \"b\" \\c").to_string(), r#""a \"b\" \\c""#);
        assert_eq!(
            Quoted("\u{8}\t\n\u{c}\r\u{0}\u{1f}\u{7f}▴</").to_string(),
            "\"\\b\\t\\n\\f\\r\\u0000\\u001f\u{7f}▴</\""
        );
    }

    #[test]
    fn values_are_listed() {
        assert_eq!(Listed(&[]).to_string(), "");
        let values = ["1".to_owned(), "[2]".to_owned()];
        assert_eq!(Listed(&values).to_string(), "1,[2]");
    }
}
