//! How wide texts and counts are, in pixels, by counts of letters alone.

/// How wide so many letters of 12 pixels are, rounded down. No usual monospace font has wider ones.
pub fn wide(letters: usize) -> f64 {
    let letters = u32::try_from(letters).unwrap_or(0).min(100_000);
    f64::from(letters * 29 / 4)
}

/// How wide so many letters of 11 pixels are, rounded down.
pub fn narrow(letters: usize) -> f64 {
    let letters = u32::try_from(letters).unwrap_or(0).min(100_000);
    f64::from(letters * 133 / 20)
}

/// A count as a length.
pub fn length_of(count: usize) -> f64 {
    f64::from(u32::try_from(count).unwrap_or(0))
}

/// How many letters a text has.
pub fn letters(text: &str) -> usize {
    text.chars().count()
}

/// The first letters of a text, and an ellipsis where it has more than so many.
pub fn shortened(text: &str, most: usize) -> String {
    if letters(text) <= most {
        return String::from(text);
    }
    let mut short = String::new();
    for letter in text.chars().take(most.saturating_sub(1)) {
        short.push(letter);
    }
    short.push('…');
    short
}

/// How wide a member of a text is.
pub fn chip_width(text: &str) -> f64 {
    narrow(letters(text)) + 12.0
}
