//! The words of the command line.

use crate::draw::style::Theme;
use crate::fault::Fault;

/// What is written.
#[derive(Clone, Copy, Debug, PartialEq, Eq)]
pub enum Output {
    /// A picture.
    Svg,
    /// A sentence for each line.
    Explain,
    /// A page that steps through the lines.
    Html,
    /// The lines for a trace viewer.
    Trace,
}

/// What the program is to do.
#[derive(Clone, Debug, PartialEq, Eq)]
pub struct Command {
    pub output: Output,
    /// The file of the script.
    pub script: Option<String>,
    pub title: String,
    pub theme: Theme,
    pub full: bool,
    /// The first and the last line.
    pub range: Option<(u32, u32)>,
}

/// The values as they were given: of words that contradict one another, the last.
struct Given {
    command: Command,
    lines: Option<String>,
}

/// A range of lines, as `20-90`.
fn read_range(text: &str) -> Option<(u32, u32)> {
    let (first, last) = text.split_once('-')?;
    let first = first.parse::<u32>().ok()?;
    let last = last.parse::<u32>().ok()?;
    (first <= last).then_some((first, last))
}

/// The colours by their name.
fn read_theme(name: &str) -> Option<Theme> {
    match name {
        "auto" => Some(Theme::Both),
        "light" => Some(Theme::Light),
        "dark" => Some(Theme::Dark),
        _ => None,
    }
}

impl Given {
    /// Takes a word that stands alone. Answers whether it is one.
    fn take_alone(&mut self, name: &str) -> bool {
        match name {
            "full" => self.command.full = true,
            "explain" => self.command.output = Output::Explain,
            "html" => self.command.output = Output::Html,
            "trace" => self.command.output = Output::Trace,
            _ => return false,
        }
        true
    }

    /// Takes a word with its value. A colour is refused where it stands, a range only where it holds.
    fn take_valued(&mut self, name: &str, value: String) -> Result<(), Fault> {
        match name {
            "script" => self.command.script = Some(value),
            "title" => self.command.title = value,
            "lines" => self.lines = Some(value),
            "theme" => self.command.theme = read_theme(&value).ok_or(Fault::Usage)?,
            _ => return Err(Fault::Usage),
        }
        Ok(())
    }
}

/// The command that words are, without the program's name. A value stands behind `=` or is the next word, whatever that
/// is; two hyphens alone may end the words.
///
/// # Errors
///
/// `Usage` where the words are no command.
pub fn read_command(words: impl IntoIterator<Item = String>) -> Result<Command, Fault> {
    let mut given = Given {
        command: Command {
            output: Output::Svg,
            script: None,
            title: "replay".to_owned(),
            theme: Theme::Both,
            full: false,
            range: None,
        },
        lines: None,
    };
    let mut words = words.into_iter();
    while let Some(word) = words.next() {
        let name = word.strip_prefix("--").ok_or(Fault::Usage)?;
        if name.is_empty() {
            break;
        }
        if let Some((name, value)) = name.split_once('=') {
            given.take_valued(name, value.to_owned())?;
        } else if !given.take_alone(name) {
            let value = words.next().ok_or(Fault::Usage)?;
            given.take_valued(name, value)?;
        }
    }
    if words.next().is_some() {
        return Err(Fault::Usage);
    }
    let Given { mut command, lines } = given;
    if let Some(text) = lines {
        command.range = Some(read_range(&text).ok_or(Fault::Usage)?);
    }
    Ok(command)
}
