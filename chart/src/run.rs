//! From the words and the texts to what is written.

use crate::command::{Command, Output};
use crate::draw::chart::{draw, Options};
use crate::fault::Fault;
use crate::follow::ending::first_difference;
use crate::page::page;
use crate::say::explain::explain;
use crate::text::moment::Moment;
use crate::text::script::{plain_moments, told_moments};
use crate::text::whole::read_text;
use crate::trace::trace_of;

/// What a command writes, and the first line of the text's end that differs from what was followed.
#[derive(Debug)]
pub struct Written {
    pub out: String,
    pub differs: Option<u32>,
}

/// The text's line of events.
fn events_of(ends: &str) -> &str {
    ends.split('\n')
        .find(|line| line.starts_with("events "))
        .unwrap_or("")
}

/// What a command writes of moments.
fn write_moments(command: &Command, moments: &[Moment], events: &str) -> Result<String, Fault> {
    let scripted = command.script.is_some();
    match command.output {
        Output::Trace => trace_of(moments, scripted),
        Output::Explain => explain(moments, scripted, command.range),
        Output::Svg | Output::Html => {
            let options = Options {
                title: &command.title,
                theme: command.theme,
                full: command.full,
                range: command.range,
                paged: command.output == Output::Html,
                scripted,
            };
            let drawing = draw(moments, events, &options)?;
            if !options.paged {
                return Ok(drawing.svg);
            }
            let scene = drawing.scene(moments);
            Ok(page(&scene, &drawing.svg, options.title, options.theme)?)
        }
    }
}

/// What a command writes of a text. `script` is the text of the script that the command names, if it names one.
///
/// # Errors
///
/// The text or the script is bad, no chart can be drawn of it, or there is no memory.
pub fn answer(command: &Command, text: &str, script: Option<&str>) -> Result<Written, Fault> {
    let text = read_text(text)?;
    let moments = match script {
        Some(script) => told_moments(&text.lines, script)?,
        None => plain_moments(&text.lines)?,
    };
    let out = write_moments(command, &moments, events_of(text.ends))?;
    let differs = first_difference(&moments, text.ends, text.first_end(), script.is_some())?;
    Ok(Written { out, differs })
}
