//! The program that draws the text of a replay.

use std::io::{self, Read, Write};
use std::process::ExitCode;
use std::{env, fs};
use waitq_chart::command::read_command;
use waitq_chart::fault::{Fault, BYTES};
use waitq_chart::run;

/// The text of the standard input.
fn read_input() -> Result<String, Fault> {
    let mut text = String::new();
    io::stdin()
        .lock()
        .take(BYTES + 1)
        .read_to_string(&mut text)
        .map_err(|error| Fault::of_read(&error, Fault::Read))?;
    if text.len() as u64 > BYTES {
        return Err(Fault::Long);
    }
    Ok(text)
}

/// The words after the program's name.
fn words() -> Result<Vec<String>, Fault> {
    env::args_os()
        .skip(1)
        .map(|word| word.into_string().map_err(|_| Fault::Usage))
        .collect()
}

/// Says a line on standard error.
fn say(line: impl std::fmt::Display) {
    // Where this fails too, only the status tells.
    let _ = writeln!(io::stderr(), "waitq_chart: {line}");
}

/// Writes a whole text to the standard output.
fn write_out(text: &str) -> io::Result<()> {
    let mut out = io::stdout().lock();
    out.write_all(text.as_bytes())?;
    out.flush()
}

/// Does what the words say.
fn write_answer() -> Result<(), Fault> {
    let command = read_command(words()?)?;
    let text = read_input()?;
    let script = match &command.script {
        Some(path) => {
            Some(fs::read_to_string(path).map_err(|error| Fault::of_read(&error, Fault::File))?)
        }
        None => None,
    };
    let answer = run::answer(&command, &text, script.as_deref())?;
    if let Some(line) = answer.differs {
        say(format_args!(
            "line {line} of the text is not what its lines before tell"
        ));
    }
    write_out(&answer.out).map_err(|_| Fault::Write)
}

fn main() -> ExitCode {
    match write_answer() {
        Ok(()) => ExitCode::SUCCESS,
        Err(fault) => {
            say(fault);
            ExitCode::from(fault.status())
        }
    }
}
