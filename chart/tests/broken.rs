//! Texts and scripts that are broken in every way: the program refuses or draws them, and never stops by a panic.

mod numbers;

use numbers::Numbers;
use std::fs;
use std::path::Path;
use waitq_chart::command::{read_command, Command};
use waitq_chart::run::answer;

/// The commands that are tried.
fn commands() -> Vec<Command> {
    let words: [&[&str]; 6] = [
        &[],
        &["--full", "--lines", "3-40"],
        &["--html", "--script", "x"],
        &["--trace", "--script", "x"],
        &["--explain", "--script", "x"],
        &["--script", "x", "--theme", "dark"],
    ];
    words
        .iter()
        .map(|words| read_command(words.iter().map(|word| (*word).to_owned())).expect("words"))
        .collect()
}

/// The texts of `tests/texts`, each with its script where it has one.
fn texts() -> Vec<(String, Option<String>)> {
    let folder = Path::new(env!("CARGO_MANIFEST_DIR")).join("tests/texts");
    let mut paths: Vec<_> = fs::read_dir(folder)
        .expect("the folder")
        .map(|entry| entry.expect("an entry").path())
        .filter(|path| path.extension().is_some_and(|end| end == "text"))
        .collect();
    paths.sort();
    paths
        .iter()
        .filter_map(|path| {
            let text = fs::read_to_string(path).ok()?;
            Some((text, fs::read_to_string(path.with_extension("waitq")).ok()))
        })
        .collect()
}

/// A text in which lines and letters were changed, left out, doubled or cut off.
fn broken(numbers: &mut Numbers, text: &str) -> String {
    let mut lines: Vec<String> = text.lines().map(str::to_owned).collect();
    for _ in 0..=numbers.below(3) {
        let at = numbers.below(lines.len().max(1));
        let other = lines
            .get(numbers.below(lines.len().max(1)))
            .cloned()
            .unwrap_or_default();
        match numbers.below(6) {
            0 => lines.insert(at.min(lines.len()), other),
            1 if at < lines.len() => drop(lines.remove(at)),
            2 if at < lines.len() => lines[at] = other,
            3 => lines.truncate(at),
            _ => change_number(numbers, lines.get_mut(at)),
        }
    }
    let mut text = lines.join("\n");
    if numbers.below(8) > 0 {
        text.push('\n');
    }
    text
}

/// Changes a word of a line to a number, or the number in it to another one.
fn change_number(numbers: &mut Numbers, line: Option<&mut String>) {
    let Some(line) = line else {
        return;
    };
    let number = *numbers.pick(&[
        "0",
        "1",
        "2",
        "63",
        "255",
        "65535",
        "4294967295",
        "18446744073709551615",
    ]);
    let mut words: Vec<String> = line.split(' ').map(str::to_owned).collect();
    let at = numbers.below(words.len());
    if let Some(word) = words.get_mut(at) {
        word.truncate(word.trim_end_matches(|c: char| c.is_ascii_digit()).len());
        word.push_str(number);
    }
    *line = words.join(" ");
}

#[test]
fn nothing_that_is_broken_stops_the_program() {
    let mut numbers = Numbers::new(3);
    let (commands, texts) = (commands(), texts());
    let (mut written, mut refused) = (0, 0);
    for _ in 0..3_000 {
        let (text, script) = numbers.pick(&texts);
        let text = broken(&mut numbers, text);
        let script = script.as_ref().map(|script| match numbers.below(3) {
            0 => script.clone(),
            _ => broken(&mut numbers, script),
        });
        let command = numbers.pick(&commands);
        match answer(command, &text, script.as_deref()) {
            Ok(answer) => {
                assert!(!answer.out.is_empty());
                written += 1;
            }
            Err(fault) => {
                assert!([3, 8].contains(&fault.status()), "{fault}");
                refused += 1;
            }
        }
    }
    assert!(
        written > 300 && refused > 300,
        "{written} written, {refused} refused"
    );
}

#[test]
fn no_bytes_of_any_kind_stop_the_program() {
    let mut numbers = Numbers::new(4);
    let commands = commands();
    let pieces = [
        "t1", "t255", " ", "\n", "load", "c0", "=", "-", "end", "head h1", "task", "call 1",
        "step 1 9", "é", "\0",
    ];
    for _ in 0..20_000 {
        let piece = |numbers: &mut Numbers| *numbers.pick(&pieces);
        let text: String = (0..numbers.below(30))
            .map(|_| piece(&mut numbers))
            .collect();
        let script: String = (0..numbers.below(30))
            .map(|_| piece(&mut numbers))
            .collect();
        let command = numbers.pick(&commands);
        let _ = answer(command, &text, Some(&script));
    }
}
