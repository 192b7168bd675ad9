//! The statuses of the program, and what it says with each.

use std::io::Write;
use std::process::{Command, Output, Stdio};
use std::thread;

/// Runs the program with words over a text.
fn run(words: &[&str], text: &[u8]) -> Output {
    run_as(
        Command::new(env!("CARGO_BIN_EXE_waitq_chart")).args(words),
        text,
    )
}

/// Runs a command over a text.
fn run_as(command: &mut Command, text: &[u8]) -> Output {
    let mut child = command
        .stdin(Stdio::piped())
        .stdout(Stdio::piped())
        .stderr(Stdio::piped())
        .spawn()
        .expect("the program runs");
    let mut input = child.stdin.take().expect("its input");
    thread::scope(|scope| {
        // A program that refuses its words reads nothing.
        scope.spawn(move || input.write_all(text));
        child.wait_with_output().expect("it ends")
    })
}

/// Whether a run ended with a status and one line on standard error, and wrote nothing.
fn assert_refused(done: &Output, status: i32, line: &str) {
    assert_eq!(
        String::from_utf8_lossy(&done.stderr),
        format!("waitq_chart: {line}\n")
    );
    assert_eq!(done.status.code(), Some(status), "{line}");
    assert!(done.stdout.is_empty());
}

#[test]
fn words_texts_and_files_are_refused() {
    let usage = "usage: waitq_chart [--explain | --html | --trace] [--script FILE] [--title TEXT] [--lines A-B] \
                 [--full] [--theme auto | light | dark]";
    assert_refused(&run(&["--nope"], b""), 2, usage);
    let no_line = "line 2 of the text: it is no line of a replay's text";
    assert_refused(&run(&[], b"t1 nocall\nt1 nocal\n"), 3, no_line);
    let cut = "line 1 of the text: it has no line feed at its end";
    assert_refused(&run(&[], b"t1 nocall"), 3, cut);
    let after = "line 2 of the text: a task's line cannot stand after the end lines";
    assert_refused(&run(&[], b"end\nt1 nocall\n"), 3, after);
    assert_refused(&run(&[], b""), 3, "no line of the text stands in the range");
    let explained = run(&["--explain", "--lines", "2-3"], b"t1 nocall\n");
    assert_refused(&explained, 3, "no line of the text stands in the range");
    assert_refused(
        &run(&[], b"\xff\n"),
        4,
        "the text could not be read, or is not UTF-8",
    );
    let no_file = "the script could not be read, or is not UTF-8";
    assert_refused(
        &run(&["--script", "/no/such/file"], b"t1 nocall\n"),
        4,
        no_file,
    );
}

#[test]
fn long_texts_and_charts_are_refused() {
    let rows = "the chart would have 2001 rows, more than 2000: give a range, as --lines 1-500";
    assert_refused(&run(&[], &b"t1 nocall\n".repeat(2001)), 8, rows);
    assert_eq!(
        run(&[], &b"t1 nocall\n".repeat(2000)).status.code(),
        Some(0)
    );
    let long = b"t1 asleep\n".repeat(6_710_887);
    assert_refused(
        &run(&["--explain"], &long),
        8,
        "the text has more than 67108864 bytes",
    );
}

#[test]
fn an_end_that_differs_is_told() {
    let done = run(&["--explain"], b"t1 set c0 7\nword c0 7\nword c0 8\nend\n");
    assert_eq!(done.status.code(), Some(0));
    assert_eq!(
        String::from_utf8_lossy(&done.stderr),
        "waitq_chart: line 3 of the text is not what its lines before tell\n"
    );
    assert!(!done.stdout.is_empty());
}

#[cfg(target_os = "linux")]
#[test]
fn want_of_room_is_told() {
    let program = env!("CARGO_BIN_EXE_waitq_chart");
    let mut full = Command::new("sh");
    full.args(["-c", "\"$0\" --explain >/dev/full", program]);
    assert_refused(
        &run_as(&mut full, b"t1 nocall\n"),
        5,
        "the output could not be written",
    );
    // Room for the program and the text, and not for what is made of it.
    let text = b"t1 asleep\n".repeat(1_000_000);
    for (room, words) in [
        (40_000, "--explain"),
        (80_000, "--trace"),
        (120_000, "--full"),
    ] {
        let mut small = Command::new("sh");
        small.args([
            "-c",
            "ulimit -v \"$1\"; exec \"$0\" \"$2\"",
            program,
            &room.to_string(),
            words,
        ]);
        assert_refused(&run_as(&mut small, &text), 7, "no memory is left");
    }
}
