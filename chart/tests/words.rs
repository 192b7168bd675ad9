//! The words of the command line.

use waitq_chart::command::{read_command, Command, Output};
use waitq_chart::draw::style::Theme;
use waitq_chart::fault::Fault;

/// The command that words are.
fn command(words: &[&str]) -> Result<Command, Fault> {
    read_command(words.iter().map(|word| (*word).to_owned()))
}

/// The command of words that are one.
fn good(words: &[&str]) -> Command {
    command(words).unwrap_or_else(|fault| panic!("{words:?}: {fault}"))
}

#[test]
fn no_words_ask_for_a_picture() {
    let expected = Command {
        output: Output::Svg,
        script: None,
        title: "replay".to_owned(),
        theme: Theme::Both,
        full: false,
        range: None,
    };
    assert_eq!(good(&[]), expected);
    assert_eq!(good(&["--"]), expected);
}

#[test]
fn values_stand_behind_a_sign_or_are_the_next_word() {
    let words = [
        "--script=a=b",
        "--title",
        "--full",
        "--lines",
        "1-2",
        "--theme=dark",
    ];
    let all = good(&words);
    assert_eq!(all.script.as_deref(), Some("a=b"));
    assert_eq!(all.title, "--full");
    assert_eq!(all.range, Some((1, 2)));
    assert_eq!(all.theme, Theme::Dark);
    assert!(!all.full);
    assert_eq!(good(&["--title", "--"]).title, "--");
    assert_eq!(good(&["--title="]).title, "");
    assert_eq!(
        good(&["--lines", "+0-4294967295"]).range,
        Some((0, u32::MAX))
    );
}

#[test]
fn the_last_of_words_that_contradict_one_another_holds() {
    assert_eq!(
        good(&["--html", "--trace", "--explain"]).output,
        Output::Explain
    );
    assert_eq!(
        good(&["--explain", "--html", "--html"]).output,
        Output::Html
    );
    assert_eq!(
        good(&["--theme", "dark", "--theme", "light"]).theme,
        Theme::Light
    );
    assert_eq!(
        good(&["--lines", "bad", "--lines", "3-4"]).range,
        Some((3, 4))
    );
    assert_eq!(good(&["--title=a", "--title", "b"]).title, "b");
}

#[test]
fn other_words_are_no_command() {
    let others: [&[&str]; 26] = [
        &["x"],
        &[""],
        &["-"],
        &["-h"],
        &["--help"],
        &["--version"],
        &["help"],
        &["---full"],
        &["--ful"],
        &["--full="],
        &["--html=x"],
        &["--script"],
        &["--title"],
        &["--lines"],
        &["--theme"],
        &["--theme", "blue"],
        &["--theme", "blue", "--theme", "dark"],
        &["--lines", "9-8"],
        &["--lines", "9"],
        &["--lines", "1-2-3"],
        &["--lines", "0-4294967296"],
        &["--lines", "1-2", "--lines", ""],
        &["--", "--full"],
        &["--", "--"],
        &["--=x"],
        &["--explain", "--no-such-word", "x"],
    ];
    for words in others {
        assert_eq!(command(words), Err(Fault::Usage), "{words:?}");
    }
}
