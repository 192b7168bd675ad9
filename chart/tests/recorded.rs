//! What the program writes, says and ends with, beside the checksums of `tests/expected`. Those were recorded from the
//! program that this one was written after, and are recorded anew by `tests/record` where the outputs are to change.

mod sums;

use std::fs::File;
use std::path::{Path, PathBuf};
use std::process::Command;
use sums::sum_of;

/// The folder from which the names of the texts go.
fn folder() -> PathBuf {
    Path::new(env!("CARGO_MANIFEST_DIR")).join("tests")
}

/// The checksum of what the program does with a text and words.
fn sum_of_case(text: &str, words: &[&str]) -> String {
    let script = text.replace(".text", ".waitq");
    let done = Command::new(env!("CARGO_BIN_EXE_waitq_chart"))
        .args(words.iter().map(|word| word.replace("{}", &script)))
        .current_dir(folder())
        .stdin(File::open(folder().join(text)).expect("the text can be opened"))
        .output()
        .expect("the program runs");
    let status = done.status.code().expect("the program ends by itself");
    let mut all = format!("{status}\n").into_bytes();
    all.extend(done.stderr);
    all.extend(done.stdout);
    sum_of(&all)
}

#[test]
fn outputs_are_those_that_were_recorded() {
    let expected = include_str!("expected");
    let mut wrong = Vec::new();
    for line in expected.lines() {
        let mut parts = line.split('\t');
        let sum = parts.next().expect("a checksum");
        let text = parts.next().expect("a text");
        let words: Vec<&str> = parts.collect();
        if sum_of_case(text, &words) != sum {
            wrong.push(line);
        }
    }
    assert!(wrong.is_empty(), "other outputs: {wrong:#?}");
    assert!(expected.lines().count() > 600);
}

#[test]
fn checksums_are_those_of_sha_256() {
    let of_nothing = "e3b0c44298fc1c149afbf4c8996fb92427ae41e4649b934ca495991b7852b855";
    assert_eq!(sum_of(b""), of_nothing);
    let of_letters = "248d6a61d20638b8e5c026930c3e6039a33ce45964ff2167f6ecedd419db06c1";
    assert_eq!(
        sum_of(b"abcdbcdecdefdefgefghfghighijhijkijkljklmklmnlmnomnopnopq"),
        of_letters
    );
}
