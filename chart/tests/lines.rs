//! Lines by their text: each form is read and spelled again just so, and whatever is read is spelled as it stood.

mod numbers;

use numbers::Numbers;
use waitq_chart::text::line::{Answer, Form, Kind, Line, Pending, Slept, State, Stop, What, Word};
use waitq_chart::text::reader::read_line;
use waitq_chart::text::whole::read_text;

const WORD: Word = Word {
    kind: Kind::Variable,
    number: 255,
};

/// A line of each form that has no other task, with what it says.
#[rustfmt::skip]
fn own_forms() -> Vec<(&'static str, What)> {
    let value = u64::MAX;
    vec![
        ("load v255 18446744073709551615", What::Load { word: WORD, value }),
        ("set v255 0", What::Set { word: WORD, value: 0 }),
        ("take c0 1", What::Take { number: 0, found: 1 }),
        ("tas b0.63 1", What::Try { word: 0, bit: 63, found: true }),
        ("tas b0.0 0", What::Try { word: 0, bit: 0, found: false }),
        ("clear b7.8", What::Clear { word: 7, bit: 8 }),
        ("lock h65535", What::Lock { head: 65535 }),
        ("unlock h256", What::Unlock { head: 256, spent: false }),
        ("unlock h256 spent", What::Unlock { head: 256, spent: true }),
        ("queue h0 front", What::Queue { head: 0, form: Form::Front }),
        ("queue h0 tail", What::Queue { head: 0, form: Form::Tail }),
        ("queue h0 prio", What::Queue { head: 0, form: Form::Priority }),
        ("mark h1", What::Mark { head: 1 }),
        ("unmark h1", What::Unmark { head: 1 }),
        ("queued yes", What::Queued { there: true }),
        ("active h9 no", What::Active { head: 9, there: false }),
        ("look no", What::Look { pending: false }),
        ("flag yes", What::Flag { there: true }),
        ("unflag", What::Unflag),
        ("nocall", What::NoCall),
        ("asleep", What::AsleepStill),
        ("busy h2", What::Busy { head: 2 }),
        ("refused 255", What::Refused { reason: 255 }),
    ]
}

/// A line of each form that means another task, and of each state, signal and answer, with what it says.
#[rustfmt::skip]
fn other_forms() -> Vec<(&'static str, What)> {
    let walk = |stop| What::Ended(Answer::Walk { woken: 1, selected: 0, holds: u32::MAX, stop });
    vec![
        ("tas b1.2 0 t3", What::TryFor { word: 1, bit: 2, found: false, who: 3 }),
        ("handed t2", What::Handed { who: 2 }),
        ("unqueue t2", What::Unqueue { who: 2 }),
        ("wake t2 yes", What::Wake { who: 2, woke: true }),
        ("woken t255", What::Woken { who: 255 }),
        ("signal t2 plain", What::Signal { who: 2, fatal: false }),
        ("signal t2 fatal", What::Signal { who: 2, fatal: true }),
        ("state run", What::State(State::Running)),
        ("state int", What::State(State::Interruptible)),
        ("state unint", What::State(State::Uninterruptible)),
        ("state kill", What::State(State::Killable)),
        ("sleep asleep", What::Sleep(Slept::Asleep)),
        ("sleep stay", What::Sleep(Slept::Stayed)),
        ("sleep signal", What::Sleep(Slept::Signalled)),
        ("accept none", What::Accept(Pending::Nothing)),
        ("accept plain", What::Accept(Pending::Plain)),
        ("accept fatal", What::Accept(Pending::Fatal)),
        ("= 7", What::Ended(Answer::Value(7))),
        ("= -512", What::Ended(Answer::Minus(512))),
        ("= woken 1 selected 0 holds 4294967295 end", walk(Stop::End)),
        ("= woken 1 selected 0 holds 4294967295 spent", walk(Stop::Spent)),
        ("= woken 1 selected 0 holds 4294967295 stopped", walk(Stop::Stopped)),
    ]
}

/// All forms.
fn forms() -> Vec<(&'static str, What)> {
    let mut all = own_forms();
    all.extend(other_forms());
    all
}

#[test]
fn each_form_is_read_and_spelled() {
    for (text, what) in forms() {
        for task in [0, 9, 255] {
            let text = format!("t{task} {text}");
            let line = read_line(&text).unwrap_or_else(|| panic!("{text} is a line"));
            assert!(line.task == task && line.what == what, "{text}");
            assert_eq!(line.to_string(), text);
        }
    }
}

#[test]
fn what_only_seems_to_be_a_line_is_none() {
    let others = [
        "",
        "t1",
        "t1 ",
        " t1 nocall",
        "t1  nocall",
        "t1 nocall ",
        "t01 nocall",
        "t256 nocall",
        "t+1 nocall",
        "u1 nocall",
        "t1 nocal",
        "t1 load c0 01",
        "t1 load e0 1",
        "t1 load c256 1",
        "t1 load c0 +1",
        "t1 load c0 18446744073709551616",
        "t1 take d0 1",
        "t1 tas b0 1",
        "t1 tas b0.0 2",
        "t1 tos b0.0 1 t2",
        "t1 lock h65536",
        "t1 lock h-1",
        "t1 unlock h1 spend",
        "t1 queue h1 last",
        "t1 queued maybe",
        "t1 state",
        "t1 = --1",
        "t1 = woken 1 chosen 0 holds 1 end",
        "t1 = woken 4294967296 selected 0 holds 1 end",
        "t1 = woken 1 selected 0 holds 1",
        "t1 refused 256",
        "t1 nocall\n",
        "t1 nocall\r",
        "t1 nocall nocall nocall",
        "t1 = woken 1 selected 0 holds 1 end end",
        "t1 signal t2",
        "t1 wake t2",
        "T1 nocall",
        "t1 unmark 1",
    ];
    for text in others {
        assert!(read_line(text).is_none(), "{text:?} is no line");
    }
}

/// A text that differs from a line in a few letters.
fn changed(numbers: &mut Numbers, text: &str) -> String {
    let mut letters: Vec<char> = text.chars().collect();
    for _ in 0..=numbers.below(2) {
        let at = numbers.below(letters.len() + 1);
        let letter = *numbers.pick(&[
            '0', '1', '9', ' ', 't', 'c', 'b', 'h', '.', '-', '+', '=', 'é', 's', '\t',
        ]);
        match numbers.below(3) {
            0 => letters.insert(at, letter),
            1 if at < letters.len() => letters[at] = letter,
            _ if at < letters.len() => drop(letters.remove(at)),
            _ => letters.truncate(at / 2),
        }
    }
    letters.into_iter().collect()
}

#[test]
fn whatever_is_read_is_spelled_as_it_stood() {
    let mut numbers = Numbers::new(1);
    let forms = forms();
    let (mut read, mut refused) = (0, 0);
    for _ in 0..60_000 {
        let (form, _) = numbers.pick(&forms);
        let line = format!("t{} {form}", numbers.below(256));
        let text = changed(&mut numbers, &line);
        match read_line(&text) {
            Some(line) => {
                assert_eq!(line.to_string(), text);
                read += 1;
            }
            None => refused += 1,
        }
    }
    assert!(
        read > 2_000 && refused > 20_000,
        "{read} read, {refused} refused"
    );
}

/// The text of lines, each with its line feed.
fn spelled(lines: &[Line]) -> String {
    lines.iter().map(|line| format!("{line}\n")).collect()
}

#[test]
fn a_text_is_its_lines_and_its_end() {
    let mut numbers = Numbers::new(2);
    let forms = forms();
    for _ in 0..300 {
        let mut text = String::new();
        for _ in 0..numbers.below(40) {
            let (form, _) = numbers.pick(&forms);
            text.push_str(&format!("t{} {form}\n", numbers.below(256)));
        }
        let count = text.lines().count();
        let ends = *numbers.pick(&[
            "",
            "end\n",
            "events 3\ntask 1 run none idle\nhead h1 t1\nword c0 1\nend\n",
        ]);
        text.push_str(ends);
        let whole = read_text(&text).expect("a text");
        assert_eq!(whole.lines.len(), count);
        assert_eq!(whole.ends, ends);
        assert_eq!(spelled(&whole.lines) + whole.ends, text);
    }
}

#[test]
fn every_text_of_the_examples_is_read() {
    let folder = concat!(env!("CARGO_MANIFEST_DIR"), "/../examples");
    let mut count = 0;
    for entry in std::fs::read_dir(folder).expect("the examples") {
        let path = entry.expect("an entry").path();
        if path.extension().is_some_and(|end| end == "text") {
            let text = std::fs::read_to_string(&path).expect("a text");
            let whole = read_text(&text).expect("its lines are read");
            assert_eq!(spelled(&whole.lines) + whole.ends, text);
            count += 1;
        }
    }
    assert!(count > 30);
}
