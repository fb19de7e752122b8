//! Comparison of the `mac` mode: its words, files that cannot be read, the order of what it asks,
//! and the runs of the `keys` mode.

use crate::keyed::tag_at_once;
use crate::keys::{self, Answer};
use crate::lines::hex;
use crate::mac::{asked, line, Asked, Stop};
use crate::selftest::Tally;
use std::io::{Error, ErrorKind};

/// Words that the mode reads: the name k, a digest length, a tag of one byte AB, an empty one or
/// none.
const WORDS: [(&[&str], u16, Option<&[u8]>); 14] = [
    (&["k"], 256, None),
    (&["k", "8"], 8, None),
    (&["k", "0"], 0, None),
    (&["k", "0512"], 512, None),
    (&["k", "65535"], 65_535, None),
    (&["k", "--check", "ab"], 256, Some(&[0xab])),
    (&["--check", "AB", "k"], 256, Some(&[0xab])),
    (&["--check", "aB", "k", "512"], 512, Some(&[0xab])),
    (&["k", "--check", "Ab", "512"], 512, Some(&[0xab])),
    (&["k", "512", "--check", "ab"], 512, Some(&[0xab])),
    (&["k", "--check", ""], 256, Some(&[])),
    (&["--check", "", "k", "7"], 7, Some(&[])),
    (&["k", "--check", "abab"], 256, Some(&[0xab, 0xab])),
    (&["k", "10", "--check", "10"], 10, Some(&[0x10])),
];

/// Words that it does not.
const UNREADABLE: [&[&str]; 25] = [
    &[],
    &["--check", "ab"],
    &["k", "256", "256"],
    &["k", "256", ""],
    &["k", ""],
    &["k", "65536"],
    &["k", "-8"],
    &["k", "+8"],
    &["k", "8.0"],
    &["k", "0x8"],
    &["k", "99999999999999999999999"],
    &["256", "k"],
    &["k", "--tag"],
    &["k", "--"],
    &["k", "--check=ab"],
    &["k", "--Check", "ab"],
    &["k", "--check"],
    &["k", "--check", "ab", "--check", "ab"],
    &["--check", "", "k", "--check", ""],
    &["k", "--check", "--check"],
    &["k", "--check", "a"],
    &["--check", "256", "k"],
    &["k", "--check", "0g"],
    &["k", "--check", "-"],
    &["k", "--check", "a b"],
];

pub fn mac_values(tally: &mut Tally) {
    word_values(tally);
    order_values(tally);
    tag_values(tally);
    run_values(tally);
}

fn failed(made: &Result<String, Stop>) -> bool {
    matches!(made, Err(Stop::Failed(why)) if !why.starts_with("refused"))
}

/// A reader or an input that is not to be asked.
fn never() -> Result<Vec<u8>, Error> {
    panic!("read too early")
}

fn broken() -> Result<Vec<u8>, Error> {
    Err(Error::new(ErrorKind::Other, "refused"))
}

fn word_values(tally: &mut Tally) {
    for (words, m, tag) in WORDS {
        let right = asked(words) == Ok(Asked { key: "k", m, tag: tag.map(<[u8]>::to_vec) });
        tally.value(&format!("mac {}", words.join(" ")), right);
    }
    // Neither the file nor the input is read.
    let right = UNREADABLE.iter().all(|words| failed(&line(words, |_, _| never(), never)));
    tally.value("words that mac cannot read", right);
}

/// The words, then the file, then start, then the input.
fn order_values(tally: &mut Tally) {
    let made = line(&["k", "257"], |_, _| broken(), never);
    tally.value("a key that mac cannot read", failed(&made));
    let made = line(&["k"], |_, _| Ok(vec![]), broken);
    tally.value("an input that mac cannot read", failed(&made));
    let read = |_: &str, most: usize| Ok(vec![7; most.min(70_000)]);
    let right = line(&["k"], read, never) == Err(Stop::Refused(12))
        && line(&["k", "257"], read, never) == Err(Stop::Refused(1))
        && line(&["k", "0", "--check", ""], |_, _| Ok(vec![]), never) == Err(Stop::Refused(1));
    tally.value("refusals of mac before its input", right);
    let right = line(&["k"], |_, most| Ok(vec![7; most - 1]), || Ok(vec![])).is_ok();
    let right = right && line(&["k"], |_, most| Ok(vec![7; most]), never).is_err();
    tally.value("bytes that mac reads of a key", right);
}

/// Tags of odd lengths under --check, and the line without it.
fn tag_values(tally: &mut Tally) {
    let message = vec![b'x'; 2001];
    let run = |words: &[&str]| line(words, |_, _| Ok(b"key".to_vec()), || Ok(message.clone()));
    let tag = hex(&tag_at_once(256, b"key", &message));
    tally.value("a line of mac", run(&["k"]) == Ok(format!("{tag} 2001\n")));
    let longer = tag.repeat(62);
    let tags = [
        ("", "no\n"),
        (&tag[..], "yes\n"),
        (&tag.to_uppercase(), "yes\n"),
        (&tag[2..], "no\n"),
        (&longer[..66], "no\n"),
        (&longer[..128], "no\n"),
        (&longer[..130], "no\n"),
        (&longer, "no\n"),
    ];
    for (tag, answer) in tags {
        let right = run(&["k", "--check", tag]).as_deref() == Ok(answer);
        tally.value(&format!("mac --check with {} digits", tag.len()), right);
    }
}

/// The runs that the `keys` mode writes, over its files.
fn run_values(tally: &mut Tally) {
    let files = keys::files();
    let find = |name: &str, most: usize| {
        let found = files.iter().find(|(other, _)| other == name);
        let (_, bytes) = found.ok_or(Error::from(ErrorKind::NotFound))?;
        Ok(bytes[..most.min(bytes.len())].to_vec())
    };
    for run in keys::all() {
        let words: Vec<&str> = run.words.split(' ').collect();
        let made = line(&words, find, || find(&run.message, usize::MAX));
        let right = match (made, run.answer) {
            (Ok(made), Answer::Line(wanted)) => made == wanted,
            (Err(Stop::Refused(number)), Answer::Refused(wanted)) => number == wanted,
            _ => false,
        };
        let front: String = run.words.chars().take(40).collect();
        tally.value(&format!("run {} {front}", run.message), right && !words.contains(&""));
    }
}
