//! The files of keys and messages and the runs of the `mac` mode that the `keys` mode writes.

use crate::cases_keyed::off;
use crate::keyed::tag_at_once;
use crate::lines::hex;
use crate::random::Random;
use std::path::Path;

/// Bytes of each key; the last two are too long.
const KEY_SIZES: [usize; 13] =
    [0, 1, 63, 64, 65, 127, 128, 129, 1_000, 39_999, 65_535, 65_536, 65_600];

const MESSAGE_SIZES: [usize; 6] = [0, 1, 63, 64, 1_000, 100_003];

/// Runs that print a tag: bytes of the message, bytes of the key, the digest length where it is
/// given.
const TAGS: [(usize, usize, Option<u16>); 16] = [
    (0, 0, None),
    (1, 1, None),
    (63, 63, None),
    (64, 64, Some(256)),
    (64, 64, Some(264)),
    (1_000, 65, None),
    (0, 65, Some(8)),
    (1_000, 63, Some(512)),
    (100_003, 127, Some(512)),
    (63, 128, Some(512)),
    (64, 129, Some(264)),
    (1, 1_000, Some(8)),
    (100_003, 1, Some(264)),
    (1_000, 39_999, None),
    (0, 65_535, Some(512)),
    (100_003, 65_535, None),
];

/// Runs that are refused: message, words, number.
const REFUSED: [(&str, &str, u8); 10] = [
    ("1.message", "65536.key", 12),
    ("0.message", "65600.key 512", 12),
    ("64.message", "65536.key --check 00", 12),
    ("64.message", "64.key 0", 1),
    ("64.message", "64.key 257", 1),
    ("64.message", "64.key 513", 1),
    ("64.message", "64.key 65535", 1),
    ("64.message", "--check 00 64.key 257", 1),
    ("64.message", "65536.key 0", 1),
    ("1.message", "65600.key 257", 1),
];

/// How a run ends.
#[derive(Clone, PartialEq, Eq, Debug)]
pub enum Answer {
    /// The line that it prints.
    Line(String),
    Refused(u8),
}

/// One run: the name of its message, the words after `mac`, its end.
pub struct Run {
    pub message: String,
    pub words: String,
    pub answer: Answer,
}

/// Random bytes that end with a line feed, which is not to be dropped.
fn contents(random: &mut Random, size: usize) -> Vec<u8> {
    let mut bytes = random.bytes(size);
    if let Some(last) = bytes.last_mut() {
        *last = b'\n';
    }
    bytes
}

/// Name and contents of each file.
pub fn files() -> Vec<(String, Vec<u8>)> {
    let mut random = Random::new(31);
    let keys = KEY_SIZES.map(|size| (format!("{size}.key"), contents(&mut random, size)));
    let messages =
        MESSAGE_SIZES.map(|size| (format!("{size}.message"), contents(&mut random, size)));
    keys.into_iter().chain(messages).collect()
}

struct Files(Vec<(String, Vec<u8>)>);

impl Files {
    fn named(&self, name: String) -> &[u8] {
        let found = self.0.iter().find(|(other, _)| *other == name);
        &found.expect("a file's name").1
    }

    fn tag(&self, message: usize, key: usize, m: u16) -> Vec<u8> {
        let key = self.named(format!("{key}.key"));
        tag_at_once(m, key, self.named(format!("{message}.message")))
    }
}

fn tag_runs(files: &Files) -> Vec<Run> {
    let run = |(message, key, m): (usize, usize, Option<u16>)| {
        let tag = files.tag(message, key, m.unwrap_or(256));
        let words = match m {
            None => format!("{key}.key"),
            Some(m) => format!("{key}.key {m}"),
        };
        let answer = Answer::Line(format!("{} {message}\n", hex(&tag)));
        Run { message: format!("{message}.message"), words, answer }
    };
    TAGS.map(run).into()
}

/// Checks of tags of the 1,000-byte message under the 65-byte key at 256 bits, and of others.
fn check_runs(files: &Files) -> Vec<Run> {
    let tag = files.tag(1_000, 65, 256);
    let right = hex(&tag);
    let (upper, mixed) = (right.to_uppercase(), right[..32].to_uppercase() + &right[32..]);
    let wide = hex(&files.tag(1_000, 65, 512));
    let runs = [
        (1_000, format!("65.key --check {right}"), "yes\n"),
        (1_000, format!("--check {right} 65.key"), "yes\n"),
        (1_000, format!("--check {upper} 65.key 256"), "yes\n"),
        (1_000, format!("65.key --check {mixed} 256"), "yes\n"),
        (1_000, format!("65.key 256 --check {upper}"), "yes\n"),
        (1_000, format!("65.key 512 --check {wide}"), "yes\n"),
        (1, format!("1000.key 8 --check {}", hex(&files.tag(1, 1_000, 8))), "yes\n"),
        (0, format!("--check {} 0.key 264", hex(&files.tag(0, 0, 264))), "yes\n"),
        (1_000, format!("65.key --check {}", hex(&off(&tag, 0, 0x80))), "no\n"),
        (1_000, format!("65.key 256 --check {}", hex(&off(&tag, 31, 0x01))), "no\n"),
        (1_000, format!("65.key --check {}", &right[..62]), "no\n"),
        (1_000, format!("65.key --check {right}00"), "no\n"),
        (1_000, format!("65.key 512 --check {wide}00"), "no\n"),
        (1_000, format!("--check {} 65.key", right.repeat(4)), "no\n"),
        (1_000, format!("65.key 512 --check {}", "5A".repeat(2_000)), "no\n"),
        (1_000, format!("65.key 256 --check {wide}"), "no\n"),
        (1_000, format!("65.key 256 --check {}", &wide[..64]), "no\n"),
        (1_000, format!("64.key --check {right}"), "no\n"),
        (64, format!("65.key --check {right}"), "no\n"),
    ];
    let run = |(message, words, line): (usize, String, &str)| {
        let answer = Answer::Line(line.to_string());
        Run { message: format!("{message}.message"), words, answer }
    };
    runs.map(run).into()
}

pub fn all() -> Vec<Run> {
    let files = Files(files());
    let mut runs = tag_runs(&files);
    runs.extend(REFUSED.map(|(message, words, number)| {
        let (message, words) = (message.to_string(), words.to_string());
        Run { message, words, answer: Answer::Refused(number) }
    }));
    runs.extend(check_runs(&files));
    runs
}

pub fn write(folder: &Path) -> std::io::Result<()> {
    std::fs::create_dir_all(folder)?;
    for (name, bytes) in files() {
        std::fs::write(folder.join(name), bytes)?;
    }
    let line = |run: &Run| format!("{} {}\n", run.message, run.words);
    let lines: String = all().iter().map(line).collect();
    std::fs::write(folder.join("runs"), lines)
}
