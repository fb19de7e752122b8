//! Comparison of the logger with logs written out, with the check, with the samples and with the
//! runs of its mode.

use crate::digest::{one_shot, LastBits};
use crate::lines::{answer_all, hex, write_text};
use crate::log::{check, Verdict, LONGEST};
use crate::parts::{contents, Parts};
use crate::random::Random;
use crate::runs;
use crate::samples::{lent_files, named};
use crate::selftest::Tally;
use crate::selftest_records::{columns, tallied};
use crate::write::{asked, outcome, write_log, Asked, Lent, Outcome};
use std::io::{Error, ErrorKind};

/// The log of one all-zero register, no events and no claims, written out (document 01).
const SMALLEST: [&str; 4] = [
    "0000",
    "0100 0000000000000000000000000000000000000000000000000000000000000000",
    "0000",
    "0000",
];

/// The same with its claim: the end value is the start.
const SMALLEST_CLAIMED: [&str; 4] = [SMALLEST[0], SMALLEST[1], SMALLEST[2], SMALLEST[1]];

/// Changes to a call with 2 registers, 3 events and a buffer with room: bytes of the salt, of the
/// registers and of the events, the register of the last whole event, bytes of the buffer, the
/// number.
const CALLS: [(usize, usize, usize, u16, usize, u8); 34] = [
    (0, 64, 108, 1, 300, 0),
    (32, 64, 108, 1, 300, 0),
    (0, 64, 0, 0, 300, 0),
    (0, 64, 36, 1, 300, 0),
    (0, 768, 36, 23, 2000, 0),
    (1, 64, 108, 1, 300, 2),
    (31, 64, 108, 1, 300, 2),
    (33, 64, 108, 1, 300, 2),
    (64, 64, 108, 1, 300, 2),
    (0, 0, 0, 0, 300, 7),
    (0, 31, 0, 0, 300, 7),
    (0, 33, 0, 0, 300, 7),
    (0, 63, 108, 0, 300, 7),
    (0, 767, 108, 1, 2000, 7),
    (0, 769, 108, 1, 2000, 7),
    (0, 800, 108, 1, 2000, 7),
    (0, 64, 35, 0, 300, 7),
    (0, 64, 37, 1, 300, 7),
    (0, 64, 107, 1, 300, 7),
    (0, 64, 36 * 1025, 1, 50_000, 7),
    (0, 64, 36 * 1024 + 1, 1, 50_000, 7),
    (0, 64, 108, 2, 300, 8),
    (0, 64, 108, 256, 300, 8),
    (0, 64, 108, 65_535, 300, 8),
    (0, 768, 36 * 1024, 24, 50_000, 8),
    (0, 64, 108, 1, 0, 5),
    (31, 0, 35, 0, 0, 2),
    (33, 64, 108, 2, 300, 2),
    (1, 64, 108, 1, 0, 2),
    (0, 800, 108, 25, 0, 7),
    (0, 64, 73, 65_535, 300, 7),
    (0, 33, 0, 0, 0, 7),
    (0, 64, 37, 1, 0, 7),
    (0, 64, 108, 2, 0, 8),
];

/// Words that the mode reads: names r and e, a salt of one byte AB or none, the wish for claims.
const WORDS: [(&[&str], bool, bool); 14] = [
    (&["r", "e"], false, false),
    (&["r", "e", "--claims"], false, true),
    (&["r", "--claims", "e"], false, true),
    (&["--claims", "r", "e"], false, true),
    (&["r", "e", "--salt", "ab"], true, false),
    (&["r", "--salt", "AB", "e"], true, false),
    (&["--salt", "aB", "r", "e"], true, false),
    (&["r", "e", "--salt", ""], false, false),
    (&["--salt", "", "--claims", "r", "e"], false, true),
    (&["--salt", "ab", "--claims", "r", "e"], true, true),
    (&["--claims", "--salt", "ab", "r", "e"], true, true),
    (&["--claims", "r", "--salt", "ab", "e"], true, true),
    (&["r", "--salt", "ab", "--claims", "e"], true, true),
    (&["r", "--claims", "e", "--salt", "ab"], true, true),
];

/// Words that it does not.
const UNREADABLE: [&[&str]; 21] = [
    &[],
    &["r"],
    &["--claims"],
    &["r", "--claims"],
    &["--salt", "ab", "r"],
    &["r", "e", "f"],
    &["r", "e", ""],
    &["r", "e", "--claims", "f"],
    &["r", "e", "--claim"],
    &["r", "e", "--"],
    &["r", "e", "--salt=ab"],
    &["r", "e", "--Claims"],
    &["r", "e", "--claims", "--claims"],
    &["--salt", "ab", "r", "e", "--salt", "ab"],
    &["--salt", "", "r", "e", "--salt", ""],
    &["r", "e", "--salt"],
    &["r", "e", "--salt", "--claims"],
    &["r", "e", "--salt", "a"],
    &["r", "e", "--salt", "0g"],
    &["r", "e", "--salt", "-"],
    &["r", "e", "--salt", "a b"],
];

/// Lines of a case file that are not readable.
const LINES: [&str; 6] = [
    "write - - - 2 -",
    "write - - -  -",
    "write - - - x -",
    "write - - 0 -",
    "write - - - 0 - -",
    "write AA - - 0 -",
];

pub fn write_values(tally: &mut Tally) {
    logs_written_out(tally);
    for (index, call) in CALLS.into_iter().enumerate() {
        tally.value(&format!("call {index} of the logger"), call_is(call));
    }
    checked_values(tally);
    sample_values(tally);
    line_values(tally);
    word_values(tally);
    run_values(tally);
}

/// Whether the logger writes this log and no byte past it, and refuses a buffer one byte short.
fn writes(lent: &Lent, log: &[u8]) -> bool {
    let mut buffer = vec![0xaa; log.len() + 50];
    let answer = write_log(lent, &mut buffer);
    let mut short = vec![0xaa; log.len() - 1];
    let refusal = write_log(lent, &mut short);
    answer == (0, log.len())
        && buffer[..log.len()] == *log
        && buffer[log.len()..].iter().all(|&byte| byte == 0xaa)
        && refusal == (5, 0)
        && short.iter().all(|&byte| byte == 0xaa)
}

/// The 40-byte log, the same with a claim, and one of three events put together here.
fn logs_written_out(tally: &mut Tally) {
    let open = Lent { salt: vec![], registers: vec![0; 32], events: vec![], claims: false };
    let mut log = [0xaa; 41];
    let answer = write_log(&open, &mut log);
    let right = hex(&log[..40]) == SMALLEST.concat().replace(' ', "");
    tally.value("the 40-byte log written", answer == (0, 40) && right && log[40] == 0xaa);

    let mut log = [0xaa; 72];
    let answer = write_log(&Lent { claims: true, ..open }, &mut log);
    let right = hex(&log) == SMALLEST_CLAIMED.concat().replace(' ', "");
    tally.value("the 40-byte log written with a claim", answer == (0, 72) && right);

    let (salt, start, other) = ([0x11; 32], [0x22; 32], [0x33; 32]);
    let events = [[&[1, 0, 7, 9], &[0x44; 32][..]], [&[0, 0, 255, 255], &[0x55; 32]]];
    let events = [events[0].concat(), events[1].concat(), events[0].concat()].concat();
    let registers = [start, other].concat();
    let lent = Lent { salt: salt.to_vec(), registers, events, claims: true };
    let extended = |old: [u8; 32], component: u8| {
        let mut value = [0; 32];
        let message = [old, [component; 32]].concat();
        one_shot(256, &salt, &message, LastBits::NONE, &mut value);
        value
    };
    let ends = [extended(start, 0x55), extended(extended(other, 0x44), 0x44)].concat();
    let log =
        [&[32, 0][..], &salt, &[2, 0], &lent.registers, &[3, 0], &lent.events, &[2, 0], &ends];
    tally.value("a log of three events", writes(&lent, &log.concat()));
}

/// Whether a call of `CALLS` gives its number, with and without claims, and writes nothing on a
/// refusal.
fn call_is(call: (usize, usize, usize, u16, usize, u8)) -> bool {
    let (salt, registers, size, register, room, number) = call;
    let mut events = vec![0; size];
    if let Some(place) = (size / 36).checked_sub(1) {
        events[36 * place..36 * place + 2].copy_from_slice(&register.to_le_bytes());
    }
    [false, true].into_iter().all(|claims| {
        let (salt, registers, events) = (vec![1; salt], vec![2; registers], events.clone());
        let mut buffer = vec![0xaa; room];
        let sum = 8 + salt.len() + registers.len() * (1 + claims as usize) + events.len();
        let (given, length) = write_log(&Lent { salt, registers, events, claims }, &mut buffer);
        given == number
            && length == if number == 0 { sum } else { 0 }
            && buffer[length..].iter().all(|&byte| byte == 0xaa)
    })
}

/// Whether the log written is accepted with room for its records, with this verdict, its sections
/// are the parts it was written from and the end values, and the numbers of extensions are right.
fn accepted_as(lent: &Lent, verdict: Verdict) -> bool {
    let mut log = vec![0; LONGEST];
    let (number, length) = write_log(lent, &mut log);
    log.truncate(length);
    let registers = lent.registers.len() / 32;
    let mut records = vec![0; 34 * registers];
    let answer = check(&log, &mut records);
    let (ends, extensions) = columns(&records);
    let claims = if lent.claims { ends } else { Vec::new() };
    number == 0
        && extensions == tallied(&lent.events, registers)
        && (answer.number, answer.verdict) == (0, verdict)
        && 32 * answer.registers == lent.registers.len()
        && 36 * answer.events == lent.events.len()
        && contents(&log) == [&lent.salt, &lent.registers, &lent.events, &claims].map(Vec::clone)
}

/// Written logs and the check: every number of registers, then many sizes.
fn checked_values(tally: &mut Tally) {
    let mut random = Random::new(23);
    let mut sizes: Vec<(usize, usize)> = (1..=24).map(|registers| (registers, 3)).collect();
    sizes.extend((0..100).map(|turn| (1 + turn * 7 % 24, turn * 5 % 41)));
    sizes.extend([(1, 0), (24, 0), (1, 1024), (24, 1024)]);
    for (claims, verdict) in [(false, Verdict::NoClaim), (true, Verdict::Agrees)] {
        for salted in [false, true] {
            let right = sizes.iter().all(|&(registers, events)| {
                let parts = Parts::random(&mut random, salted, registers, events);
                accepted_as(&Lent::of(&parts, claims), verdict)
            });
            tally.value(&format!("written logs, salted {salted}, {verdict}"), right);
        }
    }
}

/// The samples written again from their sections, and the files that one is written from.
fn sample_values(tally: &mut Tally) {
    for name in ["smallest.log", "noclaim.log", "agrees.log", "longest.log"] {
        let log = named(name);
        let [salt, registers, events, claims] = contents(&log);
        let lent = Lent { salt, registers, events, claims: !claims.is_empty() };
        tally.value(&format!("{name} written again"), writes(&lent, &log));
    }
    tally.value("length of the longest log", named("longest.log").len() == 38_440);
    let [(_, registers), (_, events)] = lent_files();
    tally.value("files of agrees.log", (registers.len(), events.len()) == (128, 324));
    let front = [&[0, 0, 4, 0], &registers[..], &[9, 0], &events, &[4, 0]].concat();
    tally.value("files of agrees.log in it", named("agrees.log").starts_with(&front));
}

/// A `write` line and its answer, lines that are not readable, lines at the limit.
fn line_values(tally: &mut Tally) {
    let log = SMALLEST.concat().replace(' ', "");
    let line = format!("write - {} - 0 {}ab\n", "00".repeat(32), "ff".repeat(40));
    tally.value("a write line", answer_all(line.as_bytes()) == format!("write 0 40 {log}ab\n"));
    let right = LINES.iter().all(|line| answer_all(line.as_bytes()) == "unreadable\n");
    tally.value("write lines not readable", right);
    // No accepted call needs so long a line, so the registers are too many.
    let salted = |salt: usize| {
        let (registers, events) = (vec![0; 40_000], vec![0; 36_864]);
        Lent { salt: vec![0; salt], registers, events, claims: false }
    };
    let room = (196_608 - write_text(&salted(0), &[]).len()) / 2;
    let longest = write_text(&salted(0), &vec![0; room + 1]);
    let right = answer_all(longest.as_bytes()).starts_with("write 7 0 00");
    tally.value("the longest line", longest.len() == 196_608 && right);
    let longer = write_text(&salted(1), &vec![0; room + 1]);
    let right = answer_all(longer.as_bytes()) == "unreadable\n";
    tally.value("one byte more than the longest line", longer.len() == 196_609 && right);
}

/// The words of the mode.
fn word_values(tally: &mut Tally) {
    for (words, salted, claims) in WORDS {
        let salt = if salted { vec![0xab] } else { vec![] };
        let right = asked(words) == Ok(Asked { registers: "r", events: "e", salt, claims });
        tally.value(&format!("write {}", words.join(" ")), right);
    }
    // Every file is there, so that nothing but the words is wrong.
    let failed = |words: &&[&str]| match outcome(words, |_, _| Ok(vec![0; 32])) {
        Outcome::Failed(why) => !why.starts_with("refused"),
        _ => false,
    };
    tally.value("words that write cannot read", UNREADABLE.iter().all(failed));
    let right = ["r", "e"].iter().all(|missing| {
        // The salt is refused, but a file that cannot be read comes first.
        let made = outcome(&["r", "e", "--salt", "00"], |name, _| {
            if name == *missing {
                Err(Error::new(ErrorKind::Other, "refused"))
            } else {
                Ok(vec![])
            }
        });
        matches!(made, Outcome::Failed(why) if !why.starts_with("refused"))
    });
    tally.value("files that write cannot read", right);
}

/// The runs that the `parts` mode writes, over its files.
fn run_values(tally: &mut Tally) {
    let files = runs::files();
    let read = |name: &str, most: usize| {
        let found = files.iter().find(|(other, _)| other == name);
        let (_, bytes) = found.ok_or(Error::from(ErrorKind::NotFound))?;
        Ok(bytes[..most.min(bytes.len())].to_vec())
    };
    for run in runs::all() {
        let words: Vec<&str> = run.words.split(' ').collect();
        let right = match (outcome(&words, read), run.sample) {
            (Outcome::Log(log), Some(name)) => run.number == 0 && log == named(name),
            (Outcome::Log(_), None) => run.number == 0,
            (Outcome::Refused(number), None) => number == run.number,
            _ => false,
        };
        tally.value(&format!("run {}", run.words), right && !words.contains(&""));
    }
}
