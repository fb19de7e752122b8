//! A second, independent program for the SHAvite-3 digest, its saved states, the boot log check, the
//! logger, the AES round over tables and keyed digests.

mod bits;
mod cases;
mod cases_bits;
mod cases_keyed;
mod cases_keyed_lines;
mod cases_keyed_state;
mod cases_log;
mod cases_message;
mod cases_places;
mod cases_records;
mod cases_round;
mod cases_saved;
mod cases_state;
mod cases_write;
mod digest;
mod hash;
mod hmac;
mod keyed;
mod keys;
mod lines;
mod lines_keyed;
mod log;
mod mac;
mod parts;
mod printed;
mod random;
mod runs;
mod samples;
mod saved;
mod selftest;
mod selftest_bits;
mod selftest_hmac;
mod selftest_keyed;
mod selftest_mac;
mod selftest_places;
mod selftest_records;
mod selftest_round;
mod selftest_write;
mod stage;
mod sum;
mod tables;
mod write;

use mac::Stop;
use std::io::{Error, ErrorKind, Read, Write};
use std::process::ExitCode;
use write::Outcome;

const USAGE: &str = "usage: selftest | cases | expect | samples DIR | print | printed | ruled | \
    sum [M [SALT-HEX]] | image | stage | write REGISTERS EVENTS [--salt HEX] [--claims] | \
    parts DIR | mac KEYFILE [M] [--check TAG-HEX] | keys DIR";

fn main() -> ExitCode {
    // `args` would panic on a word that is not text, and the exit code would not be 1.
    let words: Result<Vec<String>, _> =
        std::env::args_os().skip(1).map(|word| word.into_string()).collect();
    let done = match words {
        Ok(words) => obey(&words.iter().map(String::as_str).collect::<Vec<_>>()),
        Err(word) => Err(unreadable(&format!("not text: {word:?}"))),
    };
    match done {
        Ok(true) => ExitCode::SUCCESS,
        Ok(false) => ExitCode::FAILURE,
        Err(error) => {
            eprintln!("{error}");
            ExitCode::FAILURE
        }
    }
}

fn unreadable(why: &str) -> Error {
    Error::new(ErrorKind::InvalidInput, why)
}

/// Does what the mode asks; whether all is well.
fn obey(words: &[&str]) -> std::io::Result<bool> {
    match *words {
        ["selftest"] => {
            let (text, right) = selftest::run();
            say(&text).map(|()| right)
        }
        ["cases"] => say(&cases::text()).map(|()| true),
        ["expect"] => {
            hear(u64::MAX).and_then(|input| say(&lines::answer_all(&input))).map(|()| true)
        }
        ["samples", folder] => samples::write(folder.as_ref()).map(|()| true),
        ["print"] => hear(log::LONGEST as u64 + 1)
            .and_then(|input| say(&log::printed_check(&input)))
            .map(|()| true),
        ["printed"] => say(&printed::table_text()).map(|()| true),
        ["ruled"] => say(&selftest::ruled_text()).map(|()| true),
        ["sum", ref rest @ ..] => {
            // The words first: where they cannot be read, no input is waited for.
            let (m, salt) = sum::asked(rest).map_err(unreadable)?;
            hear(u64::MAX).and_then(|input| say(&sum::text(m, &salt, &input))).map(|()| true)
        }
        ["image"] => put(&stage::image()).map(|()| true),
        ["stage"] => hear(u64::MAX).and_then(|input| put(&stage::output(&input))).map(|()| true),
        ["write", ref rest @ ..] => match write::outcome(rest, write::front) {
            Outcome::Log(log) => put(&log).map(|()| true),
            Outcome::Refused(number) => refused(number),
            Outcome::Failed(why) => Err(unreadable(&why)),
        },
        ["parts", folder] => runs::write(folder.as_ref()).map(|()| true),
        ["mac", ref rest @ ..] => match mac::line(rest, write::front, || hear(u64::MAX)) {
            Ok(line) => say(&line).map(|()| true),
            Err(Stop::Refused(number)) => refused(number),
            Err(Stop::Failed(why)) => Err(unreadable(&why)),
        },
        ["keys", folder] => keys::write(folder.as_ref()).map(|()| true),
        _ => {
            eprintln!("{USAGE}");
            Ok(false)
        }
    }
}

fn refused(number: u8) -> std::io::Result<bool> {
    eprintln!("refused {number}");
    Ok(false)
}

/// Standard input, at most so many bytes of it.
fn hear(most: u64) -> std::io::Result<Vec<u8>> {
    let mut input = Vec::new();
    std::io::stdin().lock().take(most).read_to_end(&mut input)?;
    Ok(input)
}

fn say(text: &str) -> std::io::Result<()> {
    put(text.as_bytes())
}

/// Raw bytes to standard output.
fn put(bytes: &[u8]) -> std::io::Result<()> {
    let mut out = std::io::stdout().lock();
    out.write_all(bytes)?;
    out.flush()
}
