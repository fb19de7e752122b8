//! The `mac` mode: the tag of an input of any size under the key in a file, or the check of one.

use crate::keyed::{add, check, finish, start, LONGEST_KEY};
use crate::lines::{hex, number16};
use crate::sum::{hex_bytes, TURN};
use std::io::Error;

/// The words of the mode: the name of the key's file, the digest length, the tag to be checked.
#[derive(PartialEq, Eq, Debug)]
pub struct Asked<'a> {
    pub key: &'a str,
    pub m: u16,
    pub tag: Option<Vec<u8>>,
}

/// What the words after `mac` ask for, or why they cannot be read. The option may stand anywhere,
/// once. Whether the digest length is allowed is not asked here: that is for start to refuse.
pub fn asked<'a>(words: &[&'a str]) -> Result<Asked<'a>, &'static str> {
    let mut others = Vec::new();
    let mut tag = None;
    let mut rest = words.iter();
    while let Some(&word) = rest.next() {
        match word {
            "--check" if tag.is_some() => return Err("mac: --check twice"),
            "--check" => {
                // The word behind it is the tag even where it looks like an option.
                let hex = rest.next().ok_or("mac: no word behind --check")?;
                let bytes = hex_bytes(hex);
                tag = Some(bytes.ok_or("mac: the tag is not hex, two digits a byte")?);
            }
            _ if word.starts_with("--") => return Err("mac: an unknown option"),
            other => others.push(other),
        }
    }
    let (key, m) = match others[..] {
        [key] => (key, "256"),
        [key, m] => (key, m),
        _ => return Err("mac: not the name of a file and at most one number"),
    };
    let m = number16(m).ok_or("mac: M is not a decimal number up to 65535")?;
    Ok(Asked { key, m, tag })
}

/// Why a run of the mode ends without its line.
#[derive(PartialEq, Eq, Debug)]
pub enum Stop {
    Refused(u8),
    /// A message; none begins with `refused`.
    Failed(String),
}

/// Runs the mode; the line that it prints. The key's file is read by the function given, which is
/// told how many bytes at most, and the message is heard once start has accepted.
pub fn line(
    words: &[&str],
    read: impl Fn(&str, usize) -> Result<Vec<u8>, Error>,
    hear: impl FnOnce() -> Result<Vec<u8>, Error>,
) -> Result<String, Stop> {
    let asked = asked(words).map_err(|why| Stop::Failed(why.to_string()))?;
    let unread = |name: &str, error: Error| Stop::Failed(format!("mac: {name}: {error}"));
    // One byte past the longest allowed is refused like any more, so an endless file is too.
    let key = read(asked.key, LONGEST_KEY + 1).map_err(|error| unread(asked.key, error))?;
    let mut keyed = accepted(start(asked.m, &key))?;
    let message = hear().map_err(|error| unread("standard input", error))?;
    for turn in message.chunks(TURN) {
        keyed = accepted(add(&keyed, turn))?;
    }
    if let Some(tag) = asked.tag {
        let right = accepted(check(&keyed, &tag))?;
        return Ok(if right { "yes\n" } else { "no\n" }.to_string());
    }
    let mut tag = vec![0; asked.m as usize / 8];
    // The count is that of finish, not of the input, so that a turn left out shows in the line.
    let covered = accepted(finish(&keyed, &mut tag))?;
    Ok(format!("{} {covered}\n", hex(&tag)))
}

/// Goes on with what a call made where its number is 0.
fn accepted<T>((number, made): (u8, T)) -> Result<T, Stop> {
    if number == 0 {
        Ok(made)
    } else {
        Err(Stop::Refused(number))
    }
}
