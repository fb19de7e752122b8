//! The digest of an input of any size, by begin, add and finish.

use crate::digest::{add, begin, digest_bytes, finish, LastBits};
use crate::lines::{hex, number16};

/// Bytes of one add. No multiple of a block, so that most turns end inside one.
pub const TURN: usize = 1000;

/// The digest length and the salt that the words after `sum` ask for, or why they cannot be read.
/// Whether they are allowed is not asked here: that is for begin to refuse.
pub fn asked(words: &[&str]) -> Result<(u16, Vec<u8>), &'static str> {
    let (m, salt) = match *words {
        [] => ("256", ""),
        [m] => (m, ""),
        [m, salt] => (m, salt),
        _ => return Err("sum: too many words"),
    };
    let m = number16(m).ok_or("sum: M is not a decimal number up to 65535")?;
    let salt = hex_bytes(salt).ok_or("sum: the salt is not hex, two digits a byte")?;
    Ok((m, salt))
}

/// Not the byte string of a case file: here both cases of letters count, and the empty word stands
/// for no bytes.
pub fn hex_bytes(word: &str) -> Option<Vec<u8>> {
    let digits: Option<Vec<u8>> = word.chars().map(|c| Some(c.to_digit(16)? as u8)).collect();
    let digits = digits?;
    if digits.len() % 2 == 1 {
        return None;
    }
    Some(digits.chunks(2).map(|two| 16 * two[0] + two[1]).collect())
}

/// The line that `sum` prints.
pub fn text(m: u16, salt: &[u8], input: &[u8]) -> String {
    match digested(m, salt, input) {
        Ok(line) => format!("{line}\n"),
        Err(number) => format!("refused {number}\n"),
    }
}

/// Digest, bytes covered and blocks compressed, or the number of the first call that refuses.
fn digested(m: u16, salt: &[u8], input: &[u8]) -> Result<String, u8> {
    let (number, mut state) = begin(m, salt);
    accepted(number)?;
    for turn in input.chunks(TURN) {
        let (number, made) = add(&state, turn);
        accepted(number)?;
        state = made;
    }
    let mut digest = vec![0; digest_bytes(m)];
    let report = finish(&state, LastBits::NONE, &mut digest);
    accepted(report.number)?;
    // The counts are those of finish, not of the input, so that a turn left out shows in the line.
    Ok(format!("{} {} {}", hex(&digest), report.covered, report.compressed))
}

/// Goes on where a call's number is 0.
pub fn accepted(number: u8) -> Result<(), u8> {
    if number == 0 {
        Ok(())
    } else {
        Err(number)
    }
}
