//! The lines of keyed digests: writing keyed states, reading lines, answering them.

use crate::keyed::{add, check, finish, start, Keyed};
use crate::lines::{bytes, exact, hex, number16, state_of, state_text};

/// FAMILY M SALT CHAIN COVERED COMPRESSED HELD KEY128
pub fn keyed_text(keyed: &Keyed) -> String {
    format!("{} {}", state_text(&keyed.inner), hex(&keyed.key))
}

/// The answer to the words of a line, or none if the line is not readable; then the keyed state is
/// as before.
pub fn answer(words: &[&str], keyed: &mut Keyed) -> Option<String> {
    match *words {
        ["keybegin", m, key] => {
            let made = start(number16(m)?, &bytes(key)?);
            Some(handed_back("keybegin", made, keyed))
        }
        ["keystate", ref inner @ .., key] => {
            *keyed = Keyed { inner: state_of(inner)?, key: exact(key)? };
            Some(format!("keystate {}", keyed_text(keyed)))
        }
        ["keyadd", data] => {
            let made = add(keyed, &bytes(data)?);
            Some(handed_back("keyadd", made, keyed))
        }
        ["keyfinish", buffer] => {
            let mut buffer = bytes(buffer)?;
            let (number, covered) = finish(keyed, &mut buffer);
            Some(format!("keyfinish {number} {covered} {} {}", keyed_text(keyed), hex(&buffer)))
        }
        ["keycheck", tag] => {
            let (number, right) = check(keyed, &bytes(tag)?);
            let word = if right { "yes" } else { "no" };
            Some(format!("keycheck {number} {word} {}", keyed_text(keyed)))
        }
        _ => None,
    }
}

/// The answer of a call whose keyed state becomes the current one.
fn handed_back(call: &str, (number, made): (u8, Keyed), keyed: &mut Keyed) -> String {
    *keyed = made;
    format!("{call} {number} {}", keyed_text(keyed))
}
