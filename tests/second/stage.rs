//! The first boot stage: the half of an image that it measures, and the saved form it hands on.

use crate::digest::{add, begin, State};
use crate::random::Random;
use crate::saved::save;
use crate::sum::accepted;

/// Bytes of that half: more than a read buffer of 4,096, many blocks and one that is unfinished.
const IMAGE_BYTES: usize = 10_037;

/// Bytes of the longest form of a 256-bit state: 63 held bytes after 86 others.
const LONGEST_FORM: usize = 149;

/// The bytes that `image` writes.
pub fn image() -> Vec<u8> {
    Random::new(13).bytes(IMAGE_BYTES)
}

/// What `stage` writes for an input.
pub fn output(input: &[u8]) -> Vec<u8> {
    output_from(begin(256, &[]), input)
}

/// The same from any answer of begin, so that the refusals can be met.
pub fn output_from(start: (u8, State), input: &[u8]) -> Vec<u8> {
    match form_from(start, input) {
        Ok(form) => form,
        Err(number) => format!("refused {number}\n").into_bytes(),
    }
}

/// The form of the state after the input, or the number of the first call that refuses. The adds
/// have 1, 2, 3 bytes and so on, so that they end at many places of a block.
fn form_from((number, mut state): (u8, State), input: &[u8]) -> Result<Vec<u8>, u8> {
    accepted(number)?;
    let mut rest = input;
    let mut size = 1;
    while !rest.is_empty() {
        let (turn, after) = rest.split_at(size.min(rest.len()));
        let (number, made) = add(&state, turn);
        accepted(number)?;
        (state, rest, size) = (made, after, size + 1);
    }
    let mut form = vec![0; LONGEST_FORM];
    let (number, written) = save(&state, &mut form);
    accepted(number)?;
    form.truncate(written);
    Ok(form)
}
