//! The saved form of a running state: its writer and its reader.

use crate::digest::State;
use crate::hash::Family;

/// Writes the form of a state to the front of the lent buffer: a refusal number or 0, and the
/// form's length.
pub fn save(state: &State, out: &mut [u8]) -> (u8, usize) {
    if !state.consistent() {
        return (4, 0);
    }
    let form = form(state);
    if out.len() < form.len() {
        return (5, 0);
    }
    out[..form.len()].copy_from_slice(&form);
    (0, form.len())
}

/// The five sections. Whether the state is consistent is not asked here, so that forms of states
/// that are not can be made for the reader to refuse.
pub fn form(state: &State) -> Vec<u8> {
    let family = state.family;
    let rest = (state.covered % family.block_bytes() as u64) as usize;
    let salt = &state.salt[..family.salt_bytes()];
    let chain = &state.chain[..family.chain_words()];
    let family_number: u16 = if family == Family::Small { 0 } else { 1 };
    let mut form = Vec::new();
    let mut put = |bytes: &[u8]| form.extend_from_slice(bytes);

    put(&2u16.to_le_bytes());
    put(&family_number.to_le_bytes());
    put(&state.m.to_le_bytes());

    // A salt word's byte 0 is its least significant, so the salt's bytes stand as they are.
    put(&(salt.len() as u16 / 4).to_le_bytes());
    put(salt);

    put(&(chain.len() as u16).to_le_bytes());
    for word in chain {
        put(&word.to_le_bytes());
    }

    put(&1u16.to_le_bytes());
    put(&state.covered.to_le_bytes());

    put(&(rest as u16).to_le_bytes());
    put(&state.held[..rest]);
    form
}

/// The state of a form. Every refusal hands back the all-zero one.
pub fn load(form: &[u8]) -> (u8, State) {
    match read(form) {
        Ok(state) => (0, state),
        Err(number) => (number, State::zero()),
    }
}

/// A place in a form; every step forward is refused with 9 where the form ends early.
struct Reader<'a> {
    rest: &'a [u8],
}

impl<'a> Reader<'a> {
    fn bytes(&mut self, count: usize) -> Result<&'a [u8], u8> {
        if self.rest.len() < count {
            return Err(9);
        }
        let (front, back) = self.rest.split_at(count);
        self.rest = back;
        Ok(front)
    }

    /// A number of so many bytes, at most 8.
    fn number(&mut self, size: usize) -> Result<u64, u8> {
        let bytes = self.bytes(size)?;
        Ok(bytes.iter().rev().fold(0, |high, &byte| 256 * high + byte as u64))
    }

    /// A section of numbers of `size` bytes: its count present (9), then fitting (10), then the
    /// whole contents present (9), before any of them is looked at.
    fn section(&mut self, fitting: usize, size: usize) -> Result<Reader<'a>, u8> {
        if self.number(2)? != fitting as u64 {
            return Err(10);
        }
        Ok(Reader { rest: self.bytes(fitting * size)? })
    }
}

fn read(form: &[u8]) -> Result<State, u8> {
    let mut reader = Reader { rest: form };
    let mut state = State::zero();

    let mut parameters = reader.section(2, 2)?;
    state.family = match parameters.number(2)? {
        0 => Family::Small,
        1 => Family::Large,
        _ => return Err(10),
    };
    state.m = parameters.number(2)? as u16;

    let salt_words = state.family.salt_bytes() / 4;
    let salt = reader.section(salt_words, 4)?;
    state.salt[..4 * salt_words].copy_from_slice(salt.rest);

    let chain_words = state.family.chain_words();
    let mut chain = reader.section(chain_words, 4)?;
    for word in &mut state.chain[..chain_words] {
        *word = chain.number(4)? as u32;
    }

    state.covered = reader.section(1, 8)?.number(8)?;
    let block = state.family.block_bytes() as u64;
    state.compressed = state.covered / block;

    let rest = (state.covered % block) as usize;
    let held = reader.section(rest, 1)?;
    state.held[..rest].copy_from_slice(held.rest);

    if !reader.rest.is_empty() {
        return Err(9);
    }
    if !state.consistent() {
        return Err(4);
    }
    Ok(state)
}
