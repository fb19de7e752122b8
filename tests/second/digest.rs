//! The running digest: begin, add, finish and one-shot, with their refusals.

use crate::bits;
use crate::hash::{compress, starting_chain, Family};

/// Most whole bytes that a message may have; with 7 last bits behind them it has 2^64 - 1 bits.
pub const LIMIT: u64 = (1 << 61) - 1;

/// The bits of a message behind its whole bytes: so many, most significant first in one byte.
/// Nothing is known of the two numbers.
#[derive(Clone, Copy, PartialEq, Eq, Debug)]
pub struct LastBits {
    pub byte: u8,
    pub count: u8,
}

impl LastBits {
    pub const NONE: LastBits = LastBits { byte: 0, count: 0 };

    /// At most 7, the bits of the byte that are not used being zero.
    pub fn allowed(self) -> bool {
        self.count <= 7 && self.byte & (0xff >> self.count) == 0
    }
}

#[derive(Clone, PartialEq, Eq, Debug)]
pub struct State {
    pub family: Family,
    pub m: u16,
    pub salt: [u8; 64],
    pub chain: [u32; 16],
    pub covered: u64,
    pub compressed: u64,
    pub held: [u8; 128],
}

/// What finish and one-shot report: a refusal number or 0, whole bytes and last bits covered, blocks
/// compressed.
#[derive(Clone, Copy, PartialEq, Eq, Debug)]
pub struct Report {
    pub number: u8,
    pub covered: u64,
    pub bits: u8,
    pub compressed: u64,
}

impl Report {
    fn refused(number: u8) -> Report {
        Report { number, covered: 0, bits: 0, compressed: 0 }
    }
}

impl State {
    /// The all-zero state of the small family.
    pub fn zero() -> State {
        State {
            family: Family::Small,
            m: 0,
            salt: [0; 64],
            chain: [0; 16],
            covered: 0,
            compressed: 0,
            held: [0; 128],
        }
    }

    pub fn consistent(&self) -> bool {
        let block = self.family.block_bytes();
        let rest = (self.covered % block as u64) as usize;
        m_allowed(self.m)
            && Family::of(self.m) == self.family
            && self.covered <= LIMIT
            && self.compressed == self.covered / block as u64
            && self.held[rest..].iter().all(|&b| b == 0)
            && self.salt[self.family.salt_bytes()..].iter().all(|&b| b == 0)
            && self.chain[self.family.chain_words()..].iter().all(|&w| w == 0)
    }
}

pub fn m_allowed(m: u16) -> bool {
    (1..=512).contains(&m)
}

/// Bytes of a digest of m bits.
pub fn digest_bytes(m: u16) -> usize {
    m.div_ceil(8) as usize
}

/// The last refusals of finish and one-shot, in their order.
fn closing_refusal(m: u16, last: LastBits, room: usize) -> Option<u8> {
    if !last.allowed() {
        Some(11)
    } else if room < digest_bytes(m) {
        Some(5)
    } else {
        None
    }
}

/// The refusals that begin and one-shot share, in their order; else the salt filled up to 64 bytes.
fn open(m: u16, salt: &[u8]) -> Result<[u8; 64], u8> {
    if !m_allowed(m) {
        return Err(1);
    }
    if !salt.is_empty() && salt.len() != Family::of(m).salt_bytes() {
        return Err(2);
    }
    let mut whole = [0; 64];
    whole[..salt.len()].copy_from_slice(salt);
    Ok(whole)
}

pub fn begin(m: u16, salt: &[u8]) -> (u8, State) {
    match open(m, salt) {
        Err(number) => (number, State::zero()),
        Ok(salt) => {
            let family = Family::of(m);
            let chain = starting_chain(family, m, &[0; 64]);
            (0, State { family, m, salt, chain, ..State::zero() })
        }
    }
}

pub fn add(given: &State, data: &[u8]) -> (u8, State) {
    if !given.consistent() {
        return (4, given.clone());
    }
    if data.len() as u64 > LIMIT - given.covered {
        return (3, given.clone());
    }
    let mut state = given.clone();
    let block = state.family.block_bytes();
    for &byte in data {
        state.held[(state.covered % block as u64) as usize] = byte;
        state.covered += 1;
        if state.covered % block as u64 == 0 {
            let counter = 8 * state.covered as u128;
            state.chain = compress(state.family, &state.chain, &state.held, counter, &state.salt);
            state.compressed += 1;
            state.held = [0; 128];
        }
    }
    (0, state)
}

/// The last one or two blocks of a message of `covered` bytes, the unfinished block of which is
/// `held`, and of last bits that are allowed.
pub fn closing_blocks(
    family: Family,
    m: u16,
    covered: u64,
    held: &[u8],
    last: LastBits,
) -> Vec<(u128, Vec<u8>)> {
    let block = family.block_bytes();
    let whole_bytes = (covered % block as u64) as usize;
    let rest = 8 * whole_bytes + last.count as usize;
    let length = 8 * covered as u128 + last.count as u128;
    let mut bytes = held[..whole_bytes].to_vec();
    // The 1 bit follows the last bit directly, so it stands in the same byte.
    bytes.push(last.byte | 0x80 >> last.count);
    let wanted = if rest <= family.one_block_bits() { block } else { 2 * block };
    bytes.resize(wanted - family.length_bytes() - 2, 0);
    bytes.extend_from_slice(&length.to_le_bytes()[..family.length_bytes()]);
    bytes.extend_from_slice(&m.to_le_bytes());
    let mut list = Vec::new();
    for (index, piece) in bytes.chunks(block).enumerate() {
        // Only the first of them can hold bits of the message.
        let counter = if index == 0 && rest > 0 { length } else { 0 };
        list.push((counter, piece.to_vec()));
    }
    list
}

/// Writes the first m bits of the chain; in a broken last byte the unused low bits become zero.
pub fn write_digest(chain: &[u32; 16], m: u16, out: &mut [u8]) {
    let size = digest_bytes(m);
    for i in 0..size {
        out[i] = chain[i / 4].to_le_bytes()[i % 4];
    }
    out[size - 1] &= 0xff << (8 * size - m as usize);
}

pub fn finish(state: &State, last: LastBits, out: &mut [u8]) -> Report {
    if !state.consistent() {
        return Report::refused(4);
    }
    if let Some(number) = closing_refusal(state.m, last, out.len()) {
        return Report::refused(number);
    }
    let list = closing_blocks(state.family, state.m, state.covered, &state.held, last);
    let mut chain = state.chain;
    for (counter, block) in &list {
        chain = compress(state.family, &chain, block, *counter, &state.salt);
    }
    write_digest(&chain, state.m, out);
    let compressed = state.compressed + list.len() as u64;
    Report { number: 0, covered: state.covered, bits: last.count, compressed }
}

/// Made from the whole message as a list of bits, not by way of add and finish.
pub fn one_shot(m: u16, salt: &[u8], data: &[u8], last: LastBits, out: &mut [u8]) -> Report {
    let salt = match open(m, salt) {
        Err(number) => return Report::refused(number),
        Ok(salt) => salt,
    };
    if data.len() as u64 > LIMIT {
        return Report::refused(3);
    }
    if let Some(number) = closing_refusal(m, last, out.len()) {
        return Report::refused(number);
    }
    let family = Family::of(m);
    let list = bits::whole_list(family, m, &bits::message(data, last));
    let mut chain = starting_chain(family, m, &[0; 64]);
    for (counter, block) in &list {
        chain = compress(family, &chain, block, *counter, &salt);
    }
    let digest = bits::digest(&chain, m);
    out[..digest.len()].copy_from_slice(&digest);
    let (covered, compressed) = (data.len() as u64, list.len() as u64);
    Report { number: 0, covered, bits: last.count, compressed }
}
