//! A message as a list of bits: its padding, its blocks with their counters, the bits of a digest.
//! One-shot is made from it. Finish goes by bytes, so that the two ways check each other.

use crate::digest::LastBits;
use crate::hash::Family;

/// The bits of bytes, most significant first in each.
fn bits_of(bytes: &[u8]) -> Vec<bool> {
    bytes.iter().flat_map(|&byte| (0..8).rev().map(move |place| byte >> place & 1 == 1)).collect()
}

/// The bytes of bits, most significant first in each; zeros fill up the last one.
fn packed(bits: &[bool]) -> Vec<u8> {
    let byte = |eight: &[bool]| {
        eight.iter().zip((0..8).rev()).map(|(&bit, place)| (bit as u8) << place).sum()
    };
    bits.chunks(8).map(byte).collect()
}

/// Whole bytes, then last bits that are allowed.
pub fn message(data: &[u8], last: LastBits) -> Vec<bool> {
    let mut bits = bits_of(data);
    bits.extend_from_slice(&bits_of(&[last.byte])[..last.count as usize]);
    bits
}

/// The message, a 1 bit, as many zeros as fill the last block, the message's length and m. How many
/// bits of rest one block is enough for follows from that; the family's number is not asked.
fn padded(family: Family, m: u16, message: &[bool]) -> Vec<bool> {
    let length = (message.len() as u128).to_le_bytes();
    let ending = bits_of(&[&length[..family.length_bytes()], &m.to_le_bytes()].concat());
    let mut bits = message.to_vec();
    bits.push(true);
    while (bits.len() + ending.len()) % (8 * family.block_bytes()) != 0 {
        bits.push(false);
    }
    bits.extend(ending);
    bits
}

/// The whole list of (counter, block) of a message.
pub fn whole_list(family: Family, m: u16, message: &[bool]) -> Vec<(u128, Vec<u8>)> {
    let block = 8 * family.block_bytes();
    let entry = |(index, bits): (usize, &[bool])| {
        let start = index * block;
        // The message's bits so far, this block included, unless it holds none of them.
        let counter = if start < message.len() { message.len().min(start + block) } else { 0 };
        (counter as u128, packed(bits))
    };
    padded(family, m, message).chunks(block).enumerate().map(entry).collect()
}

/// The first m bits of the chain.
pub fn digest(chain: &[u32; 16], m: u16) -> Vec<u8> {
    let bytes: Vec<u8> = chain.iter().flat_map(|word| word.to_le_bytes()).collect();
    packed(&bits_of(&bytes)[..m as usize])
}
