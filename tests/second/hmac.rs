//! HMAC of FIPS 198-1 over any hash of bytes. What it is made of is here; the hash and its block
//! size are given.

pub const IPAD: u8 = 0x36;
pub const OPAD: u8 = 0x5c;

/// The tag of a text. The hash's digests are no longer than its block.
pub fn tag(block: usize, key: &[u8], text: &[u8], hash: impl Fn(&[u8]) -> Vec<u8>) -> Vec<u8> {
    // K0: the key, or the digest of one that is longer than the block, then zeros up to the block.
    let mut padded = if key.len() > block { hash(key) } else { key.to_vec() };
    padded.resize(block, 0);
    let inner = hash(&[&masked(&padded, IPAD), text].concat());
    hash(&[masked(&padded, OPAD), inner].concat())
}

/// Each byte xor the pad.
pub fn masked(bytes: &[u8], pad: u8) -> Vec<u8> {
    bytes.iter().map(|byte| byte ^ pad).collect()
}
